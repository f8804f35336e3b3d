/* Makes so many commits as `rv feed` makes of mutations without effect, by the C library of SQLite: commits FILE COUNT
 *
 * The same table, statements and settings: a write-ahead log that is synchronised at each commit. Each commit writes the cells of
 * an act, its client and its group, and the generation.
 */
#include <sqlite3.h>
#include <stdio.h>
#include <stdlib.h>
#include <string.h>

static const char *MAKE =
    "CREATE TABLE IF NOT EXISTS cell (shelf INTEGER NOT NULL, k BLOB NOT NULL, body BLOB NOT NULL, PRIMARY KEY (shelf, k)) STRICT";
static const char *PUT =
    "INSERT INTO cell (shelf, k, body) VALUES (?1, ?2, ?3) ON CONFLICT (shelf, k) DO UPDATE SET body = excluded.body";

static sqlite3 *database;

static void check(int code, int wanted) {
    if (code != wanted) {
        fprintf(stderr, "%s\n", sqlite3_errmsg(database));
        exit(1);
    }
}

static void run(const char *text) {
    check(sqlite3_exec(database, text, NULL, NULL, NULL), SQLITE_OK);
}

static void put(sqlite3_stmt *statement, int shelf, const char *key, const char *body) {
    check(sqlite3_bind_int(statement, 1, shelf), SQLITE_OK);
    check(sqlite3_bind_blob(statement, 2, key, (int)strlen(key), SQLITE_STATIC), SQLITE_OK);
    check(sqlite3_bind_blob(statement, 3, body, (int)strlen(body), SQLITE_STATIC), SQLITE_OK);
    check(sqlite3_step(statement), SQLITE_DONE);
    check(sqlite3_reset(statement), SQLITE_OK);
}

static void commit(sqlite3_stmt *statement, long number) {
    char key[32], act[128], client[64], generation[32];
    snprintf(key, sizeof key, "%010ld", number);
    snprintf(act, sizeof act, "[\"act\",\"ann\",\"g1\",\"c1\",%ld,[\"void\",\"UnknownName\"]]", number);
    snprintf(client, sizeof client, "[\"g1\",%ld]", number);
    snprintf(generation, sizeof generation, "%ld", number);
    run("BEGIN");
    put(statement, 1, key, act);
    put(statement, 3, "c1", client);
    put(statement, 4, "g1", "[\"ann\",0,false]");
    put(statement, 0, "", generation);
    run("COMMIT");
}

int main(int count, char **words) {
    if (count != 3) {
        return 2;
    }
    check(sqlite3_open(words[1], &database), SQLITE_OK);
    run("PRAGMA journal_mode = WAL");
    run("PRAGMA synchronous = FULL");
    run(MAKE);
    sqlite3_stmt *statement;
    check(sqlite3_prepare_v2(database, PUT, -1, &statement, NULL), SQLITE_OK);
    for (long number = 1; number <= atol(words[2]); number++) {
        commit(statement, number);
    }
    check(sqlite3_finalize(statement), SQLITE_OK);
    check(sqlite3_close(database), SQLITE_OK);
    return 0;
}
