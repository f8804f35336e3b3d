#!/usr/bin/env python3
"""Feeds bad files, and files of somebody else, to the program: checks/files.py PROGRAM

PROGRAM is the program `rv` as it was built. Each case says what is to come: the status, what is written, and whether the file
is left as it was. Run as root, so that a file may be one that the program's user may not write. Ends with status 1 at the
first case that goes another way.
"""
import os
import resource
import signal
import shutil
import sqlite3
import subprocess
import sys
import tempfile

from holding import held

NOBODY = 65534

TABLE = "CREATE TABLE cell (shelf INTEGER NOT NULL, k BLOB NOT NULL, body BLOB NOT NULL, PRIMARY KEY (shelf, k)) STRICT"


def push(number, name, args):
    mutation = f'{{"clientID":"c1","id":{number},"name":"{name}","args":{args}}}'
    body = f'{{"pushVersion":1,"clientGroupID":"g1","profileID":"p","schemaVersion":"","mutations":[{mutation}]}}'
    return f'{{"user":"ann","push":{body}}}\n'


PUSH = push(1, "createList", '{"id":"l1","name":"Home","ownerID":"ann"}')
STOP = '{"stop":true}\n'
OPENS = (0, '200 {}\n')
FAILS = (4, "keeper\n")


def feed(program, path, text=PUSH, user=None, limit=None):
    """The status of a run and what it wrote; as another user, and with files of at most so many bytes."""

    def before():
        if limit is not None:
            signal.signal(signal.SIGXFSZ, signal.SIG_IGN)
            resource.setrlimit(resource.RLIMIT_FSIZE, (limit, limit))
        if user is not None:
            os.setgid(user)
            os.setuid(user)

    run = subprocess.run([program, "feed", path], input=text.encode(), stdout=subprocess.PIPE, preexec_fn=before, timeout=60)
    return run.returncode, run.stdout.decode()


def content(path):
    """The bytes of a file, or none."""
    if not os.path.exists(path):
        return None
    with open(path, "rb") as file:
        return file.read()


def standing(path):
    """All that stands under a path: of a folder the names in it, and of a database what it holds."""
    return sorted(os.listdir(path)) if os.path.isdir(path) else held(path)


def fail(name, *seen):
    sys.exit(f"{name}: {seen}")


def expect(name, seen, wanted):
    if seen != wanted:
        fail(name, seen, wanted)


def database(path, *statements):
    connection = sqlite3.connect(path)
    for statement in statements:
        connection.execute(statement)
    connection.commit()
    connection.close()


def dump(path):
    """What the tables of a file hold but for `cell`, as sqlite3 tells it."""
    connection = sqlite3.connect(path)
    assert connection.execute("PRAGMA integrity_check").fetchall() == [("ok",)]
    lines = [line for line in connection.iterdump() if "cell" not in line]
    connection.close()
    return lines


def left_as_it_was(name, program, path, wanted=FAILS, **how):
    """The file does not open as a store, and is left as it was."""
    before = standing(path)
    expect(name, feed(program, path, **how), wanted)
    expect(f"{name}, the file", standing(path), before)


def no_files(program, folder):
    left_as_it_was("a folder", program, folder)
    left_as_it_was("a folder that is not there", program, os.path.join(folder, "none", "x.db"))
    left_as_it_was("an empty name", program, "")
    left_as_it_was("a name of SQLite's own", program, ":memory:")
    left_as_it_was("a device", program, "/dev/null")
    left_as_it_was("under a file", program, os.path.join(__file__, "x.db"))
    path = os.path.join(folder, "empty.db")
    open(path, "wb").close()
    expect("an empty file", feed(program, path), OPENS)


def missing(program, folder):
    """A report of a store that is not there makes none; what feeds it does, at that path."""
    path = os.path.join(folder, "missing.db")
    link = os.path.join(folder, "link.db")
    os.symlink(path, link)
    reports = (["lists"], ["activity"], ["check"], ["export", "ann"])
    for name in (path, link, os.path.join(folder, "none", "x.db"), os.path.join(__file__, "x.db"), os.path.join(folder, "n" * 300)):
        for command, *more in reports:
            run = subprocess.run([program, command, name, *more], stdout=subprocess.PIPE, timeout=60)
            expect(f"{command} of a store that is not there", (run.returncode, run.stdout.decode()), FAILS)
            expect(f"the files after {command} of {name}", standing(path), None)
    left_as_it_was("a link to no file", program, link)
    expect("a feed of a store that is not there", feed(program, path), OPENS)
    for command, *more in reports:
        run = subprocess.run([program, command, path, *more], stdout=subprocess.PIPE, timeout=60)
        expect(f"{command} of a store that is there", run.returncode, 0)


def no_databases(program, folder):
    path = os.path.join(folder, "text.db")
    for name, bytes_ in (("a text", b"milk and eggs\n" * 500), ("a word", b"milk\n"), ("zeros", bytes(8192))):
        with open(path, "wb") as file:
            file.write(bytes_)
        left_as_it_was(f"{name} in place of a database", program, path)
    os.remove(path)
    expect("a first feed", feed(program, path), OPENS)
    whole = content(path)
    for length in (50, 512, 4096, 8192, len(whole) - 1):
        with open(path, "wb") as file:
            file.write(whole[:length])
        left_as_it_was(f"a database cut after {length} bytes", program, path)
    for place in (20, 100, 4096, 4100):
        with open(path, "wb") as file:
            file.write(whole[:place] + bytes([whole[place] ^ 0xFF]) + whole[place + 1:])
        status, text = feed(program, path, text="")
        if (status, text) not in ((0, ""), FAILS) and status != 5:
            fail(f"a database with byte {place} changed", status, text)


def other_tables(program, folder):
    """A table `cell` of another shape is none of a store."""
    shapes = {
        "a column more": TABLE.replace("body BLOB NOT NULL,", "body BLOB NOT NULL, more INTEGER,"),
        "a column less": "CREATE TABLE cell (shelf INTEGER NOT NULL, k BLOB NOT NULL, PRIMARY KEY (shelf, k)) STRICT",
        "another name": TABLE.replace("body", "content"),
        "text in place of bytes": TABLE.replace("k BLOB", "k TEXT"),
        "not strict": TABLE.replace(" STRICT", ""),
        "null bodies": TABLE.replace("body BLOB NOT NULL", "body BLOB"),
        "no key": TABLE.replace(", PRIMARY KEY (shelf, k)", ""),
        "the key the other way round": TABLE.replace("(shelf, k)", "(k, shelf)"),
        "one key more": TABLE.replace("body BLOB NOT NULL", "body BLOB NOT NULL UNIQUE"),
        "a check": TABLE.replace("body BLOB NOT NULL", "body BLOB NOT NULL CHECK (length(body) < 9)"),
        "letters that are the same": TABLE.replace("k BLOB NOT NULL", "k BLOB NOT NULL COLLATE NOCASE"),
        "a view": "CREATE VIEW cell AS SELECT 1 AS shelf, x'61' AS k, x'62' AS body",
    }
    for number, (name, statement) in enumerate(shapes.items()):
        path = os.path.join(folder, f"shape{number}.db")
        database(path, statement)
        before = standing(path)
        expect(name, feed(program, path), FAILS)
        expect(f"{name}, the file", standing(path), before)
    path = os.path.join(folder, "same.db")
    database(path, TABLE)
    expect("the table made by sqlite3", feed(program, path), OPENS)


def bad_rows(program, folder):
    rows = {
        "a shelf below 0": "(-1, x'61', x'62')",
        "shelf 256": "(256, x'61', x'62')",
        "the greatest shelf": "(9223372036854775807, x'61', x'62')",
        "shelf 0 with a key": "(0, x'61', x'31')",
        "a generation with a leading zero": "(0, x'', x'3031')",
        "a generation with a sign": "(0, x'', x'2b31')",
        "no generation": "(0, x'', x'')",
        "a generation of 2^64": "(0, x'', x'3138343436373434303733373039353531363136')",
    }
    for number, (name, row) in enumerate(rows.items()):
        path = os.path.join(folder, f"row{number}.db")
        database(path, TABLE, f"INSERT INTO cell VALUES {row}")
        left_as_it_was(name, program, path)
    damaged = {
        "a generation without entries": ("(0, x'', x'31')", "damaged: 0 \n"),
        "the greatest generation": ("(0, x'', x'3138343436373434303733373039353531363135')", "damaged: 0 \n"),
        "a cell of nobody": ("(9, x'6120', x'62')", "damaged: 9 a%20\n"),
        "the last shelf": ("(255, x'', x'')", "damaged: 255 \n"),
    }
    for number, (name, (row, text)) in enumerate(damaged.items()):
        path = os.path.join(folder, f"damaged{number}.db")
        database(path, TABLE, f"INSERT INTO cell VALUES {row}")
        left_as_it_was(name, program, path, wanted=(5, text))
    path = os.path.join(folder, "zero.db")
    database(path, TABLE, "INSERT INTO cell VALUES (0, x'', x'30')")
    expect("generation 0", feed(program, path), OPENS)


def locks(program, folder):
    path = os.path.join(folder, "locked.db")
    expect("a first feed", feed(program, path), OPENS)
    first = subprocess.Popen([program, "feed", path], stdin=subprocess.PIPE, stdout=subprocess.PIPE)
    first.stdin.write(push(2, "deleteList", '"l1"').encode())
    first.stdin.flush()
    expect("the first feeds", first.stdout.readline(), b"200 {}\n")
    expect("a second feed of a store", feed(program, path), FAILS)
    rest, _ = first.communicate(push(3, "deleteList", '"l1"').encode())
    expect("the first goes on", (first.returncode, rest), (0, b"200 {}\n"))
    expect("the store is free again", feed(program, path, text=""), (0, ""))
    connection = sqlite3.connect(path)
    connection.isolation_level = None
    connection.execute("BEGIN IMMEDIATE")
    seen = feed(program, path, text="")
    connection.execute("ROLLBACK")
    connection.close()
    expect("locked by sqlite3", seen, FAILS)


def of_somebody_else(program, folder):
    path = os.path.join(folder, "theirs.db")
    database(
        path,
        "CREATE TABLE note (id INTEGER PRIMARY KEY, title TEXT NOT NULL)",
        "CREATE INDEX by_title ON note (title)",
        "CREATE VIEW titles AS SELECT title FROM note",
        "INSERT INTO note (title) VALUES ('milk'), ('eggs')",
    )
    before = dump(path)
    expect("a database of somebody else", feed(program, path), OPENS)
    expect("its own tables", dump(path), before)
    expect("and again", feed(program, path, text=push(2, "deleteList", '"l1"')), OPENS)
    expect("its own tables still", dump(path), before)


def not_to_be_written(program, folder):
    path = os.path.join(folder, "sub", "read-only.db")
    os.mkdir(os.path.dirname(path))
    expect("a first feed", feed(program, path), OPENS)
    os.chmod(path, 0o444)
    before = standing(path)
    seen = feed(program, path, text=push(2, "deleteList", '"l1"'), user=NOBODY)
    expect("a file that may not be written", seen, FAILS)
    expect("that file", standing(path), before)


def full_disk(program, folder):
    """Files may have so many bytes, and no more: a push fails by name, and is not kept; those before it are."""
    path = os.path.join(folder, "full.db")
    many = "".join(push(number, "paint", "null") for number in range(1, 400))
    status, text = feed(program, path, text=many, limit=500_000)
    answers = text.splitlines()
    kept = answers.index('503 {"error":"keeper"}')
    for number, answer in enumerate(answers[kept + 1:], kept + 2):
        if answer not in (f'409 {{"error":"Future","expected":{kept + 1},"got":{number}}}', '503 {"error":"keeper"}'):
            fail("a disk that is full", number, answer)
    expect("a disk that is full", (status, len(answers), answers[:kept]), (0, 399, ["200 {}"] * kept))
    connection = sqlite3.connect(path)
    count = connection.execute("SELECT count(*) FROM cell WHERE shelf = 1").fetchone()[0]
    connection.close()
    expect("what was answered stands", count, kept)
    expect("the disk has room again", feed(program, path, text=many), (0, "200 {}\n" * 399))
    path = os.path.join(folder, "tiny.db")
    expect("no room for a store", feed(program, path, limit=0), FAILS)
    if content(path) not in (None, b""):
        fail("a file that is half made", len(content(path)))
    expect("too little room for a store", feed(program, path, limit=100_000), FAILS)
    expect("room for it", feed(program, path), OPENS)


def main():
    program = os.path.abspath(sys.argv[1])
    folder = tempfile.mkdtemp()
    os.chmod(folder, 0o755)
    for check in (no_files, missing, no_databases, other_tables, bad_rows, locks, of_somebody_else, not_to_be_written, full_disk):
        check(program, folder)
        print(f"{check.__name__.replace('_', ' ')}: as it should be")
    shutil.rmtree(folder)


if __name__ == "__main__":
    main()
