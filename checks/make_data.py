#!/usr/bin/env python3
"""Writes the stores of the subject `files` of `crates/trial_runs`, by Python's sqlite3: checks/make_data.py [FOLDER]

They lie in crates/trial_runs/data, NAME.db each, and are written anew only where a case wants another one.
"""
import os
import sqlite3
import sys

TABLE = "CREATE TABLE cell (shelf INTEGER NOT NULL, k BLOB NOT NULL, body BLOB NOT NULL, PRIMARY KEY (shelf, k)) STRICT"
NOTES = [
    "CREATE TABLE note (id INTEGER PRIMARY KEY, title TEXT NOT NULL)",
    "INSERT INTO note (title) VALUES ('milk'), ('eggs')",
]
FIRST = {
    (1, "0000000001"): '["act","ann","g1","c1",1,["createList","l1","Home","ann"]]',
    (1, "0000000002"): '["look","ann","g1",1,null]',
    (2, "list/l1"): '[1,{"id":"l1","name":"Home","ownerID":"ann"}]',
    (3, "c1"): '["g1",1]',
    (4, "g1"): '["ann",1,false]',
    (5, "0000000002"): '[[["list/l1",1]],[["c1",1]]]',
    (0, ""): "2",
}


def database(path, statements, cells=()):
    """A database with pages of 512 bytes, so that the file is small."""
    connection = sqlite3.connect(path)
    connection.execute("PRAGMA page_size = 512")
    for statement in statements:
        connection.execute(statement)
    for shelf, key, body in cells:
        connection.execute("INSERT INTO cell VALUES (?, ?, ?)", (shelf, key, body))
    connection.commit()
    connection.execute("VACUUM")
    connection.close()


def rows(cells):
    return [(shelf, key.encode(), body.encode()) for (shelf, key), body in cells.items()]


def main():
    folder = sys.argv[1] if len(sys.argv) > 1 else os.path.join(os.path.dirname(__file__), "..", "crates", "trial_runs", "data")
    os.chdir(folder)
    for name in os.listdir("."):
        if name.endswith(".db"):
            os.remove(name)
    database("notes.db", NOTES)
    database("first.db", [TABLE], rows(FIRST))
    database("damaged.db", [TABLE], rows({**FIRST, (2, "list/l1"): "[]"}))
    database("other-table.db", [TABLE.replace("body BLOB", "body TEXT")])
    database("shelf-256.db", [TABLE], [(256, b"k", b"")])
    database("keyed-generation.db", [TABLE], [(0, b"k", b"1")])
    database("zero-first.db", [TABLE], rows({**FIRST, (0, ""): "02"}))
    with open("notes.db", "rb") as file:
        notes = file.read()
    with open("cut.db", "wb") as file:
        file.write(notes[:700])
    with open("text.db", "w") as file:
        file.write("milk and eggs\n" * 100)


if __name__ == "__main__":
    main()
