#!/usr/bin/env python3
"""Compares the reports on a large store with a second model: checks/stores.py PROGRAM

PROGRAM is the program `rv` as it was built. The store, in a file, has 10,000 rows in 100 lists, some of them shared, some todos done. Ends
with status 1 at the first report that differs. Reports on small stores are among what checks/simulator.py compares.
"""
import json
import os
import random
import sys
import tempfile

from kept import feed, told_by
from model import Server, activity_text, lists_text


def large_store(program, path):
    """A store of 10,000 rows in 100 lists, some of them shared, some todos done: its reports."""
    server, lines = Server(), []
    chance = random.Random(10000)
    for number in range(1, 10001):
        which = chance.randrange(100)
        if number <= 100:
            name, args = "createList", {"id": f"l{number - 1}", "name": f'"{number}"', "ownerID": "ann"}
        elif number % 10 == 0:
            name, args = "createShare", {"id": f"s{number}", "listID": f"l{which}", "userID": f"u{number}"}
        else:
            name, args = "createTodo", {"id": f"t{number}", "listID": f"l{which}", "text": "milk", "complete": chance.random() < 0.5}
        lines.append({"clientID": "c1", "id": number, "name": name, "args": args})
        server.book.append(("act", "ann", "g1", "c1", name, args))
    server.states.append([(act[4][6:].lower(), act[5]) for act in server.book])
    push = {"pushVersion": 1, "clientGroupID": "g1", "profileID": "p", "schemaVersion": ""}
    whole = [json.dumps({"user": "ann", "push": {**push, "mutations": lines[at:at + 500]}}) for at in range(0, len(lines), 500)]
    status, told = feed(program, path, whole)
    if (status, told) != (0, ["200 {}"] * len(whole)):
        sys.exit(f"the store is fed with status {status}")
    wanted = {"lists": lists_text(server), "activity": activity_text(server), "check": [f"ok {len(server.book)}"]}
    for name, lines in wanted.items():
        if (told := told_by(program, name, path)) != (0, lines):
            sys.exit(f"another report by {name}: {told}")
    return len(server.book)


def main():
    with tempfile.TemporaryDirectory() as folder:
        rows = large_store(os.path.abspath(sys.argv[1]), os.path.join(folder, "large.db"))
    print(f"the same reports on a store of {rows} rows")


if __name__ == "__main__":
    main()
