#!/usr/bin/env python3
"""Times the reports of a store of 100,000 rows against its opening, outside the gate: bench/reports.py PROGRAM

PROGRAM is the program `rv` as it was built. Each of the commands runs five times in turn over one file; docs/costs.md keeps the
ratios of the least times.
"""
import json
import os
import subprocess
import sys
import tempfile
import time

LISTS = 1000
ROWS = 100_000
COMMANDS = ("feed", "check", "lists", "activity")


def lines(rows=ROWS, lists=LISTS):
    """Lines that leave so many rows of ann's: so many lists, and todos spread over them."""
    push = {"pushVersion": 1, "clientGroupID": "g1", "profileID": "p", "schemaVersion": ""}
    for first in range(1, rows + 1, 500):
        mutations = []
        for number in range(first, min(first + 500, rows + 1)):
            name, args = "createList", {"id": f"l{number}", "name": "Home", "ownerID": "ann"}
            if number > lists:
                name, args = "createTodo", {"id": f"t{number}", "listID": f"l{number % lists + 1}", "text": "milk", "complete": False}
            mutations.append({"clientID": "c1", "id": number, "name": name, "args": args})
        yield json.dumps({"user": "ann", "push": {**push, "mutations": mutations}}) + "\n"


def seconds(program, command, path):
    start = time.perf_counter()
    subprocess.run([program, command, path], stdin=subprocess.DEVNULL, stdout=subprocess.DEVNULL, check=True)
    return time.perf_counter() - start


def main():
    program = os.path.abspath(sys.argv[1])
    with tempfile.TemporaryDirectory(dir="/dev/shm" if os.path.isdir("/dev/shm") else None) as folder:
        path = os.path.join(folder, "lists.db")
        subprocess.run([program, "feed", path], input="".join(lines()).encode(), stdout=subprocess.DEVNULL, check=True)
        times = {command: [] for command in COMMANDS}
        for _ in range(5):
            for command in COMMANDS:
                times[command].append(seconds(program, command, path))
        opening = min(times["feed"])
        print(f"opening {ROWS} rows: {opening:.2f} s")
        for command in COMMANDS[1:]:
            print(f"{command}: {min(times[command]) / opening:.3f} times that")


if __name__ == "__main__":
    main()
