#!/usr/bin/env python3
"""Times rows that come and go in tables of many rows, and the opening of a file of many entries: bench/rows.py PROGRAM [MOST]

PROGRAM is the program `rv` as it was built, MOST the most rows (1,000,000). Todos are made and removed over a store in memory, in the
order of their keys, backwards and shuffled, and by the side mutations that have no effect, whose time is taken off: what is left is what
a row costs in the tables and as a cell. Then a file is opened whose todos were made in lists of 100, with keys in no order. Times are
processor time of one run; figures of one run are to be compared with each other only.
"""
import json
import os
import random
import subprocess
import sys
import tempfile
import time


def pushes(calls, first=1):
    """Lines that push these calls of ann's, 500 a line."""
    push = {"pushVersion": 1, "clientGroupID": "g1", "profileID": "p", "schemaVersion": ""}
    for start in range(0, len(calls), 500):
        mutations = [{"clientID": "c1", "id": first + start + n, "name": name, "args": args} for n, (name, args) in enumerate(calls[start:start + 500])]
        yield json.dumps({"user": "ann", "push": {**push, "mutations": mutations}}) + "\n"


def most_memory(process):
    """The most memory that a process has had since it became the program, in KB (that of `wait4` counts this script's as well)."""
    try:
        with open(f"/proc/{process}/status") as file:
            return next((int(line.split()[1]) for line in file if line.startswith("VmHWM")), 0)
    except OSError:
        return 0


def ran(program, store, lines):
    """The seconds of processor time of one run over the lines, and the most memory that it had, in MB."""
    with tempfile.TemporaryFile() as file:
        for line in lines:
            file.write(line.encode())
        file.seek(0)
        process = subprocess.Popen([program, "feed", store], stdin=file, stdout=subprocess.DEVNULL)
        memory, ended = 0, 0
        while not ended:
            memory = max(memory, most_memory(process.pid))
            ended, status, used = os.wait4(process.pid, os.WNOHANG)
            time.sleep(0.005)
        process.returncode = os.waitstatus_to_exitcode(status)
        assert process.returncode == 0
        return used.ru_utime + used.ru_stime, memory // 1024


def todo(number, name):
    return "createTodo", {"id": f"t{number:07}", "listID": name, "text": "milk", "complete": False}


def come_and_go(program, most):
    """Prints what a row costs that comes, and one that goes."""
    begin = [("createList", {"id": f"l{n}", "name": "Home", "ownerID": "ann"}) for n in range(100)]
    orders = {"in the order of keys": lambda numbers: numbers, "backwards": lambda numbers: numbers[::-1], "shuffled": lambda numbers: random.Random(1).sample(numbers, len(numbers))}
    count = 10_000
    while count <= most:
        for label, order in orders.items():
            numbers = order(list(range(count)))
            made = begin + [todo(number, f"l{number % 100}") for number in numbers]
            void = [("deleteTodo", f"x{number:07}") for number in numbers]
            gone = [("deleteTodo", f"t{number:07}") for number in numbers]
            base, _ = ran(program, "memory", pushes(made))
            idle, _ = ran(program, "memory", pushes(begin + void))
            both, _ = ran(program, "memory", pushes(made + gone))
            plus, _ = ran(program, "memory", pushes(made + void))
            print(f"{count:8} todos {label}: one that comes {(base - idle) / count * 1e6:6.2f} microseconds, one that goes {(both - plus) / count * 1e6:6.2f}", flush=True)
        count *= 10


def opening_file(program, path, count):
    """Makes a file of so many entries: lists of 100 todos, whose keys come in no order."""
    lists = count // 100
    calls = [("createList", {"id": f"l{n}", "name": "Home", "ownerID": "ann"}) for n in range(lists)]
    numbers = random.Random(2).sample(range(count), count - lists)
    calls += [todo(number, f"l{number % lists}") for number in numbers]
    ran(program, path, pushes(calls))


def opening(program, most):
    """Prints what it takes to open a file of so many entries."""
    for count in (most // 10, most):
        with tempfile.TemporaryDirectory(dir="/dev/shm" if os.path.isdir("/dev/shm") else None) as folder:
            path = os.path.join(folder, "lists.db")
            opening_file(program, path, count)
            size = os.path.getsize(path) // 2**20
            seconds, memory = ran(program, path, [])
            print(f"opening {count:8} entries of a file of {size} MB: {seconds:.2f} seconds, {memory} MB at most", flush=True)


def main():
    program = os.path.abspath(sys.argv[1])
    most = int(sys.argv[2]) if len(sys.argv) > 2 else 1_000_000
    come_and_go(program, most)
    opening(program, most)


if __name__ == "__main__":
    main()
