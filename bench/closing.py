#!/usr/bin/env python3
"""Times the closing of a book in a file, and openings before and after it: bench/closing.py PROGRAM [FOLDER [ENTRIES ..]]

PROGRAM is the program `rv` as it was built, FOLDER where the files are made (the system's folder of temporary files), ENTRIES how many
entries they have (100,000). Each is made twice: with a row for every entry, todos in lists of 100; and with a thousand todos that are
changed again and again, as lists that are in use are. Its opening is that of `check`. Then `close-book` runs, and at last `VACUUM` of
Python's sqlite3. Times are of one run; figures of one run are to be compared with each other only.
"""
import contextlib
import os
import sqlite3
import subprocess
import sys
import tempfile
import time

from rows import most_memory, pushes, ran


def lists(count):
    return [("createList", {"id": f"l{n}", "name": "Home", "ownerID": "ann"}) for n in range(count)]


def todo(number, of):
    return "createTodo", {"id": f"t{number}", "listID": f"l{number % of}", "text": f"milk {number}", "complete": False}


def rows_alone(entries):
    """Calls of which each makes a row."""
    of = entries // 100
    return lists(of) + [todo(number, of) for number in range(entries - of)]


def changes(entries):
    """Calls that make a thousand todos, and then change them."""
    made = lists(10) + [todo(number, 10) for number in range(1000)]
    return made + [("updateTodo", {"id": f"t{n % 1000}", "text": f"eggs {n}", "complete": n % 2 == 0}) for n in range(entries - len(made))]


def timed(words):
    """What a run wrote, its wall time, its processor time, and the most memory that it had, in MB."""
    start = time.monotonic()
    process, memory, ended = subprocess.Popen(words, stdout=subprocess.PIPE), 0, 0
    while not ended:
        memory = max(memory, most_memory(process.pid))
        ended, status, used = os.wait4(process.pid, os.WNOHANG)
        time.sleep(0.002)
    process.returncode = os.waitstatus_to_exitcode(status)
    assert process.returncode == 0, (words, process.returncode)
    with process.stdout as out:
        return out.read().decode(), time.monotonic() - start, used.ru_utime + used.ru_stime, memory // 1024


def size(path):
    return os.path.getsize(path) / 1e6


def opening(program, path, what):
    told, wall, used, memory = timed([program, "check", path])
    print(f"  {what}: {size(path):.1f} MB, opens in {wall:.2f} s ({used:.2f} s of a processor) with {memory} MB, and tells {told.strip()}", flush=True)


def close(program, path, calls):
    ran(program, path, pushes(calls))
    opening(program, path, "before")
    told, wall, used, memory = timed([program, "close-book", path])
    print(f"  close-book: {wall:.2f} s ({used:.2f} s of a processor) with {memory} MB: {told.strip()}", flush=True)
    opening(program, path, "after")
    with contextlib.closing(sqlite3.connect(path)) as connection:
        connection.execute("VACUUM")
    opening(program, path, "after VACUUM")
    ran(program, path, pushes([("createList", {"id": "new", "name": "", "ownerID": "ann"})], first=len(calls) + 1))
    opening(program, path, "and one mutation more")


def main():
    program = os.path.abspath(sys.argv[1])
    folder = sys.argv[2] if len(sys.argv) > 2 else None
    counts = [int(word) for word in sys.argv[3:]] or [100_000]
    for count in counts:
        for name, calls in (("each a row", rows_alone(count)), ("of a thousand todos", changes(count))):
            print(f"{count:,} entries, {name}", flush=True)
            with tempfile.TemporaryDirectory(dir=folder) as made:
                close(program, os.path.join(made, "book.db"), calls)


if __name__ == "__main__":
    main()
