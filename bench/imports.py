#!/usr/bin/env python3
"""Times imports into a file and exports of one, outside the gate: bench/imports.py PROGRAM [FOLDER]

PROGRAM is the program `rv` as it was built; FOLDER is on the disk that is to be measured (the one of temporary files). Needs gcc and
SQLite's C library (Debian's libsqlite3-dev), by which as many commits are made in turn with each import: a record is a commit, so a
disk allows no more of them than commits. Prints seconds, records a second and the C library's commits a second; docs/costs.md keeps them.
"""
import os
import subprocess
import sys
import tempfile
import time

from commits import fresh, text_of
from feed import push

LISTS = 1000
SIZES = [20_000, 100_000]


def timed(words, given=b""):
    """What a run wrote, its seconds, and those of processor time."""
    before, start = os.times(), time.perf_counter()
    run = subprocess.run(words, input=given, stdout=subprocess.PIPE, check=True)
    took, after = time.perf_counter() - start, os.times()
    return run.stdout, took, after.children_user + after.children_system - before.children_user - before.children_system


def records(count):
    """A file of so many todos in the lists in turn."""
    return text_of(["list,text,complete"] + [f'l{n % LISTS},"todo {n}, of many",{"true" if n % 3 == 0 else "false"}' for n in range(count)])


def main():
    program = os.path.abspath(sys.argv[1])
    lists = text_of([push("c1", n + 1, "createList", {"id": f"l{n}", "name": "Home", "ownerID": "ann"}) for n in range(LISTS)])
    with tempfile.TemporaryDirectory(dir=sys.argv[2] if len(sys.argv) > 2 else None) as folder:
        peer = os.path.join(folder, "commits")
        source = os.path.join(os.path.dirname(os.path.abspath(__file__)), "commits.c")
        subprocess.run(["gcc", "-O2", "-o", peer, source, "-lsqlite3"], check=True)
        for count in SIZES:
            path = fresh(folder)
            timed([program, "feed", path], lists)
            told, took, worked = timed([program, "import", path, "ann", "home"], records(count))
            assert told == f"records {count} acted {count} skipped 0\n".encode(), told
            told, again, _ = timed([program, "import", path, "ann", "home"], records(count))
            assert told == f"records {count} acted 0 skipped {count}\n".encode(), told
            told, out, _ = timed([program, "export", path, "ann"])
            assert told.count(b"\n") == count + LISTS + 1
            _, theirs, _ = timed([peer, fresh(folder), str(count)])
            print(f"{count} records: {took:.1f} s, {worked:.1f} of processor time; {count / took:.0f} a second, and by that time alone {count / worked:.0f}")
            print(f"  as many commits by the C library: {theirs:.1f} s, {count / theirs:.0f} a second; imports again: {again:.1f} s; exports: {out:.1f} s")


if __name__ == "__main__":
    main()
