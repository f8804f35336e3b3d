#!/usr/bin/env python3
"""Times commits to a file and the opening of one, outside the gate: bench/commits.py PROGRAM [FOLDER]

PROGRAM is the program `rv` as it was built; FOLDER is on the disk that is to be measured (the one of temporary files). Needs gcc
and SQLite's C library (Debian's libsqlite3-dev). Both programs make the same commits in turn, so that the ratio says something on
a busy machine too; docs/costs.md keeps it.
"""
import os
import subprocess
import sys
import tempfile
import time

from feed import voids

COUNT = 1000
ENTRIES = 100_000


def text_of(lines):
    return "".join(line + "\n" for line in lines).encode()


def seconds(words, given=b""):
    start = time.perf_counter()
    subprocess.run(words, input=given, stdout=subprocess.DEVNULL, check=True)
    return time.perf_counter() - start


def fresh(folder):
    path = os.path.join(folder, "lists.db")
    for end in ("", "-wal", "-shm"):
        if os.path.exists(path + end):
            os.remove(path + end)
    return path


def commit_times(program, peer, folder):
    """The seconds of so many commits by the program and by the C library, three runs each, in turn."""
    lines, ours, theirs = text_of(voids(COUNT)), [], []
    for _ in range(3):
        ours.append(seconds([program, "feed", fresh(folder)], lines))
        theirs.append(seconds([peer, fresh(folder), str(COUNT)]))
    return ours, theirs


# A small process that starts the program, since a process has at first the memory of the one that starts it.
START = """
import os, sys, time
start = time.perf_counter()
pid = os.posix_spawn(sys.argv[1], sys.argv[1:], os.environ)
_, status, used = os.wait4(pid, 0)
print(time.perf_counter() - start, used.ru_maxrss * 1024, status)
"""


def opening(program, folder):
    """The seconds of opening a store of so many entries, the bytes of memory at most, and those of the file."""
    path = fresh(folder)
    subprocess.run([program, "feed", path], input=text_of(voids(ENTRIES)), stdout=subprocess.DEVNULL, check=True)
    words = [sys.executable, "-c", START, program, "feed", path]
    told = subprocess.run(words, stdin=subprocess.DEVNULL, stdout=subprocess.PIPE, check=True).stdout.split()
    assert told[2] == b"0"
    return float(told[0]), int(told[1]), os.path.getsize(path)


def main():
    program = os.path.abspath(sys.argv[1])
    with tempfile.TemporaryDirectory(dir=sys.argv[2] if len(sys.argv) > 2 else None) as folder:
        peer = os.path.join(folder, "commits")
        source = os.path.join(os.path.dirname(os.path.abspath(__file__)), "commits.c")
        subprocess.run(["gcc", "-O2", "-o", peer, source, "-lsqlite3"], check=True)
        ours, theirs = commit_times(program, peer, folder)
        rates = [COUNT / min(times) for times in (ours, theirs)]
        print(f"commits a second: {rates[0]:.0f}, by the C library {rates[1]:.0f}: {rates[0] / rates[1]:.2f} of it")
        print("run by run:", ", ".join(f"{other / mine:.2f}" for mine, other in zip(ours, theirs)))
        took, memory, size = opening(program, folder)
        print(f"opening {ENTRIES} entries: {took:.2f} s; {memory / 1e6:.0f} MB at most, {memory / size:.1f} times the file of {size / 1e6:.1f} MB")


if __name__ == "__main__":
    main()
