#!/usr/bin/env python3
"""Times pulls with nothing to tell of users who see few rows and many, outside the gate: bench/unchanged.py PROGRAM

PROGRAM is the program `rv` as it was built. Each figure is the processor time that one run of it took for a pull, once its file was
open, as Linux counts it: the least of five rounds.
"""
import os
import subprocess
import sys
import tempfile
import threading

from feed import pull, push, unchanged
from reports import lines


def fed(program, path, asked):
    """Runs lines over a file."""
    subprocess.run([program, "feed", path], input="".join(asked).encode(), stdout=subprocess.DEVNULL, check=True)


def unchanged_cases(count):
    """How a pull with nothing changed is known to be one, and the lines that leave its file so: so many rows and the pull's base, and
    then an act of the user that changes nothing, so that the mark is above the base."""
    rows = [*lines(count, max(count // 100, 1)), pull() + "\n"]
    act = push("c9", 1, "paint", None, "ann", "g9") + "\n"
    return ("as the mark tells", rows), ("after an act without effect", [act])


def processor_time(process):
    """The nanoseconds that a process has run."""
    with open(f"/proc/{process.pid}/schedstat") as file:
        return int(file.read().split()[0])


def answered(process, line, count):
    """Asks the same line so many times, and reads the answers."""
    text = (line + "\n").encode() * count
    writer = threading.Thread(target=lambda: (process.stdin.write(text), process.stdin.flush()))
    writer.start()
    for _ in range(count):
        assert process.stdout.readline().startswith(b"200 ")
    writer.join()


def microseconds(program, path, line, count):
    """The least processor time of five rounds of so many lines, by the line."""
    with subprocess.Popen([program, "feed", path], stdin=subprocess.PIPE, stdout=subprocess.PIPE) as process:
        answered(process, line, 1)
        times = []
        for _ in range(5):
            start = processor_time(process)
            answered(process, line, count)
            times.append(processor_time(process) - start)
        process.stdin.close()
    return min(times) / count / 1000


def main():
    program = os.path.abspath(sys.argv[1])
    for count in (10, 1000, 10000, 100000):
        with tempfile.TemporaryDirectory(dir="/dev/shm" if os.path.isdir("/dev/shm") else None) as folder:
            path = os.path.join(folder, "lists.db")
            for label, asked in unchanged_cases(count):
                fed(program, path, asked)
                took = microseconds(program, path, unchanged(count + 1, 1)[0], max(100000 // count, 100))
                print(f"a pull of {count:6} rows with nothing changed, {label}: {took:8.1f} microseconds")


if __name__ == "__main__":
    main()
