#!/usr/bin/env python3
"""Counts the instructions of rows that come and go beside many: bench/row_instructions.py PROGRAM [MOST [ORDER]]

PROGRAM is the program `rv` as it was built, MOST the most rows (1,000,000), ORDER one of the orders alone. Over a store in memory so many
todos are made, in the order of their keys, backwards or shuffled; then callgrind counts five pushes of a hundred todos more of the same
order, five that remove todos of that order, and five of mutations without effect, which are taken off: what is left is what a row costs
in the tables and as a cell, with the reading of what its line has more. Needs valgrind; counts are the same on a busy machine.
"""
import os
import random
import re
import subprocess
import sys
import tempfile

from rows import pushes, todo

TURNS, EACH = 5, 100

ORDERS = {"keys": lambda numbers: numbers, "backwards": lambda numbers: numbers[::-1], "shuffled": lambda numbers: random.Random(1).sample(numbers, len(numbers))}


class Counted:
    """A run of `rv feed memory` under callgrind, which counts where it is asked to."""

    def __init__(self, program, folder):
        self.out = os.path.join(folder, "counted")
        words = ["valgrind", "--tool=callgrind", "--instr-atstart=no", f"--callgrind-out-file={self.out}", program, "feed", "memory"]
        self.run = subprocess.Popen(words, stdin=subprocess.PIPE, stdout=subprocess.PIPE, stderr=subprocess.DEVNULL)
        self.number, self.dumps = 1, 0

    def say(self, calls):
        for line in pushes(calls, self.number):
            self.run.stdin.write(line.encode())
            self.run.stdin.flush()
            answer = self.run.stdout.readline()
            assert answer.startswith(b"200 "), answer
        self.number += len(calls)

    def control(self, *words):
        subprocess.run(["callgrind_control", *words, str(self.run.pid)], check=True, stdout=subprocess.DEVNULL, stderr=subprocess.DEVNULL)

    def count(self, calls):
        """The instructions of these calls, in pushes of a hundred, for each call."""
        self.control("-i", "on")
        for start in range(0, len(calls), EACH):
            self.say(calls[start:start + EACH])
        self.control("-i", "off")
        self.control("-d")
        self.dumps += 1
        with open(f"{self.out}.{self.dumps}") as file:
            return int(re.search(r"^totals: (\d+)", file.read(), re.M).group(1)) // len(calls)

    def end(self):
        self.run.stdin.close()
        self.run.stdout.read()
        assert self.run.wait() == 0


def counted(program, count, order):
    """The instructions of a todo that comes, and of one that goes, beside so many."""
    more = TURNS * EACH
    numbers = order(list(range(count + more)))
    with tempfile.TemporaryDirectory() as folder:
        run = Counted(program, folder)
        run.say([("createList", {"id": f"l{n}", "name": "Home", "ownerID": "ann"}) for n in range(100)])
        run.say([todo(number, f"l{number % 100}") for number in numbers[:count]])
        idle = run.count([("paint", f"x{number:07}") for number in numbers[:more]])
        come = run.count([todo(number, f"l{number % 100}") for number in numbers[count:]])
        gone = run.count([("deleteTodo", f"t{number:07}") for number in numbers[:more]])
        run.end()
    return come - idle, gone - idle


def main():
    program = os.path.abspath(sys.argv[1])
    most = int(sys.argv[2]) if len(sys.argv) > 2 else 1_000_000
    count = 1_000
    while count <= most:
        for name in sys.argv[3:] or ORDERS:
            come, gone = counted(program, count, ORDERS[name])
            print(f"{count:8} todos, {name}: one that comes {come} instructions, one that goes {gone}", flush=True)
        count *= 10


if __name__ == "__main__":
    main()
