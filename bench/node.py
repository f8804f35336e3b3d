#!/usr/bin/env python3
"""Compares `rv feed memory` with a plain server in Node, outside the gate: bench/node.py PROGRAM

PROGRAM is the program `rv` as it was built. Needs `node`. Both answer the same lines, and their bytes are compared. Prints the seconds
of processor time that each takes, turn by turn the least of five, what comes before taken off; docs/costs.md keeps them. Figures of two
runs are not to be compared.
"""
import os
import subprocess
import sys
import tempfile

from feed import anew, pull, push, rows, unchanged, voids

HERE = os.path.dirname(os.path.abspath(__file__))


def pushes(lists=100, todos=100):
    """A push of one mutation for each todo of so many lists of one user, list by list in turn."""
    lines = [push("c1", number + 1, "createList", {"id": f"l{number}", "name": "Home", "ownerID": "ann"}) for number in range(lists)]
    for number in range(lists * todos):
        todo = {"id": f"t{number}", "listID": f"l{number % lists}", "text": f"buy {number}", "complete": False}
        lines.append(push("c1", lists + number + 1, "createTodo", todo))
    return lines


def others(count=10000):
    """Lines that leave so many rows, a hundred in each list, of another user."""
    lines = []
    for number in range(count // 100):
        lines += rows(100, f"d{number}", "bob", f"h{number}", f"m{number}")
    return lines


def cases():
    """What is compared, by name: the lines before, and those that are measured."""
    stood = rows(1000) + [pull()]
    return (
        ("10,000 pushes of one, into 100 lists of 100", [], pushes()),
        ("500 full pulls of 1,000 rows", stood, anew(500)),
        ("2,000 unchanged pulls of 1,000 rows", stood, unchanged(1001, 2000)),
        ("20,000 mutations without effect", [], voids(20000)),
        ("500 full pulls of 100 rows beside 10,000 of others", others() + rows(100) + [pull()], anew(500)),
    )


def run(words, lines):
    """The processor time of one run, and what it writes."""
    with tempfile.TemporaryFile() as fed, tempfile.TemporaryFile() as answers:
        fed.write("".join(line + "\n" for line in lines).encode())
        fed.seek(0)
        server = subprocess.Popen(words, stdin=fed, stdout=answers)
        _, status, used = os.wait4(server.pid, 0)
        assert status == 0, words
        answers.seek(0)
        return used.ru_utime + used.ru_stime, answers.read()


def main():
    servers = ([sys.argv[1], "feed", "memory"], ["node", os.path.join(HERE, "node.js")])
    for name, before, lines in cases():
        best = [[float("inf")] * 2 for _ in servers]
        for _ in range(5):
            answers = set()
            for server, words in enumerate(servers):
                for part, fed in enumerate((before, before + lines)):
                    took, answered = run(words, fed)
                    best[server][part] = min(best[server][part], took)
                answers.add(answered)
            assert len(answers) == 1, name
        ours, theirs = (whole - start for start, whole in best)
        print(f"{name}: {ours:.3f} against {theirs:.3f} seconds, {ours / theirs:.2f} of it")


if __name__ == "__main__":
    main()
