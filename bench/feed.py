#!/usr/bin/env python3
"""Times `rv feed memory`, outside the gate: bench/feed.py PROGRAM

PROGRAM is the program `rv` as it was built. Prints ratios of pushes, and milliseconds a
pull, each the best of three runs; docs/costs.md keeps them. Figures of two runs on two machines are not to be compared; ratios are.
"""
import json
import subprocess
import sys
import time


def push(client, number, name, args, user="ann", group="g1"):
    mutation = {"clientID": client, "id": number, "name": name, "args": args}
    body = {"pushVersion": 1, "clientGroupID": group, "profileID": "p", "schemaVersion": "", "mutations": [mutation]}
    return json.dumps({"user": user, "push": body})


def pull(cookie=None):
    body = {"pullVersion": 1, "clientGroupID": "g1", "profileID": "p", "schemaVersion": "", "cookie": cookie}
    return json.dumps({"user": "ann", "pull": body})


def rows(count, client="c1", user="ann", group="g1", list_id="l1"):
    """Lines that leave so many rows: a list and its todos."""
    lines = [push(client, 1, "createList", {"id": list_id, "name": "Home", "ownerID": user}, user, group)]
    for number in range(2, count + 1):
        todo = {"id": f"{list_id}t{number}", "listID": list_id, "text": "milk", "complete": False}
        lines.append(push(client, number, "createTodo", todo, user, group))
    return lines


def seconds(program, lines):
    """The best time of three runs over the lines."""
    text = "".join(line + "\n" for line in lines).encode()
    best = None
    for _ in range(3):
        start = time.perf_counter()
        run = subprocess.run([program, "feed", "memory"], input=text, stdout=subprocess.PIPE, check=True)
        took = time.perf_counter() - start
        assert run.stdout.count(b"\n") == len(lines)
        assert all(line.startswith(b"200 ") for line in run.stdout.splitlines())
        best = took if best is None else min(best, took)
    return best


def voids(count):
    """Mutations that are no call: each is one entry of the book, and nothing else."""
    return [push("c1", number, "paint", None) for number in range(1, count + 1)]


def a_turn(program, count):
    """Seconds a line of so many mutations without effect, without the start of the program."""
    return (seconds(program, voids(count)) - seconds(program, [])) / count


def cookie(place, order):
    return {"cvrID": str(place), "order": order}


def unchanged(place, pulls):
    """Pulls with a cookie since which nothing has changed, after so many entries of which the last is its look."""
    return [pull(cookie(place, 1))] * pulls


def one_changed(place, pulls, number):
    """Before each pull one row is written; each pull has the cookie of the one before it."""
    lines = []
    for turn in range(pulls):
        lines.append(push("c1", number + turn, "updateTodo", {"id": "l1t2", "text": f"eggs {turn}"}))
        lines.append(pull(cookie(place + 2 * turn, turn + 1)))
    return lines


def anew(pulls):
    """Pulls without a base."""
    return [pull()] * pulls


def pull_times(program, before, entries, mutations, pulls):
    """Milliseconds a pull after these lines, which leave so many entries and mutations of c1: unchanged, one row changed, anew."""
    before = before + [pull()]
    place = entries + 1
    start = seconds(program, before)
    return [
        (seconds(program, before + lines) - start) / pulls * 1000
        for lines in (unchanged(place, pulls), one_changed(place, pulls, mutations + 1), anew(pulls))
    ]


def print_pulls(label, times):
    same, changed, new = times
    print(f"pull, {label}: unchanged {same:8.3f} ms, one row changed {changed:8.3f} ms, without base {new:8.3f} ms")


def strangers(count):
    """One void mutation of each of so many clients, each of a group and a user of its own."""
    return [push(f"x{number}", 1, "paint", None, f"u{number}", f"h{number}") for number in range(count)]


def looks(count):
    """A pull without a base of each of so many groups of users who see nothing: each leaves a kept look with its record."""
    body = {"pullVersion": 1, "profileID": "p", "schemaVersion": "", "cookie": None}
    return [json.dumps({"user": f"v{number}", "pull": dict(body, clientGroupID=f"k{number}")}) for number in range(count)]


def main():
    program = sys.argv[1]
    print(f"a turn at 100,000 entries against 1,000: {a_turn(program, 100000) / a_turn(program, 1000):.2f} times")
    pushed = {count: seconds(program, rows(count)) for count in (1000, 10000)}
    print(f"a line of 10,000 todos against one of 1,000: {pushed[10000] / pushed[1000] / 10:.1f} times")
    for count, pulls in ((10, 2000), (1000, 500), (10000, 100)):
        print_pulls(f"{count:6} rows seen", pull_times(program, rows(count), count, count, pulls))
    for count in (1000, 100000):
        void = [push("c1", number, "paint", None) for number in range(11, count + 11)]
        print_pulls(f"10 rows seen, a book of {count:6}", pull_times(program, rows(10) + void, count + 10, count + 10, 2000))
    others = rows(10000, "c2", "bob", "g2", "l2")
    print_pulls("10 rows seen, 10,000 of others", pull_times(program, others + rows(10), 10010, 10, 200))
    for count in (1000, 100000):
        before = strangers(count) + rows(10)
        print_pulls(f"10 rows seen, {count:6} other clients", pull_times(program, before, count + 10, 10, 1000))
    for count in (1000, 100000):
        before = looks(count) + rows(10)
        print_pulls(f"10 rows seen, {count:6} other kept looks", pull_times(program, before, count + 10, 10, 1000))


if __name__ == "__main__":
    main()
