#!/usr/bin/env python3
"""Counts the instructions of turns, outside the gate: bench/instructions.py PROGRAM

PROGRAM is the program `rv` as it was built (after `rt ci`, `crates/rv/out/rv`). Needs valgrind, whose
callgrind counts the same on a busy machine. Each count is the difference of two runs, by the pulls that one has more.
"""
import os
import re
import subprocess
import sys
import tempfile

import reports
from feed import anew, looks, one_changed, pull, push, rows, strangers, unchanged, voids


STOP = '{"stop":true}'


def instructions(program, lines, store="memory"):
    """The instructions of one run over the lines."""
    text = "".join(line + "\n" for line in lines).encode()
    words = ["valgrind", "--tool=callgrind", "--callgrind-out-file=/dev/null", program, "feed", store]
    run = subprocess.run(words, input=text, stdout=subprocess.PIPE, stderr=subprocess.PIPE, check=True)
    assert run.stdout.count(b"\n") == sum(line != STOP for line in lines)
    assert all(line.startswith(b"200 ") for line in run.stdout.splitlines())
    return int(re.search(rb"Collected : (\d+)", run.stderr).group(1))


def print_pulls(program, label, before, entries, pulls=20):
    """Prints the instructions of a pull of ten rows after these lines, which leave so many entries, ten of them c1's."""
    before = before + rows(10) + [pull()]
    start = instructions(program, before)
    kinds = (
        ("unchanged", unchanged(entries + 11, pulls)),
        ("one row changed, with its mutation", one_changed(entries + 11, pulls, 11)),
        ("without base", anew(pulls)),
    )
    for name, lines in kinds:
        print(f"{label}, {name}: {(instructions(program, before + lines) - start) // pulls} instructions")


def others(count):
    """Lines that leave a hundred rows in each of so many lists of another user."""
    lines = []
    for number in range(count):
        lines += rows(100, f"d{number}", "bob", f"h{number}", f"m{number}")
    return lines


def print_table(program, count=1000, pulls=20, turns=100):
    """Prints what a row costs in a pull, and what a mutation costs."""
    before = rows(count) + [pull()]
    start = instructions(program, before)
    each = (instructions(program, before + anew(pulls)) - start) // (pulls * count)
    print(f"a pull without a base, a row of {count}: {each} instructions")
    each = (instructions(program, voids(turns + 1)) - instructions(program, voids(1))) // turns
    print(f"a line with a mutation that has no effect: {each} instructions")
    for lists in (0, 100):
        before = others(lists)
        more = instructions(program, before + rows(count + turns)) - instructions(program, before + rows(count))
        print(f"a line with a todo for a list of {count} rows, beside {lists * 100} rows of others: {more // turns} instructions")
        more = instructions(program, before + rows(10 + turns)) - instructions(program, before + rows(10))
        print(f"a line with a todo for a list of 10 to {10 + turns} rows, beside {lists * 100} rows of others: {more // turns} instructions")


def fed(program, path, text):
    """Runs the lines over a file, unmeasured."""
    subprocess.run([program, "feed", path], input=text.encode(), stdout=subprocess.DEVNULL, check=True)


def print_unchanged(program, pulls=20):
    """Prints what a pull costs with nothing changed: as the user's mark tells, and where the user has acted since."""
    for count in (10, 1000, 100000):
        with tempfile.TemporaryDirectory(dir="/dev/shm" if os.path.isdir("/dev/shm") else None) as folder:
            path = os.path.join(folder, "lists.db")
            fed(program, path, "".join(reports.lines(count, count // 10)) + pull() + "\n")
            for label, acts in (("as the mark tells", ""), ("after an act without effect", push("c9", 1, "paint", None, "ann", "g9") + "\n")):
                fed(program, path, acts)
                one, more = (instructions(program, unchanged(count + 1, each), path) for each in (1, pulls + 1))
                print(f"a pull of {count} rows with nothing changed, {label}: {(more - one) // pulls} instructions")


def beside(count):
    """Lines that leave so many lists of ten rows that ann may see: each second one is ann's, and the others are shared with ann."""
    lines = []
    for number in range(count):
        owner, list_id, client, group = "ann" if number % 2 else "bob", f"b{number}", f"d{number}", f"h{number}"
        lines += rows(10, client, owner, group, list_id)
        if owner == "bob":
            share = {"id": f"s{number}", "listID": list_id, "userID": "ann"}
            lines.append(push(client, 11, "createShare", share, owner, group))
    return lines


def print_extents(program, pulls=20):
    """Prints what a pull costs under an extent of one list of ten rows, beside no other list and beside a thousand."""
    for count in (0, 1000):
        before = beside(count) + rows(10) + [push("c1", 11, "setExtent", {"lists": ["l1"]}), pull()]
        place = len(before)
        acted = before + [push("c1", 12, "paint", None)]
        kinds = (
            ("unchanged, as the mark tells", before, unchanged(place, pulls)),
            ("unchanged, after an act without effect", acted, unchanged(place, pulls)),
            ("without base", before, anew(pulls)),
        )
        for name, lines, asked in kinds:
            each = (instructions(program, lines + asked) - instructions(program, lines)) // pulls
            print(f"a pull under an extent of one list, beside {count:4} lists, {name}: {each} instructions")


def print_sharers(program, count=1000, turns=20):
    """Prints what a todo costs in a list of many sharers, each of whom is looked for by an extent: nobody has one, or everybody."""
    shares = [push("c1", number, "createShare", {"id": f"s{number}", "listID": "l1", "userID": f"u{number}"}) for number in range(2, count + 2)]
    for label, lists in (("nobody has an extent", None), ("each has one that leaves it out", ["l2"]), ("each has one that names it", ["l1"])):
        extents = [push(f"e{number}", 1, "setExtent", {"lists": lists}, f"u{number}", f"h{number}") for number in range(2, count + 2)]
        before = rows(1) + shares + extents
        todos = [push("c1", count + 2 + turn, "createTodo", {"id": f"t{turn}", "listID": "l1", "text": "milk", "complete": False}) for turn in range(turns)]
        each = (instructions(program, before + todos) - instructions(program, before)) // turns
        print(f"a line with a todo for a list with {count} sharers, {label}: {each} instructions")


def print_stores(program, turns=100):
    """Prints what a turn costs over a store of many entries, and what it costs to open such a store."""
    for count in (1000, 10000, 100000):
        start = instructions(program, voids(count))
        more = instructions(program, voids(count + turns))
        print(f"a line with a mutation that has no effect, over {count} entries: {(more - start) // turns} instructions")
        opened = instructions(program, voids(count) + [STOP])
        print(f"opening a store of {count} entries: {(opened - start) // count} instructions an entry")


def main():
    program = sys.argv[1]
    print_table(program)
    print_stores(program)
    print_unchanged(program)
    print_extents(program)
    print_sharers(program)
    for count in (0, 1000, 100000):
        print_pulls(program, f"{count:6} other clients", strangers(count), count)
    for count in (1000, 10000):
        print_pulls(program, f"{count:6} other kept looks", looks(count), count)


if __name__ == "__main__":
    main()
