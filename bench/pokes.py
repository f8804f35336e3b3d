#!/usr/bin/env python3
"""Measures what pokes cost, outside the gate: bench/pokes.py PROGRAM

PROGRAM is the program `rv` as it was built. Needs gcc, and valgrind for the instructions. With no link, 4 and 16 links that listen, of the
user who pushes, who is poked, and of another user, whose mark is looked at and who is not, it prints:

- how many pushes a second 4 workers answer over 4 connections, the best of nine runs of 10,000 pushes, which are as many as a session has
  pokes, and how many pokes a link had of them, since several pushes may share one;
- the instructions of a push by one worker with all that it sets off, where each push waits for the pokes of the one before, if any come;
- the time from a push's answer to its poke, as two threads of this program see them come, so that it can be below 0.

The clients run on the same processors. All pushes are mutations without effect, of a store in memory. docs/costs.md keeps the figures.
"""
import os
import queue
import re
import selectors
import statistics
import sys
import tempfile
import threading
import time
from concurrent.futures import ThreadPoolExecutor

sys.path.append(os.path.join(os.path.dirname(os.path.abspath(__file__)), "..", "checks"))
from links import LATE, Server, taken
from workers import Bench, pushes

COUNT, RUNS, WORKERS = 10000, 9, 4
KINDS = (
    (0, "ann", "no links"),
    (4, "ann", "4 links that are poked"),
    (16, "ann", "16 links that are poked"),
    (4, "bob", "4 links that are not"),
    (16, "bob", "16 links that are not"),
)
VALGRIND = ("valgrind", "--tool=callgrind", "--callgrind-out-file=/dev/null")
POKE_BYTES = 6


def drain(links):
    """Reads what comes over the links until all have ended: how many pokes there were."""
    got = 0
    with selectors.DefaultSelector() as ready:
        for link in links:
            ready.register(link.stream, selectors.EVENT_READ)
        while ready.get_map():
            for key, _ in ready.select():
                piece = key.fileobj.recv(65536)
                got += len(piece)
                if not piece:
                    ready.unregister(key.fileobj)
    return got // POKE_BYTES


def run(bench, count, user):
    """The pushes a second while so many links of a user listen, and the pokes that came."""
    server = Server(bench.program, pokes=count, workers=WORKERS)
    links = [server.link(user) for _ in range(count)]
    with ThreadPoolExecutor(1) as pool:
        pokes = pool.submit(drain, links)
        took = bench.send(server.port, WORKERS, pushes(WORKERS, COUNT))
        server.kill()
        return COUNT / took, pokes.result()


def print_rates(bench):
    """Runs of all kinds by turns, so that what else the machine does comes to all of them."""
    rounds = [[run(bench, count, user) for count, user, _ in KINDS] for _ in range(RUNS)]
    for (count, _, name), runs in zip(KINDS, zip(*rounds)):
        rate, pokes = max(runs)
        of_each = f", {pokes / count:,.0f} pokes a link" if count else ""
        print(f"{name}: {rate:,.0f} pushes a second{of_each}", flush=True)


def instructions(program, count, user, sent):
    """The instructions of a run of so many pushes, a whole number of hundreds, while so many links of a user listen."""
    server = Server(program, pokes=count, connections=sent // 100 + 1, workers=1, before=VALGRIND)
    links = [server.link(user) for _ in range(count)]
    while server.left:
        with server.http() as stream:
            for _ in range(100):
                taken(stream, server.next_push("ann", "paint", None))
                for link in links if user == "ann" else ():
                    link.poked("a link", LATE)
    return int(re.search(rb"Collected : (\d+)", server.ends(sent)).group(1))


def print_instructions(program, few=200, many=1200):
    for count, user, name in KINDS:
        more = instructions(program, count, user, many) - instructions(program, count, user, few)
        print(f"{name}: {more // (many - few):,} instructions a push", flush=True)


def times(program, count, sent=1000):
    """The seconds from the answer to a push until the poke has come over the last of so many links, for each push."""
    server = Server(program, pokes=count, workers=WORKERS)
    links = [server.link("ann") for _ in range(count)]
    came, took = queue.Queue(), []

    def wait():
        for _ in range(sent):
            links[-1].poked("the link", LATE)
            came.put(time.perf_counter())

    waiter = threading.Thread(target=wait, daemon=True)
    waiter.start()
    for _ in range(0, sent, 100):
        with server.http() as stream:
            for _ in range(100):
                taken(stream, server.next_push("ann", "paint", None))
                answered = time.perf_counter()
                took.append(came.get(timeout=LATE) - answered)
    server.kill()
    return took


def print_times(program):
    for count in (1, 4, 16):
        took = [seconds * 1e6 for seconds in times(program, count)]
        median, worst = statistics.median(took), max(took)
        print(f"one of {count} that are poked: {median:,.0f} microseconds from a push's answer to its poke, at worst {worst:,.0f}", flush=True)


def main():
    program = sys.argv[1]
    print(f"{os.cpu_count()} processors")
    with tempfile.TemporaryDirectory() as folder:
        print_rates(Bench(program, folder))
    print_times(program)
    print_instructions(program)


if __name__ == "__main__":
    try:
        main()
    finally:
        for server in Server.running:
            server.kill()
