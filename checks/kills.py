#!/usr/bin/env python3
"""Kills the program while it feeds a store in a file: checks/kills.py PROGRAM [KILLS [SEED]]

PROGRAM is the program `rv` as it was built, KILLS how often it is killed (200). Requests are written to it one after another,
and each answer that was read is compared with a second model's; the book of every second store is closed often. At a moment by chance
it is killed; the next run opens what is there. An answered mutation, pull, retirement or closing must stand there; the one request that
was written and not answered may stand there or not, or, of a push of several mutations, some of its first ones. Then `close-book` is
killed as often, over copies of one store of more than a thousand entries: the store must be that before or that after. Ends with status 1
where an answer is lost or differs.
"""
import json
import os
import random
import shutil
import subprocess
import sys
import tempfile
import threading
import time

from kept import held, model_held
from model import Server, answer_of
from outcomes import outcomes
from scripts import Requests


def ask(run, server, requests):
    """Writes one request and compares its answer. The request, where the program was killed before its answer was read."""
    request = requests.next()
    try:
        run.stdin.write((json.dumps(request) + "\n").encode())
        run.stdin.flush()
        line = run.stdout.readline()
    except BrokenPipeError:
        return request
    if not line.endswith(b"\n"):
        return request
    wanted = answer_of(server, request)
    requests.note(request, json.loads(wanted.split(" ", 1)[1]))
    if line.decode() != wanted + "\n":
        sys.exit(f"{json.dumps(request)}\nthe program: {line.decode()}the model:   {wanted}")
    return None


def one_life(program, path, chance, server, requests):
    """Feeds until it is killed. The request that was not answered, if there is one, and how many were."""
    run = subprocess.Popen([program, "feed", path], stdin=subprocess.PIPE, stdout=subprocess.PIPE)
    killer = threading.Timer(chance.uniform(0.001, 0.15), run.kill)
    killer.start()
    unanswered, count = None, 0
    while unanswered is None:
        unanswered = ask(run, server, requests)
        count += unanswered is None
    killer.join()
    run.wait()
    try:
        run.stdin.close()
    except BrokenPipeError:
        pass
    return unanswered, count


def close_book(program, path, seconds):
    """Closes the book of a store, and is killed after so many seconds, unless it has ended. What it wrote, and how long it took."""
    start = time.monotonic()
    run = subprocess.Popen([program, "close-book", path], stdout=subprocess.PIPE)
    killer = threading.Timer(seconds, run.kill)
    killer.start()
    wrote, _ = run.communicate()
    killer.cancel()
    killer.join()
    return wrote.decode(), time.monotonic() - start


def one_closing(program, path, ways, folder, seconds):
    """Closes the book of a copy, is killed, and tells whether it was closed, and whether that was answered."""
    copied = os.path.join(folder, "closed.db")
    shutil.copyfile(path, copied)
    wrote, _ = close_book(program, copied, seconds)
    found = held(copied, folder)
    before, after = ways
    if found != after and (wrote or found != before):
        sys.exit(f"close-book wrote {wrote!r}, and what is kept is not the book {'after it' if wrote else 'before or after it'}")
    for end in ("", "-wal"):
        if os.path.exists(copied + end):
            os.remove(copied + end)
    return found == after, wrote != ""


def made_long(requests):
    """Requests by chance, a thousand mutations of one client behind them, and a pull of all its rows."""
    requests = [requests.next() for _ in range(300)]
    calls = [("createList", {"id": "long", "name": "Home", "ownerID": "ann"})]
    calls += [("createTodo", {"id": f"long{n}", "listID": "long", "text": "milk", "complete": False}) for n in range(100)]
    calls += [("updateTodo", {"id": f"long{n % 100}", "text": f"eggs {n}"}) for n in range(900)]
    mutations = [{"clientID": "long", "id": number, "name": name, "args": args} for number, (name, args) in enumerate(calls, 1)]
    body = {"clientGroupID": "long", "profileID": "p", "schemaVersion": ""}
    requests += [{"user": "ann", "push": {"pushVersion": 1, **body, "mutations": mutations[at:at + 100]}} for at in range(0, len(mutations), 100)]
    return requests + [{"user": "ann", "pull": {"pullVersion": 1, **body, "cookie": None}}]


def check_closings(program, chance, kills, folder):
    """Kills closings of one store."""
    server, path = Server(), os.path.join(folder, "large.db")
    asked = made_long(Requests(chance, server))
    text = "".join(json.dumps(request) + "\n" for request in asked).encode()
    run = subprocess.run([program, "feed", path], input=text, stdout=subprocess.PIPE, check=True)
    if run.stdout.decode() != "".join(answer_of(server, request) + "\n" for request in asked):
        sys.exit("the large store was answered otherwise")
    before = model_held(server)
    server.answer({"closeBook": True})
    ways = before, model_held(server)
    if held(path, folder) != ways[0]:
        sys.exit("the large store has other cells")
    shutil.copyfile(path, path + ".one")
    wrote, whole = close_book(program, path + ".one", 60)
    if (wrote, held(path + ".one", folder)) != (f'200 {{"closed":{len(server.book)}}}\n', ways[1]):
        sys.exit(f"close-book wrote {wrote!r}")
    told = [one_closing(program, path, ways, folder, chance.uniform(0, 1.1 * whole)) for _ in range(kills)]
    closed, answered = (sum(one[at] for one in told) for at in (0, 1))
    print(f"{kills} kills of close-book, {closed} after its commit, {answered} of them answered: each store is that before or that after")


def main():
    program = os.path.abspath(sys.argv[1])
    kills = int(sys.argv[2]) if len(sys.argv) > 2 else 200
    seed = int(sys.argv[3]) if len(sys.argv) > 3 else 1
    chance, answered, left, closings = random.Random(seed), 0, 0, 0
    with tempfile.TemporaryDirectory() as folder:
        check_closings(program, chance, kills, folder)
        server, stores = Server(), 0
        requests, path = Requests(chance, server, closes=5), os.path.join(folder, "0.db")
        for kill in range(kills):
            if len(server.book) > 400:
                stores += 1
                server = Server()
                requests, path = Requests(chance, server, closes=5 * (stores % 2 == 0)), os.path.join(folder, f"{stores}.db")
            unanswered, count = one_life(program, path, chance, server, requests)
            answered += count
            found = held(path, folder)
            ways = [way for way in outcomes(server, [unanswered], [None]) if model_held(way) == found]
            if not ways:
                sys.exit(f"kill {kill}: what is kept, at generation {found[1]}, is not the book of {len(server.book)} entries")
            left += ways[0] is not server
            closings += unanswered == {"closeBook": True}
            server = requests.server = ways[0]
    print(f"{kills} kills, {closings} of them in a closing, {answered} answers: each stands, and {left} requests that were not answered do")


if __name__ == "__main__":
    main()
