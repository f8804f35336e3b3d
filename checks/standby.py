#!/usr/bin/env python3
"""Follows the books of stores, and compares what the standby answers with a second model: checks/standby.py PROGRAM [STORES [PORT]]

PROGRAM is the program `rv` as it was built, STORES how many stores are tried (10), PORT the first port that is tried (21300). The lines
that `rv ship` writes of a store that was fed, in every second one with closings, are sent to `rv follow`, cut into pieces, with pulls
among them: with cookies that the leader answered before, with later ones, and with those that the standby answered. Each is answered as
the model does at that front of the book, and at last the length of the book is told. Then the lines are cut at every byte of the last
two, and single ones are left out, doubled, exchanged, shortened and made longer: each is refused by its number, and no pull after it is
answered. At last a store is copied while 16 clients push and pull, and each of them goes on at a standby of the copy, by the cookie that
it had then, by one of after that and by none, and then at the leader again. Ends with status 1 at the first difference.
"""
import json
import pathlib
import random
import socket
import subprocess
import sys
import tempfile
import threading
import time

import workers
from copies import copied
from kept import feed, read, ship_lines
from model import Server, reading, text_of
from scripts import Requests, more

LATE = 20


class Follower:
    """`rv follow` at the next port, and the one connection to it."""

    port = 21299

    def __init__(self, program):
        Follower.port += 1
        self.run = subprocess.Popen([program, "follow", "--port", str(Follower.port)], stdin=subprocess.DEVNULL, stdout=subprocess.PIPE)
        end = time.monotonic() + LATE
        while True:
            try:
                self.connection = socket.create_connection(("127.0.0.1", Follower.port), timeout=LATE)
                return
            except ConnectionRefusedError:
                if time.monotonic() > end or self.run.poll() is not None:
                    sys.exit(f"nobody listens at port {Follower.port}")
                time.sleep(0.005)

    def send(self, sent, chance):
        """Sends bytes in pieces of any size; what the follower does not read any more is left."""
        at = 0
        try:
            while at < len(sent):
                size = chance.choice([1, 7, 100, 5000, 100000])
                self.connection.sendall(sent[at:at + size])
                at += size
            self.connection.shutdown(socket.SHUT_WR)
        except (BrokenPipeError, ConnectionResetError):
            pass

    def told(self):
        """The lines that were answered, the status, and what the program wrote."""
        got = b""
        try:
            while piece := self.connection.recv(65536):
                got += piece
        except ConnectionResetError:
            pass
        self.connection.close()
        wrote, _ = self.run.communicate(timeout=LATE)
        return got.decode().split("\n")[:-1], self.run.returncode, wrote.decode()


def followed(program, sent, chance):
    """What comes of following these bytes."""
    follower = Follower(program)
    sender = threading.Thread(target=follower.send, args=(sent, chance))
    sender.start()
    told = follower.told()
    sender.join()
    return told


def is_ahead(cookie, length):
    text = cookie["cvrID"] if isinstance(cookie, dict) else ""
    return text.isdecimal() and text.isascii() and str(int(text)) == text and length < int(text) < 2 ** 32


def pulled(server, length, request):
    """What a standby answers at a front of a book of this length: as a server whose look is dropped again, and whose cookie is its order."""
    front = Server()
    front.book, front.states = server.book[:length], server.states[:length + 1]
    pull = request["pull"]
    refusal = front.refusal(request["user"], pull["clientGroupID"])
    if refusal is None and is_ahead(pull["cookie"], length):
        return 503, {"error": "behind", "length": length}
    status, body = front.pull(request["user"], pull)
    if len(front.book) > length:
        body = {**body, "cookie": front.book[-1][3]}
    return status, body


def whole(lines):
    return "".join(line + "\n" for line in lines).encode()


def place_of(server, lines, count):
    """How long the book is of which so many of these lines were told, or None within a page."""
    if '{"page":true}' in lines:
        page = lines.index('{"page":true}') + 1
        return None if 0 < count < page else 0 if count == 0 else server.closed_at() + count - page
    return count


def with_pulls(chance, requests, server, lines):
    """The lines with pulls among them, and what they are answered. A pull goes on from any cookie of the leader or of the standby."""
    sent, answers, own = [], [], []
    for count in range(len(lines) + 1):
        length = place_of(server, lines, count)
        while length is not None and chance.randrange(3 if count < len(lines) else 20) == 0:
            request = requests.pull()
            if own and chance.randrange(3) == 0:
                request["user"], request["pull"]["clientGroupID"], request["pull"]["cookie"] = chance.choice(own[-20:])
            status, body = pulled(server, length, request)
            if "cookie" in body:
                own.append((request["user"], request["pull"]["clientGroupID"], body["cookie"]))
            sent.append(json.dumps(request))
            answers.append(f"{status} {text_of(body)}")
        sent += lines[count:count + 1]
    return sent, answers


def check_pulls(program, chance, requests, server, lines, where):
    sent, answers = with_pulls(chance, requests, server, lines)
    told = followed(program, whole(sent), chance)
    if told != (answers, 0, f"entries {len(server.book)}\n"):
        first = next((n for n, (a, b) in enumerate(zip(told[0] + [None], answers + [None])) if a != b), None)
        sys.exit(f"{where}: status {told[1]}, {told[2]!r}; answer {first} differs: {told[0][first:][:1]} for {answers[first:][:1]}")
    return len(answers)


def check_cuts(program, chance, server, lines, where):
    """The lines, cut at every byte of the last two."""
    sent = whole(lines)
    for end in range(len(sent) - len(whole(lines[-2:])), len(sent) + 1):
        cut = sent[:end].decode(errors="ignore").split("\n")
        is_whole = cut[-1] in ("", lines[len(cut) - 1] if len(cut) <= len(lines) else "")
        count = len([line for line in cut if line])
        length = place_of(server, lines, count) if is_whole else None
        wanted = (0, f"entries {length or 0}\n") if is_whole else (10, f"line {len(cut)}\n")
        answers, status, wrote = followed(program, sent[:end], chance)
        if (answers, status, wrote) != ([], *wanted):
            sys.exit(f"{where}, cut at byte {end}: status {status}, {wrote!r} for {wanted}")
    return len(whole(lines[-2:])) + 1


def check_wrong(program, chance, lines, where):
    """Single lines of entries that are wrong: each is refused, and nothing is answered after it."""
    first = lines.index('{"page":true}') + 1 if '{"page":true}' in lines else 0
    at = chance.randrange(first, len(lines) - 1)
    line = lines[at]
    bad = {
        "left out": (lines[:at] + lines[at + 1:], at + 1),
        "doubled": (lines[:at + 1] + lines[at:], at + 2),
        "exchanged": (lines[:at] + [lines[at + 1], line] + lines[at + 2:], at + 1),
        "shortened": (lines[:at] + [line[:-1]] + lines[at + 1:], at + 1),
        "longer": (lines[:at] + [line + "0"] + lines[at + 1:], at + 1),
        "of another place": (lines[:at] + [line.replace(',"0', ',"1', 1)] + lines[at + 1:], at + 1),
        "a push": (lines[:at] + ['{"user":"ann","push":{}}'] + lines[at:], at + 1),
    }
    ask = json.dumps({"user": "ann", "pull": {"pullVersion": 1, "clientGroupID": "new", "profileID": "p", "schemaVersion": "", "cookie": None}})
    for name, (wrong, number) in bad.items():
        told = followed(program, whole([*wrong, ask]), chance)
        if told != ([], 10, f"line {number}\n"):
            sys.exit(f"{where}, line {at + 1} {name}: {told} for line {number}")
    return len(bad)


def check_store(program, path, seed):
    chance, server = random.Random(seed), Server()
    requests = Requests(chance, server, closes=40 * (seed % 2))
    lines, answers = more(requests, chance.choice([20, 60, 150]))
    if feed(program, path, lines) != (0, answers):
        sys.exit(f"store {seed}: other answers")
    shipped = subprocess.run([program, "ship", path], stdout=subprocess.PIPE).stdout.decode().split("\n")[:-1]
    if shipped != ship_lines(read(path)[0]):
        sys.exit(f"store {seed}: other lines")
    pulls = check_pulls(program, chance, requests, server, shipped, f"store {seed}")
    cuts = check_cuts(program, chance, server, shipped, f"store {seed}") if seed < 2 else 0
    return pulls, cuts + (check_wrong(program, chance, shipped, f"store {seed}") if len(server.book) - server.closed_at() > 2 else 0)


def call_of(call):
    """A call of a client of workers.py, as the model has it."""
    members = {"createList": ("id", "name", "ownerID"), "createTodo": ("id", "listID", "text", "complete")}[call[0]]
    return call[0], reading(call[0], dict(zip(members, call[1:])))


def model_of(store):
    """The book that the entries of a store make."""
    server = Server()
    for _, entry in sorted(workers.entries_of(store).items()):
        server.enter((*entry[:4], *call_of(entry[5])) if entry[0] == "act" else tuple(entry))
    return server


def pull_of(number, cookie):
    return {"user": "ann", "pull": {"pullVersion": 1, "clientGroupID": f"g{number}", "profileID": "p", "schemaVersion": "", "cookie": cookie}}


def check_busy(program, folder, chance):
    """A store that is copied while it is served: its clients go on at a standby of the copy, and then at the leader again."""
    checks = workers.Checks(program, folder, Follower.port + 100)
    leader = checks.started()
    for client in checks.clients:
        client.start()
    # enough for all that is asked of it, and few enough for the model, on a fast machine too
    while sum(client.pushed for client in checks.clients) < 30 * workers.CLIENTS:
        time.sleep(0.01)
    to = folder / "copy.db"
    cookies = [client.cookie for client in checks.clients]
    copied(checks, leader, to)
    time.sleep(0.2)
    checks.end()
    lines = subprocess.run([program, "ship", str(to)], stdout=subprocess.PIPE).stdout.decode().split("\n")[:-1]
    server = model_of(to)
    if len(lines) != len(server.book) or len(lines) < 100:
        sys.exit(f"the busy store: {len(lines)} lines of {len(server.book)} entries")
    asks = [pull_of(number, cookie) for mine in (cookies, [client.cookie for client in checks.clients], [None] * workers.CLIENTS)
            for number, cookie in enumerate(mine, 1)]
    wanted = [pulled(server, len(lines), ask) for ask in asks]
    told = followed(program, whole([*lines, *map(json.dumps, asks)]), chance)
    if told != ([f"{status} {text_of(body)}" for status, body in wanted], 0, f"entries {len(lines)}\n"):
        sys.exit(f"the busy store: other answers, status {told[1]}, {told[2]!r}")
    if not all(status == 200 and body["patch"][:1] != [{"op": "clear"}] for status, body in wanted[:workers.CLIENTS]):
        sys.exit("the busy store: a client that is not ahead was not answered by what has changed")
    bare = [body["cookie"] for _, body in wanted[-workers.CLIENTS:]]
    with socket.create_connection(("127.0.0.1", checks.port), timeout=LATE) as connection:
        for client, cookie in zip(checks.clients, bare):
            body = workers.answered(connection, workers.pull(client.number, cookie))
            if body["patch"][:1] != [{"op": "clear"}] or body["cookie"]["order"] <= cookie or body["lastMutationIDChanges"] != {f"c{client.number}": client.pushed}:
                sys.exit(f"the leader, to client {client.number} with the cookie {cookie} of the standby: {text_of(body)[:300]}")
    leader.kill()
    leader.wait()
    return len(lines), sum(status == 503 for status, _ in wanted)


def main():
    program, stores = sys.argv[1], int(sys.argv[2]) if len(sys.argv) > 2 else 10
    if len(sys.argv) > 3:
        Follower.port = int(sys.argv[3]) - 1
    pulls = wrong = 0
    with tempfile.TemporaryDirectory() as folder:
        for seed in range(stores):
            some, others = check_store(program, str(pathlib.Path(folder) / f"{seed}.db"), seed)
            pulls, wrong = pulls + some, wrong + others
        lines, behind = check_busy(program, pathlib.Path(folder), random.Random(5))
    print(f"{stores} stores followed: {pulls} pulls as the model's, {wrong} books cut or made wrong; {lines} lines of a busy store, {behind} pulls ahead of them")


if __name__ == "__main__":
    main()
