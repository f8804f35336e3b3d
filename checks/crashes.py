#!/usr/bin/env python3
"""Rebuilds what a crash may leave of the program's own file, and opens it: checks/crashes.py PROGRAM [SEED]

PROGRAM is the program `rv` as it was built. It runs under strace, which tells its writes, its syncs and its answers in order. From these
what a disk may hold is rebuilt at each moment: what was synced, and of the writes since then none, all, each second one, the last alone,
all but it, or all with the last one half; the same of the file and of its log, and all of the one with none of the other. Each is
opened by the program, and what it then keeps must be the book of the requests that were answered so far, or that with what the next
request adds. So it goes from the making of a new file on, over commits, closings, a log that is copied into the file, and the end, of
`feed`; and of `serve` with four connections, where each mutation that was answered must stand, and of each connection at most one more.
Where one sync is left out of what is read, or each of the log's, a state must be found that breaks this: the check is shown to fail. Ends
with status 1 where a state breaks it, or where leaving out a sync breaks nothing.
"""
import http.client
import json
import os
import random
import re
import shutil
import subprocess
import sys
import tempfile
import threading
import time

from kept import held, model_held
from model import Server, answer_of
from outcomes import outcomes
from scripts import Requests

CALLS = "openat,close,pwrite64,write,writev,sendto,sendmsg,fsync,fdatasync,ftruncate"
HEX = re.compile(r"\\x([0-9a-f]{2})")
WHOLE = re.compile(r"^(\d+)\s+(\w+)\((.*)\)\s+= (-?\d+)")
BEGUN = re.compile(r"^(\d+)\s+(\w+)\((.*) <unfinished \.\.\.>$")
ENDED = re.compile(r"^(\d+)\s+<\.\.\. (\w+) resumed>(.*)\)\s+= (-?\d+)")


def bytes_in(text):
    """The bytes of the quoted text that the arguments of a call have."""
    quoted = re.search(r'"((?:\\x[0-9a-f]{2})*)"', text)
    return bytes.fromhex("".join(HEX.findall(quoted.group(1)))) if quoted else b""


def calls_of(trace):
    """The calls of a trace, each as it ended: its name, its arguments and its answer."""
    begun = {}
    with open(trace, errors="replace") as lines:
        for line in lines:
            if found := WHOLE.match(line):
                yield found.group(2), found.group(3), int(found.group(4))
            elif found := BEGUN.match(line):
                begun[found.group(1)] = found.group(3)
            elif found := ENDED.match(line):
                yield found.group(2), begun.pop(found.group(1), "") + found.group(3), int(found.group(4))


def events_of(trace, path):
    """What happens to the file at a path and to its log, and what is written elsewhere: each event in order."""
    names, where = {path: "file", path + "-wal": "log", os.path.dirname(path): "folder"}, {}
    for name, args, answer in calls_of(trace):
        if answer < 0:
            continue
        if name == "openat":
            opened = os.path.join(os.path.dirname(path), bytes_in(args).decode(errors="replace"))
            where[answer] = names.get(os.path.normpath(opened))
            if where[answer] in ("file", "log"):
                yield "made", where[answer], None, None
            continue
        handle = int(args.split(",")[0].split(")")[0])
        which = where.get(handle)
        if name == "close":
            where.pop(handle, None)
        elif name == "pwrite64" and which:
            yield "write", which, int(args.rsplit(",", 1)[1]), bytes_in(args)[:answer]
        elif name == "ftruncate" and which:
            yield "cut", which, int(args.rsplit(",", 1)[1]), None
        elif name in ("fsync", "fdatasync") and which:
            yield "sync", which, None, None
        elif name in ("write", "writev", "sendto", "sendmsg") and which is None:
            yield "told", handle, None, bytes_in(args)[:answer]


def applied(content, change):
    """The content after a write or a cut."""
    kind, at, data = change
    if kind == "cut":
        return content[:at] + bytes(max(0, at - len(content)))
    content = content + bytes(max(0, at - len(content)))
    return content[:at] + data + content[at + len(data):]


class OnDisk:
    """A file as a disk may hold it: what was synced, or None where it may not be there, and the changes since then."""

    def __init__(self):
        self.synced, self.changes = None, []

    def take(self, event):
        kind, _, at, data = event
        if kind == "made":
            self.synced = b"" if self.synced is None else self.synced
        elif kind == "sync":
            for change in self.changes:
                self.synced = applied(self.synced, change)
            self.changes = []
        else:
            self.changes.append((kind, at, data))

    def ways(self):
        """What may be left of the changes."""
        all_of, last = self.changes, self.changes[-1:]
        half = [(kind, at, data[:len(data) // 2]) if kind == "write" else (kind, at, data) for kind, at, data in last]
        return {"none": [], "all": all_of, "second": all_of[1::2], "last": last, "but last": all_of[:-1], "half": all_of[:-1] + half}

    def content(self, way):
        content = self.synced
        if content is not None:
            for change in self.ways()[way]:
                content = applied(content, change)
        return content


PAIRS = [(way, way) for way in ("none", "all", "second", "last", "but last", "half")] + [("none", "all"), ("all", "none")]


def states_of(events, skips=lambda sync: False):
    """Each state that a crash may leave, with how much was told before. A sync is left out where it is to be skipped."""
    disk, told, syncs = {"file": OnDisk(), "log": OnDisk()}, 0, 0
    for number, event in enumerate(events):
        kind, which = event[0], event[1]
        if kind == "told":
            told += 1
            yield number, told, None, None
            continue
        if which not in disk:
            continue
        if kind == "sync":
            syncs += 1
            if skips((which, syncs)):
                continue
        disk[which].take(event)
        for one, other in PAIRS:
            yield number, told, disk["file"].content(one), disk["log"].content(other)


def opened(program, folder, file, log):
    """What the program keeps that opens these, or why it does not open."""
    path = os.path.join(folder, "left.db")
    for end, content in (("", file), ("-wal", log)):
        if os.path.exists(path + end):
            os.remove(path + end)
        if content is not None:
            with open(path + end, "wb") as out:
                out.write(content)
    run = subprocess.run([program, "feed", path], input=b"", stdout=subprocess.PIPE)
    if run.returncode != 0:
        return f"it does not open: {run.stdout.decode(errors='replace').strip()}, status {run.returncode}"
    return held(path, folder)


def traced(program, words, folder):
    """The command that runs the program under strace."""
    trace = os.path.join(folder, "trace")
    return trace, ["strace", "-f", "-xx", "-s", "10000000", "-e", f"trace={CALLS}", "-o", trace, program, *words]


# ---- feed

def books_of(requests, seen):
    """The cells and the length of the book after so many requests, and those that the next one may add."""
    server, books = Server(), []
    for number, request in enumerate([*requests, None]):
        ways = outcomes(server, [request], [None]) if request else [server]
        books.append([model_held(way) for way in ways] if seen(number) else None)
        if request is not None:
            answer_of(server, request)
    return books


def fed(program, folder, requests):
    """The events of a run that is fed with requests, its answers with their numbers of lines in the place of what was told."""
    path = os.path.join(folder, "fed.db")
    trace, command = traced(program, ["feed", path], folder)
    text = "".join(json.dumps(request) + "\n" for request in requests)
    run = subprocess.run(command, input=text.encode(), stdout=subprocess.PIPE, check=True)
    server = Server()
    if run.stdout.decode() != "".join(answer_of(server, request) + "\n" for request in requests):
        sys.exit("the requests were answered otherwise")
    events, lines = [], 0
    for event in events_of(trace, path):
        if event[0] != "told":
            events.append(event)
        elif event[1] == 1 and (ended := event[3].count(b"\n")):
            events += [("told", 1, None, None)] * ended
            lines += ended
    assert lines == len(requests), (lines, len(requests))
    return events


def broken_of(program, folder, events, books, moments, skips=lambda sync: False):
    """How many states were opened, and the first that breaks the promise."""
    known, count = {}, 0
    for number, told, file, log in states_of(events, skips):
        if file is None and log is None or not moments(number) or books[told] is None:
            continue
        state = hash((file, log))
        if state not in known:
            known[state] = opened(program, folder, file, log)
            count += 1
        if known[state] not in books[told]:
            what = known[state] if isinstance(known[state], str) else f"{known[state][1]} entries"
            return count, f"after event {number}, with {told} requests answered, a crash leaves {what}"
    return count, None


def check_feed(program, folder, chance):
    server = Server()
    drawn = Requests(chance, server, closes=7)
    requests = []
    for _ in range(24):
        request = drawn.next()
        drawn.note(request, json.loads(answer_of(server, request).split(" ", 1)[1]))
        requests.append(request)
    requests.append({"closeBook": True})
    events = fed(program, folder, requests)
    books = books_of(requests, lambda number: True)
    count, broken = broken_of(program, folder, events, books, lambda number: True)
    if broken:
        sys.exit(f"feed: {broken}")
    print(f"feed: {len(requests)} requests, {len(events)} writes, syncs and answers, {count} states of a disk: each is the book", flush=True)
    syncs = sum(event[0] == "sync" for event in events)
    _, broken = broken_of(program, folder, events, books, lambda number: True, lambda sync: sync[0] == "log")
    if broken is None:
        sys.exit("without the syncs of the log nothing breaks: the check sees nothing")
    missed = [at for at in range(syncs // 2, syncs // 2 + 6) if broken_of(program, folder, events, books, lambda number: True, lambda sync: sync[1] == at)[1]]
    if not missed:
        sys.exit("without one sync nothing breaks: the check sees too little")
    print(f"feed: without the log's syncs it breaks ({broken}); of six syncs that were left out one by one {len(missed)} are missed", flush=True)


def check_copied(program, folder):
    """A log that is copied into the file while it is fed."""
    body = {"clientGroupID": "g", "profileID": "p", "schemaVersion": ""}
    calls = [("createList", {"id": "l", "name": "Home", "ownerID": "ann"})]
    calls += [("createTodo", {"id": f"t{n}", "listID": "l", "text": "milk " * 60, "complete": False}) for n in range(420)]
    requests = [
        {"user": "ann", "push": {"pushVersion": 1, **body, "mutations": [{"clientID": "c", "id": number, "name": name, "args": args}]}}
        for number, (name, args) in enumerate(calls, 1)
    ]
    events = fed(program, folder, requests)
    made = next(number for number, event in enumerate(events) if event[0] == "told")
    copied = [number for number, event in enumerate(events) if event[:2] == ("write", "file") and number > made]
    told = [number for number, event in enumerate(events) if event[0] == "told"]
    while_fed = [number for number in copied if number < told[-1]]
    if not while_fed:
        sys.exit("the log was not copied while the program was fed: give it more requests")
    chosen = {number for at in (while_fed[0], while_fed[-1], copied[-1]) for number in range(at - 12, at + 14)} | set(copied[:: max(1, len(copied) // 40)])
    needed = {sum(at < number for at in told) for number in chosen}
    books = books_of(requests, lambda number: number in needed)
    count, broken = broken_of(program, folder, events, books, lambda number: number in chosen)
    if broken:
        sys.exit(f"a log that is copied: {broken}")
    print(f"feed: a log copied into the file, {len(copied)} writes of it, {count} states of a disk: each is the book", flush=True)


# ---- serve

PUSHES = 12


def push_all(port, client, count):
    """Pushes mutations over one connection, one after the other."""
    conn = http.client.HTTPConnection("127.0.0.1", port)
    for number in range(1, count + 1):
        call = ("createTodo", {"id": f"{client}{number}", "listID": client, "text": "milk", "complete": False})
        if number == 1:
            call = ("createList", {"id": client, "name": "Home", "ownerID": "ann"})
        mutation = {"clientID": client, "id": number, "name": call[0], "args": call[1]}
        body = {"pushVersion": 1, "clientGroupID": "g" + client, "profileID": "p", "schemaVersion": "", "mutations": [mutation]}
        conn.request("POST", "/push", json.dumps(body), {"Authorization": "k-ann"})
        if conn.getresponse().read() != b"{}":
            raise ValueError("a push was refused")
    conn.close()


def check_serve(program, folder, accounts):
    path, port, clients = os.path.join(folder, "served.db"), 8097, ("a", "b", "c", "d")
    words = ["serve", path, "--accounts", accounts, "--port", str(port), "--workers", "4", "--connections", "1"]
    trace, command = traced(program, words, folder)
    run = subprocess.Popen(command, stdout=subprocess.DEVNULL)
    time.sleep(1.5)
    threads = [threading.Thread(target=push_all, args=(port, client, PUSHES)) for client in clients]
    for thread in threads:
        thread.start()
    for thread in threads:
        thread.join()
    run.wait(60)
    # each connection is one socket, and each of its answers one write; which client's it is, the order of the book tells
    events, answers = [], {}
    for event in events_of(trace, path):
        if event[0] != "told":
            events.append(event)
        elif event[3].startswith(b"HTTP/1.1 200"):
            answers[event[1]] = answers.get(event[1], 0) + 1
            events.append(("told", event[1], None, None))
    if sorted(answers.values()) != [PUSHES] * len(clients):
        sys.exit(f"the answers of four connections were not read: {answers}")
    print(f"serve: {PUSHES * len(clients)} pushes over four connections, {served_states(program, folder, events, clients)} states of a disk: each answered push stands, and of each connection at most one more", flush=True)


def acts_of(found, client):
    """How many acts of a client the cells have."""
    entries = [json.loads(text) for (shelf, _), text in found.items() if shelf == 1]
    return sum(entry[0] == "act" and entry[3] == client for entry in entries)


def served_states(program, folder, events, clients):
    """How many states were opened: each has of each connection what it was answered, and at most one more."""
    known, told, disk = {}, {}, {"file": OnDisk(), "log": OnDisk()}
    for number, event in enumerate(events):
        if event[0] == "told":
            told[event[1]] = told.get(event[1], 0) + 1
            continue
        if event[1] not in disk:
            continue
        disk[event[1]].take(event)
        for one, other in PAIRS:
            state = disk["file"].content(one), disk["log"].content(other)
            if state == (None, None):
                continue
            if hash(state) not in known:
                known[hash(state)] = opened(program, folder, *state)
            found = known[hash(state)]
            if isinstance(found, str):
                sys.exit(f"serve: after event {number} a crash leaves what does not open: {found}")
            left = sorted(acts_of(found[0], client) for client in clients)
            least = sorted([*told.values(), *[0] * (len(clients) - len(told))])
            if any(not low <= high <= low + 1 for low, high in zip(least, left)):
                sys.exit(f"serve: after event {number} a crash leaves {left}, and {least} were answered")
    return len(known)


def main():
    if len(sys.argv) < 2:
        sys.exit(__doc__)
    program = os.path.abspath(sys.argv[1])
    seed = int(sys.argv[2]) if len(sys.argv) > 2 else 1
    if shutil.which("strace") is None:
        print("strace is not there: not checked")
        return
    accounts = os.path.join(os.path.dirname(os.path.dirname(os.path.abspath(__file__))), "examples", "accounts.toml")
    with tempfile.TemporaryDirectory() as folder:
        rooms = [os.path.join(os.path.realpath(folder), name) for name in ("feed", "copied", "serve")]
        for room in rooms:
            os.mkdir(room)
        check_feed(program, rooms[0], random.Random(seed))
        check_copied(program, rooms[1])
        check_serve(program, rooms[2], accounts)


if __name__ == "__main__":
    main()
