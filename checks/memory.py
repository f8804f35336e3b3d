#!/usr/bin/env python3
"""Refuses memory at each allocation in turn: checks/memory.py PROGRAM [PORT]

PROGRAM is the program `rv` as it was built, PORT the first of 4,000 ports that are tried (21000). Needs gcc. The program takes all
memory by malloc and realloc of the C library, to which it is linked as it starts; so a library that stands before it (LD_PRELOAD,
refusing.c) refuses the n-th of these calls, whichever thread makes it, for n from 1 until a run has none left to refuse. A limit of the
address space would refuse only what is large.

`feed memory` is fed five scripts, line by line, and `serve` over a file a push and a pull over HTTP. A client sends again what is
answered 503. No run may end by a signal; a refusal gives 503 `{"error":"memory"}`, or status 8 with the text `memory`; every other answer
is the one that comes where nothing is refused, and of `serve` the file then holds just what was answered 200. Where SQLite is refused
memory while it ends a transaction, that may have happened: so then the answer is 503 `{"error":"keeper"}`, or, as the store is opened,
status 4 with the text `keeper`; both are counted apart. Ends with status 1 at the first run that does otherwise.
"""
import collections
import concurrent.futures
import functools
import itertools
import json
import os
import pathlib
import socket
import subprocess
import sys
import tempfile
import time

from serving import ACCOUNTS, PULL, PULLED, PUSH, request

HERE = pathlib.Path(__file__).parent
AT_A_TIME = 8
# how a run may come out of which an allocation is refused
ENDED, UNOPENED, UNNEEDED = "status 8", "status 4", "not needed"
REFUSED, DOUBTED = '503 {"error":"memory"}', '503 {"error":"keeper"}'


class Client:
    """The lines that ann and bob send, each the next of its client or a pull with the cookie that its user was answered last."""

    def __init__(self):
        self.acts, self.cookies = {}, {}

    def push(self, user, *calls):
        mutations = []
        for name, args in calls:
            self.acts[user] = self.acts.get(user, 0) + 1
            mutations.append({"clientID": f"c-{user}", "id": self.acts[user], "name": name, "args": args})
        return {"user": user, "push": {"pushVersion": 1, "clientGroupID": f"g-{user}", "profileID": "p", "schemaVersion": "", "mutations": mutations}}

    def pull(self, user):
        return {"user": user, "pull": {"pullVersion": 1, "clientGroupID": f"g-{user}", "profileID": "p", "schemaVersion": "", "cookie": self.cookies.get(user)}}

    def note(self, line, answer):
        if "pull" in line and answer.startswith("200 "):
            self.cookies[line["user"]] = json.loads(answer[4:])["cookie"]


def first_sync():
    """A push and a pull."""
    client = Client()
    yield client, client.push("ann", ("createList", {"id": "l1", "name": "Home", "ownerID": "ann"}))
    yield client, client.pull("ann")


def difference():
    """A pull with dels and puts: of rows that were removed, changed and made, and of a list that is shared no more."""
    client = Client()
    todos = [("createTodo", {"id": f"t{number}", "listID": "l1", "text": "milk", "complete": False}) for number in range(4)]
    yield client, client.push("ann", ("createList", {"id": "l1", "name": "Home", "ownerID": "ann"}), *todos)
    yield client, client.push("ann", ("createShare", {"id": "s1", "listID": "l1", "userID": "bob"}))
    yield client, client.pull("ann")
    yield client, client.pull("bob")
    yield client, client.push("bob", ("deleteTodo", "t0"), ("updateTodo", {"id": "t1", "text": "bread", "complete": True}))
    yield client, client.push("ann", ("deleteTodo", "t2"), ("createTodo", {"id": "t9", "listID": "l1", "text": "x" * 500, "complete": False}))
    yield client, client.pull("bob")
    yield client, client.push("ann", ("deleteShare", "s1"))
    yield client, client.pull("ann")
    yield client, client.pull("bob")


def left_out():
    """A list that an extent leaves out, in which a todo is made meanwhile, and that comes again."""
    client = Client()
    yield client, client.push("ann", ("createList", {"id": "l1", "name": "Home", "ownerID": "ann"}), ("createShare", {"id": "s1", "listID": "l1", "userID": "bob"}))
    yield client, client.pull("bob")
    yield client, client.push("bob", ("setExtent", {"lists": ["l3", "l2", "l3"]}))
    yield client, client.pull("bob")
    yield client, client.push("ann", ("createTodo", {"id": "t1", "listID": "l1", "text": "milk", "complete": False}))
    yield client, client.pull("bob")
    yield client, client.push("bob", ("setExtent", {"lists": ["l2", "l1"]}))
    yield client, client.pull("bob")
    yield client, client.push("bob", ("setExtent", {"lists": None}))
    yield client, client.pull("bob")


def sixteen_looks():
    """Seventeen pulls of a group, each after a push: the first look is kept no more."""
    client = Client()
    yield client, client.push("ann", ("createList", {"id": "l1", "name": "Home", "ownerID": "ann"}))
    for number in range(17):
        yield client, client.pull("ann")
        yield client, client.push("ann", ("createTodo", {"id": f"t{number}", "listID": "l1", "text": "milk", "complete": False}))
    yield client, client.pull("ann")


def closed_book():
    """A book with rows, an extent among them, clients and groups that is closed, goes on, and is closed again."""
    client = Client()
    close = {"closeBook": True}
    yield client, client.push("ann", ("createList", {"id": "l1", "name": "Home", "ownerID": "ann"}), ("createShare", {"id": "s1", "listID": "l1", "userID": "bob"}))
    yield client, client.pull("ann")
    yield client, client.pull("bob")
    yield client, close
    yield client, client.pull("bob")
    yield client, client.push("bob", ("createTodo", {"id": "t1", "listID": "l1", "text": "milk", "complete": False}), ("setExtent", {"lists": ["l1"]}))
    yield client, close
    yield client, client.pull("bob")
    yield client, client.pull("ann")


class Failure(Exception):
    """What a run did that it may not."""


class Run:
    """A run of the program in which the allocation of this number is refused, from 1; 0 is none."""

    def __init__(self, program, library, call, words, stdin):
        self.told, told = os.pipe()
        more = {"LD_PRELOAD": str(library), "REFUSED_CALL": str(call), "REFUSED_TOLD": str(told)}
        words = [program, *words]
        self.process = subprocess.Popen(words, stdin=stdin, stdout=subprocess.PIPE, env={**os.environ, **more}, pass_fds=[told])
        os.close(told)

    def answer(self, text):
        """The answer to one line that is fed; an empty text where there is none."""
        try:
            self.process.stdin.write(text)
            self.process.stdin.flush()
        except BrokenPipeError:
            return ""
        return self.process.stdout.readline().decode()

    def end(self, seconds=60):
        """The status, and what was written last."""
        try:
            rest, _ = self.process.communicate(timeout=seconds)
        except subprocess.TimeoutExpired:
            self.process.kill()
            raise Failure(f"it has not ended after {seconds} seconds")
        if self.process.returncode < 0:
            raise Failure(f"it ended by signal {-self.process.returncode}")
        return self.process.returncode, rest.decode()

    def was_refused(self):
        """Whether there was the allocation; to be asked once, after the end."""
        told = os.read(self.told, 1)
        os.close(self.told)
        return told != b""


class Came:
    """What came of a run: the answers but for refusals, these, the status, what was written last, and whether an allocation was refused."""

    def __init__(self, run, answers, refusals, last=""):
        self.answers, self.refusals = answers, refusals
        self.status, rest = run.end()
        self.last, self.was_refused = last + rest, run.was_refused()

    def outcome(self, wanted, at_end, is_file=False):
        """How it came out, where these are the answers, and this is written at the end, if nothing is refused, over a file or not."""
        if not self.was_refused:
            return None
        if wanted[:len(self.answers)] != self.answers:
            raise Failure(f"other answers: {self.answers}")
        if (self.status, self.last, self.refusals) == (8, "memory\n", []):
            return ENDED
        if is_file and (self.status, self.last, self.answers, self.refusals) == (4, "keeper\n", [], []):
            return UNOPENED
        if (self.status, self.last, len(self.answers)) == (0, at_end, len(wanted)) and len(self.refusals) <= 1:
            return self.refusals[0] if self.refusals else UNNEEDED
        raise Failure(f"status {self.status}, {len(self.answers)} answers, refusals {self.refusals}, at last {self.last!r}")


def fed(start, call, script):
    """What comes of a script that is fed line by line."""
    run = start(call, ["feed", "memory"], subprocess.PIPE)
    answers, refusals, last = [], [], ""
    for client, line in script():
        text = (json.dumps(line) + "\n").encode()
        answer = run.answer(text)
        if answer == REFUSED + "\n":
            refusals.append(REFUSED)
            answer = run.answer(text)
        if not answer[:3].isdigit():
            last = answer
            break
        answers.append(answer)
        client.note(line, answer)
    return Came(run, answers, refusals, last)


def response_of(connection):
    """The status and the body of a response, and whether the connection closes after it; None where there is none."""
    got = b""
    while b"\r\n\r\n" not in got:
        piece = connection.recv(65536)
        if not piece:
            return None
        got += piece
    head, _, body = got.partition(b"\r\n\r\n")
    fields = dict(line.split(": ", 1) for line in head.decode().split("\r\n")[1:])
    while len(body) < int(fields["Content-Length"]):
        body += connection.recv(65536)
    return f"{head.decode().split(' ')[1]} {body.decode()}", "Connection" in fields


class Asking:
    """Sends requests over connections, the next where the one before has closed."""

    def __init__(self, process, port):
        self.process, self.port, self.connection, self.refusals = process, port, None, []

    def connect(self):
        """A connection, or none where the program has ended."""
        for _ in range(4000):
            try:
                connection = socket.create_connection(("127.0.0.1", self.port))
                connection.settimeout(20)
                return connection
            except (ConnectionRefusedError, ConnectionResetError):  # it doesn't listen yet, or stopped listening in between
                if self.process.poll() is not None:
                    return None
                time.sleep(0.002)
        raise Failure("it doesn't listen")

    def once(self, text):
        self.connection = self.connection or self.connect()
        if self.connection is None:
            return None
        try:
            self.connection.sendall(text)
            response = response_of(self.connection)
        except (BrokenPipeError, ConnectionResetError):
            response = None
        if response is None or response[1]:
            self.close()
        return None if response is None else response[0]

    def answer(self, text):
        """The answer to a request that is sent again where it was refused; None where the program has ended."""
        answer = self.once(text)
        if answer in (REFUSED, DOUBTED):
            self.refusals.append(answer)
            answer = self.once(text)
        return answer

    def close(self):
        if self.connection is not None:
            self.connection.close()
        self.connection = None

    def close_all(self):
        """Closes, and connects until the program has had all its connections."""
        self.close()
        while self.process.poll() is None:
            try:
                socket.create_connection(("127.0.0.1", self.port)).close()
            except (ConnectionRefusedError, ConnectionResetError):
                pass
            time.sleep(0.002)


SENT = [request("/push", PUSH), request("/pull", PULL)]
SERVED = ["200 {}", f"200 {PULLED}"]


def served(start, call, store, accounts, port):
    """What comes of a push and a pull that are served."""
    words = ["serve", str(store), "--accounts", str(accounts), f"--port={port}", "--workers=1", "--connections=3"]
    run = start(call, words, subprocess.DEVNULL)
    asking = Asking(run.process, port)
    answers = []
    for text in SENT:
        answer = asking.answer(text)
        if answer is None:
            break
        answers.append(answer)
    asking.close_all()
    return Came(run, answers, asking.refusals)


def check_store(program, store, answers):
    """What was answered 200 stands, and nothing else; a run that is not refused anything goes on from there."""
    run = subprocess.run([program, "check", store], stdout=subprocess.PIPE)
    wanted = (0, f"ok {len(answers)}\n") if store.exists() else (4, "keeper\n")
    if (run.returncode, run.stdout.decode()) != wanted:
        raise Failure(f"a check of the file: status {run.returncode}, {run.stdout.decode()!r}, after {len(answers)} answers")


def counted(name, run):
    """How runs come out, from the first call on until one has none left to refuse; some at a time."""
    def tried(call):
        try:
            return run(call)
        except Failure as failure:
            return Failure(f"{name}, call {call}: {failure}")

    counts, calls = {}, itertools.count(1)
    with concurrent.futures.ThreadPoolExecutor(AT_A_TIME) as pool:
        while None not in counts:
            for outcome in pool.map(tried, itertools.islice(calls, 4 * AT_A_TIME)):
                if isinstance(outcome, Failure):
                    sys.exit(str(outcome))
                counts[outcome] = counts.get(outcome, 0) + 1
    del counts[None]
    print(f"{name}: {told(counts)}", flush=True)
    return counts


def told(counts):
    return ", ".join(f"{many} {outcome}" for outcome, many in counts.items())


def feeds(start, script):
    """How runs over a script come out."""
    wanted = fed(start, 0, script)
    if (wanted.status, wanted.last, wanted.refusals) != (0, "", []):
        sys.exit(f"{script.__name__}, nothing refused: status {wanted.status}, {wanted.last!r}")
    return counted(script.__name__, lambda call: fed(start, call, script).outcome(wanted.answers, ""))


def serves(program, start, folder, first_port):
    """How runs come out that serve."""
    accounts = folder / "accounts.toml"
    accounts.write_text(ACCOUNTS)

    def run(call):
        store = folder / f"{call}.db"
        came = served(start, call, store, accounts, first_port + call % 4000)
        outcome = came.outcome(SERVED, "entries 2\n", is_file=True)
        check_store(program, store, came.answers)
        for file in folder.glob(f"{call}.db*"):
            file.unlink()
        return outcome

    return counted("serve", run)


def main():
    program = os.path.abspath(sys.argv[1])
    first_port = int(sys.argv[2]) if len(sys.argv) > 2 else 21000
    with tempfile.TemporaryDirectory() as folder:
        folder = pathlib.Path(folder)
        library = folder / "refusing.so"
        subprocess.run(["gcc", "-shared", "-fPIC", "-O2", "-Wall", "-o", library, HERE / "refusing.c"], check=True)
        start = functools.partial(Run, program, library)
        totals = collections.Counter()
        for script in (first_sync, difference, left_out, sixteen_looks, closed_book):
            totals.update(feeds(start, script))
        totals.update(serves(program, start, folder, first_port))
    print(f"{sum(totals.values())} refusals, no signal: {told(totals)}")


if __name__ == "__main__":
    main()
