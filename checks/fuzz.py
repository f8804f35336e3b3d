#!/usr/bin/env python3
"""Sends the program input that was made by mutation of good input: checks/fuzz.py PROGRAM [SECONDS [SEED [KIND [JOB]]]]

PROGRAM is the program `rv` as it was built, SECONDS how long it goes on (60), SEED what it begins with (1), KIND the one kind that is
played (all). The kinds are

- `lines`: lines that are fed to `feed memory`, good ones among them, the last of a run mostly not of the form;
- `requests`: connections to `serve memory`, with heads and bodies that are good, mutated, cut, or of wrong lengths. Each connection goes
  to three servers, whole, a byte at a time, and cut by chance: the answers must be the same bytes, and as many as there are requests;
- `accounts`: accounts files, which are read by `serve`;
- `stores`: SQLite files, mutated as bytes or as cells, some with a log, which are read by `check`, and some by `feed`.

No run may end by a signal, or take two seconds and, tried again, ten; those above two are counted. All that is answered must be of
docs/protocol.md, statuses and texts. What was refused must leave nothing: of lines and requests the others alone, sent to a fresh server,
must be answered the same; files must hold what they held, but that a report makes the table in a file that has none. Whether a line is of the
form is said by Python's json. Accounts files that Python's tomllib reads otherwise are counted: it reads TOML 1.0 and numbers of any size,
and the program TOML 1.1 and numbers of 64 bits.

The inputs of a job follow from SEED, KIND and JOB alone. Where one fails, the three are told and the input is written to a file; with KIND
and JOB that job alone is done again. Ends with status 1 then.
"""
import collections
import contextlib
import functools
import json
import math
import multiprocessing
import os
import pathlib
import queue
import random
import re
import socket
import sqlite3
import subprocess
import sys
import tempfile
import time
import tomllib
import traceback

from holding import held, without_cells
from mutating import any_value, changed, json_text, mutant
from scripts import generated

# how many seconds a run may take, and how many where it is tried again, or a connection
LIMIT, LONGER_LIMIT = 2.0, 10.0
FIRST_PORT = 20000
FIELD = "(pushVersion|pullVersion|schemaVersion|profileID|clientGroupID|mutations|clientID|id|name|cookie)"
NUMBER = "(0|[1-9][0-9]*)"
PULLED = r'200 \{"cookie":(null|' + NUMBER + r'|\{.*\}),"lastMutationIDChanges":\{.*\},"patch":\[.*\]\}'
ANSWERS = [
    r"200 \{\}", PULLED,
    r'200 \{"error":"VersionNotSupported","versionType":"(push|pull|schema)"\}',
    r'200 \{"error":"ClientStateNotFound"\}',
    r'400 \{"error":"NotJson"\}',
    r'400 \{"error":"Field","field":"' + FIELD + r'"\}',
    r'403 \{"error":"(GroupOfOther|ClientOfOther)"\}',
    r'409 \{"error":"Future","expected":' + NUMBER + ',"got":' + NUMBER + r"\}",
    r'507 \{"at":9007199254740991,"error":"Limit","which":"order"\}',
]
OF_LINES = re.compile("|".join([*ANSWERS, r'200 \{"(retired|closed)":' + NUMBER + r"\}", r'404 \{"error":"NoGroup"\}']))
OF_REQUESTS = re.compile("|".join([
    *ANSWERS,
    r'400 \{"error":"BadHead"\}', r'431 \{"error":"HeadTooLarge"\}', r'501 \{"error":"CodingNotServed"\}', r'413 \{"error":"BodyTooLarge"\}',
    r'411 \{"error":"LengthRequired"\}', r'404 \{"error":"NoRoute"\}', r'405 \{"error":"OtherMethod"\}', r'401 \{"error":"Unauthorized"\}',
]))
# of these nothing at all may be kept
REFUSED = re.compile(r'(400|401|404|405) .*|200 \{"error":"VersionNotSupported".*')
SHELF_AND_KEY = r"damaged: (0 |[0-9]{1,3} [!-~]*)\n"


class Failure(Exception):
    """What went wrong, and the input."""

    def __init__(self, what, text):
        super().__init__(what)
        self.text = text


class Kind:
    """The jobs of a kind: what each needs, and what was done."""

    def __init__(self, program, folder, worker):
        self.program, self.folder, self.worker = program, folder, worker
        self.counts, self.slowest = collections.Counter(), 0.0

    def note_time(self, seconds):
        self.slowest = max(self.slowest, seconds)
        self.counts["above two seconds"] += seconds > LIMIT

    def run(self, words, text=b""):
        """The status of a run and what it wrote. One that takes too long has a second try, since the machine may have been slow."""
        for limit in (LIMIT, LONGER_LIMIT):
            start, run = time.monotonic(), None
            try:
                run = subprocess.run([self.program, *words], input=text, stdout=subprocess.PIPE, timeout=limit)
            except subprocess.TimeoutExpired:
                if limit == LONGER_LIMIT:
                    raise Failure(f"{words} took more than {limit} seconds", text)
            self.note_time(time.monotonic() - start)
            if run is None:
                continue
            if run.returncode < 0:
                raise Failure(f"{words} ended by signal {-run.returncode}", text)
            return run.returncode, run.stdout


def is_told(pattern, answer):
    """Whether an answer is one of the protocol's."""
    try:
        return pattern.fullmatch(answer) is not None and isinstance(json.loads(answer[4:]), dict)
    except ValueError:
        return False


def depth_of(value):
    inner = value.values() if isinstance(value, dict) else value if isinstance(value, list) else None
    return 0 if inner is None else 1 + max(map(depth_of, inner), default=0)


def is_plain(value):
    """Whether a value has no number beyond a float's and no half of a surrogate."""
    if isinstance(value, float):
        return math.isfinite(value)
    if isinstance(value, int) and not isinstance(value, bool):
        return abs(value) < 1 << 1024
    if isinstance(value, str):
        return not any("\ud800" <= sign <= "\udfff" for sign in value)
    if isinstance(value, dict):
        return all(is_plain(name) and is_plain(held) for name, held in value.items())
    return all(map(is_plain, value)) if isinstance(value, list) else True


def no_constant(_):
    raise ValueError("no JSON")


def is_of_form(line):
    """Whether a line is of the form up to its body."""
    try:
        value = json.loads(line.decode(), parse_constant=no_constant)
    except (ValueError, RecursionError):
        return False
    if not isinstance(value, dict) or depth_of(value) > 127 or not is_plain(value):
        return False
    if "stop" in value:
        return value == {"stop": True} and value["stop"] is True
    if "closeBook" in value:
        return value == {"closeBook": True} and value["closeBook"] is True
    if set(value) == {"retire"}:
        return isinstance(value["retire"], str) and 1 <= len(value["retire"].encode()) <= 128
    user = value.get("user")
    return set(value) in ({"user", "push"}, {"user", "pull"}) and isinstance(user, str) and 1 <= len(user.encode()) <= 64


@functools.cache
def input_of(seed):
    lines, _ = generated(seed, closes=10 * (seed % 2))
    return [json.loads(line) for line in lines]


def good_lines(chance, count):
    """The front of an input as clients send it, as values."""
    return input_of(chance.randrange(20))[:count]


class Lines(Kind):
    """Runs of `feed memory`."""

    def mutated_line(self, chance, value):
        """A line that is of the form, with a body that is mostly wrong."""
        word = next(word for word in ("push", "pull", "retire", "closeBook") if word in value)
        if word == "closeBook":
            return json_text(chance, value)
        if word == "retire":
            return json_text(chance, {"retire": chance.choice(["g0", "x" * 128, "zz", "é"])})
        return json_text(chance, {**value, word: changed(chance, value[word])})

    def last_line(self, chance, values):
        one, other = (json.dumps(chance.choice(values)).encode() for _ in range(2))
        return mutant(chance, one, other).replace(b"\n", b" ")

    def lines(self, chance):
        values = good_lines(chance, 15)
        lines = []
        for value in values:
            for _ in range(chance.choice([0, 1, 1, 2, 3])):
                lines.append(self.mutated_line(chance, value))
            lines.append(json.dumps(value).encode())
            if chance.randrange(20) == 0:
                lines.append(b'{"stop":true}')
        return [line for line in lines if is_of_form(line)], self.last_line(chance, values)

    def answered(self, lines, last):
        """What the program answers to lines of the form, and whether the last one is, too."""
        text = b"".join(line + b"\n" for line in lines) + last
        status, told = self.run(["feed", "memory"], text)
        answers = told.decode().split("\n")[:-1]
        is_wrong = status == 10
        if is_wrong:
            if answers[-1:] != [f"line {len(lines) + 1}"]:
                raise Failure(f"status 10, at last {answers[-1:]}, of {len(lines) + 1} lines", text)
            answers.pop()
        elif status != 0:
            raise Failure(f"status {status}", text)
        for answer in answers:
            if not is_told(OF_LINES, answer):
                raise Failure(f"an answer of no table: {answer}", text)
        return answers, is_wrong

    def job(self, chance):
        lines, last = self.lines(chance)
        answers, is_wrong = self.answered(lines, last)
        text = b"\n".join([*lines, last])
        if last and is_wrong == is_of_form(last):
            raise Failure(f"the last line is {'' if is_wrong else 'not '}refused", text)
        asked = [line for line in lines if line != b'{"stop":true}']
        count = len(asked) + (bool(last) and not is_wrong)
        if len(answers) != count:
            raise Failure(f"{len(answers)} answers to {count} lines", text)
        stay = [(line, answer) for line, answer in zip(asked, answers) if not REFUSED.fullmatch(answer)]
        again, _ = self.answered([line for line, _ in stay], b"")
        if again != [answer for _, answer in stay]:
            raise Failure("other answers where the refused lines are left out", text)
        self.counts["lines"] += len(lines) + 1
        self.counts["refused"] += len(asked) - len(stay)
        self.counts["not of the form"] += is_wrong


KEYS = """schemas = ["", "1"]
[[account]]
key = "k-ann"
user = "ann"
[[account]]
key = "k-bob"
user = "bob"
[[account]]
key = "k-cat"
user = "cat"
"""
RESPONSE = re.compile(rb"HTTP/1\.1 (\d{3}) [A-Z][A-Za-z ]*\r\nContent-Type: application/json\r\nContent-Length: (\d+)\r\n"
                      rb'(Allow: POST\r\n|WWW-Authenticate: Bearer realm="rv"\r\n)?(Connection: close\r\n)?\r\n')


class Request:
    """The bytes of a request. Where it is framed, it's known where it ends and whether the connection closes after it."""

    def __init__(self, text, is_framed=True, closes=False):
        self.text, self.is_framed, self.closes = text, is_framed, closes


class Answer:
    """A response: its bytes, its text as an answer line, where it has a body, and whether it closes."""

    def __init__(self, text, line, closes):
        self.text, self.line, self.closes = text, line, closes


def answers_in(text):
    """The responses that bytes are; the bytes must be nothing else."""
    answers, rest = [], text
    while rest:
        head = RESPONSE.match(rest)
        if head is None:
            raise Failure(f"no response: {rest[:200]}", text)
        # the answer to a HEAD request has no body
        length = int(head[2]) if rest[head.end():head.end() + 1] == b"{" else 0
        body = rest[head.end():head.end() + length]
        line = f"{int(head[1])} {body.decode()}"
        if len(body) != length or (length and not is_told(OF_REQUESTS, line)):
            raise Failure(f"an answer of no table: {rest[:head.end() + length]}", text)
        answers.append(Answer(rest[:head.end() + length], line, head[4] is not None))
        rest = rest[head.end() + length:]
    if any(answer.closes for answer in answers[:-1]):
        raise Failure("more after an answer that closes", text)
    return answers


class Requests(Kind):
    """Connections to servers."""

    CONNECTIONS = 60

    def __init__(self, program, folder, worker):
        super().__init__(program, folder, worker)
        self.accounts = folder / f"keys-{worker}.toml"
        self.accounts.write_text(KEYS)
        self.ports = 0

    def start(self, connections):
        """A server, and its port."""
        self.ports = (self.ports + 1) % 1000
        port = FIRST_PORT + 1000 * self.worker + self.ports
        words = ["serve", "memory", "--accounts", str(self.accounts), f"--port={port}", "--workers=1", f"--connections={connections}"]
        return subprocess.Popen([self.program, *words], stdin=subprocess.DEVNULL, stdout=subprocess.PIPE), port

    def head(self, chance, value, path, body):
        """A lawful head, in one of its ways; whether the connection closes after it; and whether the body is sent."""
        version, method = chance.choice(["1.1"] * 9 + ["1.0"]), chance.choice(["POST"] * 12 + ["GET", "PUT", "HEAD"])
        path = chance.choice([path] * 12 + [path + "?a=/push", "/other", path + "/"])
        has_body = method == "POST" or chance.randrange(2) == 0
        fields = [("Authorization", chance.choice(["k-" + value["user"]] * 15 + ["k", "k-ann "]))]
        if has_body:
            fields.append((chance.choice(["Content-Length", "content-length", "CONTENT-LENGTH"]), str(len(body))))
        closes = chance.randrange(20) == 0
        if closes:
            fields.append(("Connection", chance.choice(["close", "Close", "keep-alive, close"])))
        fields += [("X-" + chance.choice("abc"), "y" * chance.randrange(20)) for _ in range(chance.choice([0, 0, 0, 1, 3]))]
        chance.shuffle(fields)
        lines = "".join(f"{name}:{chance.choice(['', ' ', '  '])}{text}\r\n" for name, text in fields)
        return f"{method} {path} HTTP/{version}\r\n{lines}\r\n".encode(), closes or version == "1.0", has_body

    def body(self, chance, value, path, before):
        """A body: good, changed, mutated, or one that has a whole request in it."""
        good = json_text(chance, value[path[1:]])
        way = chance.randrange(10)
        if way < 4:
            return good
        if way < 7:
            return json_text(chance, changed(chance, value[path[1:]]))
        return mutant(chance, good, before) if way < 9 else chance.choice([before, good + before, json.dumps(any_value(chance)).encode()])

    def request(self, chance, value, before):
        path = "/push" if "push" in value else "/pull"
        body = self.body(chance, value, path, before)
        head, closes, has_body = self.head(chance, value, path, body)
        self.counts["heads"] += 1
        self.counts["bodies"] += has_body
        way = chance.randrange(10)
        if way == 0:
            return Request(mutant(chance, head, before) + body, False)
        if way == 1:
            lengths = [len(body) - 1, len(body) + 1, "+2", "", "0x2", "1 1", 4194304, 4194305, 2**64, "٢"]
            return Request(re.sub(rb"(?i)(content-length: *)\d+", rb"\g<1>" + str(chance.choice(lengths)).encode(), head) + body, False)
        return Request(head + (body if has_body else b""), True, closes)

    def connection(self, chance, values, before):
        """The requests of a connection, the last now and then cut."""
        requests = [self.request(chance, value, before) for value in values]
        if chance.randrange(8) == 0:
            text = requests[-1].text
            requests[-1] = Request(text[:chance.randrange(len(text))], False)
        return requests

    def connect(self, server, text):
        process, port = server
        for _ in range(2000):
            if process.poll() is not None:
                raise Failure(f"the server has ended with status {process.returncode}", text)
            try:
                connection = socket.create_connection(("127.0.0.1", port))
                connection.setsockopt(socket.IPPROTO_TCP, socket.TCP_NODELAY, 1)
                connection.settimeout(LONGER_LIMIT)
                return connection
            except ConnectionRefusedError:
                time.sleep(0.005)
        raise Failure("the server doesn't listen", text)

    def talk(self, server, text, sizes):
        """What a server answers to bytes that are sent in pieces of these sizes, and then end."""
        start, got, at = time.monotonic(), [], 0
        with self.connect(server, text) as connection:
            try:
                for size in sizes:
                    connection.sendall(text[at:at + size])
                    at += size
                connection.shutdown(socket.SHUT_WR)
            except OSError:
                # the program has closed before it took all; what it wrote is there
                pass
            try:
                while piece := connection.recv(65536):
                    got.append(piece)
            except ConnectionResetError:
                pass
            except TimeoutError:
                raise Failure(f"no end of the answers after {LONGER_LIMIT} seconds", text)
        self.note_time(time.monotonic() - start)
        return b"".join(got)

    def pieces(self, chance, text):
        """Sizes of pieces by chance."""
        sizes, left = [], len(text)
        while left > 0:
            sizes.append(min(left, chance.choice([1, 2, 3, 10, 50, 200])))
            left -= sizes[-1]
        return sizes

    def check_count(self, requests, answers, text):
        """There are as many answers as there are requests, as far as it's known where these end."""
        known, closed = 0, False
        for request in requests:
            if not request.is_framed or closed:
                break
            known, closed = known + 1, request.closes
        is_whole = closed or known == len(requests)
        if len(answers) < known or (is_whole and len(answers) > known):
            raise Failure(f"{len(answers)} answers to {known} requests{'' if is_whole else ' and more'}", text)

    def left(self, requests, answers):
        """The requests but for those that were refused, and the answers to them. After one of which the end isn't known all are left."""
        stay, told = [], []
        for at, request in enumerate(requests):
            if not request.is_framed or at >= len(answers):
                return stay + requests[at:], told + answers[at:]
            if answers[at].closes:
                return stay + [request], told + [answers[at]]
            if not REFUSED.fullmatch(answers[at].line):
                stay.append(request)
                told.append(answers[at])
        return stay, told

    def play(self, chance, servers, requests):
        """Sends a connection to all servers."""
        text = b"".join(request.text for request in requests)
        whole, bytewise, cut, rest = servers
        told = self.talk(whole, text, [len(text)])
        for server, sizes in ((bytewise, [1] * len(text)), (cut, self.pieces(chance, text))):
            if self.talk(server, text, sizes) != told:
                raise Failure("other answers where it is cut", text)
        answers = answers_in(told)
        self.check_count(requests, answers, text)
        stay, wanted = self.left(requests, answers)
        if self.talk(rest, b"".join(request.text for request in stay), [sum(len(request.text) for request in stay)]) != b"".join(answer.text for answer in wanted):
            raise Failure("other answers where the refused requests are left out", text)
        self.counts["connections"] += 1
        self.counts["answers"] += len(answers)

    def end(self, servers):
        """The servers end by themselves, and have entered as much as each other."""
        told = set()
        for process, _ in servers:
            out, _ = process.communicate(timeout=20)
            if process.returncode != 0:
                raise Failure(f"a server ended with status {process.returncode}, {out}", b"")
            told.add(out)
        if len(told) != 1:
            raise Failure(f"the servers have entered {told}", b"")

    def job(self, chance):
        values = [value for value in good_lines(chance, 500) if "retire" not in value and "closeBook" not in value]
        servers = [self.start(self.CONNECTIONS) for _ in range(4)]
        before = b"GET / HTTP/1.1\r\n\r\n"
        try:
            for _ in range(self.CONNECTIONS):
                many = chance.choice([1, 2, 3, 4])
                requests = self.connection(chance, [values[at % len(values)] for at in range(many)], before)
                values = values[many:] + values[:many]
                self.play(chance, servers, requests)
                before = requests[0].text
            self.end(servers)
        finally:
            for process, _ in servers:
                process.kill()
                process.wait()


GOOD_ACCOUNTS = [
    KEYS.encode(),
    b'# nobody\nschemas = []\n',
    b'schemas = ["1", \'2\', """3""", "\\u00e9"]\naccount = [{ key = "a", user = "b" }, { key = "c", user = "b", "more" = 1.5 }]\n',
    b'[[account]]\n"key" = "Bearer k"\nuser = \'ann\'\nsince = 1979-05-27T07:32:00Z\n\n[other]\nn = [0x10, 1_000, -inf, true]\n[other.table]\na.b = 1\n',
]
ACCOUNTS_TOLD = re.compile(rb"accounts: (bad|twice) (0|[1-9][0-9]*)\n")


def told_of_accounts(text):
    """What is to be written of an accounts file, by Python's tomllib."""
    try:
        value = tomllib.loads(text.decode())
    except (ValueError, RecursionError):
        return b"accounts: bad 0\n"
    schemas, accounts = value.get("schemas", []), value.get("account", [])
    if not isinstance(schemas, list) or not all(isinstance(schema, str) for schema in schemas) or not isinstance(accounts, list):
        return b"accounts: bad 0\n"
    keys = set()
    for number, account in enumerate(accounts, 1):
        sizes = {"key": 256, "user": 64}
        texts = {name: account.get(name) if isinstance(account, dict) else None for name in sizes}
        if not all(isinstance(texts[name], str) and 1 <= len(texts[name].encode()) <= most for name, most in sizes.items()):
            return f"accounts: bad {number}\n".encode()
        if texts["key"] in keys:
            return f"accounts: twice {number}\n".encode()
        keys.add(texts["key"])
    return b"keeper\n"


class Accounts(Kind):
    """Accounts files. A store that is a folder does not open, so a file that is right is told by status 4."""

    FILES = 50

    def job(self, chance):
        path = self.folder / f"accounts-{self.worker}.toml"
        words = ["serve", str(self.folder), "--accounts", str(path), "--port=1", "--workers=1", "--connections=1"]
        for _ in range(self.FILES):
            text = mutant(chance, chance.choice(GOOD_ACCOUNTS), chance.choice(GOOD_ACCOUNTS))
            path.write_bytes(text)
            try:
                status, told = self.run(words)
            except Failure as failure:
                raise Failure(str(failure), text)
            if status != {b"keeper\n": 4}.get(told, 3) or not (told == b"keeper\n" or ACCOUNTS_TOLD.fullmatch(told)):
                raise Failure(f"status {status}, {told}", text)
            if path.read_bytes() != text:
                raise Failure("the accounts file was changed", text)
            self.counts["files"] += 1
            self.counts["right"] += status == 4
            self.counts["otherwise than tomllib"] += told != told_of_accounts(text)


class Stores(Kind):
    """SQLite files."""

    FILES = 50
    REPORTS = ["check"] * 8 + ["lists", "activity"]

    def __init__(self, program, folder, worker):
        super().__init__(program, folder, worker)
        self.path = folder / f"store-{worker}.db"
        self.log = folder / f"store-{worker}.db-wal"
        self.good = [self.made(count, None) for count in (0, 4, 12, 30)] + [self.made(count, closing) for count, closing in ((12, 12), (30, 25))]
        self.good += [(self.packed(good), b"", b"") for good, _, _ in self.good for _ in range(5)]

    def made(self, count, closing):
        """The bytes of a store after so many lines, with a closing behind so many of them, and of the log that it has while it is open."""
        for file in (self.path, self.log):
            file.unlink(missing_ok=True)
        lines = [json.dumps(value) for value in good_lines(random.Random(count), count)]
        if closing is not None:
            lines.insert(closing, json.dumps({"closeBook": True}))
        process = subprocess.Popen([self.program, "feed", self.path], stdin=subprocess.PIPE, stdout=subprocess.PIPE)
        for line in lines:
            process.stdin.write(line.encode() + b"\n")
            process.stdin.flush()
            process.stdout.readline()
        while not self.path.exists():
            time.sleep(0.01)
        open_file, log = self.path.read_bytes(), self.log.read_bytes() if self.log.exists() else b""
        process.communicate()
        return self.path.read_bytes(), open_file, log

    def packed(self, text):
        """The file with pages of 512 bytes, which is small."""
        self.path.write_bytes(text)
        with contextlib.closing(sqlite3.connect(self.path)) as connection:
            connection.execute("PRAGMA journal_mode = DELETE")
            connection.execute("PRAGMA page_size = 512")
            connection.execute("VACUUM")
        return self.path.read_bytes()

    def by_cells(self, chance, text):
        """The file with one cell changed."""
        self.path.write_bytes(text)
        with contextlib.closing(sqlite3.connect(self.path)) as connection:
            connection.execute("PRAGMA journal_mode = MEMORY")
            rows = connection.execute("SELECT shelf, k, body FROM cell").fetchall() or [(1, b"0000000001", b"[]")]
            shelf, key, body = chance.choice(rows)
            other = chance.choice(rows)
            connection.execute("DELETE FROM cell WHERE shelf = ? AND k = ?", (shelf, key))
            way = chance.randrange(6)
            if way == 1:
                shelf = chance.choice([*range(11), 255, 256, -1, 2**63 - 1])
            if way == 2:
                key = mutant(chance, key, other[1])
            if way > 2:
                body = mutant(chance, body, other[2])
            if way > 0:
                connection.execute("INSERT OR REPLACE INTO cell VALUES (?, ?, ?)", (shelf, key, body))
            connection.commit()
        return self.path.read_bytes()

    def input(self, chance):
        """The bytes of a file and of its log, if it has one."""
        (good, open_file, log), (other, _, other_log) = chance.choice(self.good), chance.choice(self.good)
        way = chance.randrange(10)
        if way < 4:
            return self.by_cells(chance, good), None
        if way < 8 or not log:
            return mutant(chance, good, other), None
        return chance.choice([open_file, mutant(chance, open_file, other)]), mutant(chance, log, other_log)

    def put(self, text, log):
        self.path.write_bytes(text)
        self.log.unlink(missing_ok=True)
        if log is not None:
            self.log.write_bytes(log)

    def check_left(self, words, text):
        """What a run leaves of a file: what it held, but that the table is made where there is none. Each opening writes the generation
        again, so the bytes may change. Files that only one of the two libraries reads are counted."""
        now = held(self.path)
        self.put(text, None)
        before = held(self.path)
        if before == now:
            return
        if not isinstance(before, tuple):
            self.counts["read by the program alone"] += 1
        elif without_cells(before, now):
            self.counts["tables made"] += 1
        else:
            raise Failure(f"{words}: the file holds something else", text)

    def check_told(self, words, status, told, text):
        is_damaged = status == 5 and re.fullmatch(SHELF_AND_KEY, told)
        is_failed = (status, told) == (4, "keeper\n")
        if not (status == 0 or is_damaged or is_failed):
            raise Failure(f"{words}: status {status}, {told!r}", text)
        if words[0] == "check" and status == 0 and not re.fullmatch(r"ok (0|[1-9][0-9]*)\n", told):
            raise Failure(f"{words}: {told!r}", text)

    def fed(self, chance, status, told, text):
        """A store that a report has refused is refused by `feed` too; one that is good is fed."""
        line = json.dumps(chance.choice(good_lines(chance, 10))).encode() + b"\n"
        came, wrote = self.run(["feed", str(self.path)], line)
        wrote = wrote.decode()
        if status != 0:
            if (came, wrote) != (status, told):
                raise Failure(f"feed: status {came}, {wrote!r}, where a report has status {status}, {told!r}", text)
        elif came != 0 or not (is_told(OF_LINES, wrote.rstrip("\n")) or wrote == '503 {"error":"keeper"}\n'):
            raise Failure(f"feed: status {came}, {wrote!r}", text)
        self.counts["fed"] += 1

    def job(self, chance):
        for _ in range(self.FILES):
            text, log = self.input(chance)
            whole = text if log is None else text + b"\n-- the log:\n" + log
            self.put(text, log)
            words = [chance.choice(self.REPORTS), str(self.path)]
            try:
                status, told = self.run(words)
            except Failure as failure:
                raise Failure(str(failure), whole)
            told = told.decode(errors="replace")
            self.check_told(words, status, told, whole)
            if log is None and self.path.read_bytes() != text:
                self.check_left(words, text)
            if words[0] == "check" and chance.randrange(5) == 0:
                self.fed(chance, status, told, whole)
                if log is None and status != 0 and self.path.read_bytes() != text:
                    self.check_left(["feed"], text)
            self.counts["files"] += 1
            self.counts[{0: "sound", 4: "failed", 5: "damaged"}[status]] += 1


# each kind, and its share of the time
KINDS = {"lines": (Lines, 0.04), "requests": (Requests, 0.12), "accounts": (Accounts, 0.17), "stores": (Stores, 0.67)}


def do_job(kind, seed, name, number):
    kind.job(random.Random(f"{seed} {name} {number}"))


def work(program, folder, worker, workers, seed, name, seconds, results):
    """Does every so manieth job of a kind until the time is over, or one fails."""
    kind, number = KINDS[name][0](program, folder, worker), worker
    end = time.monotonic() + seconds
    while time.monotonic() < end:
        try:
            do_job(kind, seed, name, number)
        except Failure as failure:
            results.put((name, number, str(failure), failure.text))
            return
        except Exception:
            results.put((name, number, traceback.format_exc(), b""))
            return
        number += workers
    results.put((name, None, kind.counts, kind.slowest))


def failed(seed, name, number, what, text):
    path = os.path.join(tempfile.gettempdir(), f"fuzz-{seed}-{name}-{number}")
    with open(path, "wb") as file:
        file.write(text)
    sys.exit(f"{name}: {what}\nseed {seed}, kind {name}, job {number}; the input is in {path}")


def play(program, folder, seed, name, seconds):
    """The jobs of a kind, by as many workers as there are processors."""
    workers, results = os.cpu_count() or 1, multiprocessing.Queue()
    processes = [multiprocessing.Process(target=work, args=(program, folder, worker, workers, seed, name, seconds, results)) for worker in range(workers)]
    for process in processes:
        process.start()
    counts, slowest = collections.Counter(), 0.0
    try:
        for _ in processes:
            kind, number, what, more = results.get(timeout=seconds + 300)
            if number is not None:
                failed(seed, kind, number, what, more)
            counts.update(what)
            slowest = max(slowest, more)
    except queue.Empty:
        sys.exit(f"{name}: a worker has not ended")
    finally:
        for process in processes:
            process.terminate()
            process.join()
    return told_of(name, counts, slowest)


def told_of(name, counts, slowest):
    return f"{name}: " + ", ".join(f"{many} {what}" for what, many in counts.items()) + f", slowest {slowest * 1000:.0f} ms"


def main():
    program = os.path.abspath(sys.argv[1])
    seconds = float(sys.argv[2]) if len(sys.argv) > 2 else 60
    seed = int(sys.argv[3]) if len(sys.argv) > 3 else 1
    room = "/dev/shm" if os.path.isdir("/dev/shm") else None
    with tempfile.TemporaryDirectory(dir=room) as folder:
        folder = pathlib.Path(folder)
        if len(sys.argv) > 5:
            name, number = sys.argv[4], int(sys.argv[5])
            kind = KINDS[name][0](program, folder, 0)
            try:
                do_job(kind, seed, name, number)
            except Failure as failure:
                failed(seed, name, number, str(failure), failure.text)
            print(told_of(name, kind.counts, kind.slowest))
            return
        shares = {sys.argv[4]: 1.0} if len(sys.argv) > 4 else {name: share for name, (_, share) in KINDS.items()}
        told = []
        for name, share in shares.items():
            told.append(play(program, folder, seed, name, seconds * share))
            print(told[-1], flush=True)
    print("; ".join(told))


if __name__ == "__main__":
    main()
