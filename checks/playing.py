"""Plays a script on the program, beside the model: for checks/simulator.py.

What lines are sent as a whole is known before they are: the model says what each is to be answered, where the keeper fails too, and the
lines of each life, up to a restart, are played at one go, by `feed` or by `trial_runs`. Other scripts are played step by step: after each
the servers of the model stay that would have answered so. A step at which none is left is a difference.
"""
import json
import os
import select
import socket
import subprocess
import tempfile
import time

from kept import LONG, feed, held, model_held, reports_of, told_by
from model import Server
from outcomes import Failing, copied, line_of, outcomes, turn, turns_in
from scripts import USERS, Asker

# how many seconds an answer may take, and an end
LATE = 5
STOP = '{"stop":true}'
# the status of a program that can't have its port
NO_PORT = 9


class Difference(Exception):
    """A step at which the program does other than the model: its number, from 1, what was asked, what came and what was to come."""

    def __init__(self, number, asked, came, wanted):
        super().__init__(number)
        self.number, self.asked, self.came, self.wanted, self.played = number, asked, came, wanted, []


class Played:
    """What was played: each step with its number, what was asked and what came; and how many lives there were and cells were compared."""

    def __init__(self):
        self.steps, self.lives, self.cells = [], 0, 0


def compare_cells(found, wanted, number):
    """Compares cells and a generation with those of the servers that may be there. The first of these that has them."""
    for place, (cells, generation) in enumerate(wanted):
        if found == (cells, generation):
            return place
    cells, generation = wanted[0]
    if found[1] != generation:
        raise Difference(number, "the generation", found[1], " or ".join(str(other) for _, other in wanted))
    place = min((place for place in {*cells, *found[0]} if cells.get(place) != found[0].get(place)), key=lambda place: (place[0], place[1].encode()))
    raise Difference(number, f"the cell {place[0]} {place[1]}", found[0].get(place), cells.get(place))


def compare_reports(program, path, server, number):
    for name, wanted in reports_of(server).items():
        told = told_by(program, name, path)
        if told != (0, wanted):
            raise Difference(number, f"the report {name}", told, (0, wanted))


# ---- at one go


class Life:
    """A run of the program up to its end: how its keeper fails, its lines, what is to be answered, and what is kept then."""

    def __init__(self, number, server, fails):
        self.number, self.before, self.after, self.fails = number, model_held(server), None, fails
        self.lines, self.answers, self.asked, self.status = [], [], [], 0
        self.keeper = Failing(server)
        self.keeper.begin(fails)
        if ["open", 1] in fails or not self.keeper.opens():
            self.fail(number)

    def fail(self, number):
        """The server does not open: the run ends, and a line that comes then is not read."""
        self.lines.append('{"closeBook":true}')
        self.answers.append("keeper")
        self.asked.append((number, "an opening that fails"))
        self.status = 4

    def end(self):
        """What is in doubt is dropped, and what was kept stays."""
        self.keeper.drop()
        self.after = model_held(self.keeper.server)
        self.reports = reports_of(self.keeper.server)
        return self

    def ask(self, number, request):
        """Adds the line of a request. The body that it is to be answered with."""
        answer = self.keeper.answer(request)
        self.lines.append(json.dumps(request))
        self.asked.append((number, self.lines[-1]))
        self.answers.append(line_of(answer))
        return answer[1]

    def stop(self, number):
        self.lines.append(STOP)
        if not self.keeper.opens():
            self.fail(number)


def lives_of(script):
    """The lives that a script has. After a run that a failing opening has ended the steps go on in another."""
    options, steps = script
    server = Server()
    asker, life = Asker(server), Life(0, server, [])
    for number, step in enumerate(steps, 1):
        fails, do = step.get("fails", []), step["do"]
        if life.status != 0 or (do == "restart" and (options["store"] == "file" or options["program"] == "runs")):
            yield life.end()
            life = Life(number, server, fails if do == "restart" else [])
        life.keeper.begin(fails if do != "restart" else [])
        if do == "stop":
            life.stop(number)
        for one in step.get("steps", [step]):
            if one["do"] in ("push", "pull", "retire", "close") and life.status == 0:
                request = asker.request(one)
                asker.note(request, life.ask(number, request))
    yield life.end()


def compare_life(life, status, told, found, reports, played):
    """Compares what came of a life with what was to come: its answers and its status, the cells, where they are known, and the reports."""
    for (number, asked), came, wanted in zip(life.asked, [*told, *[None] * len(life.asked)], life.answers):
        if came != wanted:
            raise Difference(number, asked, came, wanted)
        played.steps.append((number, asked, came))
    last = life.asked[-1][0] if life.asked else life.number
    if (status, len(told)) != (life.status, len(life.answers)):
        raise Difference(last, "the status, and what is written besides", (status, told[len(life.answers):]), (life.status, []))
    played.lives += 1
    if found is None:
        return
    compare_cells(found, [life.after], last)
    played.cells += len(found[0])
    for name, lines in life.reports.items():
        if reports.get(name) != (0, lines):
            raise Difference(last, f"the report {name}", reports.get(name), (0, lines))


def play_fed(program, script, folder, played):
    """Plays a script by `feed`, the lines of each life at one go."""
    is_file = script[0]["store"] == "file"
    path = os.path.join(folder, "lists.db") if is_file else "memory"
    for life in lives_of(script):
        status, told = feed(program, path, life.lines)
        found = held(path, folder) if is_file else None
        reports = {name: told_by(program, name, path) for name in life.reports if is_file}
        compare_life(life, status, told, found, reports, played)


def case_of(number, life):
    """The lines of a case of `trial_runs` that plays a life."""
    cells, generation = life.before
    keeper = {(kind, at) for kind, at in life.keeper.fails}
    case = [f"== life {number}", f"generation-is {generation}"]
    case += [f"cell {shelf} {key} {body}" for (shelf, key), body in cells.items()]
    case += [f"{kind} {at}" for kind, at in sorted(keeper)] + ["open 1"] * (["open", 1] in life.fails)
    case += [*life.lines, "next", "held kept"]
    return case + [line for name in life.reports for line in (f"words rv {name} kept", "next")]


def parts_of(lines, life):
    """What a case printed: the answers and the status, the cells and the generation, and the reports."""
    ends = [at for at, line in enumerate(lines) if line.startswith("status ")]
    held_at = [line.split(" ")[0] for line in lines].index("generation")
    cells = {(int(line.split(" ", 2)[0]), line.split(" ", 2)[1]): line.split(" ", 2)[2] for line in lines[ends[0] + 1:held_at]}
    starts = [held_at, *ends[1:]]
    reports = {name: (int(lines[end][7:]), lines[start + 1:end]) for name, start, end in zip(life.reports, starts, ends[1:])}
    return int(lines[ends[0]][7:]), lines[:ends[0]], (cells, int(lines[held_at][11:])), reports


def play_runs(runs, script, folder, played):
    """Plays a script by `trial_runs`, each life as a case."""
    lives = list(lives_of(script))
    cases = [line for number, life in enumerate(lives) for line in case_of(number, life)]
    run = subprocess.run([runs], input="\n".join(["=== scripts", *cases, ""]).encode(), stdout=subprocess.PIPE, cwd=folder, timeout=LONG)
    told = run.stdout.decode().split("\n== life ")[1:]
    for number, life in enumerate(lives):
        if number >= len(told):
            raise Difference(life.number, f"life {number}", f"the status {run.returncode} of trial_runs", "its end")
        compare_life(life, *parts_of(told[number].rstrip("\n").split("\n")[1:], life), played)


# ---- step by step


class Fed:
    """`feed` over a store, a line at a time."""

    def __init__(self, program, path, folder, workers):
        self.words, self.got = [program, "feed", path], b""
        self.run = subprocess.Popen(self.words, stdin=subprocess.PIPE, stdout=subprocess.PIPE, bufsize=0)

    def write(self, line):
        try:
            self.run.stdin.write((line + "\n").encode())
        except BrokenPipeError:
            pass

    def line(self, seconds):
        """The next line that is written, None where none comes."""
        end = time.monotonic() + seconds
        while b"\n" not in self.got:
            ready, _, _ = select.select([self.run.stdout], [], [], max(0, end - time.monotonic()))
            piece = os.read(self.run.stdout.fileno(), 65536) if ready else b""
            if not piece:
                return None
            self.got += piece
        line, self.got = self.got.split(b"\n", 1)
        return line.decode()

    def ask(self, asked):
        for request in asked:
            self.write(json.dumps(request))
        return [self.line(LATE) for _ in asked]

    def stop(self):
        self.write(STOP)

    def kill(self, asked, wait):
        """Asks, and kills the program after so many seconds. What was answered by then."""
        for request in asked:
            self.write(json.dumps(request))
        time.sleep(wait)
        self.run.kill()
        return [self.line(LATE) for _ in asked]

    def end(self):
        """Ends the program, and reaps it. Its status, and what it wrote besides."""
        self.run.stdin.close()
        rest = self.line(LATE)
        try:
            return self.run.wait(LATE), rest
        except subprocess.TimeoutExpired:
            self.run.kill()
            return self.run.wait(), "no end"
        finally:
            self.run.stdout.close()


def ports():
    """Ports below those that outgoing connections get, in another order in each process."""
    first = os.getpid() * 7
    yield from (21500 + (first + at) % 10000 for at in range(10 ** 9))


class Served:
    """`serve` over a store, with a connection to each worker. Requests that have no route are asked of the store while it is not served."""

    PORTS = ports()

    def __init__(self, program, path, folder, workers):
        self.program, self.path, self.workers = program, path, workers
        self.accounts = os.path.join(folder, "accounts.toml")
        with open(self.accounts, "w") as accounts:
            accounts.write("".join(f'[[account]]\nkey = "k-{user}"\nuser = "{user}"\n' for user in USERS))
        self.start()

    def start(self):
        """Starts the program at a port that it gets, and has a connection to it."""
        self.turn, self.streams = 0, {}
        end = time.monotonic() + LATE
        while time.monotonic() < end:
            self.port = next(self.PORTS)
            words = [self.program, "serve", self.path, "--accounts", self.accounts, "--port", str(self.port), "--workers", str(self.workers),
                     "--connections", "1000000"]
            self.run = subprocess.Popen(words, stdin=subprocess.DEVNULL, stdout=subprocess.DEVNULL)
            while time.monotonic() < end and self.run.poll() is None:
                try:
                    self.stream(0)
                    return
                except ConnectionRefusedError:
                    time.sleep(0.002)
            if self.run.poll() != NO_PORT:
                return

    def stream(self, number):
        """The connection of this number, made where there is none."""
        if number not in self.streams:
            self.streams[number] = socket.create_connection(("127.0.0.1", self.port), timeout=LATE)
        return self.streams[number]

    def send(self, asked, numbers):
        """Sends requests, each on its connection, as long as there are connections."""
        try:
            for request, number in zip(asked, numbers):
                self.stream(number).sendall(self.bytes_of(request))
        except OSError:
            pass

    def bytes_of(self, request):
        word = "push" if "push" in request else "pull"
        body = json.dumps(request[word]).encode()
        head = f"POST /{word} HTTP/1.1\r\nAuthorization: k-{request['user']}\r\nContent-Length: {len(body)}\r\n\r\n"
        return head.encode() + body

    def answer(self, number):
        """The status and the body that come on a connection, None where they don't."""
        got, stream = b"", self.streams.get(number)
        if stream is None:
            return None
        try:
            while b"\r\n\r\n" not in got or len(got.split(b"\r\n\r\n", 1)[1]) < int(got.split(b"Content-Length: ", 1)[1].split(b"\r\n", 1)[0]):
                piece = stream.recv(65536)
                if not piece:
                    return None
                got += piece
        except OSError:
            return None
        head, body = got.split(b"\r\n\r\n", 1)
        if b"Connection: close" in head:
            self.streams.pop(number).close()
        return f"{head.split(b' ', 2)[1].decode()} {body.decode()}"

    def by_command(self, request):
        """What a command answers that closes the book or ends a group."""
        self.end()
        words = ["retire", self.path, request["retire"]] if "retire" in request else ["close-book", self.path]
        run = subprocess.run([self.program, *words], stdout=subprocess.PIPE)
        self.start()
        return run.stdout.decode().rstrip("\n")

    def ask(self, asked):
        if len(asked) == 1 and not ("push" in asked[0] or "pull" in asked[0]):
            return [self.by_command(asked[0])]
        numbers = [(self.turn + at) % self.workers for at in range(len(asked))]
        self.turn += 1
        self.send(asked, numbers)
        return [self.answer(number) for number in numbers]

    def stop(self):
        pass

    def kill(self, asked, wait):
        numbers = range(len(asked))
        self.send(asked, numbers)
        time.sleep(wait)
        self.run.kill()
        return [self.answer(number) for number in numbers]

    def end(self):
        """Ends the program, which would serve on. Its status where it has ended by itself."""
        for stream in self.streams.values():
            stream.close()
        self.streams, status = {}, self.run.poll()
        self.run.kill()
        self.run.wait()
        return status or 0, None


class Stepwise:
    """A script that is played step by step: the servers that may be there, and what clients know."""

    def __init__(self, program, script, folder, played):
        self.program, self.folder, self.played = program, folder, played
        self.options, self.steps = script
        self.is_file = self.options["store"] == "file"
        self.path = os.path.join(folder, "lists.db") if self.is_file else "memory"
        self.ways, self.asker, self.player = [Server()], Asker(Server()), None

    def begin(self):
        self.player = (Served if self.options["program"] == "serve" else Fed)(self.program, self.path, self.folder, self.options["workers"])
        self.played.lives += 1

    def take(self, number, asked, told, is_killed=False):
        """The servers stay that would have answered so. Where the program is not killed it is to answer."""
        is_answered = is_killed or None not in told
        left = [way for server in self.ways for way in outcomes(server, asked, told) if is_answered]
        if not left:
            server = copied(self.ways[0])
            wanted = [line_of(next(answer for at in range(max(1, turns_in(one))) if (answer := turn(server, one, at)))) for one in asked]
            raise Difference(number, "\n".join(map(json.dumps, asked)), "\n".join(map(str, told)), "\n".join(wanted))
        self.ways = [way for at, way in enumerate(left) if not any(way.book == other.book for other in left[:at])]
        for request, answer in zip(asked, told):
            if answer is not None:
                self.asker.note(request, json.loads(answer.split(" ", 1)[1]))
        self.played.steps += [(number, json.dumps(request), answer) for request, answer in zip(asked, told)]

    def look(self, number):
        """What the file keeps is what one of the servers has; the first that has it stays."""
        wanted = [model_held(way) for way in self.ways]
        self.ways = [self.ways[compare_cells(held(self.path, self.folder), wanted, number)]]
        self.played.cells += len(wanted[0][0])

    def end(self, number, is_killed=False):
        """The program ends, and what it leaves is looked at: one that is killed may not have made its file yet."""
        ended = self.player.end()
        if ended not in ((0, None), (-9, None)):
            raise Difference(number, "the end: its status, and what it wrote besides", ended, (0, None))
        if self.is_file:
            self.look(number)
            if not is_killed or os.path.exists(self.path):
                compare_reports(self.program, self.path, self.ways[0], number)

    def play(self, number, step):
        do, inner = step["do"], step.get("steps", [step])
        self.asker.server = self.ways[0]
        if do == "stop" or do == "restart" and not self.is_file:
            return self.player.stop()
        if do == "restart":
            self.end(number)
            return self.begin()
        asked = [self.asker.request(one) for one in inner]
        if self.options["program"] == "serve" and not self.is_file and not all("user" in request for request in asked):
            return None
        if do == "kill" and self.is_file:
            self.take(number, asked, self.player.kill(asked, step["wait"]), is_killed=True)
            self.end(number, is_killed=True)
            return self.begin()
        together = [asked] if self.options["program"] == "serve" else [[request] for request in asked]
        for some in together:
            self.take(number, some, self.player.ask(some))
        if len(self.ways) > 1 and self.is_file:
            self.look(number)

    def run(self):
        self.begin()
        try:
            for number, step in enumerate(self.steps, 1):
                self.play(number, step)
            self.end(len(self.steps))
        finally:
            self.player.run.kill()
            self.player.run.wait()


def play(program, runs, script):
    """Plays a script over a fresh store. What was played; a Difference, where there is one, with what was played before it."""
    options, played = script[0], Played()
    with tempfile.TemporaryDirectory() as folder:
        try:
            if options["program"] == "runs":
                play_runs(runs, script, folder, played)
            elif options["whole"]:
                play_fed(program, script, folder, played)
            else:
                Stepwise(program, script, folder, played).run()
        except Difference as difference:
            difference.played = played.steps
            raise
        except (subprocess.TimeoutExpired, ValueError, LookupError) as trouble:
            difference = Difference(len(script[1]), "what is written, and that there is an end", repr(trouble), "what can be read")
            difference.played = played.steps
            raise difference from trouble
    return played
