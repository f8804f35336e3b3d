#!/usr/bin/env python3
"""Checks the pokes of `rv serve` as WebSocket clients see them: checks/pokes.py PROGRAM [--slow]

PROGRAM is the program `rv` as it was built. Each part starts it anew over a store in memory, with 4 workers and 4 poke jobs where it
says nothing else, and prints a line with what was seen. With --slow the clients that say nothing have their part too, and those that have
left where nothing happens, which takes some three minutes. Ends with status 1 at the first thing that is wrong.
"""
import random
import socket
import sys
import threading
import time
from concurrent.futures import ThreadPoolExecutor

from held import Held
from links import (BINARY, CLOSE, LATE, PING, POKE, PONG, QUIET, SOON, TEXT, Link, Server, answer, connected, request, reset, same, size_of,
                   taken, wrong)

NORMAL, POLICY_VIOLATION = (code.to_bytes(2, "big") for code in (1000, 1008))


def check_sharing(program):
    """A push pokes its own user, and who sees another list, set of shares or todo after it, within a second; and nobody else."""
    server = Server(program, connections=4)
    ann, bob, cat = (server.link(user) for user in ("ann", "bob", "cat"))
    for link in (ann, bob, cat):
        link.quiet("a link as nothing has happened")
    server.push("ann", "createList", {"id": "l-ann", "name": "Home", "ownerID": "ann"})
    ann.poked("ann after her list")
    bob.quiet("bob after a list that he doesn't see")
    server.push("ann", "createShare", {"id": "s-ann", "listID": "l-ann", "userID": "bob"})
    bob.poked("bob after he was given a share")
    bob.quiet("bob after one poke")
    start = time.monotonic()
    server.add_todo("ann", "t")
    bob.poked("bob after a todo in a list that he sees")
    took = time.monotonic() - start
    later = server.link("bob")
    later.poked("a link of bob's that comes later")
    later.quiet("that link after its first poke")
    server.push("ann", "deleteShare", "s-ann")
    bob.poked("bob as the share goes")
    server.push("ann", "updateTodo", {"id": "t", "text": "bread"})
    bob.quiet("bob after the share went")
    cat.quiet("cat after what others shared")
    server.push("cat", "paint", None)
    cat.poked("cat after her own mutation, which is no call")
    server.ends(6)
    print(f"sharing: bob was poked {took * 1000:.1f} ms after a push began, and not before and after the share; cat only by her own push")


def check_extents(program):
    """A push to a list that a user's extent leaves out pokes others and not that user, whose own setExtent pokes nobody else."""
    server = Server(program, connections=4)
    server.add_list("ann", "bob")
    ann, bob = server.link("ann"), server.link("bob")
    for link in (ann, bob):
        link.poked("a link as it begins")
    server.push("bob", "setExtent", {"lists": ["l-bob"]})
    bob.poked("bob after his extent")
    ann.quiet("ann after bob's extent")
    server.add_todo("ann", "t")
    ann.poked("ann after a todo of hers")
    server.push("ann", "updateTodo", {"id": "t", "text": "bread"})
    ann.poked("ann after a change of that todo")
    bob.quiet("bob after a todo in a list that his extent leaves out")
    server.push("bob", "updateTodo", {"id": "t", "complete": True})
    ann.poked("ann after bob's change in a list that his extent leaves out")
    bob.poked("bob after his own change there")
    server.push("bob", "setExtent", {"lists": ["l-ann", "l-bob"]})
    bob.poked("bob after an extent that names the list")
    ann.quiet("ann after that extent")
    server.push("ann", "updateTodo", {"id": "t", "text": "milk"})
    bob.poked("bob after a change in a list that his extent names")
    server.ends(9)
    print("extents: bob was poked by a list of ann's only while his extent named it, and ann by no extent of his")


def check_denied(program):
    """A first message that names no account is answered by a close with 1008, and then the job serves the next client."""
    refused = (CLOSE, POLICY_VIOLATION)
    cases = (
        ("a wrong key", TEXT, b"k-an", [refused]),
        ("no key", TEXT, b"", [refused]),
        ("a key of 4,096 bytes", TEXT, b"k" * 4096, [refused]),
        ("a text that is no UTF-8", TEXT, b"k-ann\xff", [refused]),
        ("a binary message", BINARY, b"k-ann", [refused]),
        ("a ping", PING, b"hello", [(PONG, b"hello"), refused]),
        ("a pong", PONG, b"hello", [refused]),
        ("a close", CLOSE, NORMAL, [(CLOSE, NORMAL)]),
    )
    server = Server(program, pokes=1, connections=len(cases) + 2)
    for what, kind, payload, told in cases:
        link = Link(server.poke_port).greeted().send(kind, payload)
        for frame in told:
            same(f"{what} as the first message", frame, link.frame(LATE))
        link.ended(f"{what} as the first message")
    with connected(server.poke_port) as stream:
        stream.sendall(b"GET / HTTP/1.1\r\nHost: localhost\r\n\r\n")
        same("a request for no upgrade", b"", stream.recv(4096))
    link = server.link("ann")
    server.push("ann", "paint", None)
    link.poked("the next client of the same job")
    server.ends(1)
    print(f"denied: {len(cases)} first messages that name no account ended their links as they must, and the one job served the next client")


def leave_by_close(link):
    """As a browser does: a close, and the stream stays until the other side ends it."""
    link.send(CLOSE, NORMAL)


def leave_by_end(link):
    link.stream.shutdown(socket.SHUT_WR)


def leave_by_reset(link):
    reset(link.stream)


def leave_after_words(link):
    """What the client has sent stands before its end."""
    link.send(PING, b"hello")
    time.sleep(QUIET)
    link.stream.close()


LEAVES = (leave_by_close, leave_by_end, leave_by_reset)


def check_leaving(program):
    """After a client has left, the next push that would poke it frees its job, and the next client is served that still waits."""
    server = Server(program, pokes=1, connections=20)
    server.add_list("ann", "bob")
    for leave in (*LEAVES, leave_after_words):
        link = server.link("bob")
        link.poked("a link as it begins")
        gone = [Link(server.poke_port) for _ in LEAVES]
        for leave_early, early in zip(LEAVES, gone):
            leave_early(early)
        waiting = Link(server.poke_port)
        waiting.waits("a client where no job is free")
        leave(link)
        server.add_todo("ann", leave.__name__)
        waiting.greeted(SOON).send(TEXT, b"k-ann").poked(f"the client that waited, after {leave.__name__}")
        if link.stream.fileno() >= 0:
            link.ended(f"the link of a client after {leave.__name__}")
        reset(waiting.stream)
        server.push("ann", "paint", None)
    server.ends(11)
    print("leaving: after a close, an end of the stream, a reset, and a ping and an end, one push freed the one job, for the first client that "
          "still waited")


def check_quiet(program):
    """Clients of a user whom nothing concerns come and go: whatever anybody does frees the jobs of those that have left."""
    server = Server(program, connections=20)
    acts = 0
    for leave in (*LEAVES, leave_after_words):
        gone = [server.link("cat") for _ in range(4)]
        for link in gone:
            link.quiet("a link of a user whom nothing concerns", 0.02)
            leave(link)
        waiting = Link(server.poke_port)
        waiting.waits("a client where those that left hold all jobs")
        server.push("ann", "paint", None)
        acts += 1
        waiting.greeted(SOON).send(TEXT, b"k-ann").poked(f"the client that waited, after {leave.__name__}")
        reset(waiting.stream)
        server.push("bob", "paint", None)
        acts += 1
    server.ends(acts)
    print(f"quiet: {2 * acts} clients of a user whom nothing concerns had left, and one act of somebody else freed their jobs")


def check_sixteen(program):
    """Sixteen links are served at once, and a seventeenth client when one has left."""
    server = Server(program, pokes=16, connections=3)
    server.add_list("ann", "bob")
    links = [server.link(("ann", "bob")[number % 2]) for number in range(16)]
    for link in links:
        link.poked("a link as it begins")
    last = Link(server.poke_port)
    last.waits("a seventeenth client")
    start = time.monotonic()
    server.add_todo("ann", "t")
    for link in links:
        link.poked("one of sixteen links")
    took = time.monotonic() - start
    for link in links:
        link.quiet("one of sixteen links after its poke", 0.05)
    reset(links.pop().stream)
    server.push("ann", "deleteTodo", "t")
    for link in links:
        link.poked("one of fifteen links")
    last.greeted(SOON).send(TEXT, b"k-bob").poked("the seventeenth client")
    server.ends(5)
    print(f"sixteen: all links had their poke {took * 1000:.1f} ms after a push began, and a seventeenth client the place of one that left")


def check_crossing(program, rounds=120):
    """A push that is under way as a client leaves is answered, and no job is lost."""
    server = Server(program, connections=rounds)
    server.add_list("ann", "bob")
    chance, usual, crossed = random.Random(17), 0.001, 0
    for number in range(rounds):
        link, leave = server.link("bob"), LEAVES[number % 3]
        link.poked("a link as it begins")
        sent = server.next_push("ann", "createTodo", {"id": f"t{number}", "listID": "l-ann", "text": "milk", "complete": False})
        with server.http() as stream:
            stream.sendall(sent[:-1])
            leaver = threading.Timer(chance.uniform(0, 2 * usual), leave, (link,))
            leaver.start()
            start = time.monotonic()
            stream.sendall(sent[-1:])
            same("a push as a client leaves", b"{}", answer(stream))
            usual = time.monotonic() - start
            leaver.join()
        server.push("ann", "deleteTodo", f"t{number}")
        if leave is not leave_by_reset:
            told = link.frame(LATE)
            crossed += told == POKE
            same("the link of a client that left", "ended", link.frame(LATE) if told == POKE else told)
            link.stream.close()
    links = [server.link("bob") for _ in range(4)]
    for link in links:
        link.poked("a link after all others have left")
    server.ends(3 + 2 * rounds)
    print(f"crossing: {rounds} pushes were answered as clients left, {crossed} of whom had the poke first, and all four jobs were free then")


def check_end(program):
    """As each worker has had its connections, links have their last poke and end, without a close, and the program ends."""
    server = Server(program, connections=3)
    server.add_list("ann", "bob")
    links = [server.link(user) for user in ("ann", "bob", "bob", "ann")]
    for link in links:
        link.poked("a link as it begins")
    waiting = Link(server.poke_port)
    waiting.waits("a fifth client")
    while server.left > 1:
        server.http().close()
    for link in links:
        link.quiet("a link before the last connection")
    start = time.monotonic()
    server.add_todo("ann", "t")
    for link in links:
        link.poked("a link after the last push")
        link.ended("a link at the end")
    same("what a client that waits is told at the end", "ended", waiting.take(bool, LATE))
    server.ends(4)
    took = (time.monotonic() - start) * 1000
    print(f"the end: links had the last push's poke and ended; the program had ended {took:.0f} ms after the last connection began")


def check_idle(program):
    """Links are served where other jobs have no client, and where one worker of two has left; the program ends though its clients stay."""
    Server(program, connections=1).ends(0)
    # the one connection of its start is all that a worker has here, so one of the two has left
    server = Server(program, workers=2, connections=1)
    ann, bob = server.link("ann"), server.link("bob")
    for link in (ann, bob):
        link.quiet("a link as nothing has happened")
    with server.http() as stream:
        taken(stream, server.next_push("ann", "paint", None))
        ann.poked("a client that says nothing, where two jobs have no client", LATE)
        later = server.link("ann")
        later.poked("a link as it begins", LATE)
        last = server.link("bob")
        taken(stream, server.next_push("ann", "paint", None))
        for link in (ann, later):
            link.poked("a client that says nothing, where each job has a client", LATE)
        for link in (bob, last):
            link.quiet("a link of somebody else")
    server.ends(2)
    for link in (ann, bob, later, last):
        link.ended("the link of a client that stays")
    print("idle: links had their pokes beside jobs without a client, and as one worker of two had left; the program ended though clients stayed")


def check_aborts(program, most=300):
    """Clients that abort, before a job has them, before the answer to their handshake and after it: the one job serves the next."""
    server = Server(program, pokes=1, workers=1, connections=2 * most)
    for number in range(most):
        if number % 30 == 0:
            reset(Link(server.poke_port).greeted().stream)
        elif number % 30 < 10:
            reset(Link(server.poke_port).stream)
        else:
            reset(connected(server.poke_port))
    link = server.link("ann")
    server.push("ann", "paint", None)
    link.poked("the client after those that aborted", LATE)
    server.ends(1)
    print(f"aborts: {most} clients aborted at the one job, and it served the next")


def waits(server, held, link):
    """Whether the answer to a push waits for its client, though the push has run. Where it doesn't, its poke came, once it was written."""
    end, has_run = time.monotonic() + LATE, False
    while time.monotonic() < end:
        told = link.frame(QUIET)
        if told == POKE:
            if not held.has_all(SOON):
                wrong(f"a poke, where {held.told - held.written()} bytes of the answer to its push are not written yet")
            return False
        same("what a client is told as an answer waits", "nothing", told)
        if has_run and not held.has_all():
            return True
        has_run = server.pull("cat", "g-cat", None)["lastMutationIDChanges"]["c"] == server.last["c"]
    return wrong("a push that has no poke")


def paints(numbers):
    """A push of mutations with these ids."""
    acts = [{"clientID": "c", "id": number, "name": "paint", "args": None} for number in numbers]
    return request("push", "cat", {"pushVersion": 1, "clientGroupID": "g-cat", "mutations": acts})


def next_half(server):
    """A push of which the first mutation runs, and the second is refused, so that its answer is a longer one."""
    server.last["c"] += 1
    return paints([server.last["c"], 900000])


def held_up(server, link, asks):
    """A connection on which the answer to a push waits for its client; and how much could be written before."""
    for _ in range(5):
        held = Held(server.port)
        room = held.room(*asks[0])
        reset(held.stream)
        held = Held(server.port)
        filled = held.fill(asks[:-1], room)
        while filled and held.asked < 99:
            held.ask(next_half(server), asks[-1][1])
            if waits(server, held, link):
                return held, room
        reset(held.stream)
    return wrong("no answer to a push waits for its client")


def prepared(server):
    """Pulls whose answers are large, middling and small, and a push at last, each with the size of its answer, which stays."""
    # from here on places and ids have four digits, and orders seven
    server.last["c"] = 1000
    asks = [paints(range(1, 1001))]
    for user, size in (("ann", 16000), ("bob", 4000), ("dan", 700)):
        server.push(user, "createList", {"id": f"l-{user}", "name": "n" * size, "ownerID": user})
        asks.append(request("pull", user, {"pullVersion": 1, "clientGroupID": f"g-{user}", "cookie": 1000000}))
    asks.append(next_half(server))
    with server.http() as stream:
        return [(sent, size_of(stream, sent)) for sent in asks][1:]


def check_order(program):
    """A poke comes once the answer to its push is written: where that waits for its client, so does the poke. A pull that waits holds up none."""
    server = Server(program)
    asks = prepared(server)
    link = server.link("cat")
    link.poked("a link as it begins", LATE)
    held, room = held_up(server, link, asks)
    held.read()
    link.poked("the client once the answer is read", LATE)
    held = Held(server.port)
    held.room(*asks[0])
    link = server.link("ann")
    link.poked("a link as it begins", LATE)
    server.push("ann", "createList", {"id": "last", "name": "Home", "ownerID": "ann"})
    link.poked("a client whose pull waits to be read", LATE)
    pulled = server.pull("ann", "g-ann-2", None)["patch"]
    same("whether the next pull after a poke has the push", True, "list/last" in [change.get("key") for change in pulled])
    server.kill()
    print(f"order: with {room} bytes written ahead the answer to a push waited for its client, and no poke came before it was written")


def check_limit(program, most=10000):
    """Each of 10,000 pushes, one after the other, has its poke. Then the session ends without a close, and its job is free."""
    server = Server(program, pokes=1, connections=26)
    link, start = server.link("ann"), time.monotonic()
    for at in range(0, most, 100):
        with server.http() as stream:
            for number in range(at + 1, at + 101):
                taken(stream, server.next_push("ann", "paint", None))
                link.poked(f"the client after push {number}", LATE)
    link.ended(f"the link after {most} pokes", SOON)
    took = time.monotonic() - start
    server.link("ann").poked("the next client of the same job")
    server.ends(most)
    print(f"limit: {most} pushes had a poke each in {took:.1f} s, and then the link ended and the one job served the next client")


class Writer:
    """A client that changes one todo again and again, over connections of 100 requests each."""

    def __init__(self, server, owner, todo):
        self.server, self.owner, self.todo, self.count, self.stream = server, owner, todo, 0, None

    def push(self, count):
        for _ in range(count):
            if self.count % 100 == 0:
                self.stream = self.server.http()
            self.count += 1
            args = {"id": self.todo, "text": f"text {self.count}"}
            taken(self.stream, self.server.next_push(self.owner, "updateTodo", args, f"c-{self.todo}"))


class Listener:
    """A client that pulls after each poke and at no other time."""

    def __init__(self, server, user, owner):
        self.server, self.user, self.owner, self.link = server, user, owner, server.link(user)
        self.view, self.cookie, self.pokes, self.running = {}, None, 0, None

    def run(self, over):
        while not over.is_set():
            told = self.link.frame(QUIET)
            if told != "nothing":
                same(f"what {self.user} is told", POKE, told)
                self.pokes += 1
                pulled = self.server.pull(self.user, f"h-{self.user}", self.cookie)
                self.view, self.cookie = apply(pulled["patch"], self.view), pulled["cookie"]

    def comes_to(self, writers):
        """Waits until its view shows what these have pushed last: all that it can go by are its pokes."""
        end, pushed = time.monotonic() + LATE, last_texts(writers, self.owner)
        while (texts := todo_texts(self.view, self.owner)) != pushed:
            if self.running.done():
                self.running.result()
            if time.monotonic() > end:
                wrong(f"{self.user} has {texts} after the last poke, where {pushed} was pushed")
            time.sleep(0.001)


def last_texts(writers, owner):
    return [f"text {writer.count}" for writer in writers if writer.owner == owner]


def todo_texts(view, owner):
    return [view.get(f"todo/{letter}-{owner}", {}).get("text") for letter in "tu"]


def apply(patch, view):
    """The view after a pull's patch."""
    view = dict(view)
    for change in patch:
        if change["op"] == "clear":
            view = {}
        elif change["op"] == "put":
            view[change["key"]] = change["value"]
        else:
            del view[change["key"]]
    return view


def play(writers, listeners, rounds, each):
    """In each round all writers push at once, and then each once alone. After each of these all who listen come to what was pushed last."""
    over = threading.Event()
    with ThreadPoolExecutor(len(writers) + len(listeners)) as pool:
        try:
            for listener in listeners:
                listener.running = pool.submit(listener.run, over)
            for _ in range(rounds):
                for count, pushers in ((each - 1, writers), *((1, [writer]) for writer in writers)):
                    for pushing in [pool.submit(writer.push, count) for writer in pushers]:
                        pushing.result()
                    for listener in listeners:
                        listener.comes_to(writers)
        finally:
            over.set()
        for listener in listeners:
            listener.running.result()


def check_many(program, rounds=250, each=10):
    """Of 10,000 pushes no client that listens misses one after which nothing else comes. At the end its view is what a pull from nothing shows."""
    # a worker for each client, so that a pull doesn't wait for the end of a connection that pushes, which would hide a poke that is missing
    server, writers, listeners, pushes = Server(program, workers=8), [], [], 2 * rounds * each
    for owner, other in (("ann", "bob"), ("cat", "dan")):
        server.add_list(owner, other)
        server.add_todo(owner, f"u-{owner}")
        writers += [Writer(server, owner, f"{letter}-{owner}") for letter in "tu"]
        listeners += [Listener(server, user, owner) for user in (owner, other)]
    start = time.monotonic()
    play(writers, listeners, rounds, each)
    took = time.monotonic() - start
    for listener in listeners:
        fresh = apply(server.pull(listener.user, f"f-{listener.user}", None)["patch"], {})
        same(f"what a pull from nothing shows {listener.user}", last_texts(writers, listener.owner), todo_texts(fresh, listener.owner))
        same(f"what {listener.user} has after the last poke", fresh, listener.view)
        if listener.pokes > 1 + pushes:
            wrong(f"{listener.user} had {listener.pokes} pokes, one as it began, and {pushes} pushes")
    server.kill()
    told = ", ".join(f"{listener.user} {listener.pokes}" for listener in listeners)
    print(f"many: {2 * pushes} pushes in {rounds} rounds and {took:.1f} s, half of them seen by each; pokes: {told}; "
          "each view came to the last state each time")


def check_silence(program):
    """A client that says nothing, before the handshake or after it, loses its link after a minute, and at the end too."""
    server = Server(program, pokes=2, connections=4)
    start = time.monotonic()
    mute, greeted, waiting = connected(server.poke_port), Link(server.poke_port).greeted(), Link(server.poke_port)
    waiting.waits("a client beside two that say nothing")
    mute.settimeout(60 + LATE)
    same("what a client is told that asks for no handshake", b"", mute.recv(4096))
    greeted.ended("the link of a client that names no user")
    took = time.monotonic() - start
    if took < 59:
        wrong(f"clients that say nothing lost their links after {took:.1f} s")
    server.push("ann", "paint", None)
    waiting.greeted().send(TEXT, b"k-ann").poked("the client that waited")
    last, start = Link(server.poke_port).greeted(), time.monotonic()
    server.ends(1, 60 + LATE)
    last.ended("a link at the end that names no user")
    print(f"silence: two clients lost their links after {took:.1f} s; one more held up the program's end for {time.monotonic() - start:.1f} s")


def check_reading(program):
    """What a client sends is read at each ring: a ping is answered, other messages mean nothing, and one that is too long ends its link."""
    server = Server(program, connections=4)
    ann, bob = server.link("ann"), server.link("bob")
    for link in (ann, bob):
        link.quiet("a link as it begins")
    ann.send(PING, b"hello").send(TEXT, b"k-bob").send(BINARY, b"x").send(PONG, b"")
    bob.send(TEXT, b"y" * 4097)
    for link in (ann, bob):
        link.quiet("a link where nothing has rung")
    server.push("ann", "paint", None)
    same("the first frame after a ring", {POKE, (PONG, b"hello")}, {ann.frame(SOON), ann.frame(SOON)})
    ann.quiet("a link after its poke and its pong")
    bob.ended("the link of a client that sent a message that is too long")
    for _ in range(200):
        ann.send(TEXT, b"z")
    for _ in range(4):
        server.push("ann", "paint", None)
        ann.poked("a link after many messages")
    server.ends(5)
    print("reading: a ping was answered at the next ring, a message of 4,097 bytes ended its link, and 200 others meant nothing")


def check_minute(program):
    """Where nobody does anything a client that is there is pinged after a minute, and one that has left is found then."""
    server = Server(program, pokes=len(LEAVES) + 1, connections=2)
    there = server.link("cat")
    gone = [server.link("cat") for _ in LEAVES]
    for leave, link in zip(LEAVES, gone):
        link.quiet("a link of a user whom nothing concerns")
        leave(link)
    start = time.monotonic()
    waiting = [Link(server.poke_port) for _ in LEAVES]
    for link in waiting:
        link.waits("a client where those that left hold all jobs")
    for link in waiting:
        link.greeted(60 + SOON)
    took = time.monotonic() - start
    for link in waiting:
        link.send(TEXT, b"k-bob").quiet("a link in the place of one that left")
    same("what a client that is there is sent", (PING, b""), there.frame(2 * SOON))
    there.send(PONG, b"")
    there.send(CLOSE, NORMAL)
    last = Link(server.poke_port)
    last.waits("a client where all jobs are held")
    server.push("ann", "paint", None)
    last.greeted(SOON).send(TEXT, b"k-bob")
    server.ends(1)
    print(f"minute: {len(LEAVES)} clients that had left were found after {took:.1f} s in which nothing happened, and one that was there was pinged")


def main():
    words = [word for word in sys.argv[1:] if word != "--slow"]
    if len(words) != 1:
        sys.exit("usage: checks/pokes.py PROGRAM [--slow]")
    checks = [check_sharing, check_extents, check_denied, check_idle, check_aborts, check_leaving, check_quiet, check_reading, check_sixteen, check_crossing,
              check_order, check_end, check_limit, check_many]
    for check in checks + [check_silence, check_minute] * ("--slow" in sys.argv):
        check(words[0])
        sys.stdout.flush()


if __name__ == "__main__":
    try:
        main()
    finally:
        for server in Server.running:
            server.kill()
