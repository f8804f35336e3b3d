#!/usr/bin/env python3
"""Kills `rv serve` while 16 connections push and pull: checks/workers.py PROGRAM [KILLS [PORT]]

PROGRAM is the program `rv` as it was built, with 16 workers over a store in a file; KILLS how often it is killed (1,000), PORT the
first port that is tried (21180; one below those that outgoing connections get, which could be one of them). Each of 16 clients pushes
one mutation after another, and pulls after each third. At a moment by chance the program is killed, and started anew on the same file;
a client sends again what was not answered. After 25 kills the file is looked at, and a new one is begun: it is sound, and in its entries
each client's mutations stand once, in the order of their ids, all that were answered and at most one that was not; and each pull that
was answered with a new cookie stands at the cookie's place, with its order. Ends with status 1 at the first difference.
"""
import contextlib
import json
import pathlib
import random
import socket
import sqlite3
import subprocess
import sys
import tempfile
import threading
import time

CLIENTS = 16
ACCOUNTS = '[[account]]\nkey = "k-ann"\nuser = "ann"\n'


def request(path, body):
    text = json.dumps({"profileID": "p", "schemaVersion": "", **body})
    return f"POST {path} HTTP/1.1\r\nAuthorization: k-ann\r\nContent-Length: {len(text)}\r\n\r\n{text}".encode()


def push(client, number):
    """The request with a client's mutation of this number, from 1: a list, and todos in it."""
    if number == 1:
        name, args = "createList", {"id": f"l{client}", "name": "Home", "ownerID": "ann"}
    else:
        name, args = "createTodo", {"id": f"t{client}-{number}", "listID": f"l{client}", "text": "milk", "complete": False}
    mutation = {"clientID": f"c{client}", "id": number, "name": name, "args": args, "timestamp": 0.5}
    return request("/push", {"pushVersion": 1, "clientGroupID": f"g{client}", "mutations": [mutation]})


def pull(client, cookie):
    return request("/pull", {"pullVersion": 1, "clientGroupID": f"g{client}", "cookie": cookie})


def answered(connection, sent):
    """The body that a request is answered with, at status 200; nothing, where the connection is cut."""
    connection.sendall(sent)
    got = b""
    while b"\r\n\r\n" not in got:
        piece = connection.recv(65536)
        if not piece:
            return None
        got += piece
    head, body = got.split(b"\r\n\r\n", 1)
    lines = head.decode().split("\r\n")
    if lines[0] != "HTTP/1.1 200 OK":
        raise ValueError(f"answered {got!r}")
    length = int(next(line for line in lines if line.startswith("Content-Length: ")).split(": ")[1])
    while len(body) < length:
        piece = connection.recv(65536)
        if not piece:
            return None
        body += piece
    return json.loads(body)


class Client(threading.Thread):
    """Pushes one mutation after another, and pulls between, for as long as a store is checked."""

    def __init__(self, checks, number):
        super().__init__(daemon=True)
        self.checks, self.number, self.pushed, self.cookie, self.looks, self.wrong = checks, number, 0, None, {}, None

    def push_next(self, connection):
        body = answered(connection, push(self.number, self.pushed + 1))
        if body is None:
            return False
        if body != {}:
            raise ValueError(f"a push was answered {body}")
        self.pushed += 1
        return True

    def pull_next(self, connection):
        body = answered(connection, pull(self.number, self.cookie))
        if body is None:
            return False
        if body["cookie"] != self.cookie:
            self.cookie = body["cookie"]
            self.looks[int(self.cookie["cvrID"])] = self.cookie["order"]
        return True

    def talk(self):
        """Asks over one connection until it is cut. The program closes it after its 100th answer."""
        with socket.create_connection(("127.0.0.1", self.checks.port), timeout=20) as connection:
            for turn in range(100):
                ask = self.pull_next if turn % 4 == 3 else self.push_next
                if self.checks.over or not ask(connection):
                    return

    def run(self):
        while not self.checks.over and self.wrong is None:
            try:
                self.talk()
            except OSError:
                time.sleep(0.002)
            except ValueError as wrong:
                self.wrong = str(wrong)


class Checks:
    """A program that serves a store in a file, and its clients."""

    def __init__(self, program, folder, first_port):
        self.program, self.folder, self.port, self.over, self.kills = program, folder, first_port - 1, False, 0
        self.store = folder / "lists.db"
        self.accounts = folder / "accounts.toml"
        self.accounts.write_text(ACCOUNTS)
        self.clients = [Client(self, number) for number in range(1, CLIENTS + 1)]

    def started(self):
        """The program at the next port."""
        self.port += 1
        words = [self.program, "serve", str(self.store), "--accounts", str(self.accounts), "--port", str(self.port), "--workers", str(CLIENTS),
                 "--connections", "1000000"]
        return subprocess.Popen(words, stdin=subprocess.DEVNULL, stdout=subprocess.DEVNULL, stderr=subprocess.DEVNULL)

    def run(self, chance, kills):
        """The program is asked and killed so often."""
        for client in self.clients:
            client.start()
        for _ in range(kills):
            server = self.started()
            time.sleep(chance.uniform(0.02, 0.5))
            if server.poll() is not None:
                self.over = True
                sys.exit(f"the program ended by itself, with status {server.returncode}")
            server.kill()
            server.wait()
            self.kills += 1
        self.end()

    def end(self):
        self.over = True
        for client in self.clients:
            client.join(timeout=30)
            if client.wrong is not None:
                sys.exit(f"client {client.number}: {client.wrong}")


def entries_of(store):
    """The entries of a file, by their places, as sqlite3 reads it."""
    with contextlib.closing(sqlite3.connect(store)) as connection:
        assert connection.execute("PRAGMA integrity_check").fetchall() == [("ok",)]
        return {int(key): json.loads(body) for key, body in connection.execute("SELECT k, body FROM cell WHERE shelf = 1")}


def check_store(program, store, least, most, looks):
    """The store is sound, and has of each client as many mutations as this at least, and at most, and these looks. How many entries."""
    sound = subprocess.run([program, "check", str(store)], stdout=subprocess.PIPE)
    entries = entries_of(store)
    if (sound.returncode, sound.stdout) != (0, f"ok {len(entries)}\n".encode()):
        sys.exit(f"the store is not sound: status {sound.returncode}, {sound.stdout!r}")
    ids = {}
    for place in sorted(entries):
        if entries[place][0] == "act":
            ids.setdefault(entries[place][3], []).append(entries[place][4])
    for number in range(1, CLIENTS + 1):
        kept = ids.pop(f"c{number}", [])
        if kept != list(range(1, len(kept) + 1)) or not least[number - 1] <= len(kept) <= most[number - 1]:
            sys.exit(f"client {number}: {least[number - 1]} to {most[number - 1]} wanted, {len(kept)} kept: {kept[-5:]}")
        for place, order in looks[number - 1].items():
            if place not in entries or entries[place][:4] != ["look", "ann", f"g{number}", order]:
                sys.exit(f"client {number}: no look of order {order} at place {place}: {entries.get(place)}")
    if ids:
        sys.exit(f"acts of others: {sorted(ids)}")
    return len(entries)


def main():
    program = sys.argv[1]
    kills = int(sys.argv[2]) if len(sys.argv) > 2 else 1000
    port = int(sys.argv[3]) if len(sys.argv) > 3 else 21180
    chance, done, pushes, looks, entries = random.Random(17), 0, 0, 0, 0
    while done < kills:
        with tempfile.TemporaryDirectory() as folder:
            checks = Checks(program, pathlib.Path(folder), port)
            checks.run(chance, min(25, kills - done))
            done, port = done + checks.kills, 21180 if checks.port > 31000 else checks.port + 1
            pushed = [client.pushed for client in checks.clients]
            entries += check_store(program, checks.store, pushed, [count + 1 for count in pushed], [client.looks for client in checks.clients])
            pushes, looks = pushes + sum(pushed), looks + sum(len(client.looks) for client in checks.clients)
    print(f"{pushes} pushes and {looks} new cookies were answered to {CLIENTS} clients over {done} kills; each stands once among {entries} entries")


if __name__ == "__main__":
    main()
