#!/usr/bin/env python3
"""Counts what `rv serve` answers a second by 1, 4 and 16 workers, outside the gate: bench/workers.py PROGRAM [FOLDER]

PROGRAM is the program `rv` as it was built; FOLDER is on the disk that is to be measured (the one of temporary files). Needs gcc. As
many connections as workers ask at once, each one request after another. Prints the requests a second, the best of five runs, of
requests without a key (which take no turn), pulls with nothing to tell, of no row and of 1,000 rows, and pushes in memory and to a
file. The clients run on the same processors. docs/costs.md keeps the figures.
"""
import json
import os
import subprocess
import sys
import tempfile

COUNT = 64000
ROWS = 1000
RUNS = 5
# below the ports that outgoing connections get
PORTS = iter(range(22180, 32768))
ACCOUNTS = '[[account]]\nkey = "k-ann"\nuser = "ann"\n'


def request(path, body, key="k-ann"):
    body = json.dumps(body).encode()
    head = f"POST {path} HTTP/1.1\r\nHost: localhost\r\nAuthorization: {key}\r\nContent-Type: application/json\r\nContent-Length: {len(body)}\r\n\r\n"
    return head.encode() + body


def pull(cookie, key="k-ann"):
    return request("/pull", {"pullVersion": 1, "clientGroupID": "g", "profileID": "p", "schemaVersion": "", "cookie": cookie}, key)


def push(client, mutations):
    given = [{"clientID": client, "id": number, "name": name, "args": args, "timestamp": 0.5} for number, name, args in mutations]
    return request("/push", {"pushVersion": 1, "clientGroupID": "g", "profileID": "p", "schemaVersion": "", "mutations": given})


def rows(count):
    """The request that makes a list of so many todos, less one."""
    todos = [(number, "createTodo", {"id": f"t{number}", "listID": "l", "text": "milk", "complete": False}) for number in range(2, count + 1)]
    return push("c", [(1, "createList", {"id": "l", "name": "Home", "ownerID": "ann"})] + todos)


def pushes(connections, count):
    """For each connection a client of its own, whose mutations have no effect."""
    return [push(f"c{part}", [(number, "paint", None)]) for part in range(connections) for number in range(1, count // connections + 1)]


class Bench:
    def __init__(self, program, folder):
        self.program, self.folder = program, folder
        self.accounts = os.path.join(folder, "accounts.toml")
        with open(self.accounts, "w", encoding="utf-8") as file:
            file.write(ACCOUNTS)
        self.client = os.path.join(folder, "many")
        subprocess.run(["gcc", "-O2", "-pthread", "-o", self.client, os.path.join(os.path.dirname(__file__), "many.c")], check=True)

    def send(self, port, connections, requests):
        """The seconds that the client takes; all answers but those to no key must be of status 200."""
        given = b"".join(b"%d\n%s" % (len(one), one) for one in requests)
        told = subprocess.run([self.client, str(port), str(connections)], input=given, stdout=subprocess.PIPE, check=True).stdout.split()
        assert int(told[1]) in (0, len(requests)), told
        return float(told[0])

    def run(self, workers, before, requests, store):
        for end in ("", "-wal", "-shm"):
            if os.path.exists(store + end):
                os.remove(store + end)
        port = next(PORTS)
        words = [self.program, "serve", store, "--accounts", self.accounts, "--port", str(port), "--workers", str(workers), "--connections", "1000000"]
        with subprocess.Popen(words, stdout=subprocess.DEVNULL) as server:
            if before:
                self.send(port, 1, before)
            took = self.send(port, workers, requests)
            server.kill()
        return took

    def rate(self, workers, before, requests, store="memory"):
        return len(requests) / min(self.run(workers, before, requests, store) for _ in range(RUNS))


def main():
    program = sys.argv[1]
    with tempfile.TemporaryDirectory(dir=sys.argv[2] if len(sys.argv) > 2 else None) as folder:
        bench = Bench(program, folder)
        file = os.path.join(folder, "lists.db")
        first = {"cvrID": "1", "order": 1}
        after_rows = {"cvrID": str(ROWS + 1), "order": 1}
        kinds = (
            ("without a key", lambda workers: bench.rate(workers, [], [pull(None, "k-bob")] * COUNT)),
            ("a pull with nothing to tell", lambda workers: bench.rate(workers, [pull(None)], [pull(first)] * COUNT)),
            (f"the same of {ROWS} rows", lambda workers: bench.rate(workers, [rows(ROWS), pull(None)], [pull(after_rows)] * (COUNT // 8))),
            ("a push in memory", lambda workers: bench.rate(workers, [], pushes(workers, COUNT))),
            ("a push to a file", lambda workers: bench.rate(workers, [], pushes(workers, COUNT // 16), file)),
        )
        for name, rate in kinds:
            print(f"{name}: " + ", ".join(f"{rate(workers):,.0f} by {workers}" for workers in (1, 4, 16)), flush=True)


if __name__ == "__main__":
    main()
