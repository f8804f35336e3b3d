#!/usr/bin/env python3
"""Times `rv serve` at one connection at a time, outside the gate: bench/serving.py PROGRAM [FOLDER]

PROGRAM is the program `rv` as it was built; FOLDER is on the disk that is to be measured (the one of temporary files). Needs gcc.
Prints the microseconds a request, the best of three runs, of requests without a key (which the desk never sees: what HTTP and the
network cost), pulls with nothing to tell, pushes in memory and pushes to a file; and the instructions a request where valgrind is
there. docs/costs.md keeps them.
"""
import json
import os
import re
import shutil
import subprocess
import sys
import tempfile

COUNT = 2000
PORTS = iter(range(43180, 65536))
ACCOUNTS = '[[account]]\nkey = "k-ann"\nuser = "ann"\n'


def request(path, body, key="k-ann"):
    body = json.dumps(body).encode()
    head = f"POST {path} HTTP/1.1\r\nHost: localhost\r\nAuthorization: {key}\r\nContent-Type: application/json\r\nContent-Length: {len(body)}\r\n\r\n"
    return head.encode() + body


def pull(cookie, key="k-ann"):
    return request("/pull", {"pullVersion": 1, "clientGroupID": "g1", "profileID": "p", "schemaVersion": "", "cookie": cookie}, key)


def push(number):
    mutation = {"clientID": "c1", "id": number, "name": "paint", "args": None, "timestamp": 0.5}
    return request("/push", {"pushVersion": 1, "clientGroupID": "g1", "profileID": "p", "schemaVersion": "", "mutations": [mutation]})


class Bench:
    def __init__(self, program, folder):
        self.program, self.folder = program, folder
        self.accounts = os.path.join(folder, "accounts.toml")
        with open(self.accounts, "w", encoding="utf-8") as file:
            file.write(ACCOUNTS)
        self.client = os.path.join(folder, "requests")
        subprocess.run(["gcc", "-O2", "-o", self.client, os.path.join(os.path.dirname(__file__), "requests.c")], check=True)

    def run(self, requests, good, store="memory", before=()):
        """The seconds that the client takes, and the bytes that the program, or what it is run under, writes to its second output."""
        port = next(PORTS)
        words = [*before, self.program, "serve", store, "--accounts", self.accounts, "--port", str(port), "--workers", "1",
                 "--connections", str(-(-len(requests) // 100))]
        with subprocess.Popen(words, stdout=subprocess.PIPE, stderr=subprocess.PIPE) as server:
            given = b"".join(b"%d\n%s" % (len(one), one) for one in requests)
            told = subprocess.run([self.client, str(port)], input=given, stdout=subprocess.PIPE, check=True).stdout.split()
            _, errors = server.communicate()
        assert int(told[1]) == good, told
        return float(told[0]), errors

    def microseconds(self, requests, good, store="memory"):
        best = None
        for _ in range(3):
            if store != "memory":
                for end in ("", "-wal", "-shm"):
                    if os.path.exists(store + end):
                        os.remove(store + end)
            took, _ = self.run(requests, good, store)
            best = took if best is None else min(best, took)
        return best / len(requests) * 1e6

    def instructions(self, requests, good):
        under = ["valgrind", "--tool=callgrind", "--callgrind-out-file=/dev/null"]
        _, errors = self.run(requests, good, before=under)
        return int(re.search(rb"Collected : (\d+)", errors).group(1))


def main():
    program = sys.argv[1]
    with tempfile.TemporaryDirectory(dir=sys.argv[2] if len(sys.argv) > 2 else None) as folder:
        bench = Bench(program, folder)
        same = [pull({"cvrID": "1", "order": 1})] * COUNT
        pushes = [push(number) for number in range(1, COUNT + 1)]
        kinds = (
            ("without a key", [pull(None, "k-bob")] * COUNT, 0),
            ("a pull with nothing to tell", [pull(None)] + same, COUNT + 1),
            ("a push in memory", pushes, COUNT),
        )
        for name, requests, good in kinds:
            print(f"{name}: {bench.microseconds(requests, good):.1f} microseconds")
        print(f"a push to a file: {bench.microseconds(pushes, COUNT, os.path.join(folder, 'lists.db')):.1f} microseconds")
        if shutil.which("valgrind"):
            for name, requests, good in kinds:
                few, many = requests[:200], requests[:400]
                counts = [bench.instructions(some, 0 if good == 0 else len(some)) for some in (few, many)]
                print(f"{name}: {(counts[1] - counts[0]) // 200} instructions")


if __name__ == "__main__":
    main()
