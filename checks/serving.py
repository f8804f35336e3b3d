#!/usr/bin/env python3
"""Checks `rv serve` as curl and plain sockets see it: checks/serving.py PROGRAM [PORT]

PROGRAM is the program `rv` as it was built, PORT the first port that is tried (20180; one below those that outgoing
connections get, which could be one of them). Each case starts the program with as many connections as it makes, so that it ends by
itself, and compares every byte, what the program writes and its status. Ends with status 1 at the first difference.
"""
import json
import pathlib
import socket
import subprocess
import sys
import tempfile
import time

ACCOUNTS = """schemas = ["", "1"]
[[account]]
key = "k-ann"
user = "ann"
[[account]]
key = "Bearer k bob"
user = "bob"
"""
PUSH = json.dumps({"pushVersion": 1, "clientGroupID": "g1", "profileID": "p", "schemaVersion": "", "mutations": [
    {"clientID": "c1", "id": 1, "name": "createList", "args": {"id": "l1", "name": "Home", "ownerID": "ann"}, "timestamp": 0.5}]})
PULL = json.dumps({"pullVersion": 1, "clientGroupID": "g1", "profileID": "p", "schemaVersion": "", "cookie": None})
PULLED = ('{"cookie":{"cvrID":"2","order":1},"lastMutationIDChanges":{"c1":1},"patch":[{"op":"clear"},{"key":"list/l1","op":"put",'
          '"value":{"id":"l1","name":"Home","ownerID":"ann"}}]}')


def response(status, reason, body, extra="", close=False):
    """The bytes of a response."""
    end = "Connection: close\r\n" if close else ""
    return (f"HTTP/1.1 {status} {reason}\r\nContent-Type: application/json\r\nContent-Length: {len(body.encode())}\r\n"
            f"{extra}{end}\r\n{body}").encode()


def request(path, body, key="k-ann", extra=""):
    authorization = f"Authorization: {key}\r\n" if key is not None else ""
    return f"POST {path} HTTP/1.1\r\nHost: localhost\r\n{authorization}{extra}Content-Length: {len(body.encode())}\r\n\r\n{body}".encode()


class Server:
    """The program, serving so many connections. Those that still run when the checks end are killed."""

    running = []

    def __init__(self, program, port, store, accounts, connections, environment=None):
        words = [program, "serve", str(store), "--accounts", str(accounts), "--port", str(port), "--workers", "1", f"--connections={connections}"]
        self.port = port
        self.process = subprocess.Popen(words, stdout=subprocess.PIPE, stdin=subprocess.DEVNULL, env=environment)
        Server.running.append(self.process)

    def connect(self):
        for _ in range(200):
            try:
                connection = socket.create_connection(("127.0.0.1", self.port))
                connection.settimeout(20)
                return connection
            except ConnectionRefusedError:
                time.sleep(0.05)
        sys.exit("the program doesn't listen")

    def ends(self, text, status=0):
        out, _ = self.process.communicate(timeout=60)
        same("what the program writes", text.encode(), out)
        same("its status", status, self.process.returncode)


def free_ports(first):
    """The ports from this one on that nobody has."""
    for port in range(first, 65536):
        try:
            socket.create_server(("127.0.0.1", port)).close()
        except OSError:
            continue
        yield port


def same(what, expected, got):
    if expected != got:
        sys.exit(f"{what}:\nexpected {expected!r}\ngot      {got!r}")


def talk(server, pieces, expected):
    """Sends these pieces over one connection, ends it, and compares all that comes back."""
    connection = server.connect()
    try:
        for piece in pieces:
            connection.sendall(piece)
            if len(pieces) > 1:
                time.sleep(0.02)
        connection.shutdown(socket.SHUT_WR)
    except OSError:
        # the program has closed before it took all; what it wrote is there
        pass
    got = b""
    while True:
        try:
            piece = connection.recv(65536)
        except ConnectionResetError:
            break
        if not piece:
            break
        got += piece
    connection.close()
    same("a connection's answers", expected, got)


def curl(server, path, body, *options):
    """The status and the body that curl gets."""
    server.connect().close()
    run = subprocess.run(["curl", "-sS", "-w", "\n%{http_code}", f"http://127.0.0.1:{server.port}{path}", "--data-binary", body, *options],
                         stdout=subprocess.PIPE, check=True)
    body, _, status = run.stdout.decode().rpartition("\n")
    return int(status), body


def main():
    program = sys.argv[1]
    ports = free_ports(int(sys.argv[2]) if len(sys.argv) > 2 else 20180)
    with tempfile.TemporaryDirectory() as folder:
        folder = pathlib.Path(folder)
        accounts = folder / "accounts.toml"
        accounts.write_text(ACCOUNTS)

        def start(connections, store="memory", file=accounts):
            return Server(program, next(ports), store, file, connections)

        # a push and a pull, each by a process of curl, each after a connection that says nothing; another curl finds the store again
        store = folder / "lists.db"
        server = start(6, store)
        same("curl's push", (200, "{}"), curl(server, "/push", PUSH, "-H", "Authorization: k-ann"))
        same("curl's pull", (200, PULLED), curl(server, "/pull", PULL, "-H", "Authorization: k-ann"))
        same("curl with a wrong key", (401, '{"error":"Unauthorized"}'), curl(server, "/pull", PULL, "-H", "Authorization: k-an"))
        server.ends("entries 2\n")
        server = start(2, store)
        same("curl's push again", (200, "{}"), curl(server, "/push?a=b", PUSH, "-H", "authorization: k-ann"))
        server.ends("entries 2\n")

        # kept alive and pipelined, in one piece, in small pieces, and byte by byte
        asked = request("/push", PUSH) + request("/pull", PULL) + request("/nowhere", "")
        told = response(200, "OK", "{}") + response(200, "OK", PULLED) + response(404, "Not Found", '{"error":"NoRoute"}')
        for size in [len(asked), 100, 7]:
            server = start(1)
            talk(server, [asked[at:at + size] for at in range(0, len(asked), size)], told)
            server.ends("entries 2\n")

        # bad input of every kind has its answer, and the next connection is served
        closing = [
            (b"POST push HTTP/1.1\r\nA b\r\n\r\n", response(400, "Bad Request", '{"error":"BadHead"}', close=True)),
            (b"POST /push HTTP/1.1\r\n\r\n", response(411, "Length Required", '{"error":"LengthRequired"}', close=True)),
            (b"POST /push HTTP/1.1\r\nContent-Length: 4194305\r\n\r\n", response(413, "Payload Too Large", '{"error":"BodyTooLarge"}', close=True)),
            (b"GET / HTTP/1.1\r\nA: " + b"a" * 20000, response(431, "Request Header Fields Too Large", '{"error":"HeadTooLarge"}', close=True)),
            (b"POST /push HTTP/1.1\r\nTransfer-Encoding: chunked\r\n\r\n0\r\n\r\n", response(501, "Not Implemented", '{"error":"CodingNotServed"}', close=True)),
            (b"GET /push HTTP/1.1\r\n\r\n", response(405, "Method Not Allowed", '{"error":"OtherMethod"}', "Allow: POST\r\n")),
            (request("/push", "{}", None), response(401, "Unauthorized", '{"error":"Unauthorized"}', 'WWW-Authenticate: Bearer realm="rv"\r\n')),
            (request("/push", "\N{PILE OF POO}"), response(400, "Bad Request", '{"error":"NotJson"}')),
            (request("/push", "{}"), response(400, "Bad Request", '{"error":"Field","field":"pushVersion"}')),
            (request("/pull", PULL, "Bearer k bob", "Connection: Close\r\n"), response(200, "OK", '{"cookie":{"cvrID":"1","order":1},"lastMutationIDChanges":{},"patch":[{"op":"clear"}]}', close=True)),
            (b"POST /push HTTP/1.1\r\nContent-Le", b""),
            (request("/push", PUSH)[:-1], b""),
            (b"", b""),
        ]
        server = start(len(closing) + 1)
        for asked, told in closing:
            talk(server, [asked], told)
        talk(server, [request("/push", PUSH)], response(403, "Forbidden", '{"error":"GroupOfOther"}'))
        server.ends("entries 1\n")

        # the largest body
        room = 4_194_304 - len(PUSH.encode())
        server = start(1)
        talk(server, [request("/push", PUSH + " " * room)], response(200, "OK", "{}"))
        server.ends("entries 1\n")

        # the answer to the hundredth request closes
        server = start(1)
        missing = '{"error":"NoRoute"}'
        talk(server, [b"GET / HTTP/1.1\r\n\r\n" * 101], response(404, "Not Found", missing) * 99 + response(404, "Not Found", missing, close=True))
        server.ends("entries 0\n")

        # no other address of the machine is listened to
        server = start(2)
        server.connect().close()
        try:
            socket.create_connection(("127.0.0.2", server.port), timeout=20).close()
            sys.exit("a connection at 127.0.0.2 is taken")
        except ConnectionRefusedError:
            pass
        server.connect().close()
        server.ends("entries 0\n")

        # accounts that can't be read, and that aren't of the form; a port that is taken
        twice = folder / "twice.toml"
        twice.write_text(ACCOUNTS.replace("Bearer k bob", "k-ann"))
        for file in (folder / "nothing.toml", folder, accounts / "x", folder / ("n" * 300)):
            start(1, file=file).ends("keeper\n", 4)
        start(1, file=twice).ends("accounts: twice 2\n", 3)
        bad = folder / "bad.toml"
        bad.write_text(ACCOUNTS.replace('user = "bob"', ""))
        start(1, file=bad).ends("accounts: bad 2\n", 3)
        with socket.create_server(("127.0.0.1", 0)) as taken:
            Server(program, taken.getsockname()[1], "memory", accounts, 1).ends("net\n", 9)
    print("the same bytes, texts and statuses")


if __name__ == "__main__":
    try:
        main()
    finally:
        for process in Server.running:
            process.kill()
