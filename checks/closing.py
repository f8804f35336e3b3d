#!/usr/bin/env python3
"""Checks how `rv serve` closes connections, and what it bears before it says that none can be had: checks/closing.py PROGRAM [PORT]

PROGRAM is the program `rv` as it was built, PORT the first port that is tried (20380). A client that sends more than the server reads
must read every answer that was written, to its end, and a closed connection may hold its worker for no longer than two seconds. Clients
that abort at once, files that are short for a while, and calls of accept that fail must not end a worker; a failure that doesn't pass,
or that goes on for too long, must. The last needs gcc, since a library stands before accept4 (LD_PRELOAD, failing.c). Ends with status 1
at the first difference.
"""
import errno
import http.client
import os
import pathlib
import resource
import shutil
import socket
import struct
import subprocess
import sys
import tempfile
import time

from serving import ACCOUNTS, PULL, Server, free_ports, request, response, same

HERE = pathlib.Path(__file__).parent
LIMIT = 4_194_304
ABORTS = 10_000
TOO_LARGE = response(413, "Payload Too Large", '{"error":"BodyTooLarge"}', close=True)
HEAD_TOO_LARGE = response(431, "Request Header Fields Too Large", '{"error":"HeadTooLarge"}', close=True)
BAD_HEAD = response(400, "Bad Request", '{"error":"BadHead"}', close=True)
ASKED = b"GET / HTTP/1.1\r\n\r\n"
TOLD = response(404, "Not Found", '{"error":"NoRoute"}')
TOLD_LAST = response(404, "Not Found", '{"error":"NoRoute"}', close=True)


def read_to_end(connection):
    """All that comes up to the end; a reset is a failure."""
    got = b""
    while piece := connection.recv(65536):
        got += piece
    return got


def asks(server):
    """How long a request takes over a connection of its own, which ends it."""
    start = time.monotonic()
    with server.connect() as connection:
        connection.sendall(ASKED)
        connection.shutdown(socket.SHUT_WR)
        same("an answer", TOLD, read_to_end(connection))
    return time.monotonic() - start


def by_http_client(server, size):
    """The status and the body that Python's own client gets for a body of that size."""
    server.connect().close()
    client = http.client.HTTPConnection("127.0.0.1", server.port, timeout=20)
    client.request("POST", "/push", b" " * size, {"Authorization": "k-ann"})
    answer = client.getresponse()
    told = answer.status, answer.read()
    client.close()
    return told


def sends_ahead(server, text):
    """Sends all of a text, then reads to the end, and closes only then."""
    with server.connect() as connection:
        connection.sendall(text)
        time.sleep(0.2)
        return read_to_end(connection)


def read_everything(start):
    """Clients that send more than is read get each answer."""
    sizes = [LIMIT + 1, LIMIT * 3 // 2, LIMIT * 2, LIMIT * 2, LIMIT * 3]
    server = start(2 * len(sizes))
    for size in sizes:
        same(f"http.client with {size} bytes", (413, b'{"error":"BodyTooLarge"}'), by_http_client(server, size))
    server.ends("entries 0\n")
    cases = [
        ("a head too large", b"GET / HTTP/1.1\r\nA: " + b"a" * 1_000_000, HEAD_TOO_LARGE),
        ("a head out of form", b"POST push HTTP/1.1\r\nA b\r\n\r\n" + b"a" * 1_000_000, BAD_HEAD),
        ("a body too large", b"POST /push HTTP/1.1\r\nContent-Length: 5000000\r\n\r\n" + b" " * 5_000_000, TOO_LARGE),
        ("150 requests ahead", ASKED * 150, TOLD * 99 + TOLD_LAST),
        ("150 pulls ahead", request("/pull", PULL) * 150, None),
    ]
    server = start(5 * len(cases))
    for _ in range(5):
        for what, asked, told in cases:
            got = sends_ahead(server, asked)
            if told is None:
                same(f"{what}: how many answers", 100, got.count(b"HTTP/1.1 200 OK\r\n"))
            else:
                same(what, told, got)
    server.ends("entries 500\n")
    return sizes, cases


def hold(start):
    """How long a connection that is closed holds the one worker: of a client that stays, of one that goes on sending, and of one that has
    left."""
    held = []
    server = start(6)
    with server.connect() as stays:
        stays.sendall(b"POST push HTTP/1.1\r\nA b\r\n\r\n")
        same("the answer of one that stays", BAD_HEAD, read_to_end(stays))
        held.append(asks(server))
    with server.connect() as sends:
        sends.sendall(b"POST push HTTP/1.1\r\nA b\r\n\r\n")
        same("the answer of one that goes on", BAD_HEAD, read_to_end(sends))
        sends.setblocking(False)
        connection = server.connect()
        connection.sendall(ASKED)
        connection.shutdown(socket.SHUT_WR)
        connection.setblocking(False)
        begun = time.monotonic()
        while True:
            try:
                sends.send(b"a")
            except OSError:
                pass
            try:
                connection.recv(65536)
                break
            except BlockingIOError:
                time.sleep(0.05)
        connection.close()
        held.append(time.monotonic() - begun)
    with server.connect() as leaves:
        leaves.sendall(b"POST push HTTP/1.1\r\nA b\r\n\r\n")
        same("the answer of one that leaves", BAD_HEAD, read_to_end(leaves))
    held.append(asks(server))
    server.ends("entries 0\n")
    if held[0] > 4 or held[1] > 4 or held[2] > 1:
        sys.exit(f"a worker was held for {held} s")
    return held


def abort(start):
    """Clients that abort at once, within a request and before its answer is read, and then one that is served."""
    sent = {1: ASKED[:-1], 2: ASKED, 3: request("/push", "{}"), 4: request("/pull", PULL) * 100}
    server = start(2 * ABORTS)
    for number in range(ABORTS):
        connection = server.connect()
        connection.sendall(sent.get(number % 20, b""))
        connection.setsockopt(socket.SOL_SOCKET, socket.SO_LINGER, struct.pack("ii", 1, 0))
        connection.close()
    asks(server)
    server.process.kill()


def sockets(pid):
    """How many sockets the program has open."""
    count = 0
    for name in os.listdir(f"/proc/{pid}/fd"):
        try:
            count += os.readlink(f"/proc/{pid}/fd/{name}").startswith("socket:")
        except FileNotFoundError:
            pass
    return count


def limit_files(server):
    """Leaves the program the files that it has, once the listener alone is left of its sockets, and gives the limits that it had."""
    pid, begun = server.process.pid, time.monotonic()
    while sockets(pid) > 1:
        if time.monotonic() - begun > 20:
            sys.exit("a connection that had ended was not closed for 20 s")
        time.sleep(0.01)
    most = max(int(name) for name in os.listdir(f"/proc/{pid}/fd"))
    had = resource.prlimit(pid, resource.RLIMIT_NOFILE)
    resource.prlimit(pid, resource.RLIMIT_NOFILE, (most + 1, had[1]))
    return had


def shorten(start):
    """Files that are short for a while, and then for too long."""
    server = start(4)
    asks(server)
    for wait in [0.5, 2]:
        had = limit_files(server)
        with server.connect() as connection:
            connection.sendall(ASKED)
            connection.settimeout(wait)
            try:
                sys.exit(f"answered while files were short: {connection.recv(65536)!r}")
            except TimeoutError:
                pass
            resource.prlimit(server.process.pid, resource.RLIMIT_NOFILE, had)
            connection.settimeout(20)
            connection.shutdown(socket.SHUT_WR)
            same("an answer after files were short", TOLD, read_to_end(connection))
    asks(server)
    server.ends("entries 0\n")
    server = start(2)
    asks(server)
    limit_files(server)
    begun = time.monotonic()
    with server.connect():
        server.ends("entries 0\n")
    return time.monotonic() - begun


def fail(start, library):
    """Calls of accept that fail: each of the failures, how many calls fail, and whether the one connection is served then."""
    cases = [(number, 100, True) for number in [errno.ECONNABORTED, errno.ECONNRESET, errno.ENETDOWN, errno.ENETUNREACH, errno.EHOSTUNREACH]]
    cases += [(number, 20, True) for number in [errno.EMFILE, errno.ENFILE, errno.ENOBUFS, errno.ENOMEM]]
    cases += [(errno.ECONNABORTED, 101, False), (errno.EMFILE, 101, False), (errno.EINVAL, 1, False), (errno.EBADF, 1, False)]
    for number, calls, is_served in cases:
        environment = {**os.environ, "LD_PRELOAD": library, "FAILING_ERRNO": str(number), "FAILING_CALLS": str(calls)}
        server = start(1, environment)
        if is_served:
            asks(server)
        server.ends("entries 0\n")
    return cases


def main():
    program = os.path.abspath(sys.argv[1])
    ports = free_ports(int(sys.argv[2]) if len(sys.argv) > 2 else 20380)
    with tempfile.TemporaryDirectory() as folder:
        folder = pathlib.Path(folder)
        accounts = folder / "accounts.toml"
        accounts.write_text(ACCOUNTS)

        def start(connections, environment=None):
            return Server(program, next(ports), "memory", accounts, connections, environment)

        sizes, cases = read_everything(start)
        print(f"{len(sizes)} bodies of http.client and {5 * len(cases)} texts that were sent ahead: every answer was read", flush=True)
        held = hold(start)
        print("held by a client that stays, goes on, has left: " + ", ".join(f"{time:.2f} s" for time in held), flush=True)
        abort(start)
        print(f"{ABORTS} clients aborted, and one was served", flush=True)
        gave_up = shorten(start)
        print(f"files were short twice, and requests were served; for good, and the run ended after {gave_up:.1f} s", flush=True)
        if shutil.which("gcc") is None:
            print("gcc is not installed: no call of accept was made to fail")
            return
        library = str(folder / "failing.so")
        subprocess.run(["gcc", "-shared", "-fPIC", "-O2", "-o", library, str(HERE / "failing.c")], check=True)
        failures = fail(start, library)
        print(f"every answer read, {ABORTS} aborts and short files borne, {len(failures)} failures of accept as they are told")


if __name__ == "__main__":
    try:
        main()
    finally:
        for process in Server.running:
            process.kill()
