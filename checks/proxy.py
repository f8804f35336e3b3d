#!/usr/bin/env python3
"""Checks the proxy of examples/deploy/haproxy.cfg: checks/proxy.py PROGRAM [IDLE]

PROGRAM is the program `rv` as it was built. It serves with 4 workers behind HAProxy, over TLS. IDLE clients (500) keep their connections
and say nothing: one more is answered at once. Clients that push at once are all answered, also while the server is killed and started
again, and so is a body that is too large; 16 links for pokes are served, one more is turned away, and once their windows are closed and
somebody else has pushed another is served. Prints a line for each, and ends with status 1 at the first thing that is wrong. Needs Debian's
haproxy and openssl; where one is not installed it says so, and checks nothing.
"""
import contextlib
import http.client
import pathlib
import socket
import sqlite3
import ssl
import subprocess
import sys
import tempfile
import threading
import time
from concurrent.futures import ThreadPoolExecutor

from links import connected, same, wrong
from proxied import KEYS, POKES, WORKERS, Site, asked, missing_tools

# In seconds: an answer at once, on a busy machine too. An idle connection would hold it up for up to 30.
AT_ONCE = 5


def wait_for(site):
    """Waits until the program is there, behind the proxy too."""
    connected(site.port).close()
    connected(site.tls_port).close()
    site.rows("ann")


def pull_of(number):
    return {"pullVersion": 1, "clientGroupID": f"g{number}", "cookie": None}


def push_of(client, number):
    mutation = {"clientID": f"c{client}", "id": number, "name": "paint", "args": None}
    return {"pushVersion": 1, "clientGroupID": f"g{client}", "mutations": [mutation]}


def timed(connection, path, body):
    start = time.monotonic()
    status, answer = asked(connection, path, "ann", body)
    same("a request's status", 200, status)
    return time.monotonic() - start


def check_direct(site):
    """Without the proxy as many idle connections as workers hold up the next client."""
    request = b"GET / HTTP/1.1\r\n\r\n"
    with contextlib.ExitStack() as ending:
        for _ in range(WORKERS):
            stream = ending.enter_context(connected(site.port))
            stream.sendall(request)
            same("the answer to a client", b"HTTP/1.1 404", stream.recv(4096)[:12])
        stream = ending.enter_context(connected(site.port))
        stream.sendall(request)
        stream.settimeout(3)
        try:
            wrong(f"a client beside {WORKERS} idle ones was answered: {stream.recv(4096)!r}")
        except TimeoutError:
            pass
    print(f"without the proxy: {WORKERS} idle connections to {WORKERS} workers hold up the next client for the 3 s that were waited")


def check_idle(site, idle):
    with contextlib.ExitStack() as ending:
        for number in range(idle):
            connection = site.connection()
            ending.callback(connection.close)
            timed(connection, "pull", pull_of(number))
        took = []
        for number in range(100):
            connection = site.connection()
            connection.connect()
            took.append(timed(connection, "pull", pull_of(f"new-{number}")))
            connection.close()
        if max(took) > AT_ONCE:
            wrong(f"beside {idle} idle clients a new one waited {max(took):.3f} s")
    took.sort()
    print(f"idle: beside {idle} clients that say nothing 100 new ones were answered after {took[50] * 1000:.1f} ms, the slowest after {took[-1] * 1000:.1f} ms")


def push_all(site, client, turns, took, again=None):
    """One client pushes once each turn. Where `again` is given, a push that got no answer, or 502 to 504, is counted and sent again."""
    connection = site.connection()
    for number, _ in enumerate(turns, 1):
        start = time.monotonic()
        while (status := answered(connection, push_of(client, number))) != 200:
            if again is None or status not in (None, 502, 503, 504):
                wrong(f"push {number} of {client} was answered {status}")
            again.append(status)
            time.sleep(0.05)
        took.append(time.monotonic() - start)
    connection.close()


def answered(connection, body):
    """The status that a push is answered with, or None where its connection is closed."""
    try:
        return asked(connection, "push", "ann", body)[0]
    except (OSError, http.client.HTTPException, ValueError):
        # a page of the proxy's own is no JSON
        connection.close()
        return None


def check_busy(site, clients=64, each=50):
    took, start = [], time.monotonic()
    with ThreadPoolExecutor(clients) as pool:
        for pushing in [pool.submit(push_all, site, f"busy-{number}", range(each), took) for number in range(clients)]:
            pushing.result()
    print(f"busy: {clients} clients at once had {clients * each} pushes answered in {time.monotonic() - start:.1f} s, each with 200, the slowest after {max(took):.2f} s")


def check_too_large(site):
    """A client that sends a body above the limit, and reads meanwhile as curl does, sees its status through the proxy too."""
    body = site.folder / "body"
    for size in (4_194_305, 20_000_000):
        body.write_bytes(b" " * size)
        words = ["curl", "-s", "--cacert", str(site.folder / "certificate.pem"), "-o", "/dev/null", "-w", "%{http_code}", "-H", f"Authorization: {KEYS['ann']}"]
        words += ["--data-binary", f"@{body}", f"{site.address}push"]
        told = subprocess.run(words, stdout=subprocess.PIPE).stdout
        same(f"the status of {size} bytes", b"413", told)
    print("too large: bodies of one byte more than the limit and of 20 MB were answered 413")


def check_restart(site, clients=8, kills=5):
    """While clients push the server is killed and started again: a few requests are cut, and each push is answered in the end."""
    took, again, over = [], [], threading.Event()
    with ThreadPoolExecutor(clients) as pool:
        pushing = [pool.submit(push_all, site, f"kept-{number}", iter(lambda: over.is_set(), True), took, again) for number in range(clients)]
        try:
            for _ in range(kills):
                time.sleep(2)
                site.kill_server()
                time.sleep(0.2)
                site.start_server()
            time.sleep(2)
        finally:
            over.set()
        for client in pushing:
            client.result()
    print(f"restarts: {len(took)} pushes were answered while the server was killed and started again {kills} times, the slowest after {max(took):.1f} s; "
          f"{len(again)} had to be sent again")


def handshake(site):
    """Asks for a WebSocket through the proxy: the connection, whose answer is still to come."""
    context = ssl.create_default_context(cafile=site.folder / "certificate.pem")
    stream = context.wrap_socket(socket.create_connection(("localhost", site.tls_port), timeout=20), server_hostname="localhost")
    stream.sendall(b"GET /poke HTTP/1.1\r\nHost: localhost\r\nUpgrade: websocket\r\nConnection: Upgrade\r\nSec-WebSocket-Version: 13\r\n"
                   b"Sec-WebSocket-Key: dGhlIHNhbXBsZSBub25jZQ==\r\n\r\n")
    return stream


def check_pokes(site):
    with contextlib.ExitStack() as ending:
        for _ in range(POKES):
            stream = ending.enter_context(handshake(site))
            same("a handshake's answer", b"HTTP/1.1 101", stream.recv(4096)[:12])
        start = time.monotonic()
        stream = ending.enter_context(handshake(site))
        same("the answer to one more handshake", b"HTTP/1.1 503", stream.recv(4096)[:12])
        took = time.monotonic() - start
    with contextlib.ExitStack() as ending:
        for _ in range(POKES):
            stream = ending.enter_context(handshake(site))
            same("a handshake's answer", b"HTTP/1.1 101", stream.recv(4096)[:12])
            key = KEYS["bob"].encode()
            stream.sendall(bytes([0x81, 0x80 | len(key)]) + bytes(4) + key)
        time.sleep(0.5)
    push = {"pushVersion": 1, "clientGroupID": "other", "mutations": [{"clientID": "other", "id": 1, "name": "paint", "args": None}]}
    same("a push of somebody else", 200, asked(site.connection(), "push", "ann", push)[0])
    start = time.monotonic()
    with handshake(site) as stream:
        same("the answer to a handshake after the windows were closed", b"HTTP/1.1 101", stream.recv(4096)[:12])
    print(f"pokes: {POKES} links were served, and one more was turned away with 503 after {took:.1f} s; after {POKES} of a user whom nothing "
          f"concerns were closed, and a push of somebody else, another was served after {1000 * (time.monotonic() - start):.0f} ms")


def check_log(site):
    """A push's line of the log names the group, the client and the mutation, and these lead to its entry."""
    lines = (site.folder / "haproxy.log").read_text().splitlines()
    line = next(line for line in lines if "/push 200" in line and line.endswith(" client cbusy-7 id 9"))
    same("the group in the log", True, " group gbusy-7 " in line)
    with contextlib.closing(sqlite3.connect(site.store)) as connection:
        found = connection.execute("SELECT k FROM cell WHERE shelf = 1 AND json_extract(CAST(body AS TEXT), '$[3]') = 'cbusy-7' AND json_extract(CAST(body AS TEXT), '$[4]') = 9").fetchall()
    same("how many entries the line leads to", 1, len(found))
    print(f"log: {line.split(': ', 1)[1]}; its entry stands at place {int(found[0][0])}")


def main():
    if len(sys.argv) not in (2, 3):
        sys.exit("usage: checks/proxy.py PROGRAM [IDLE]")
    if missing_tools():
        return
    idle = int(sys.argv[2]) if len(sys.argv) > 2 else 500
    with tempfile.TemporaryDirectory() as folder, contextlib.ExitStack() as ending:
        site = Site(sys.argv[1], pathlib.Path(folder))
        ending.callback(site.stop)
        wait_for(site)
        check_direct(site)
        check_idle(site, idle)
        check_busy(site)
        check_too_large(site)
        check_restart(site)
        check_pokes(site)
        site.kill_server()
        check_log(site)


if __name__ == "__main__":
    main()
