#!/usr/bin/env python3
"""Answers pulls over HTTP by `rv follow`: examples/deploy/standby.py RV LINES ACCOUNTS PORT FOLLOW_PORT

RV is the program, LINES the file of the lines that `rv ship` wrote of the leader's book, ACCOUNTS the leader's accounts file. It listens
at PORT of 127.0.0.1, and answers once the lines were told; the two followers that it has at most listen at FOLLOW_PORT and the next
port. LINES is looked at each second: where it was replaced by a longer one that begins as before, the lines that are new are told to the
follower; else, as after a closing of the leader's book, another follower is told all, and takes the place of the first. The follower is
asked something every ten seconds, since one that hears nothing for thirty ends; where it has ended, so does this program, to be started
anew.
"""
import hashlib
import http.server
import json
import os
import socket
import subprocess
import sys
import threading
import time
import tomllib

MOST = 4194304
WATCH = b'{"user":"watch","pull":{"pullVersion":1,"clientGroupID":"watch","profileID":"","schemaVersion":"","cookie":null}}\n'


class Follower:
    """`rv follow`, and the connection to it."""

    def __init__(self, program, port):
        self.port, self.size, self.sum, self.lock = port, 0, hashlib.sha256(), threading.Lock()
        self.process = subprocess.Popen([program, "follow", "--port", str(port)], stdin=subprocess.DEVNULL)
        while True:
            try:
                self.stream = socket.create_connection(("127.0.0.1", port))
                break
            except ConnectionRefusedError:
                if self.process.poll() is not None:
                    sys.exit(f"follow ended with status {self.process.returncode}")
                time.sleep(0.05)
        self.answers = self.stream.makefile("rb")

    def tell(self, lines):
        """Tells lines of the book, which come after those that were told."""
        with self.lock:
            self.stream.sendall(lines)
        self.size += len(lines)
        self.sum.update(lines)

    def was_told(self, lines):
        """Whether the lines begin with those that were told."""
        return hashlib.sha256(lines[:self.size]).digest() == self.sum.digest()

    def ask(self, line):
        """The status and the body that a pull is answered with."""
        with self.lock:
            self.stream.sendall(line)
            status, _, body = self.answers.readline().partition(b" ")
        if not body:
            raise ConnectionError("the follower has ended")
        return int(status), body.rstrip(b"\n")

    def end(self):
        with self.lock:
            self.answers.close()
            self.stream.close()
        self.process.wait()


class Standby:
    """The follower that answers, of the lines in a file."""

    def __init__(self, program, lines, port):
        self.program, self.lines, self.port = program, lines, port
        self.seen, self.follower = None, None
        self.look()

    def look(self):
        """Tells what is new in the file."""
        with open(self.lines, "rb") as file:
            now = os.fstat(file.fileno())
            if (now.st_ino, now.st_mtime_ns) == self.seen:
                return
            lines = file.read()
        lines, old = lines[:lines.rfind(b"\n") + 1], self.follower
        if old is not None and old.was_told(lines):
            old.tell(lines[old.size:])
        else:
            new = Follower(self.program, self.port + 1 if old is not None and old.port == self.port else self.port)
            new.tell(lines)
            new.ask(WATCH)
            self.follower = new
            if old is not None:
                old.end()
        self.seen = now.st_ino, now.st_mtime_ns

    def keep(self):
        """Looks at the file each second, and asks the follower something each ten; ends the program where that fails."""
        try:
            for second in range(sys.maxsize):
                time.sleep(1)
                self.look()
                if second % 10 == 0:
                    self.follower.ask(WATCH)
        except BaseException as wrong:
            print(f"standby: {wrong!r}", file=sys.stderr, flush=True)
            os._exit(1)


class Handler(http.server.BaseHTTPRequestHandler):
    """POST /pull, as `rv serve` answers it."""

    protocol_version = "HTTP/1.1"
    timeout = 30
    standby, users = None, {}

    def answer(self, status, body, *fields):
        self.send_response(status)
        for name, value in (("Content-Type", "application/json"), ("Content-Length", str(len(body))), *fields):
            self.send_header(name, value)
        self.end_headers()
        self.wfile.write(body)

    def refuse(self, status, error, *fields):
        self.close_connection = True
        self.answer(status, json.dumps({"error": error}, separators=(",", ":")).encode(), ("Connection", "close"), *fields)

    def do_POST(self):
        size = self.headers.get("Content-Length", "")
        user = self.users.get(self.headers.get("Authorization"))
        if not size.isdecimal():
            return self.refuse(411, "LengthRequired")
        if int(size) > MOST:
            return self.refuse(413, "BodyTooLarge")
        if self.path.partition("?")[0] != "/pull":
            return self.refuse(404, "NoRoute")
        if user is None:
            return self.refuse(401, "Unauthorized", ("WWW-Authenticate", 'Bearer realm="rv"'))
        body = self.rfile.read(int(size))
        try:
            json.loads(body)
        except ValueError:
            return self.answer(400, b'{"error":"NotJson"}')
        # Line ends are spaces of JSON, and none stands in a text.
        line = b'{"user":%s,"pull":%s}\n' % (json.dumps(user).encode(), body.replace(b"\r", b" ").replace(b"\n", b" "))
        try:
            return self.answer(*self.standby.follower.ask(line))
        except (OSError, ValueError):
            return self.refuse(503, "standby")

    def do_GET(self):
        self.refuse(405, "OtherMethod", ("Allow", "POST"))

    do_PUT = do_DELETE = do_GET

    def log_message(self, form, *values):
        pass


class Listener(http.server.ThreadingHTTPServer):
    def handle_error(self, request, address):
        # A client that has gone is no trouble.
        if not isinstance(sys.exception(), ConnectionError):
            super().handle_error(request, address)


def main():
    program, lines, accounts, port, follow_port = sys.argv[1:]
    with open(accounts, "rb") as file:
        Handler.users = {account["key"]: account["user"] for account in tomllib.load(file).get("account", [])}
    server = Listener(("127.0.0.1", int(port)), Handler)
    try:
        Handler.standby = Standby(program, lines, int(follow_port))
    except OSError as wrong:
        sys.exit(f"standby: {wrong}")
    threading.Thread(target=Handler.standby.keep, daemon=True).start()
    print(f"standby: {Handler.standby.follower.size} bytes of lines were told", file=sys.stderr, flush=True)
    server.serve_forever()


if __name__ == "__main__":
    main()
