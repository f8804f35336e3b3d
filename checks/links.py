"""A client of pokes over WebSocket, and the program that it asks, for checks/pokes.py and bench/pokes.py."""
import base64
import contextlib
import hashlib
import json
import os
import pathlib
import socket
import struct
import subprocess
import sys
import tempfile
import threading
import time

USERS = ("ann", "bob", "cat", "dan")
ACCOUNTS = "".join(f'[[account]]\nkey = "k-{user}"\nuser = "{user}"\n' for user in USERS)
# below the ports that outgoing connections get
PORTS = iter(range(24180, 32768))
TEXT, BINARY, CLOSE, PING, PONG = 1, 2, 8, 9, 10
POKE = (TEXT, b"poke")
# In seconds: when a poke must have come, how long nothing should come, and when all else must have come on a busy machine too.
SOON, QUIET, LATE = 1, 0.3, 20


def wrong(what):
    sys.exit(f"wrong: {what}")


def same(what, expected, got):
    if expected != got:
        wrong(f"{what}: expected {expected!r}, got {got!r}")


def free_port():
    """The next port that nobody has."""
    for port in PORTS:
        with contextlib.suppress(OSError), socket.create_server(("127.0.0.1", port)):
            return port
    return wrong("no port is free")


def connected(port, options=()):
    """A connection to the program, which may still be starting, from a socket with these options."""
    end = time.monotonic() + LATE
    while True:
        stream = socket.socket()
        stream.settimeout(LATE)
        for option in ((socket.IPPROTO_TCP, socket.TCP_NODELAY, 1), *options):
            stream.setsockopt(*option)
        try:
            stream.connect(("127.0.0.1", port))
            return stream
        except ConnectionRefusedError:
            stream.close()
            if time.monotonic() > end:
                wrong("the program doesn't listen")
            time.sleep(0.05)


def reset(stream):
    """Ends a stream abruptly, by an RST."""
    stream.setsockopt(socket.SOL_SOCKET, socket.SO_LINGER, struct.pack("ii", 1, 0))
    stream.close()


class Link:
    """One client of pokes: the handshake, frames of its own, which are masked, and the frames that come."""

    def __init__(self, port):
        """Connects and asks for the handshake. Its answer comes once a poke job is free."""
        self.stream, self.got = connected(port), b""
        self.nonce = base64.b64encode(os.urandom(16)).decode()
        self.stream.sendall((f"GET / HTTP/1.1\r\nHost: localhost\r\nUpgrade: websocket\r\nConnection: Upgrade\r\n"
                             f"Sec-WebSocket-Key: {self.nonce}\r\nSec-WebSocket-Version: 13\r\n\r\n").encode())

    def take(self, done, seconds):
        """Reads until what came is what is wanted: "done", or "ended" or "nothing" where it doesn't come."""
        end = time.monotonic() + seconds
        while not done(self.got):
            self.stream.settimeout(max(end - time.monotonic(), 0.001))
            try:
                piece = self.stream.recv(4096)
            except TimeoutError:
                return "nothing"
            except ConnectionResetError:
                return "ended"
            if not piece:
                return "ended"
            self.got += piece
        return "done"

    def greeted(self, seconds=LATE):
        """Reads the answer to the handshake, which must answer this client's own nonce (RFC 6455, section 4.2.2)."""
        same("a handshake's answer", "done", self.take(lambda got: b"\r\n\r\n" in got, seconds))
        head, _, self.got = self.got.partition(b"\r\n\r\n")
        first, *lines = head.decode().split("\r\n")
        fields = {name.strip().lower(): value.strip() for name, _, value in (line.partition(":") for line in lines)}
        digest = hashlib.sha1((self.nonce + "258EAFA5-E914-47DA-95CA-C5AB0DC85B11").encode()).digest()
        same("the handshake's status", "HTTP/1.1 101", first[:12])
        same("Upgrade", "websocket", fields.get("upgrade", "").lower())
        same("Connection", "upgrade", fields.get("connection", "").lower())
        same("Sec-WebSocket-Accept", base64.b64encode(digest).decode(), fields.get("sec-websocket-accept"))
        return self

    def send(self, kind, payload=b""):
        """Sends one frame."""
        mask, size = os.urandom(4), len(payload)
        length = bytes([0x80 | size]) if size < 126 else bytes([0x80 | 126]) + size.to_bytes(2, "big")
        masked = bytes(byte ^ mask[at % 4] for at, byte in enumerate(payload))
        self.stream.sendall(bytes([0x80 | kind]) + length + mask + masked)
        return self

    def frame(self, seconds):
        """The kind and the payload of the next frame; or "ended", or "nothing"."""
        told = self.take(lambda got: len(got) >= 2 and len(got) >= 2 + (got[1] & 0x7F), seconds)
        if told != "done":
            return told if not self.got else wrong(f"half a frame, and then {told}: {self.got!r}")
        head, size = self.got[:2]
        if head & 0xF0 != 0x80 or size > 125:
            wrong(f"a frame that is no last one, short and without a mask: {self.got!r}")
        payload, self.got = self.got[2:2 + size], self.got[2 + size:]
        return head & 0x0F, payload

    def poked(self, what, seconds=SOON):
        same(what, POKE, self.frame(seconds))

    def quiet(self, what, seconds=QUIET):
        same(what, "nothing", self.frame(seconds))

    def ended(self, what, seconds=LATE):
        same(what, "ended", self.frame(seconds))

    def waits(self, what):
        """No job is free for it yet."""
        same(what, "nothing", self.take(bool, QUIET))


class Server:
    """The program over an empty store in memory. What is pushed is numbered by client; each client has a group of its own."""

    running = []

    def __init__(self, program, pokes=4, connections=1000000, workers=4, before=()):
        self.port, self.poke_port, self.left = free_port(), free_port(), connections * workers
        with tempfile.TemporaryDirectory() as folder:
            accounts = pathlib.Path(folder, "accounts.toml")
            accounts.write_text(ACCOUNTS)
            words = [*before, program, "serve", "memory", "--accounts", str(accounts), "--port", str(self.port), "--workers", str(workers),
                     "--connections", str(connections), "--poke-port", str(self.poke_port), "--pokes", str(pokes)]
            self.process = subprocess.Popen(words, stdin=subprocess.DEVNULL, stdout=subprocess.PIPE, stderr=subprocess.PIPE)
            Server.running.append(self)
            self.http().close()
        self.last = {}

    def kill(self):
        self.process.kill()
        self.process.communicate()

    def http(self):
        """A connection to a worker."""
        self.left -= 1
        return connected(self.port)

    def link(self, user):
        """A link that was greeted, and has named its user."""
        return Link(self.poke_port).greeted().send(TEXT, f"k-{user}".encode())

    def next_push(self, user, name, args, client=None):
        """The request with the next mutation of a client of this user."""
        client = client or f"c-{user}"
        self.last[client] = self.last.get(client, 0) + 1
        mutation = {"clientID": client, "id": self.last[client], "name": name, "args": args, "timestamp": 0.5}
        return request("push", user, {"pushVersion": 1, "clientGroupID": f"g-{client}", "mutations": [mutation]})

    def push(self, user, name, args):
        """Pushes over a connection of its own."""
        with self.http() as stream:
            taken(stream, self.next_push(user, name, args))

    def pull(self, user, group, cookie):
        """What a pull over a connection of its own is answered."""
        with self.http() as stream:
            return json.loads(asked(stream, request("pull", user, {"pullVersion": 1, "clientGroupID": group, "cookie": cookie})))

    def add_list(self, owner, other):
        """A list that its owner shares, with a todo: three entries."""
        self.push(owner, "createList", {"id": f"l-{owner}", "name": "Home", "ownerID": owner})
        self.push(owner, "createShare", {"id": f"s-{owner}", "listID": f"l-{owner}", "userID": other})
        self.add_todo(owner, f"t-{owner}")

    def add_todo(self, owner, todo):
        self.push(owner, "createTodo", {"id": todo, "listID": f"l-{owner}", "text": "milk", "complete": False})

    def ends(self, entries, seconds=LATE):
        """Makes the connections that are left, and waits for the program's end. What it wrote to its second output."""
        while self.left:
            self.http().close()
        try:
            out, errors = self.process.communicate(timeout=seconds)
        except subprocess.TimeoutExpired:
            wrong(f"the program still runs {seconds} seconds after its last connection")
        same("what the program writes, and its status", (f"entries {entries}\n".encode(), 0), (out, self.process.returncode))
        return errors


def request(path, user, body):
    body = json.dumps({"profileID": "p", "schemaVersion": "", **body}).encode()
    return f"POST /{path} HTTP/1.1\r\nAuthorization: k-{user}\r\nContent-Length: {len(body)}\r\n\r\n".encode() + body


def whole_answer(stream):
    """The bytes of the next answer, and where its body begins."""
    got, whole = b"", None
    while whole is None or len(got) < whole:
        piece = stream.recv(65536)
        if not piece:
            wrong(f"an answer that ends after {got!r}")
        got += piece
        head, end, _ = got.partition(b"\r\n\r\n")
        if end and whole is None:
            start = len(head) + len(end)
            whole = start + int(head.partition(b"Content-Length: ")[2].partition(b"\r\n")[0])
    return got, start


def answer(stream):
    """The body of the next answer, whose status must be 200."""
    got, start = whole_answer(stream)
    same("an answer's status", b"HTTP/1.1 200", got[:12])
    return got[start:]


def size_of(stream, sent):
    """How many bytes the answer to this request has."""
    stream.sendall(sent)
    return len(whole_answer(stream)[0])


def asked(stream, sent):
    stream.sendall(sent)
    return answer(stream)


def taken(stream, sent):
    same("a push's answer", b"{}", asked(stream, sent))
