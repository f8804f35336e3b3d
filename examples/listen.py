"""Listens for pokes: python3 examples/listen.py PORT KEY. Prints each one, with the time, until the server ends."""
import base64
import os
import socket
import struct
import sys
import time


TEXT, CLOSE, PING, PONG = 0x81, 0x88, 0x89, 0x8A


def frame(kind, payload):
    """A frame of a client (RFC 6455, section 5.2), whose bytes are masked."""
    mask = os.urandom(4)
    masked = bytes(byte ^ mask[at % 4] for at, byte in enumerate(payload))
    return bytes([kind, 0x80 | len(payload)]) + mask + masked


def opened(port):
    """A WebSocket to this machine, and what follows its handshake."""
    link = socket.create_connection(("127.0.0.1", port))
    key = base64.b64encode(os.urandom(16)).decode()
    link.sendall(
        f"GET / HTTP/1.1\r\nHost: 127.0.0.1\r\nUpgrade: websocket\r\nConnection: Upgrade\r\n"
        f"Sec-WebSocket-Version: 13\r\nSec-WebSocket-Key: {key}\r\n\r\n".encode()
    )
    stream = link.makefile("rb")
    if b" 101 " not in stream.readline():
        sys.exit("no WebSocket here")
    while stream.readline().strip():
        pass
    return link, stream


def main():
    """Sends the key, prints what comes, and answers pings."""
    port, key = int(sys.argv[1]), sys.argv[2]
    link, stream = opened(port)
    link.sendall(frame(TEXT, key.encode()))
    while len(head := stream.read(2)) == 2:
        payload = stream.read(head[1])
        if head[0] == CLOSE:
            sys.exit(f"closed with {struct.unpack('>H', payload[:2])[0]}")
        if head[0] == PING:
            link.sendall(frame(PONG, payload))
        else:
            print(time.strftime("%H:%M:%S"), payload.decode(), flush=True)


main()
