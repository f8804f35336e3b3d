"""A client of `rv serve` that reads nothing, and how much the server has written to it, as Linux tells it: for checks/pokes.py."""
import fcntl
import socket
import struct
import termios
import time

from links import LATE, QUIET, connected, wrong

# A small buffer, and small segments, by which Linux makes the server's buffer small too. How much the two hold differs by some thousand
# bytes from one connection to the next, so no more than up to MARGIN below it is asked for blindly.
BUFFER, SEGMENT, MARGIN = 2048, 536, 2200


class Held:
    """A connection whose client reads nothing, and to which the server can't write much ahead."""

    def __init__(self, port):
        self.port, self.told, self.asked = port, 0, 0
        self.stream = connected(port, ((socket.SOL_SOCKET, socket.SO_RCVBUF, BUFFER), (socket.IPPROTO_TCP, socket.TCP_MAXSEG, SEGMENT)))

    def ask(self, sent, size, count=1):
        """Sends a request so often, whose answer has this size."""
        self.stream.sendall(sent * count)
        self.told, self.asked = self.told + count * size, self.asked + count

    def written(self):
        """How many bytes the server has written: they wait here, or on its own side."""
        here = struct.unpack("i", fcntl.ioctl(self.stream, termios.FIONREAD, bytes(4)))[0]
        own, other = (f":{port:04X}" for port in (self.stream.getsockname()[1], self.port))
        with open("/proc/net/tcp") as lines:
            for line in lines:
                _, local, remote, _, queues, *_ = line.split()
                if local.endswith(other) and remote.endswith(own):
                    return here + int(queues.partition(":")[0], 16)
        return wrong("the server has closed a connection whose client reads nothing")

    def has_all(self, seconds=0):
        """Whether all answers are written, before long."""
        end = time.monotonic() + seconds
        while self.written() < self.told:
            if time.monotonic() >= end:
                return False
            time.sleep(0.001)
        return True

    def room(self, sent, size):
        """How much the server writes ahead, by many answers of this size: it waits for the client where one of them stands in part."""
        self.ask(sent, size, 99)
        end, last, since = time.monotonic() + LATE, 0, time.monotonic()
        while last % size == 0 or time.monotonic() < since + QUIET:
            now = self.written()
            if now != last:
                last, since = now, time.monotonic()
            if time.monotonic() > end:
                wrong(f"the server writes {last} bytes to a client that reads nothing, and doesn't wait for it")
            time.sleep(0.01)
        return last

    def fill(self, asks, room):
        """Asks for answers for which there is room, the large ones first. Whether all of them are written."""
        for sent, size in asks:
            while self.told + size + MARGIN < room:
                self.ask(sent, size)
                if not self.has_all(LATE / 2):
                    return False
        return True

    def read(self):
        """Reads all answers."""
        got = 0
        while got < self.told:
            piece = self.stream.recv(65536)
            if not piece:
                wrong(f"answers that end {self.told - got} bytes early")
            got += len(piece)
