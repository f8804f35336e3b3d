#!/usr/bin/env python3
"""Counts and times what a standby does, beside the server whose book it follows: bench/standby.py PROGRAM [MOST]

PROGRAM is the program `rv` as it was built, MOST the most entries of a followed book (1,000,000). Needs valgrind, whose callgrind counts
the same on a busy machine. Instructions: of a pull of ten rows at the standby and at `feed`, and of an entry that is followed and one
that is opened from a file. Then a file of MOST entries, todos with keys in no order, is opened, and the lines that `ship` writes of it
are followed; times are processor time of one run, to be compared with each other only.
"""
import os
import re
import socket
import subprocess
import sys
import tempfile
import threading
import time

from feed import anew, pull, rows, unchanged
from instructions import instructions
from rows import most_memory, opening_file, ran

PORT = 21500


def connected(process):
    while True:
        try:
            return socket.create_connection(("127.0.0.1", PORT), timeout=600)
        except ConnectionRefusedError:
            assert process.poll() is None
            time.sleep(0.02)


def followed(words, sent):
    """Follows these lines by a program, and gives its answers, what it wrote, its processor seconds and the most memory in MB."""
    process = subprocess.Popen([*words, "follow", "--port", str(PORT)], stdout=subprocess.PIPE, stderr=subprocess.PIPE)
    with connected(process) as connection:
        def send():
            with open(sent, "rb") as file:
                connection.sendfile(file)
        sender = threading.Thread(target=send)
        sender.start()
        sender.join()
        time.sleep(1)
        memory = most_memory(process.pid)
        connection.shutdown(socket.SHUT_WR)
        got = b""
        while piece := connection.recv(65536):
            got += piece
    wrote, said = process.stdout.read(), process.stderr.read().decode()
    _, status, used = os.wait4(process.pid, 0)
    process.returncode = os.waitstatus_to_exitcode(status)
    assert process.returncode == 0, (process.returncode, wrote)
    return got, wrote.decode(), said, used.ru_utime + used.ru_stime, memory // 1024


def counted(program, lines):
    """The instructions of following these lines."""
    with tempfile.NamedTemporaryFile() as file:
        file.write("".join(line + "\n" for line in lines).encode())
        file.flush()
        words = ["valgrind", "--tool=callgrind", "--callgrind-out-file=/dev/null", program]
        got, _, said, _, _ = followed(words, file.name)
    assert all(line.startswith(b"200 ") for line in got.splitlines())
    return int(re.search(r"Collected : (\d+)", said).group(1))


def shipped(program, path):
    return subprocess.run([program, "ship", path], stdout=subprocess.PIPE, check=True).stdout.decode().splitlines()


def print_pulls(program, pulls=20):
    """Prints the instructions of a pull of ten rows, at the leader and at the standby."""
    with tempfile.TemporaryDirectory() as folder:
        path = os.path.join(folder, "lists.db")
        before = rows(10) + [pull()]
        subprocess.run([program, "feed", path], input="".join(line + "\n" for line in before).encode(), stdout=subprocess.DEVNULL, check=True)
        lines = shipped(program, path)
    leader, standby = instructions(program, before), counted(program, lines)
    for name, asked in (("unchanged", unchanged(11, pulls)), ("without base", anew(pulls))):
        at_leader = (instructions(program, before + asked) - leader) // pulls
        at_standby = (counted(program, lines + asked) - standby) // pulls
        print(f"a pull of ten rows, {name}: {at_standby} instructions at the standby, {at_leader} at the leader", flush=True)


def print_entries(program, count=20_000):
    """Prints the instructions of an entry that is followed, and of one that is opened from a file."""
    with tempfile.TemporaryDirectory() as folder:
        some, more = (os.path.join(folder, f"{n}.db") for n in range(2))
        opening_file(program, some, count // 2)
        opening_file(program, more, count)
        opened = instructions(program, [], more) - instructions(program, [], some)
        told = counted(program, shipped(program, more)) - counted(program, shipped(program, some))
    print(f"an entry of {count}: {told // (count // 2)} instructions where it is followed, {opened // (count // 2)} where it is opened", flush=True)


def print_large(program, most):
    """Prints what it takes to open a file of so many entries, and to follow them."""
    with tempfile.TemporaryDirectory(dir="/dev/shm" if os.path.isdir("/dev/shm") else None) as folder:
        path, lines = os.path.join(folder, "lists.db"), os.path.join(folder, "lines")
        opening_file(program, path, most)
        seconds, memory = ran(program, path, [])
        with open(lines, "wb") as file:
            subprocess.run([program, "ship", path], stdout=file, check=True)
        os.remove(path)
        size = os.path.getsize(lines) // 2**20
        _, wrote, _, told, held = followed([program], lines)
        assert wrote == f"entries {most}\n", wrote
    print(f"{most} entries: opened in {seconds:.2f} seconds, {memory} MB; {size} MB of lines followed in {told:.2f} seconds, {held} MB", flush=True)


def main():
    program = os.path.abspath(sys.argv[1])
    print_pulls(program)
    print_entries(program)
    print_large(program, int(sys.argv[2]) if len(sys.argv) > 2 else 1_000_000)


if __name__ == "__main__":
    main()
