#!/usr/bin/env python3
"""Copies a store while 16 connections push and pull, and opens each copy: checks/copies.py PROGRAM [COPIES [PORT]]

PROGRAM is the program `rv` as it was built, with 16 workers over a store in a file; COPIES how many copies are made (200), PORT the
port (21170). At a moment by chance the program is halted, its file and its log are copied, and it goes on: the copy is what a crash of
the machine at that moment would leave, where everything that was written is on the disk. Each copy is sound, and in its entries each
client's mutations stand once, in the order of their ids: all that were answered before the moment, and at most one more. Ends with
status 1 at the first difference.
"""
import pathlib
import random
import shutil
import signal
import sys
import tempfile
import time

from workers import Checks, check_store


def copied(checks, server, to):
    """A copy of the store in this file, with what was answered before it was made, and so much that it may have at most."""
    least = [client.pushed for client in checks.clients]
    looks = [dict(client.looks) for client in checks.clients]
    server.send_signal(signal.SIGSTOP)
    time.sleep(0.01)
    for end in ("", "-wal"):
        source = pathlib.Path(str(checks.store) + end)
        if source.exists():
            shutil.copyfile(source, str(to) + end)
    most = [client.pushed + 1 for client in checks.clients]
    server.send_signal(signal.SIGCONT)
    return least, most, looks


def main():
    program = sys.argv[1]
    copies = int(sys.argv[2]) if len(sys.argv) > 2 else 200
    port = int(sys.argv[3]) if len(sys.argv) > 3 else 21170
    chance, done, entries = random.Random(23), 0, 0
    while done < copies:
        with tempfile.TemporaryDirectory() as folder:
            checks = Checks(program, pathlib.Path(folder), port)
            port += 1
            server, made = checks.started(), []
            for client in checks.clients:
                client.start()
            time.sleep(0.5)
            for number in range(min(20, copies - done)):
                time.sleep(chance.uniform(0.005, 0.2))
                to = pathlib.Path(folder) / f"copy{number}.db"
                made.append((to, *copied(checks, server, to)))
            checks.end()
            server.kill()
            server.wait()
            for to, least, most, looks in made:
                entries += check_store(program, to, least, most, looks)
            done += len(made)
    print(f"{done} copies of a busy store opened, with {entries} entries: all that was answered, and at most one mutation of each client besides")


if __name__ == "__main__":
    main()
