"""What a store in a file keeps, as Python's sqlite3 reads it, and what is told of it, beside the model's server."""
import contextlib
import os
import shutil
import sqlite3
import subprocess

from model import activity_text, cells, lists_text, text_of

# how many seconds a run may take
LONG = 120


def feed(program, path, lines):
    """The status of a run over these lines, and what it wrote."""
    text = "".join(line + "\n" for line in lines).encode()
    run = subprocess.run([program, "feed", path], input=text, stdout=subprocess.PIPE, timeout=LONG)
    return run.returncode, run.stdout.decode().split("\n")[:-1]


def read(path):
    """The cells of a store and its generation, as sqlite3 reads them; the file must be sound to it."""
    with contextlib.closing(sqlite3.connect(path)) as connection:
        assert connection.execute("PRAGMA integrity_check").fetchall() == [("ok",)]
        rows = connection.execute("SELECT shelf, k, body FROM cell").fetchall()
    found = {(shelf, key.decode()): body.decode() for shelf, key, body in rows}
    assert len(found) == len(rows)
    return found, int(found.pop((0, ""), "0"))


def held(path, folder):
    """The cells and the generation of a copy of the file and its log.

    A file that was being made holds nothing yet; the next run of the program, which must answer, finishes it.
    """
    copy = os.path.join(folder, "copy.db")
    for end in ("", "-wal"):
        if os.path.exists(path + end):
            shutil.copyfile(path + end, copy + end)
    try:
        found = read(copy)
    except sqlite3.DatabaseError:
        found = {}, 0
    except AssertionError:
        found = {}, "of a file that is not sound"
    for end in ("", "-wal", "-shm"):
        if os.path.exists(copy + end):
            os.remove(copy + end)
    return found


def model_held(server):
    """The cells and the generation that a store of the server's book has."""
    return cells(server), len(server.book)


def ship_lines(found):
    """The lines of a book: the cells of its page, that the page is whole, and the cells of its entries."""
    places = sorted(found, key=lambda place: (place[0], place[1].encode()))
    page = [place for place in places if 6 <= place[0] <= 9]
    entries = [place for place in places if place[0] == 1]
    whole = ['{"page":true}'] if page else []
    line = lambda place: text_of({"cell": [*place, found[place]]})
    return [line(place) for place in page] + whole + [line(place) for place in entries]


def reports_of(server):
    """The lines of each report on the server's book."""
    shipped = ship_lines(cells(server))
    return {"lists": lists_text(server), "activity": activity_text(server), "check": [f"ok {len(server.book)}"], "ship": shipped}


def told_by(program, name, path):
    """The status of a report, and its lines."""
    run = subprocess.run([program, name, path], stdout=subprocess.PIPE, timeout=LONG)
    return run.returncode, run.stdout.decode().split("\n")[:-1]
