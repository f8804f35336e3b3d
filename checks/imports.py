#!/usr/bin/env python3
"""Compares imports and exports with a plain program: checks/imports.py PROGRAM [FILES [KILLS [SEED]]]

PROGRAM is the program `rv` as it was built, FILES how many files are made by chance and imported (300): quotes, commas and line ends
within texts, bytes that are no UTF-8, NUL, empty fields, fields at their limits. Each is imported twice, the second time over what the
first left; status, output and cells are compared with those of the model's server, which is asked for each record that a reader of CSV
written anew finds. What is exported is compared, and read back with Python's csv and, where Debian's sqlite3 is installed, with its `.import`. Then files at the limit of 16 MiB and a byte above it
are tried, and one import is killed KILLS times (50) and begun again: what is kept at the end is what a run without a kill keeps. Ends
with status 1 at the first difference.
"""
import csv
import io
import json
import os
import random
import shutil
import subprocess
import sys
import tempfile
import time

from kept import feed, read
from model import Server, cells, in_order, text_of
from scripts import Requests, more

LIMIT = 16 * 1024 * 1024
HEADER = [b"list", b"text", b"complete"]


def records_of(data):
    """The records of bytes, as Rust's csv reads them by default but for their numbers of fields (RFC 4180, with any line end)."""
    if data.startswith(b"\xef\xbb\xbf"):
        data = data[3:]
    records, fields, field, state = [], [], bytearray(), "record"

    def end_field():
        fields.append(bytes(field))
        field.clear()

    def end_record():
        end_field()
        records.append(list(fields))
        fields.clear()

    for byte in data:
        if state == "record":
            if byte in b"\r\n":
                continue
            state = "field"
        if state == "field" and byte == 0x22:
            state = "quoted"
        elif state == "quoted":
            if byte == 0x22:
                state = "quote"
            else:
                field.append(byte)
        elif state == "quote" and byte == 0x22:
            field.append(byte)
            state = "quoted"
        elif byte == 0x2C:
            end_field()
            state = "field"
        elif byte in b"\r\n":
            end_record()
            state = "record"
        else:
            field.append(byte)
            state = "plain"
    if state != "record":
        end_record()
    return records


def texts_of(record):
    """The three texts of a record that is of the form, or None."""
    if len(record) != 3:
        return None
    try:
        return [field.decode() for field in record]
    except UnicodeDecodeError:
        return None


def imported(server, user, name, data):
    """The status of an import, and what it writes; the server takes the turns."""
    if len(data) > LIMIT:
        return 11, "csv size\n"
    records = records_of(data)
    if not records or records[0] != HEADER:
        return 11, "csv 0\n"
    client, acted = f"csv/{user}/{name}", 0
    for number, record in enumerate(records[1:], 1):
        texts = texts_of(record)
        if texts is None:
            return 11, f"csv {number}\n"
        flag = {"true": True, "false": False}.get(texts[2])
        args = {"id": f"{client}/{number}", "listID": texts[0], "text": texts[1], "complete": flag}
        before = len(server.book)
        refusal = server.mutate(user, f"csv/{user}", {"clientID": client, "id": number, "name": "createTodo", "args": args})
        if refusal is not None:
            return 12, f"{refusal[0]} {text_of(refusal[1])}\n"
        acted += len(server.book) - before
    count = len(records) - 1
    return 0, f"records {count} acted {acted} skipped {count - acted}\n"


def quoted(text):
    return '"' + text.replace('"', '""') + '"' if any(c in text for c in ',"\r\n') else text


def exported(server, user):
    seen = server.seen(user, len(server.book))
    return "key,value\n" + "".join(f"{quoted(key)},{quoted(text_of(seen[key]))}\n" for key in in_order(seen))


def run(program, words, data=b""):
    done = subprocess.run([program, *words], input=data, stdout=subprocess.PIPE)
    return done.returncode, done.stdout.decode()


def piece(chance):
    """A field by chance."""
    plain = [b"l0", b"l1", b"l2", b"true", b"false", b"milk", b"eggs", b"", b"a b", "ä".encode(), b"x" * 128, b"x" * 129]
    odd = [b"\xff", b"\x00", b"True", b" true", b'say "so"', b"a,b", b"a\nb", b"a\r\nb", b"\r", b'"', b"t" * 16384, b"t" * 16385]
    return chance.choice(odd) if chance.randrange(12) == 0 else chance.choice(plain)


def as_field(chance, field):
    if any(byte in field for byte in b',"\r\n') and chance.randrange(20):
        return b'"' + field.replace(b'"', b'""') + b'"'
    return b'"' + field + b'"' if chance.randrange(15) == 0 else field


def record(chance):
    fields = [chance.choice([b"l0", b"l1", b"l2"]), piece(chance), chance.choice([b"true", b"false"])]
    if chance.randrange(8) == 0:
        fields[chance.randrange(3)] = piece(chance)
    if chance.randrange(60) == 0:
        fields = fields[: chance.randrange(3)] or fields + [b"more"]
    return b",".join(as_field(chance, field) for field in fields)


def file_by(chance):
    """The bytes of a file by chance: mostly of the form."""
    lines = [b"list,text,complete"]
    kind = chance.randrange(40)
    if kind < 3:
        lines = [chance.choice([b"list,text", b"List,text,complete", b'"list",text,complete', b"\xef\xbb\xbflist,text,complete", b"", b"l0,milk,true"])]
    lines += [record(chance) for _ in range(chance.choice([0, 1, 2, 5, 20, 60]))]
    ends = [b"\n"] * 5 + [b"\r\n", b"\r", b"\n\n"]
    data = b"".join(line + chance.choice(ends if kind % 3 == 0 else ends[:1]) for line in lines)
    if kind == 5:
        data = data.rstrip(b"\r\n")
    if kind == 6 and data:
        at = chance.randrange(len(data))
        data = data[:at] + bytes([chance.randrange(256)]) + data[at + chance.randrange(2):]
    return data


def same(what, told, wanted):
    if told != wanted:
        sys.exit(f"{what}: {str(told)[:300]}, and not {str(wanted)[:300]}")


def check_cells(path, server, where):
    held, generation = read(path)
    if held != cells(server) or generation != len(server.book):
        sys.exit(f"{where}: other cells, at generation {generation}")


def by_sqlite(data, folder):
    """The rows of CSV, as the shell of SQLite reads them into a table."""
    path = os.path.join(folder, "exported.csv")
    with open(path, "wb") as out:
        out.write(data)
    words = ["sqlite3", ":memory:", f".import --csv {path} rows", "SELECT json_group_array(json_array(key, value)) FROM rows"]
    return json.loads(subprocess.run(words, stdout=subprocess.PIPE, check=True).stdout)


def check_exports(program, path, server, where):
    for user in ("ann", "bob", "nobody"):
        same(f"{where}: what {user} sees", run(program, ["export", path, user]), (0, exported(server, user)))
    text = exported(server, "ann")
    rows = list(csv.reader(io.StringIO(text, newline="")))
    if shutil.which("sqlite3") and len(rows) > 1:
        same(f"{where}: read by sqlite3", by_sqlite(text.encode(), os.path.dirname(path)), rows[1:])
    wanted = server.seen("ann", len(server.book))
    same(f"{where}: read back", {key: json.loads(value) for key, value in rows[1:]}, {key: json.loads(text_of(row)) for key, row in wanted.items()})


def check_file(program, folder, seed):
    """A file by chance, imported twice and then mended or not, over a store by chance."""
    chance, server = random.Random(seed), Server()
    path = os.path.join(folder, f"{seed}.db")
    lines, answers = more(Requests(chance, server), chance.choice([0, 30, 30, 60]))
    status, told = feed(program, path, lines)
    same(f"file {seed}, its store", (status, told), (0, answers))
    user, name, data = chance.choice(["ann", "ann", "bob", "zoe"]), chance.choice(["home", "a b", "ä", "n" * 48]), file_by(chance)
    if chance.randrange(25) == 0:
        server.retire(f"csv/{user}")
    count = 0
    for time_ in range(2):
        wanted = imported(server, user, name, data)
        same(f"file {seed}, import {time_ + 1}", run(program, ["import", path, user, name], data), wanted)
        check_cells(path, server, f"file {seed}, import {time_ + 1}")
        count += wanted[0] == 0
    if chance.randrange(10) == 0:
        wanted = server.retire(f"csv/{user}")
        same(f"file {seed}, retired", run(program, ["retire", path, f"csv/{user}"]), (0, f"{wanted[0]} {text_of(wanted[1])}\n"))
        same(f"file {seed}, after that", run(program, ["import", path, user, name], data), imported(server, user, name, data))
    check_exports(program, path, server, f"file {seed}")
    return len(data), count


def check_limits(program, folder):
    """A file of 16 MiB, and one of a byte more."""
    line = b"l1," + b"t" * 16384 + b",false\n"
    whole = b"list,text,complete\n" + line * 1000
    whole += b"\n" * (LIMIT - len(whole))
    path = os.path.join(folder, "limit.db")
    same("one byte more", run(program, ["import", path, "ann", "home"], whole + b"\n"), (11, "csv size\n"))
    same("one byte more, twice as long", run(program, ["import", path, "ann", "home"], whole * 2), (11, "csv size\n"))
    same("16 MiB", run(program, ["import", path, "ann", "home"], whole), (0, "records 1000 acted 1000 skipped 0\n"))
    same("check", run(program, ["check", path]), (0, "ok 1000\n"))
    for words in (["ann", ""], ["ann", "a/b"], ["ann", "n" * 49], ["", "n"], ["u" * 65, "n"], ["ann"]):
        status, text = run(program, ["import", path, *words], whole)
        same(f"the words {words}", (status, text.split(":")[0]), (2, "usage"))
    same("another store", run(program, ["export", os.path.join(folder, "none.db"), "ann"]), (4, "keeper\n"))


def check_kills(program, folder, kills, chance):
    """An import that is killed and begun again, beside one that is not."""
    create = json.dumps({"user": "ann", "push": {"pushVersion": 1, "clientGroupID": "g1", "profileID": "p", "schemaVersion": "", "mutations": [{"clientID": "c1", "id": 1, "name": "createList", "args": {"id": "l1", "name": "Home", "ownerID": "ann"}}]}})
    data = b"list,text,complete\n" + b"".join(b'l1,"todo %d, of many",%s\n' % (n, [b"true", b"false", b"maybe"][n % 3]) for n in range(20000))
    paths = [os.path.join(folder, name) for name in ("killed.db", "whole.db")]
    for path in paths:
        same("the list", feed(program, path, [create]), (0, ["200 {}"]))
    start = time.monotonic()
    same("the import", run(program, ["import", paths[1], "ann", "home"], data), (0, "records 20000 acted 20000 skipped 0\n"))
    took = time.monotonic() - start
    done = 0
    for _ in range(kills):
        running = subprocess.Popen([program, "import", paths[0], "ann", "home"], stdin=subprocess.PIPE, stdout=subprocess.PIPE)
        try:
            running.stdin.write(data)
            running.stdin.close()
            time.sleep(chance.uniform(0.2, 1.6) * took / kills)
        except BrokenPipeError:
            pass
        running.kill()
        running.stdout.read()
        done += running.wait() == 0
    status, text = run(program, ["import", paths[0], "ann", "home"], data)
    acted = int(text.split()[3]) if status == 0 else -1
    same("after the kills", (status, text), (0, f"records 20000 acted {acted} skipped {20000 - acted}\n"))
    same("what is kept after the kills", read(paths[0]), read(paths[1]))
    same("once more", run(program, ["import", paths[0], "ann", "home"], data), (0, "records 20000 acted 0 skipped 20000\n"))
    return took, acted


def main():
    program = os.path.abspath(sys.argv[1])
    files, kills, seed = [int(word) for word in sys.argv[2:]] + [300, 50, 1][len(sys.argv) - 2:]
    size = ended = 0
    with tempfile.TemporaryDirectory() as folder:
        for number in range(files):
            more_size, more_ended = check_file(program, folder, seed * 100000 + number)
            size, ended = size + more_size, ended + more_ended
        check_limits(program, folder)
        took, acted = check_kills(program, folder, kills, random.Random(seed))
    print(f"{files} files, {size} bytes, {ended} imports to their end; {kills} kills, after which {acted} of 20000 records acted; 20000 records in {took:.1f} seconds")


if __name__ == "__main__":
    main()
