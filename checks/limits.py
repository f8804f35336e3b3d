#!/usr/bin/env python3
"""Tries every limit below it, at it and above it: checks/limits.py PROGRAM [PORT]

PROGRAM is the program `rv` as it was built, PORT the first port that is tried (20680). Prints a table: the limit, how much was tried
below it (each power of two and one more), what came there and at the limit, and what came above it. Where the book has no limit that can
be reached (how many cells a store has, how many rows a pull tells, how many records an import has, how many clients and groups a closing
sums up) the sizes that are tried are large ones, and nothing stands above. So a program that gives up for want of memory that nobody
refused is seen. Takes a minute or two, and some 3 GB of memory. Ends with status 1 at the first size that is answered otherwise.
"""
import json
import os
import sqlite3
import subprocess
import sys
import tempfile

from serving import Server, free_ports, same, talk

TABLE = "CREATE TABLE cell (shelf INTEGER NOT NULL, k BLOB NOT NULL, body BLOB NOT NULL, PRIMARY KEY (shelf, k)) STRICT"
LINE, BODY, HEAD, FIELDS, KEY, USER, NAME, TEXT, IMPORT = 4_195_328, 4_194_304, 16_384, 64, 256, 64, 128, 16_384, 16_777_216
LISTS = 64
NUMBER = 2**53 - 1
TAKEN = "200 {}"


def below(limit, least=1):
    """Sizes under a limit: each power of two from the least on, one more than it, and one less than the limit."""
    powers = [1 << bit for bit in range(limit.bit_length())]
    return sorted({size for power in powers for size in (power, power + 1) if least <= size < limit} | {limit - 1})


def text_of(value):
    return json.dumps(value, separators=(",", ":"), ensure_ascii=False)


def mutation(number, name, args, client="c1"):
    return {"clientID": client, "id": number, "name": name, "args": args}


def push(mutations, group="g1", profile="p"):
    return {"pushVersion": 1, "clientGroupID": group, "profileID": profile, "schemaVersion": "", "mutations": mutations}


def pull(cookie=None, group="g1"):
    return {"pullVersion": 1, "clientGroupID": group, "profileID": "p", "schemaVersion": "", "cookie": cookie}


def list_of(name, owner="ann"):
    return {"id": name, "name": "Home", "ownerID": owner}


def run(program, words, text=b""):
    """The status of a run, and the lines that it wrote."""
    done = subprocess.run([program, *words], input=text, stdout=subprocess.PIPE, stderr=subprocess.DEVNULL)
    return done.returncode, done.stdout.decode().splitlines()


def feed(program, lines, store="memory"):
    """The status of a feed of these lines, and its answers."""
    return run(program, ["feed", store], "".join(line + "\n" for line in lines).encode())


def tell(limit, at, tried, comes, above):
    """A row of the table."""
    print(f"| {limit} | {at:,} | {len(tried)}, from {tried[0]:,} to {tried[-1]:,} | {comes} | {above} |", flush=True)


def each_line(program, limit, at, line, comes=TAKEN, above=None, least=1):
    """Lines of sizes below a limit and at it, in one run, and one above it in another: `above` is an answer, or what the run ends with."""
    sizes = below(at, least) + [at]
    same(limit, (0, [comes] * len(sizes)), feed(program, [line(size) for size in sizes]))
    status, told = feed(program, [line(at + 1)])
    same(f"{limit}, above it", above, told[-1])
    tell(limit, at, sizes, f"`{comes}`", f"`{above}`, status {status}")


def lines(program):
    """What a line and its parts may have."""
    asked = text_of({"user": "ann", "push": push([])})
    each_line(program, "bytes of a line", LINE, lambda size: asked + " " * (size - len(asked)), above="line 1", least=len(asked))
    room = len(text_of({"user": "ann", "push": push([], profile="")}))
    each_line(program, "bytes of a line, in one text of it", LINE, lambda size: text_of({"user": "ann", "push": push([], profile="p" * (size - room))}),
              above="line 1", least=room)
    each_line(program, "bytes of a user", USER, lambda size: text_of({"user": "u" * size, "push": push([], group=f"g{size}")}), above="line 1")
    each_line(program, "bytes of a client group", NAME, lambda size: text_of({"user": "ann", "push": push([], group="g" * size)}),
              above='400 {"error":"Field","field":"clientGroupID"}')
    each_line(program, "bytes of a client", NAME, lambda size: text_of({"user": "ann", "push": push([mutation(1, "", 0, "c" * size)])}),
              above='400 {"error":"Field","field":"clientID"}')
    each_line(program, "bytes of a retired group", NAME, lambda size: text_of({"retire": "g" * size}), '404 {"error":"NoGroup"}', "line 1")
    ends = '200 {"cookie":{"cvrID":"1","order":1},"lastMutationIDChanges":{},"patch":[{"op":"clear"}]}'
    sizes = below(TEXT) + [TEXT]
    for size in sizes + [TEXT + 1]:
        wanted = ends if size <= TEXT else '400 {"error":"Field","field":"cookie"}'
        same("bytes of a cvrID", (0, [wanted]), feed(program, [text_of({"user": "ann", "pull": pull({"cvrID": "v" * size, "order": 0})})]))
    tell("bytes of a `cvrID`", TEXT, sizes, "a look", "`400` `Field`, `cookie`")


def effects(program):
    """What the arguments of a call may have: in bounds it has an effect, and a pull tells the row; above them it is no call."""
    def rows(calls):
        lines_ = [text_of({"user": "ann", "push": push([mutation(number, *call)])}) for number, call in enumerate(calls, 1)]
        status, told = feed(program, lines_ + [text_of({"user": "ann", "pull": pull()})])
        same("calls", (0, [TAKEN] * len(calls)), (status, told[:-1]))
        return {op["key"]: op["value"] for op in json.loads(told[-1].removeprefix("200 "))["patch"][1:]}

    for limit, at, call, key in (
        ("bytes of a list's id", NAME, lambda size: ("createList", list_of("l" * size)), lambda size: "list/" + "l" * size),
        ("bytes of a list's name", TEXT, lambda size: ("createList", list_of(f"l{size}") | {"name": "n" * size}), lambda size: f"list/l{size}"),
        ("bytes of a todo's id", NAME, lambda size: ("createTodo", {"id": "t" * size, "listID": "l", "text": "", "complete": False}), lambda size: "todo/" + "t" * size),
        ("bytes of a todo's text", TEXT, lambda size: ("createTodo", {"id": f"t{size}", "listID": "l", "text": "t" * size, "complete": False}), lambda size: f"todo/t{size}"),
        ("bytes of a share's id", NAME, lambda size: ("createShare", {"id": "s" * size, "listID": "l", "userID": f"u{size}"}), lambda size: "share/" + "s" * size),
        ("bytes of a share's user", USER, lambda size: ("createShare", {"id": f"s{size}", "listID": "l", "userID": "u" * size}), lambda size: f"share/s{size}"),
    ):
        sizes = [size for size in below(at, 2)] + [at]
        stand = rows([("createList", list_of("l"))] + [call(size) for size in sizes + [at + 1]])
        same(limit, sorted(["list/l"] + [key(size) for size in sizes]), sorted(stand))
        tell(limit, at, sizes, "the row", "no call")
    first = {"id": "t", "listID": "l", "text": "", "complete": False}
    sizes = below(NUMBER)[::8] + [NUMBER]
    for size in sizes + [NUMBER + 1]:
        stand = rows([("createList", list_of("l")), ("createTodo", first), ("updateTodo", {"id": "t", "sort": size})])
        same("a sort", size if size <= NUMBER else 1, stand["todo/t"]["sort"])
    tell("a sort", NUMBER, sizes, "the row", "no call")
    for limit, at, lists in (
        ("lists of an extent", LISTS, lambda size: [f"l{number:02}" for number in range(size)]),
        ("lists of an extent, all the same", LISTS, lambda size: ["l"] * size),
        ("bytes of a list's id in an extent", NAME, lambda size: ["l" * size]),
    ):
        sizes = below(at) + [at]
        for size in sizes + [at + 1]:
            stand = rows([("setExtent", {"lists": []}), ("setExtent", {"lists": lists(size)})])
            wanted = sorted(set(lists(size))) if size <= at else []
            same(limit, {"extent/ann": {"lists": wanted, "user": "ann"}}, stand)
        tell(limit, at, sizes, "the row", "no call")


def numbers(program):
    """What an id and an order may be."""
    sizes = below(NUMBER, 2) + [NUMBER]
    for size in sizes + [NUMBER + 1]:
        wanted = f'409 {{"error":"Future","expected":1,"got":{size}}}' if size <= NUMBER else '400 {"error":"Field","field":"id"}'
        same("an id", (0, [wanted]), feed(program, [text_of({"user": "ann", "push": push([mutation(size, "", 0)])})]))
    tell("an id", NUMBER, sizes, "`409` `Future`", "`400` `Field`, `id`")
    sizes = below(NUMBER)
    for size in sizes + [NUMBER, NUMBER + 1]:
        wanted = f'200 {{"cookie":{{"cvrID":"1","order":{size + 1}}},"lastMutationIDChanges":{{}},"patch":[{{"op":"clear"}}]}}'
        if size >= NUMBER:
            wanted = f'507 {{"at":{NUMBER},"error":"Limit","which":"order"}}' if size == NUMBER else '400 {"error":"Field","field":"cookie"}'
        same("a cookie's order", (0, [wanted]), feed(program, [text_of({"user": "ann", "pull": pull(size)})]))
    tell("a cookie's order, with a look above it", NUMBER - 1, sizes, "the next order", "`507` `Limit`, `order`; above that `400` `Field`, `cookie`")


def nesting(program):
    """How deep a line may nest, and a body, which stands one deep in its line."""
    sizes = list(range(5, 128))

    def line(depth):
        deep = "[" * (depth - 4) + "]" * (depth - 4)
        return text_of({"user": "ann", "push": push([mutation(1, "", "deep")])}).replace('"deep"', deep)

    same("a line that nests", (0, [TAKEN] * len(sizes)), feed(program, [line(depth) for depth in sizes]))
    same("a line that nests deeper", (10, ["line 1"]), feed(program, [line(128)]))
    tell("depth of a line", 127, sizes, f"`{TAKEN}`", "`line 1`, status 10")


def long_pushes(program):
    """A push of as many mutations as a line holds."""
    def line(count):
        mutations = ",".join(f'{{"clientID":"c","id":{number},"name":"","args":0}}' for number in range(1, count + 1))
        return f'{{"user":"ann","push":{{"pushVersion":1,"clientGroupID":"g","profileID":"","schemaVersion":"","mutations":[{mutations}]}}}}'

    most = 65_537
    while len(line(most + 1)) <= LINE:
        most += max(1, (LINE - len(line(most))) // 60)
    sizes = [1, 2, 64, 65, 256, 257, 1024, 4096, 4097, 16_384, 65_536, 65_537, most]
    pulled = text_of({"user": "ann", "pull": pull(group="g")})
    for count in sizes:
        told = f'200 {{"cookie":{{"cvrID":"{count + 1}","order":1}},"lastMutationIDChanges":{{"c":{count}}},"patch":[{{"op":"clear"}}]}}'
        same(f"a push of {count} mutations", (0, [TAKEN, told]), feed(program, [line(count), pulled]))
    same("a push above the most", (10, ["line 1"]), feed(program, [line(most + 1)]))
    tell("mutations of a push", most, sizes, "each run", "`line 1`, status 10")


def accounts_of(users):
    return "".join(f"[[account]]\nkey = {text_of(key)}\nuser = {text_of(user)}\n" for key, user in users)


def served(program, port, folder):
    """What a request and an account may have."""
    accounts = os.path.join(folder, "accounts.toml")

    def write(users):
        with open(accounts, "w") as file:
            file.write(accounts_of(users))

    def ask(head, body=b"", close=False):
        """The answer to one request over a connection of its own, as status and body."""
        connection = server.connect()
        try:
            connection.sendall(head + body)
        except OSError:
            pass
        got = b""
        while b"\r\n\r\n" not in got or len(got.split(b"\r\n\r\n", 1)[1]) < int(got.split(b"Content-Length: ", 1)[1].split(b"\r\n", 1)[0]):
            piece = connection.recv(65536)
            if not piece:
                sys.exit(f"a connection ends after {got!r}")
            got += piece
        connection.close()
        return got.split(b" ", 2)[1].decode() + " " + got.split(b"\r\n\r\n", 1)[1].decode()

    def head_of(length, key="k", more=""):
        return f"POST /push HTTP/1.1\r\nAuthorization: {key}\r\n{more}Content-Length: {length}\r\n\r\n".encode()

    write([("k", "ann")])
    asked = text_of(push([])).encode()
    bodies, heads, fields = below(BODY, len(asked)) + [BODY], below(HEAD, 128) + [HEAD], below(FIELDS, 2) + [FIELDS]
    server = Server(program, next(port), "memory", accounts, len(bodies) + len(heads) + len(fields) + 3)
    for size in bodies:
        same(f"a body of {size} bytes", TAKEN, ask(head_of(size), asked + b" " * (size - len(asked))))
    same("a body above the limit", '413 {"error":"BodyTooLarge"}', ask(head_of(BODY + 1), asked + b" " * (BODY + 1 - len(asked))))
    tell("bytes of a body", BODY, bodies, f"`{TAKEN}`", "`413` `BodyTooLarge`")
    bare = len(head_of(len(asked), more="A: \r\n"))
    for size in heads:
        head = head_of(len(asked), more=f"A: {'a' * (size - bare)}\r\n")
        same(f"a head of {size} bytes", (size, TAKEN), (len(head), ask(head, asked)))
    same("a head above the limit", '431 {"error":"HeadTooLarge"}', ask(head_of(len(asked), more=f"A: {'a' * (HEAD + 1 - bare)}\r\n"), asked))
    tell("bytes of a head", HEAD, heads, f"`{TAKEN}`", "`431` `HeadTooLarge`")
    for size in fields:
        same(f"a head of {size} fields", TAKEN, ask(head_of(len(asked), more="A: a\r\n" * (size - 2)), asked))
    same("a head of more fields", '431 {"error":"HeadTooLarge"}', ask(head_of(len(asked), more="A: a\r\n" * (FIELDS - 1)), asked))
    tell("fields of a head", FIELDS, fields, f"`{TAKEN}`", "`431` `HeadTooLarge`")
    server.ends("entries 0\n")

    keys = below(KEY) + [KEY]
    write([("k" * size, "ann") for size in keys])
    server = Server(program, next(port), "memory", accounts, len(keys) + 1)
    for size in keys:
        same(f"a key of {size} bytes", TAKEN, ask(head_of(len(asked), "k" * size), asked))
    same("a key above the limit", '401 {"error":"Unauthorized"}', ask(head_of(len(asked), "k" * (KEY + 1)), asked))
    server.ends("entries 0\n")
    for size in (KEY + 1, 2 * KEY, 65_536, 65_537):
        write([("k", "ann"), ("k" * size, "bob")])
        Server(program, next(port), "memory", accounts, 1).ends("accounts: bad 2\n", 3)
    tell("bytes of a key", KEY, keys, f"`{TAKEN}`", "`accounts: bad 2`, status 3; of a request `401`")

    users = below(USER) + [USER]
    write([(f"k{size}", "u" * size) for size in users])
    server = Server(program, next(port), "memory", accounts, len(users))
    for size in users:
        same(f"a user of {size} bytes", TAKEN, ask(head_of(len(asked), f"k{size}"), text_of(push([], group=f"{size}")).encode().ljust(len(asked))))
    server.ends("entries 0\n")
    for size in (USER + 1, 2 * USER, 65_536):
        write([("k", "ann"), ("l", "u" * size)])
        Server(program, next(port), "memory", accounts, 1).ends("accounts: bad 2\n", 3)
    tell("bytes of an account's user", USER, users, f"`{TAKEN}`", "`accounts: bad 2`, status 3")

    counts = [1, 64, 65, 1000, 4000]
    for count in counts:
        write([(f"key {number} of many", f"u{number}") for number in range(count)])
        server = Server(program, next(port), "memory", accounts, 1)
        same(f"{count} accounts", TAKEN, ask(head_of(len(asked), f"key {count - 1} of many"), asked))
        server.ends("entries 0\n")
    tell("accounts of a file", counts[-1], counts, f"`{TAKEN}`", f"no limit; the last file has {os.path.getsize(accounts):,} bytes")


def words(program, folder):
    """What a word may have or name."""
    store = os.path.join(folder, "words.db")
    same("a list", (0, [TAKEN]), feed(program, [text_of({"user": "ann", "push": push([mutation(1, "createList", list_of("l1"))])})], store))
    csv = b"list,text,complete\n"
    for limit, at, asked, comes in (
        ("bytes of the word NAME", 48, lambda size: ["import", store, "ann", "n" * size], (0, ["records 0 acted 0 skipped 0"])),
        ("bytes of the word USER", USER, lambda size: ["import", store, "u" * size, "n"], (0, ["records 0 acted 0 skipped 0"])),
        ("bytes of the word GROUP", NAME, lambda size: ["retire", store, "g" * size], (0, ['404 {"error":"NoGroup"}'])),
        ("N of `make`", 1_000_000, lambda size: ["make", "7", str(size)], None),
        ("SEED of `make`", 2_147_483_647, lambda size: ["make", str(size), "0"], None),
    ):
        sizes = below(at) + [at]
        for size in sizes:
            status, told = run(program, asked(size), csv)
            same(f"{limit}: {size}", comes or 0, (status, told) if comes else status)
        for size in (at + 1, 2 * at):
            status, told = run(program, asked(size), csv)
            same(f"{limit}: {size}", (2, "usage"), (status, told[-1].split(":")[0]))
        tell(limit, at, sizes, f"`{comes[1][0]}`" if comes else "status 0", "`usage`, status 2")
    for limit, at, asked in (
        ("PORT", 65_535, ["--port", "{}", "--workers", "1", "--connections", "1"]),
        ("`--workers`", 16, ["--port", "1", "--workers", "{}", "--connections", "1"]),
        ("`--connections`", 1_000_000, ["--port", "1", "--workers", "1", "--connections", "{}"]),
        ("`--pokes`", 16, ["--port", "1", "--workers", "1", "--connections", "1", "--pokes", "{}"]),
    ):
        sizes = below(at) + [at]
        for size in sizes + [at + 1]:
            more = [word.format(size) for word in asked]
            wanted = (4, ["keeper"]) if size <= at else 2
            status, told = run(program, ["serve", "memory", "--accounts", os.path.join(folder, "no accounts"), *more])
            same(f"{limit}: {size}", wanted, (status, told) if size <= at else status)
        tell(limit, at, sizes, "the accounts file is read", "`usage`, status 2")


def imports(program):
    """An import of the largest file, of more than 300,000 records, and one of a byte more."""
    head, create = b"list,text,complete\n", "".join
    counts = []
    for size in (1 << 16, 1 << 20, IMPORT):
        record = b"l1,a todo among very many others of %d,true\n" % size
        count = (size - len(head)) // len(record)
        data = head + record * count
        data += b"\n" * (size - len(data))
        same(f"an import of {size} bytes", (0, [f"records {count} acted {count} skipped 0"]), run(program, ["import", "memory", "ann", "n"], data))
        counts.append(count)
    same("an import of a byte more", (11, ["csv size"]), run(program, ["import", "memory", "ann", "n"], data + b"\n"))
    tell("bytes of an import", IMPORT, [1 << 16, 1 << 20, IMPORT], f"up to {counts[-1]:,} records acted", "`csv size`, status 11")


def write_store(path, generation, cells):
    """A store of these cells, written by SQLite's own library."""
    connection = sqlite3.connect(path)
    connection.execute(TABLE)
    connection.execute("INSERT INTO cell VALUES (0, x'', ?)", (str(generation).encode(),))
    connection.executemany("INSERT INTO cell VALUES (?, ?, ?)", ((shelf, key.encode(), text_of(body).encode()) for shelf, key, body in cells))
    count = connection.execute("SELECT count(*) FROM cell").fetchone()[0]
    connection.commit()
    connection.close()
    return count


def stores(program, folder):
    """Stores of very many cells: of entries, and of a page of many rows, clients, groups and lists, which is closed again."""
    entries = 150_000
    path = os.path.join(folder, "entries.db")
    acts = [(1, f"{number:010}", ["act", "ann", "g1", f"c{number}", 1, ["void", "UnknownName"]]) for number in range(1, entries + 1)]
    clients = [(3, f"c{number}", ["g1", 1]) for number in range(1, entries + 1)]
    count = write_store(path, entries, acts + clients + [(4, "g1", ["ann", 0, False])])
    same(f"a store of {count} cells", (0, [f"ok {entries}"]), run(program, ["check", path]))
    tell("cells of a store, half of them entries", count, [count], f"`ok {entries}`", "no limit")

    lists, todos, groups = 12_000, 110_000, 30_000
    place = lists + todos + groups
    rows = [(f"list/l{number:06}", [1 + number, list_of(f"l{number:06}")]) for number in range(lists)]
    rows += [(f"todo/t{number:06}", [lists + 1 + number, {"complete": False, "id": f"t{number:06}", "listID": f"l{number % lists:06}", "sort": 1 + number // lists, "text": "milk"}])
             for number in range(todos)]
    of_page = [(0, key, body) for key, body in rows]
    of_page += [(1, f"c{number:06}", [f"g{number:06}", 7]) for number in range(groups)]
    of_page += [(2, f"g{number:06}", ["ann" if number == 0 else f"u{number}", 0, False]) for number in range(groups)]
    cells = [(6, "", place)] + [(shelf + at, key, body) for at in (2, 7) for shelf, key, body in of_page]
    path = os.path.join(folder, "page.db")
    count = write_store(path, place, cells)
    same(f"a store of {count} cells of a page", (0, [f"ok {place}"]), run(program, ["check", path]))
    asked = [text_of({"user": "ann", "pull": pull(group="g000000")}), '{"closeBook":true}', '{"stop":true}', text_of({"user": "ann", "pull": pull(group="g000000")})]
    status, told = feed(program, asked, path)
    for answer in (told[0], told[-1]):
        same("a pull of all rows", "200 ", answer[:4] if answer.startswith("200 ") else answer)
        patch = json.loads(answer.removeprefix("200 "))["patch"]
        same("the rows that a pull tells", sorted(key for key, _ in rows), sorted(op["key"] for op in patch[1:]))
        same("their values", dict((key, body[1]) for key, body in rows), {op["key"]: op["value"] for op in patch[1:]})
    same("the run", (0, 3), (status, len(told)))
    same("the closing", f'200 {{"closed":{place + 2}}}', told[1])
    same("the closed store", (0, [f"ok {place + 3}"]), run(program, ["check", path]))
    tell("cells of a store, all of a page", count, [count], f"`ok {place}`", "no limit")
    tell("rows that a pull tells anew", len(rows), [len(rows)], "each row", "no limit")
    tell("clients and groups that a closing sums up", 2 * groups, [2 * groups], f"`{told[1]}`", "no limit")


def main():
    if len(sys.argv) not in (2, 3):
        sys.exit(__doc__)
    program = os.path.abspath(sys.argv[1])
    port = free_ports(int(sys.argv[2]) if len(sys.argv) > 2 else 20680)
    print("| Limit | At | Sizes tried up to it | There | One above |\n|---|---|---|---|---|")
    with tempfile.TemporaryDirectory() as folder:
        lines(program)
        numbers(program)
        nesting(program)
        effects(program)
        long_pushes(program)
        words(program, folder)
        served(program, port, folder)
        imports(program)
        stores(program, folder)
    print("each limit as it should be")


if __name__ == "__main__":
    try:
        main()
    finally:
        for process in Server.running:
            process.kill()
