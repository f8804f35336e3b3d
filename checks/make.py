#!/usr/bin/env python3
"""Compares `rv make` with a second model: checks/make.py PROGRAM [SEEDS]

PROGRAM is the program `rv` as it was built, SEEDS how many seeds are tried (200), each with two numbers of requests. The generator is
written anew here, and the server is that of model.py. Tries besides that a greater run is told twice the same, with counts that add
up. Ends with status 1 at the first line that differs. `checks/make.py --cases` prints the cases of `crates/trial_runs`, and after
them what must come.
"""
import re
import subprocess
import sys

from model import Server

SUMMARY = re.compile(r"requests (\d+) acted (\d+) skipped (\d+) looks (\d+) same (\d+) entries (\d+) rows (\d+)\n")


class Generator:
    """Requests that a seed makes."""

    def __init__(self, seed):
        self.number = seed
        self.made = 0
        self.pushed = [[], [], []]

    def draw(self):
        self.number = (self.number * 1103515245 + 12345) % 2**31
        return self.number // 65536

    def call(self, user):
        kind, place = self.draw() % 7, self.draw() % 20
        a_list, share, todo, text = f"l{place % 5}", f"s{place}", f"t{place}", f"x{self.made}"
        return [
            ("createList", {"id": a_list, "name": f"n{place % 5}", "ownerID": f"u{user}"}),
            ("deleteList", a_list),
            ("createShare", {"id": share, "listID": a_list, "userID": f"u{(user + 1) % 3}"}),
            ("deleteShare", share),
            ("createTodo", {"id": todo, "listID": a_list, "text": text, "complete": False}),
            ("updateTodo", {"id": todo, "text": text, "complete": True}),
            ("deleteTodo", todo),
        ][kind]

    def next(self):
        """The number of a user, and a mutation, or whether a pull takes the cookie that was answered last."""
        self.made += 1
        user, what = self.draw() % 3, self.draw() % 10
        pushed = self.pushed[user]
        if what < 6:
            name, args = self.call(user)
            pushed.append({"clientID": f"c{user}", "id": len(pushed) + 1, "name": name, "args": args})
            return user, pushed[-1]
        if what == 9 and pushed:
            return user, pushed[-1]
        return user, what != 8


def summary(seed, requests):
    """The line that must come."""
    generator, server, cookies = Generator(seed), Server(), [None, None, None]
    acted = skipped = looks = same = 0
    for _ in range(requests):
        user, asked = generator.next()
        before = len(server.book)
        if isinstance(asked, dict):
            status, _ = server.push(f"u{user}", {"clientGroupID": f"g{user}", "mutations": [asked]})
            acted += len(server.book) - before
            skipped += len(server.book) == before
        else:
            status, reply = server.pull(f"u{user}", {"clientGroupID": f"g{user}", "cookie": cookies[user] if asked else None})
            cookies[user] = reply["cookie"]
            looks += len(server.book) - before
            same += len(server.book) == before
        assert status == 200
    rows = len(server.states[-1])
    return f"requests {requests} acted {acted} skipped {skipped} looks {looks} same {same} entries {len(server.book)} rows {rows}\n"


def sizes_of(seed):
    return seed * 7 % 61, 100 + seed * 13 % 97


def told(program, seed, requests):
    return subprocess.run([program, "make", str(seed), str(requests)], stdout=subprocess.PIPE, check=True).stdout.decode()


def print_cases(count):
    seeds = [0, 1, 2147483647] + [seed * 10_737_418 % 2**31 for seed in range(1, count - 2)]
    for number, seed in enumerate(seeds):
        print(f"words rv make {seed} {sizes_of(number)[0]}\nonce")
    for number, seed in enumerate(seeds):
        print(summary(seed, sizes_of(number)[0]) + "status 0")


def adds_up(line, requests):
    match = SUMMARY.fullmatch(line)
    if match is None:
        return False
    all_requests, acted, skipped, looks, same, entries, _ = map(int, match.groups())
    return all_requests == acted + skipped + looks + same == requests and entries == acted + looks


def main():
    if sys.argv[1:] == ["--cases"]:
        return print_cases(200)
    if len(sys.argv) not in (2, 3):
        sys.exit(__doc__)
    program, seeds = sys.argv[1], int(sys.argv[2]) if len(sys.argv) > 2 else 200
    for seed in range(seeds):
        for requests in sizes_of(seed):
            its, mine = told(program, seed, requests), summary(seed, requests)
            if its != mine:
                sys.exit(f"make {seed} {requests}\nthe program: {its}the model:   {mine}")
    many = [told(program, 5, 20_000) for _ in range(2)]
    if many[0] != many[1] or not adds_up(many[0], 20_000):
        sys.exit(f"make 5 20000: {many}")
    print(f"the same lines of {2 * seeds} runs; {many[0]}", end="")


if __name__ == "__main__":
    main()
