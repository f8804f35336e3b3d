#!/usr/bin/env python3
"""Many rows and many users: checks/many.py PROGRAM [USERS ACTS PULLS]

PROGRAM is the program `rv` as it was built. First 100,000 rows come and go in an order that is drawn, in lists of 1 to 1,000 rows and
of 63, 64 and 65, and the rows that a pull tells are those that a plain dictionary holds. Then so many USERS (1,000) share lists, and
after each of so many ACTS (10,000) so many users PULL (20), among them all whom the act concerns: each keeps a view of its own, to
which it applies the patches that it is told, and holds exactly what it sees, which an extent of its own may narrow, and its own last
mutation id. With USERS for PULLS everybody pulls after each act, which takes long. Ends with status 1 at the first view that differs.
"""
import json
import random
import subprocess
import sys


class Server:
    """A running feed: lines are written in batches, and each has one answer."""

    def __init__(self, program):
        self.run = subprocess.Popen([program, "feed", "memory"], stdin=subprocess.PIPE, stdout=subprocess.PIPE)

    def ask(self, lines):
        self.run.stdin.write("".join(json.dumps(line) + "\n" for line in lines).encode())
        self.run.stdin.flush()
        answers = [self.run.stdout.readline().decode() for _ in lines]
        return [json.loads(answer.removeprefix("200 ")) if answer.startswith("200 ") else sys.exit(f"refused: {answer}") for answer in answers]

    def end(self):
        self.run.stdin.close()
        return self.run.wait()


def pushed(user, client, first, calls):
    mutations = [{"clientID": client, "id": number, "name": name, "args": args} for number, (name, args) in enumerate(calls, first)]
    return {"user": user, "push": {"pushVersion": 1, "clientGroupID": f"g-{user}", "profileID": "p", "schemaVersion": "", "mutations": mutations}}


def pulled(user, cookie):
    return {"user": user, "pull": {"pullVersion": 1, "clientGroupID": f"g-{user}", "profileID": "p", "schemaVersion": "", "cookie": cookie}}


def applied(view, patch):
    """The view after a patch."""
    for op in patch:
        if op["op"] == "clear":
            view.clear()
        elif op["op"] == "put":
            view[op["key"]] = op["value"]
        else:
            del view[op["key"]]
    return view


def rows_that_come_and_go(program, count=100_000):
    """Rows of one user in lists of several sizes, put and removed in an order that is drawn."""
    drawn = random.Random(1)
    sizes = [63, 64, 65] + [drawn.choice((1, 2, 10, 100, 1000)) for _ in range(2000)]
    rows, calls, lists = {}, [], []
    for number, size in enumerate(sizes):
        if sum(len(todos) + 1 for todos in lists) >= count:
            break
        lists.append([f"t{number}-{n}" for n in range(size)])
        calls.append(("createList", {"id": f"l{number}", "name": "Home", "ownerID": "ann"}))
    for number in range(len(lists)):
        rows[f"list/l{number}"] = {"id": f"l{number}", "name": "Home", "ownerID": "ann"}
    todos, sorts = [(number, todo) for number, ids in enumerate(lists) for todo in ids], [{} for _ in lists]

    def create(number, todo, text):
        calls.append(("createTodo", {"id": todo, "listID": f"l{number}", "text": text, "complete": False}))
        sorts[number][todo] = max(sorts[number].values(), default=0) + 1
        rows[f"todo/{todo}"] = {"id": todo, "listID": f"l{number}", "text": text, "complete": False, "sort": sorts[number][todo]}

    drawn.shuffle(todos)
    for number, todo in todos:
        create(number, todo, "milk")
    drawn.shuffle(todos)
    for number, todo in todos[: len(todos) * 2 // 3]:
        calls.append(("deleteTodo", todo))
        del rows[f"todo/{todo}"], sorts[number][todo]
    for number, todo in todos[: len(todos) // 3]:
        create(number, todo, "bread")
    server = Server(program)
    for first in range(0, len(calls), 500):
        server.ask([pushed("ann", "c-ann", first + 1, calls[first:first + 500])])
    view = applied({}, server.ask([pulled("ann", None)])[0]["patch"])
    assert server.end() == 0
    if view != rows or list(view) != sorted(view):
        sys.exit(f"{len(view)} rows were told, and {len(rows)} stand; or they are in another order")
    return len(calls), len(rows)


class Shared:
    """Lists with their todos and the users who may see them, and the extents of users."""

    def __init__(self, users):
        self.users = users
        self.lists = {}
        self.todos = {}
        self.shares = {}
        self.of_user = {user: set() for user in users}
        self.extents = {}

    def rows_of(self, name):
        entry = self.lists[name]
        yield f"list/{name}", {"id": name, "name": "Home", "ownerID": entry["owner"]}
        for share in entry["shares"]:
            yield f"share/{share}", {"id": share, "listID": name, "userID": self.shares[share][1]}
        for todo in entry["todos"]:
            yield f"todo/{todo}", self.todos[todo]

    def seen(self, user):
        extent = self.extents.get(user)
        rows = {} if extent is None else {f"extent/{user}": {"lists": extent, "user": user}}
        synced = [name for name in self.of_user[user] if extent is None or name in extent]
        return rows | {key: row for name in synced for key, row in self.rows_of(name)}

    def viewers(self, name):
        return {self.lists[name]["owner"]} | {self.shares[share][1] for share in self.lists[name]["shares"]}

    def set_extent(self, drawn):
        """An extent of some of the lists that its user may see, and one that is not there; or of none, or all of them again."""
        user = drawn.choice(self.users)
        some = ["l", *(name for name in sorted(self.of_user[user]) if drawn.random() < 0.7)]
        lists = drawn.choice([some[:64], some[:64], [], None])
        self.extents[user] = None if lists is None else sorted(lists)
        return user, ("setExtent", {"lists": lists}), {user}

    def act(self, drawn, number):
        """One call, by a user who may make it: who, the call, and whom it concerns."""
        names = list(self.lists)
        kind = drawn.random()
        if kind > 0.95:
            return self.set_extent(drawn)
        if kind < 0.15 or not names:
            user, name = drawn.choice(self.users), f"l{number}"
            self.lists[name] = {"owner": user, "shares": [], "todos": []}
            self.of_user[user].add(name)
            return user, ("createList", {"id": name, "name": "Home", "ownerID": user}), {user}
        name = drawn.choice(names)
        entry = self.lists[name]
        if kind < 0.3:
            other = drawn.choice(self.users)
            if other not in self.viewers(name):
                share = f"s{number}"
                entry["shares"].append(share)
                self.shares[share] = (name, other)
                self.of_user[other].add(name)
                return entry["owner"], ("createShare", {"id": share, "listID": name, "userID": other}), self.viewers(name)
        if kind < 0.4 and entry["shares"]:
            concerned, share = self.viewers(name), drawn.choice(entry["shares"])
            entry["shares"].remove(share)
            other = self.shares.pop(share)[1]
            self.of_user[other].discard(name)
            return entry["owner"], ("deleteShare", share), concerned
        if kind < 0.45:
            concerned = self.viewers(name)
            for user in concerned:
                self.of_user[user].discard(name)
            del self.lists[name]
            return entry["owner"], ("deleteList", name), concerned
        concerned = self.viewers(name)
        user = drawn.choice(sorted(concerned))
        if kind < 0.6 and entry["todos"]:
            todo = drawn.choice(entry["todos"])
            self.todos[todo] = {**self.todos[todo], "complete": not self.todos[todo]["complete"]}
            return user, ("updateTodo", {"id": todo, "complete": self.todos[todo]["complete"]}), concerned
        if kind < 0.7 and entry["todos"]:
            todo = drawn.choice(entry["todos"])
            entry["todos"].remove(todo)
            return user, ("deleteTodo", todo), concerned
        todo = f"t{number}"
        greatest = max((self.todos[other]["sort"] for other in entry["todos"]), default=0)
        self.todos[todo] = {"id": todo, "listID": name, "text": "milk", "complete": False, "sort": greatest + 1}
        entry["todos"].append(todo)
        return user, ("createTodo", {"id": todo, "listID": name, "text": "milk", "complete": False}), concerned


def users_who_pull(program, count, acts, pulls):
    """Users who share lists, each with a view that follows."""
    drawn = random.Random(2)
    users = [f"u{number}" for number in range(count)]
    shared, server = Shared(users), Server(program)
    views, cookies, last = {user: {} for user in users}, {user: None for user in users}, {user: 0 for user in users}
    known, told, unchanged = {user: 0 for user in users}, 0, 0
    for number in range(1, acts + 1):
        user, call, concerned = shared.act(drawn, number)
        last[user] += 1
        server.ask([pushed(user, f"c-{user}", last[user], [call])])
        asking = users if pulls >= count else sorted(concerned | {user} | set(drawn.sample(users, pulls)))
        for other, answer in zip(asking, server.ask([pulled(other, cookies[other]) for other in asking])):
            unchanged += answer["cookie"] == cookies[other]
            cookies[other] = answer["cookie"]
            known[other] = answer["lastMutationIDChanges"].get(f"c-{other}", known[other])
            if applied(views[other], answer["patch"]) != shared.seen(other) or known[other] != last[other]:
                sys.exit(f"after act {number}, {call} by {user}: {other} holds another view, or another last mutation id")
        told += len(asking)
    assert server.end() == 0
    return told, unchanged


def main():
    program = sys.argv[1]
    count, acts, pulls = (int(word) for word in sys.argv[2:5]) if len(sys.argv) > 2 else (1000, 10_000, 20)
    calls, rows = rows_that_come_and_go(program)
    told, unchanged = users_who_pull(program, count, acts, pulls)
    print(f"{calls} calls left {rows} rows as they should be; {told} pulls of {count} users after {acts} acts, {unchanged} with nothing to tell, gave each what it sees")


if __name__ == "__main__":
    main()
