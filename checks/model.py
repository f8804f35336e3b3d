"""A second model of the server, outside the gate: what it answers, and the cells that it keeps.

It shares nothing with the program: its book is a list, its rows are replayed, and what was written is found by comparing
the states before and after each entry. A book that is closed forgets nothing here: a closing stands in the list as an entry does,
and what follows from a page is found by the whole list before it.
"""
import json

GREATEST = 2**53 - 1
KEPT_LOOKS = 16
MOST_LISTS = 64


def is_id(value):
    return isinstance(value, str) and 1 <= len(value.encode()) <= 128


def is_user(value):
    return isinstance(value, str) and 1 <= len(value.encode()) <= 64


def is_text(value):
    return isinstance(value, str) and len(value.encode()) <= 16384


def is_flag(value):
    return isinstance(value, bool)


def is_number(value):
    return isinstance(value, int) and not is_flag(value) and 0 <= value <= GREATEST


def is_role(value):
    return isinstance(value, str) and value in ("view", "edit")


def is_lists(value):
    return value is None or isinstance(value, list) and len(value) <= MOST_LISTS and all(map(is_id, value))


# the members that a call's arguments must have, and those that they may have
NEEDED = {
    "createList": {"id": is_id, "name": is_text, "ownerID": is_user},
    "createShare": {"id": is_id, "listID": is_id, "userID": is_user},
    "createTodo": {"id": is_id, "listID": is_id, "text": is_text, "complete": is_flag},
    "updateShare": {"id": is_id, "role": is_role},
    "updateTodo": {"id": is_id},
    "setExtent": {"lists": is_lists},
}
OPTIONAL = {"createShare": {"role": is_role}, "updateTodo": {"text": is_text, "complete": is_flag, "sort": is_number}}
BY_ID = ("deleteList", "deleteShare", "deleteTodo")


def reading(name, args):
    """The arguments of a call, or None where name and arguments are no call."""
    if name in BY_ID:
        return {"id": args} if is_id(args) else None
    if name not in NEEDED or not isinstance(args, dict):
        return None
    if not all(member in args and test(args[member]) for member, test in NEEDED[name].items()):
        return None
    optional = OPTIONAL.get(name, {})
    if not all(test(args[member]) for member, test in optional.items() if member in args):
        return None
    read = {member: args[member] for member in args if member in NEEDED[name] or member in optional}
    return {"lists": extent_of(read["lists"])} if name == "setExtent" else read


def extent_of(lists):
    """The lists that a user's extent names, by those that are asked for: in the order of their bytes, each once."""
    return None if lists is None else in_order(set(lists))


def name_of(kind, row):
    """What names a row among those of its kind: an extent its user, any other its id."""
    return row["user"] if kind == "extent" else row["id"]


def list_of(kind, row):
    """The list that a row is or belongs to; an extent has none."""
    return {"extent": None, "list": row.get("id")}.get(kind, row.get("listID"))


def find(rows, kind, row_id):
    return next((row for other, row in rows if other == kind and name_of(other, row) == row_id), None)


def may_see(rows, user, list_id):
    """Whether a user may see a list: it is there, and the user owns it or a share of it names the user."""
    found = find(rows, "list", list_id)
    shared = any(k == "share" and r["listID"] == list_id and r["userID"] == user for k, r in rows)
    return found is not None and (found["ownerID"] == user or shared)


def is_synced(rows, user, list_id):
    """Whether a user's extent names a list, or the user has none."""
    extent = find(rows, "extent", user)
    return extent is None or list_id in extent["lists"]


def sees(rows, user, kind, row):
    """Whether a user sees a row: the user's own extent, and what is or belongs to a list that the user may see and that is synced."""
    if kind == "extent":
        return row["user"] == user
    list_id = list_of(kind, row)
    return may_see(rows, user, list_id) and is_synced(rows, user, list_id)


def may_edit(rows, user, list_id):
    """Whether a user may edit the todos of a list."""
    found = find(rows, "list", list_id)
    shares = [r for k, r in rows if k == "share" and r["listID"] == list_id and r["userID"] == user]
    return found is not None and (found["ownerID"] == user or any("role" not in share for share in shares))


def with_role(share, role):
    """A share with a role: one that lets edit names none."""
    bare = {member: share[member] for member in share if member != "role"}
    return {**bare, "role": "view"} if role == "view" else bare


def without(rows, kind, row_id):
    return [(k, r) for k, r in rows if not (k == kind and name_of(k, r) == row_id)]


def effect(rows, user, name, args):
    """The rows after a call."""
    if args is None:
        return rows
    if name == "setExtent":
        extent = [] if args["lists"] is None else [("extent", {"lists": args["lists"], "user": user})]
        return without(rows, "extent", user) + extent
    row_id = args["id"]
    if name == "createList":
        fits = find(rows, "list", row_id) is None and args["ownerID"] == user
        return rows + [("list", args)] if fits else rows
    if name == "deleteList":
        found = find(rows, "list", row_id)
        if found is None or found["ownerID"] != user:
            return rows
        return [(k, r) for k, r in rows if list_of(k, r) != row_id]
    if name == "createShare":
        found = find(rows, "list", args["listID"])
        twice = any(k == "share" and r["listID"] == args["listID"] and r["userID"] == args["userID"] for k, r in rows)
        fits = found is not None and found["ownerID"] == user and args["userID"] != user
        fits = fits and not twice and find(rows, "share", row_id) is None
        return rows + [("share", with_role(args, args.get("role")))] if fits else rows
    if name == "updateShare":
        found = find(rows, "share", row_id)
        owner = None if found is None else find(rows, "list", found["listID"])
        if owner is None or owner["ownerID"] != user:
            return rows
        return [(k, with_role(r, args["role"]) if k == "share" and r["id"] == row_id else r) for k, r in rows]
    if name == "deleteShare":
        found = find(rows, "share", row_id)
        owner = None if found is None else find(rows, "list", found["listID"])
        fits = found is not None and (found["userID"] == user or (owner is not None and owner["ownerID"] == user))
        return without(rows, "share", row_id) if fits else rows
    found = find(rows, "todo", row_id)
    if name == "createTodo":
        if found is not None or not may_edit(rows, user, args["listID"]):
            return rows
        greatest = max((r["sort"] for k, r in rows if k == "todo" and r["listID"] == args["listID"]), default=0)
        return rows + [("todo", {**args, "sort": min(greatest + 1, GREATEST)})]
    if found is None or not may_edit(rows, user, found["listID"]):
        return rows
    if name == "deleteTodo":
        return without(rows, "todo", row_id)
    return [(k, {**r, **args} if k == "todo" and r["id"] == row_id else r) for k, r in rows]


def by_key(rows):
    return {f"{kind}/{name_of(kind, row)}": row for kind, row in rows}


def in_order(keys):
    return sorted(keys, key=lambda key: key.encode())


class Server:
    """A book of entries (kind, user, group, ..) and closings, and the rows after each number of them."""

    def __init__(self):
        self.book = []
        self.states = [[]]

    def enter(self, entry):
        self.book.append(entry)
        rows = self.states[-1]
        if entry[0] == "act":
            rows = effect(rows, entry[1], entry[4], entry[5])
        self.states.append(rows)

    def closed_at(self, place=None):
        """The place of the last closing among so many entries, 0 where there is none."""
        book = self.book[:place]
        return next((at for at in range(len(book), 0, -1) if book[at - 1][0] == "close"), 0)

    def groups(self, place=None):
        """The groups that an act or a look names."""
        return {entry[2] for entry in self.book[:place] if entry[0] in ("act", "look")}

    def bound(self, group):
        return next((entry[1] for entry in self.book if entry[0] in ("act", "look") and entry[2] == group), None)

    def is_retired(self, group, place=None):
        return any(entry[0] == "retire" and entry[2] == group for entry in self.book[:place])

    def last_order(self, group, place=None):
        return next((entry[3] for entry in reversed(self.book[:place]) if entry[0] == "look" and entry[2] == group), 0)

    def refusal(self, user, group):
        if self.bound(group) not in (None, user):
            return 403, {"error": "GroupOfOther"}
        if self.is_retired(group):
            return 200, {"error": "ClientStateNotFound"}
        return None

    def acts(self, client, place=None):
        return [entry for entry in self.book[:place] if entry[0] == "act" and entry[3] == client]

    def ids(self, group, place):
        """The last mutation ids of a group's clients after so many entries."""
        clients = in_order({entry[3] for entry in self.book[:place] if entry[0] == "act"})
        acts = {client: self.acts(client, place) for client in clients}
        return {client: len(acts[client]) for client in clients if acts[client][0][2] == group}

    def seen(self, user, place):
        rows = self.states[place]
        return by_key((k, r) for k, r in rows if sees(rows, user, k, r))

    def is_written(self, key, place):
        after = by_key(self.states[place]).get(key)
        return after is not None and after != by_key(self.states[place - 1]).get(key)

    def base(self, user, cookie):
        """The place of the kept look that a cookie names, or None."""
        if not isinstance(cookie, dict):
            return None
        for place, entry in enumerate(self.book, 1):
            if entry[0] != "look" or str(place) != cookie["cvrID"] or entry[1] != user or entry[3] != cookie["order"]:
                continue
            return place if self.is_kept(place) else None
        return None

    def is_kept(self, place):
        """Whether a look is kept: the book was not closed since, its group is not retired, and fewer than 16 later looks of it stand there."""
        group = self.book[place - 1][2]
        later = [entry for entry in self.book[place:] if entry[0] == "look" and entry[2] == group]
        return place > self.closed_at() and not self.is_retired(group) and len(later) < KEPT_LOOKS

    def mutate(self, user, group, mutation):
        refusal = self.refusal(user, group)
        if refusal is not None:
            return refusal
        acts = self.acts(mutation["clientID"])
        if acts and acts[0][2] != group:
            return 403, {"error": "ClientOfOther"}
        if mutation["id"] <= len(acts):
            return None
        if mutation["id"] > len(acts) + 1:
            return 409, {"error": "Future", "expected": len(acts) + 1, "got": mutation["id"]}
        name = mutation["name"]
        self.enter(("act", user, group, mutation["clientID"], name, reading(name, mutation.get("args"))))
        return None

    def push(self, user, push):
        for mutation in push["mutations"]:
            refusal = self.mutate(user, push["clientGroupID"], mutation)
            if refusal is not None:
                return refusal
        return 200, {}

    def patch(self, user, base):
        now = self.seen(user, len(self.book))
        puts = in_order(now)
        if base is None:
            ops = [{"op": "clear"}]
        else:
            then = self.seen(user, base)
            since = range(base + 1, len(self.book) + 1)
            ops = [{"key": key, "op": "del"} for key in in_order(then) if key not in now]
            puts = [key for key in puts if key not in then or any(self.is_written(key, place) for place in since)]
        return ops + [{"key": key, "op": "put", "value": now[key]} for key in puts]

    def pull(self, user, pull):
        group, cookie = pull["clientGroupID"], pull["cookie"]
        refusal = self.refusal(user, group)
        if refusal is not None:
            return refusal
        base = self.base(user, cookie)
        patch = self.patch(user, base)
        known = {} if base is None else self.ids(self.book[base - 1][2], base)
        ids = {client: last for client, last in self.ids(group, len(self.book)).items() if known.get(client) != last}
        if not patch and not ids:
            return 200, {"cookie": cookie, "lastMutationIDChanges": {}, "patch": []}
        order = cookie["order"] if isinstance(cookie, dict) else cookie or 0
        order = max(order, self.last_order(group)) + 1
        if order > GREATEST:
            return 507, {"at": GREATEST, "error": "Limit", "which": "order"}
        self.enter(("look", user, group, order, base))
        answered = {"cvrID": str(len(self.book)), "order": order}
        return 200, {"cookie": answered, "lastMutationIDChanges": ids, "patch": patch}

    def retire(self, group):
        if self.bound(group) is None:
            return 404, {"error": "NoGroup"}
        if self.is_retired(group):
            return 200, {"error": "ClientStateNotFound"}
        self.enter(("retire", None, group))
        return 200, {"retired": len(self.book)}

    def close(self):
        self.enter(("close", None, None))
        return 200, {"closed": len(self.book)}

    def answer(self, request):
        if "closeBook" in request:
            return self.close()
        if "retire" in request:
            return self.retire(request["retire"])
        if "push" in request:
            return self.push(request["user"], request["push"])
        return self.pull(request["user"], request["pull"])


def call_value(name, args):
    """A call as it stands in the cell of its act."""
    if args is None:
        return ["void", "BadArgs" if name in NEEDED or name in BY_ID else "UnknownName"]
    members = {
        "createList": ["id", "name", "ownerID"],
        "createShare": ["id", "listID", "userID"] + ["role"] * (args.get("role") == "view"),
        "updateShare": ["id", "role"],
        "createTodo": ["id", "listID", "text", "complete"],
        "updateTodo": ["id", "text", "complete", "sort"],
        "setExtent": ["lists"],
    }
    return [name] + [args.get(member) for member in members.get(name, ["id"])]


def entry_value(entry, ids):
    """An entry as it stands in its cell, an act with its id."""
    if entry[0] == "act":
        return ["act", entry[1], entry[2], entry[3], ids, call_value(entry[4], entry[5])]
    if entry[0] == "look":
        return ["look", entry[1], entry[2], entry[3], entry[4]]
    return ["retire", entry[2]]


def view_value(server, place, versions):
    """The view record of a look, with the versions of the rows there."""
    user, group = server.book[place - 1][1:3]
    seen, ids = server.seen(user, place), server.ids(group, place)
    return [[[key, versions[key]] for key in in_order(seen)], [[client, ids[client]] for client in in_order(ids)]]


def versions_of(server):
    """After each number of entries the place of the entry that last wrote each row."""
    versions, before = [{}], {}
    for place in range(1, len(server.states)):
        now = by_key(server.states[place])
        versions.append({key: versions[-1][key] if before.get(key) == row else place for key, row in now.items()})
        before = now
    return versions


def summed_up(server, place, versions):
    """The cells of the rows, the clients and the groups after so many entries, each by its kind and key."""
    kept = {}
    for key, row in by_key(server.states[place]).items():
        kept["row", key] = text_of([versions[key], row])
    for group in server.groups(place):
        kept["group", group] = text_of([server.bound(group), server.last_order(group, place), server.is_retired(group, place)])
        for client, last in server.ids(group, place).items():
            kept["client", client] = text_of([group, last])
    return kept


def cells(server):
    """The cells of the book, each by its shelf and key."""
    versions, kept, counts, page = versions_of(server), {}, {}, server.closed_at()
    for place, entry in enumerate(server.book, 1):
        if entry[0] == "act":
            counts[entry[3]] = counts.get(entry[3], 0) + 1
        if place > page:
            kept[1, f"{place:010}"] = text_of(entry_value(entry, counts.get(entry[3]) if entry[0] == "act" else None))
        if entry[0] == "look" and server.is_kept(place):
            kept[5, f"{place:010}"] = text_of(view_value(server, place, versions[place]))
    shelves = {"row": 2, "client": 3, "group": 4}
    for (kind, key), text in summed_up(server, len(server.book), versions[-1]).items():
        kept[shelves[kind], key] = text
    if page > 0:
        kept[6, ""] = text_of(page)
        for (kind, key), text in summed_up(server, page, versions[page]).items():
            kept[shelves[kind] + 5, key] = text
    return kept


def lists_text(server):
    """The report of the lists."""
    rows, lines = server.states[-1], []
    for key in in_order(by_key([(kind, row) for kind, row in rows if kind == "list"])):
        found = by_key(rows)[key]
        own = [(kind, row) for kind, row in rows if kind != "list" and list_of(kind, row) == found["id"]]
        todos = [row for kind, row in own if kind == "todo"]
        texts = " ".join(text_of(found[member]) for member in ("id", "ownerID", "name"))
        lines.append(f"{texts} {len(todos)} {sum(not todo['complete'] for todo in todos)} {len(own) - len(todos)}")
    kinds = [kind for kind, _ in rows]
    return lines + [f"lists {kinds.count('list')} todos {kinds.count('todo')} shares {kinds.count('share')}"]


def activity_text(server):
    """The report of who did how much since the book was closed, and of all groups."""
    lines, book, groups = [], server.book[server.closed_at():], server.groups()
    for user in in_order({entry[1] for entry in book if entry[0] in ("act", "look")}):
        acts = [entry for entry in book if entry[0] == "act" and entry[1] == user]
        looks = [entry for entry in book if entry[0] == "look" and entry[1] == user]
        lines.append(f"{len(acts):10}{sum(act[5] is None for act in acts):10}{len(looks):10} {text_of(user)}")
    return lines + [f"groups {len(groups)} retired {sum(server.is_retired(group) for group in groups)}"]


def text_of(value):
    """The compact text of a JSON value, its members in the order of their names."""
    return json.dumps(value, separators=(",", ":"), sort_keys=True, ensure_ascii=False)


def answer_of(server, request):
    """The line that a request is answered with."""
    status, body = server.answer(request)
    return f"{status} {text_of(body)}"
