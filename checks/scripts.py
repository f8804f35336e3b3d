"""Scripts by a seed: steps of plain data that are drawn by chance, and the requests that they come to.

A step says what is asked in the words of a client, so that it means the same where steps before it are taken away:

- `push`: a `user`, a `group`, a `client`, and `mutations`, each with a `name`, `args`, and how far its id is `by` from the one before it, of the
  first from the client's last in the book: 1 is the next one, 0 a repeated one, 2 one of the future, -1 an earlier one;
- `pull`: a `user`, a `group`, and a `cookie`: null, a number, or one that was answered, so many answers `back`, `of` this user and group
  (`own`) or of anybody (`any`), with another `order` or something in `front` of its place;
- `retire` a `group`, and `close` the book;
- `stop`: the server is closed and opened again; `restart`: the program ends and begins anew, and what is kept is looked at;
- `together`: `steps` that are asked at the same time, each over a connection of its own;
- `kill`: `steps` that are asked, and the program is killed after so many seconds' `wait`, whether they are answered or not.

What a step may have besides, over a keeper that fails: `fails`, each a kind of call and which of these calls of the step it is. A commit
fails `before` its changes or `after` them or is refused `memory`; a question for the `generation` fails, the `load` of a stop, or, of a
restart, the `open`ing. The first line of a script has its options: the `program` that plays it (`feed`, `serve`, or `runs`, which is
`trial_runs`), the `store` (`memory` or `file`), how many `workers` serve, and whether lines are sent as a `whole`.
"""
import json
import random

from model import GREATEST, KEPT_LOOKS, MOST_LISTS, Server, text_of

USERS = ["ann", "bob", "cat"]
GROUPS = ["g0", "g1", "g2", "g3", "g4"]
CLIENTS = ["c0", "c1", "c2", "c3", "c4", "c5"]
NAMES = {
    "createList": 3, "deleteList": 1, "createShare": 3, "updateShare": 2, "deleteShare": 2,
    "createTodo": 4, "updateTodo": 5, "deleteTodo": 2, "setExtent": 3, "paint": 1,
}
# names of lists for extents; three of them may be there
LISTS = ["l0", "l1", "l2", "ä", "L", "l10"]
# as many lists as an extent may name, and what it can't name
MANY_LISTS = [["l1"] * MOST_LISTS, [f"l{MOST_LISTS - number}" for number in range(MOST_LISTS)]]
NO_LISTS = [*([*lists, "l0"] for lists in MANY_LISTS), "l1", 5, False, {}, [""], ["x" * 129], ["l1", None], [["l1"]]]
# what plays a script and over which store, each as often as it says
KINDS = {("feed", "memory"): 4, ("feed", "file"): 3, ("serve", "memory"): 1, ("serve", "file"): 2, ("runs", "memory"): 5}
# of a store whose entries can't be looked at so many steps together are drawn: each leaves several books that may be there
MOST_TOGETHER = 4


class Steps:
    """Steps by chance: mostly what clients ask, and now and then what they should not. Of so many one closes the book, 0 for none."""

    def __init__(self, chance, closes=0):
        self.chance, self.closes = chance, closes

    def one_in(self, many):
        return self.chance.randrange(many) == 0

    def user_of(self, group):
        return self.chance.choice(USERS) if self.one_in(25) else USERS[int(group[1]) % len(USERS)]

    def lists(self):
        """What an extent is to name: mostly lists in any order, with repeats, or nothing, and now and then what it can't name."""
        chance, kind = self.chance, self.chance.randrange(20)
        if kind < 7:
            return None
        if kind < 10:
            return chance.choice(NO_LISTS if kind < 9 else MANY_LISTS)
        return [chance.choice(LISTS) for _ in range(chance.randrange(9))]

    def args(self, name, user):
        chance = self.chance
        list_id, share, todo = f"l{chance.randrange(3)}", f"s{chance.randrange(4)}", f"t{chance.randrange(5)}"
        if self.one_in(20):
            return chance.choice([None, 5, {"id": ""}, "x" * 129])
        if name == "createList":
            return {"id": list_id, "name": chance.choice(["Home", ""]), "ownerID": chance.choice([user] * 3 + ["bob"])}
        if name == "createShare":
            role = chance.choice([{}, {}, {"role": "view"}, {"role": "edit"}, {"role": chance.choice(["", "Edit", None, 1])}])
            return {"id": share, "listID": list_id, "userID": chance.choice(USERS), **role}
        if name == "updateShare":
            return {"id": share, "role": chance.choice(["view", "view", "edit", "edit", "owner"])}
        if name == "createTodo":
            return {"id": todo, "listID": list_id, "text": chance.choice(["milk", 'ä"\\\n']), "complete": self.one_in(2)}
        if name == "updateTodo":
            members = {"text": chance.choice(["milk", "eggs"]), "complete": self.one_in(2), "sort": chance.choice([0, 1, GREATEST, -1])}
            return {"id": todo, **{member: value for member, value in members.items() if self.one_in(2)}}
        if name == "setExtent":
            return {"list": "l1"} if self.one_in(20) else {"lists": self.lists()}
        return {"deleteList": list_id, "deleteShare": share, "deleteTodo": todo}.get(name)

    def push(self, most=3):
        client = self.chance.choice(CLIENTS)
        group = self.chance.choice(GROUPS) if self.one_in(20) else GROUPS[int(client[1]) % len(GROUPS)]
        user, mutations = self.user_of(group), []
        for _ in range(min(most, self.chance.choice([1, 1, 1, 2, 3]))):
            name = self.chance.choices(list(NAMES), list(NAMES.values()))[0]
            mutations.append({"by": self.chance.choice([1] * 27 + [0, 2, -1]), "name": name, "args": self.args(name, user)})
        return {"do": "push", "user": user, "group": group, "client": client, "mutations": mutations}

    def cookie(self):
        kind, back = self.chance.randrange(100), self.chance.choice([KEPT_LOOKS, KEPT_LOOKS + 1, *range(1, 21)])
        if kind < 55:
            return {"of": "own", "back": 1}
        if kind < 70:
            return {"of": "own", "back": back}
        if kind < 80:
            return {"of": "any", "back": 2 * back}
        if kind < 85:
            return {"of": "own", "back": 1, "order": self.chance.choice([1, -1])}
        if kind < 88:
            return {"of": "own", "back": 1, "front": self.chance.choice(["0", " ", "+"])}
        return self.chance.randrange(30) if kind < 92 else None

    def pull(self):
        group = self.chance.choice(GROUPS)
        return {"do": "pull", "user": self.user_of(group), "group": group, "cookie": self.cookie()}

    def next(self):
        if self.closes > 0 and self.one_in(self.closes):
            return {"do": "close"}
        if self.one_in(400):
            return {"do": "retire", "group": self.chance.choice(GROUPS + ["zz"])}
        return self.push() if self.one_in(2) else self.pull()

    def together(self, most):
        """Steps that clients ask at the same time."""
        return [self.push(2) if self.one_in(2) else self.pull() for _ in range(self.chance.randrange(2, most + 1))]


class Asker:
    """The requests that steps come to: where clients stand a server of the model says, and what they were answered is noted."""

    def __init__(self, server):
        self.server, self.answered = server, []

    def mutations(self, step):
        number = len(self.server.acts(step["client"]))
        for mutation in step["mutations"]:
            number = max(0, number + mutation["by"])
            yield {"clientID": step["client"], "id": number, "name": mutation["name"], "args": mutation["args"]}

    def cookie(self, step):
        wanted, mine = step["cookie"], (step["user"], step["group"])
        if not isinstance(wanted, dict):
            return wanted
        found = [cookie for whose, cookie in self.answered if wanted["of"] == "any" or whose == mine]
        if not found:
            return None
        cookie = found[-min(wanted["back"], len(found))]
        return {"cvrID": wanted.get("front", "") + cookie["cvrID"], "order": max(0, cookie["order"] + wanted.get("order", 0))}

    def request(self, step):
        if step["do"] == "close":
            return {"closeBook": True}
        if step["do"] == "retire":
            return {"retire": step["group"]}
        body = {"clientGroupID": step["group"], "profileID": "p", "schemaVersion": ""}
        if step["do"] == "push":
            return {"user": step["user"], "push": {"pushVersion": 1, **body, "mutations": list(self.mutations(step))}}
        return {"user": step["user"], "pull": {"pullVersion": 1, **body, "cookie": self.cookie(step)}}

    def note(self, request, body):
        """Notes a cookie that was answered, once."""
        if "pull" in request and "cookie" in body:
            answered = (request["user"], request["pull"]["clientGroupID"]), body["cookie"]
            self.answered += [answered] * (answered not in self.answered)


class Requests(Asker):
    """Requests by chance, one after another, beside a server of the model. Of so many one closes the book, 0 for none."""

    def __init__(self, chance, server, closes=0):
        super().__init__(server)
        self.steps = Steps(chance, closes)

    def next(self):
        return self.request(self.steps.next())

    def pull(self):
        return self.request(self.steps.pull())


def more(requests, count):
    """So many more lines of an input, and what they are to be answered."""
    lines, answers = [], []
    for _ in range(count):
        request = requests.next()
        status, body = requests.server.answer(request)
        requests.note(request, body)
        lines.append(json.dumps(request))
        answers.append(f"{status} {text_of(body)}")
    return lines, answers


def generated(seed, closes=0):
    """The lines of an input, and what they are to be answered. Of so many one closes the book, 0 for none."""
    chance = random.Random(seed)
    return more(Requests(chance, Server(), closes), chance.choice([50, 200, 500]))


def with_fails(chance, step, many):
    """The step; of so many one has calls of the keeper that fail."""
    kinds = {"stop": ["load"], "restart": ["open", "load"], "pull": ["before", "after", "memory"]}
    if chance.randrange(many) > 0:
        return step
    if step["do"] in ("stop", "restart"):
        return {**step, "fails": [[chance.choice(kinds[step["do"]]), 1]]}
    fails = [[chance.choice(kinds["pull"]), chance.choice([1, 1, 1, 2])]]
    return {**step, "fails": fails + [["generation", 1]] * (chance.randrange(3) == 0)}


def drawn_step(steps, options, ends, left):
    """The next step of a script: of so many one ends something, and so many more are still to be asked together."""
    chance, is_file, is_served = steps.chance, options["store"] == "file", options["program"] == "serve"
    if steps.one_in(ends):
        ways = ["stop"] * (not is_served) + ["restart"] * (is_file or options["program"] == "runs")
        ways += ["kill"] * (is_file and not options["whole"])
        if ways and (way := chance.choice(ways)) == "kill":
            asked = steps.together(options["workers"]) if options["workers"] > 1 else [steps.next()] * (not is_served) or [steps.push()]
            return {"do": "kill", "wait": chance.choice([0, 0.0003, 0.001, 0.003]), "steps": asked}
        if ways:
            return {"do": way}
    if options["workers"] > 1 and left > 0 and steps.one_in(3):
        return {"do": "together", "steps": steps.together(min(3 if is_file else 2, options["workers"]))}
    step = steps.next()
    while is_served and not is_file and step["do"] in ("retire", "close"):
        step = steps.next()
    return step


def drawn(seed):
    """The script of a seed: its options, and its steps."""
    chance = random.Random(f"script {seed}")
    program, store = chance.choices(list(KINDS), list(KINDS.values()))[0]
    workers = chance.choice([1, 2, 4]) if program == "serve" else 1
    whole = program == "runs" or program == "feed" and chance.randrange(2) == 0
    options = {"program": program, "store": store, "workers": workers, "whole": whole}
    steps, ends = Steps(chance, chance.choice([0, 40, 10])), chance.choice([1000, 20, 20, 8])
    fails, left, script = chance.choice([5, 10, 30]), 1000 if store == "file" else MOST_TOGETHER, []
    for _ in range(chance.choice([10, 50, 200, 400] if store == "memory" and program != "serve" else [10, 50, 100])):
        step = drawn_step(steps, options, ends, left)
        left -= step["do"] == "together"
        script.append(with_fails(chance, step, fails) if program == "runs" else step)
    return options, script
