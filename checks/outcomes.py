"""What may have happened: the servers of the model that are there after requests, some of which were not answered.

Requests that are asked at the same time are taken in turns, each mutation one, in any order; of one that was not answered a front of its
turns may have happened. Where a keeper fails at calls that are named, what happens is sure, and `Failing` follows it.
"""
from model import Server, text_of


def copied(server):
    """A server with a book of its own; what stands in the book is shared."""
    other = Server()
    other.book, other.states = list(server.book), list(server.states)
    return other


def turns_in(request):
    """How many turns a request has at most."""
    return len(request["push"]["mutations"]) if "push" in request else 1


def turn(server, request, at):
    """Takes a turn of a request. What the request is answered then, or None where it has more turns."""
    if "push" not in request:
        return server.answer(request)
    mutations = request["push"]["mutations"]
    refusal = server.mutate(request["user"], request["push"]["clientGroupID"], mutations[at]) if mutations else None
    return refusal or ((200, {}) if at + 1 >= len(mutations) else None)


def line_of(answer):
    return f"{answer[0]} {text_of(answer[1])}"


def outcomes(server, asked, told):
    """The servers that may be there after requests that are asked of a server at the same time, each with what it was told or None."""
    found, left = [], [(server, (0,) * len(asked))]
    while left:
        way, done = left.pop()
        if all(answer is None or at is None for at, answer in zip(done, told)):
            found += [way] * (not any(way.book == other.book for other in found))
        for number, (request, at, answer) in enumerate(zip(asked, done, told)):
            if at is None:
                continue
            next_way = copied(way)
            came = turn(next_way, request, at)
            if came is None or answer is None or line_of(came) == answer:
                left.append((next_way, (*done[:number], None if came else at + 1, *done[number + 1:])))
    return found


class Failing:
    """A server over a keeper that fails at calls which steps name; all its calls of each kind are counted from 1."""

    def __init__(self, server):
        self.server, self.doubt, self.fails = server, None, []
        self.counts = {"commit": 0, "generation": 0, "load": 0}

    def begin(self, fails):
        """A step begins, at which the keeper is to fail at these calls."""
        kinds = {"generation": "generation", "load": "load"}
        self.fails += [(kind, self.counts[kinds.get(kind, "commit")] + at) for kind, at in fails if kind != "open"]

    def call(self, kind):
        """How a call of this kind fails, or None."""
        self.counts[kind] += 1
        ways = ("before", "memory", "after") if kind == "commit" else (kind,)
        return next((way for way in ways if (way, self.counts[kind]) in self.fails), None)

    def settle(self):
        """Settles what is in doubt. Whether it could be."""
        if self.doubt is None:
            return True
        if self.call("generation"):
            return False
        self.drop()
        return True

    def drop(self):
        """What was in doubt is there where it was kept."""
        if self.doubt:
            entry, rows = self.doubt
            self.server.book.append(entry)
            self.server.states.append(rows)
        self.doubt = None

    def turn(self, request, at):
        """Takes a turn of a request. What the request is answered then, or None where it has more turns."""
        if not turns_in(request):
            return 200, {}
        if not self.settle():
            return 503, {"error": "keeper"}
        before = len(self.server.book)
        answer = turn(self.server, request, at)
        way = self.call("commit") if len(self.server.book) > before else None
        if way is None:
            return answer
        entered = self.server.book.pop(), self.server.states.pop()
        if way != "memory":
            self.doubt = entered if way == "after" else ()
        return 503, {"error": "memory" if way == "memory" else "keeper"}

    def answer(self, request):
        """What a request is answered."""
        return next(answer for at in range(max(1, turns_in(request))) if (answer := self.turn(request, at)))

    def opens(self):
        """Whether the server, opened anew, opens."""
        self.drop()
        return self.call("load") is None
