"""Mutations of good input: bytes flipped, cut, doubled and spliced, numbers and lengths at their limits, and JSON values changed."""
import json
import re

NUMBERS = [0, 1, 2, 255, 256, 65535, 65536, 2**31, 2**32 - 1, 2**32, 2**53 - 1, 2**53, 2**63, 2**64 - 1, 2**64, 10**30]
LENGTHS = [0, 1, 2, 63, 64, 65, 127, 128, 129, 255, 256, 257, 1000]
# numbers of JSON that are none from 0 to 2^53 - 1, written in digits alone
OTHER_NUMBERS = [b"1.0", b"1e0", b"-0", b"-1", b"0.5", b"1E2", b"9007199254740992", b"1e308"]
PIECES = [b"\0", b"\n", b"\r\n", b"\r\n\r\n", b" ", b"\t", b'"', b"'", b"\\", b"\\u0000", b"\\ud800", b"\xff", b"\xc3\x28", b"\xed\xa0\x80", b"\xef\xbb\xbf",
          b"{", b"}", b"[", b"]", b"[" * 130, b":", b",", b"=", b"#", b"%", b"null", b"true", b"1e999", b"'''", b'"""', b"+", b"-"]


def place(chance, text):
    return chance.randrange(len(text) + 1)


def part(chance, text):
    """Two places with mostly few bytes between."""
    front = place(chance, text)
    return front, min(len(text), front + chance.choice([1, 1, 2, 4, 16, 64, len(text)]))


def flipped(chance, text, other):
    if not text:
        return text
    at = chance.randrange(len(text))
    byte = chance.choice([text[at] ^ (1 << chance.randrange(8)), chance.randrange(256)])
    return text[:at] + bytes([byte]) + text[at + 1:]


def cut(chance, text, other):
    front, end = part(chance, text)
    return text[:front] + text[end:]


def ended(chance, text, other):
    return text[:place(chance, text)]


def doubled(chance, text, other):
    front, end = part(chance, text)
    return text[:end] + text[front:]


def spliced(chance, text, other):
    return text[:place(chance, text)] + other[place(chance, other):]


def inserted(chance, text, other):
    at = place(chance, text)
    return text[:at] + chance.choice(PIECES) + text[at:]


def filled(chance, text, other):
    at = place(chance, text)
    return text[:at] + chance.choice([b"a", b"0", b"9", b" ", b"\0"]) * chance.choice(LENGTHS) + text[at:]


def renumbered(chance, text, other):
    found = list(re.finditer(rb"\d+", text))
    if not found:
        return text
    one = chance.choice(found)
    return text[:one.start()] + str(chance.choice(NUMBERS)).encode() + text[one.end():]


MUTATIONS = [flipped, flipped, cut, ended, doubled, spliced, inserted, filled, renumbered]


def mutant(chance, text, other):
    """A text with one to three mutations; spliced with the other."""
    for _ in range(chance.choice([1, 1, 1, 2, 3])):
        text = chance.choice(MUTATIONS)(chance, text, other)
    return text


def nested(depth):
    value = []
    for _ in range(depth):
        value = [value]
    return value


def any_value(chance):
    """A JSON value by chance."""
    kind = chance.randrange(12)
    if kind < 3:
        return chance.choice(NUMBERS)
    if kind < 7:
        return chance.choice(["x", "0", "é", "\N{PILE OF POO}", "\0", "\n"]) * chance.choice(LENGTHS)
    return chance.choice([None, True, False, 0.5, -1, "", [], {}, [None], {"": 0}, nested(100), "2 ", "02"])


def changed(chance, value):
    """The value with one part of it changed: another value, gone, doubled, renamed or added to."""
    if not value or not isinstance(value, (dict, list)) or chance.randrange(8) == 0:
        return any_value(chance)
    way = chance.randrange(12)
    if isinstance(value, list):
        at = chance.randrange(len(value))
        instead = {0: [], 1: [value[at]] * 2}.get(way, [changed(chance, value[at])])
        return value[:at] + instead + value[at + 1:]
    name = chance.choice(list(value))
    rest = {other: held for other, held in value.items() if other != name}
    if way == 0:
        return rest
    if way == 1:
        return {**rest, name + chance.choice([" ", "x", "\0"]): value[name]}
    if way == 2:
        return {chance.choice(["", "args", "cookie", "id", "z"]): any_value(chance), **value}
    return {**value, name: changed(chance, value[name])}


def json_text(chance, value):
    """A text of the value, written in one of the ways that JSON has."""
    separators = chance.choice([(",", ":"), (", ", ": "), (" ,\t", " : ")])
    text = json.dumps(value, separators=separators, ensure_ascii=chance.randrange(2) == 0).encode()
    found = list(re.finditer(rb"(?<=[:\[,])\d+(?=[,\]}])", text))
    if found and chance.randrange(8) == 0:
        one = chance.choice(found)
        return text[:one.start()] + chance.choice(OTHER_NUMBERS) + text[one.end():]
    return text
