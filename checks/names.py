"""Finds names in README.md and docs/ that no longer stand in the tree, files that they don't name, and numbers that are others there.

usage: checks/names.py

A name is what stands between backticks, a word of a language or a path. In docs/definitions.md the first column's names must stand in
the file that their row names. Each file of checks/, bench/ and examples/ but the planted bodies must be named, by its name or by a
pattern. Of docs/contributing.md the layers and the list of crates must have each crate once, behind those that it stands on by
crates.txt; of docs/costs.md the table too, with edits where a crate has some. STATED says which numbers of the documents are counted,
and the words that a check takes are those that its own file says.
Ends with status 1 where something is missing or another, and says which.
"""
import fnmatch
import os
import re
import subprocess
import sys

TOP = os.path.dirname(os.path.dirname(os.path.abspath(__file__)))
# Words of tools, of the kit and of Replicache's clients.
OTHERS = set("rt git curl auth pushURL pullURL CRATE Scratch Wary".split())
NUMBERS = ("none one two three four five six seven eight nine ten".split(),
           "none first second third fourth fifth sixth seventh eighth ninth tenth".split())
CONTRIBUTING, COSTS, DECISIONS, OPERATING, PROTOCOL = (f"docs/{name}.md" for name in ("contributing", "costs", "DECISIONS", "operating", "protocol"))
WEB, A_CALL = "examples/web/README.md", r"(?m)^    (?!Void)[A-Z]\w+ \{$"
UNIT, PROXY, LISTS, CALLS = "examples/deploy/rv@.service", "examples/deploy/haproxy.cfg", "examples/deploy/lists.env", "crates/rv_rows/src/call.rt"
# Numbers that a document states, each in the text around it, and where they are had: the pattern of a file that has them too, or how
# often a pattern stands in a file, or how many files a pattern names.
STATED = [
    (CONTRIBUTING, r"at most (\d+) in all", "files", "crates/*/must-fail/*.edit", 0),
    (COSTS, r"(\d+) edits refused", "files", "crates/*/must-fail/*.edit", 0),
    (CONTRIBUTING, r"## A (\w+) mutator", "times", CALLS, A_CALL, 1),
    (DECISIONS, r"come to be by the (\w+) calls", "times", CALLS, A_CALL, 0),
    (WEB, r"the (\w+) mutators on the rows", "times", CALLS, A_CALL, 0),
    (CONTRIBUTING, r"`rv_make` makes (\w+) of them", "times", "crates/rv_make/src/calls.rt", r"Ok\(Call::\w+", 0),
    (PROTOCOL, r"(\w+) commands tell what is in a store", "times", PROTOCOL, r"(?m)^- \*\*`\w+ STORE( USER)?`\*\*", 0),
    (PROTOCOL, r"(\w+) statements read and write it", "times", PROTOCOL, r"(?m)^\d\. `(SELECT|INSERT|DELETE)", 0),
    (CONTRIBUTING, r"killed (\d+) times and begun again", "as", "checks/imports.py", r"\[300, (\d+), 1\]"),
    (CONTRIBUTING, r"killed (\d+) times while it feeds", "as", "checks/kills.py", r"kills = .* else (\d+)"),
    (CONTRIBUTING, r"is killed ([\d,]+) times; each answered", "as", "checks/workers.py", r"kills = .* else (\d+)"),
    (CONTRIBUTING, r"(\d+) connections push to 16 workers", "as", "checks/workers.py", r"CLIENTS = (\d+)"),
    (CONTRIBUTING, r"and (\d+) times, at moments by chance", "as", "checks/copies.py", r"copies = .* else (\d+)"),
    (CONTRIBUTING, r"with (\d+) clients that say nothing", "as", "checks/proxy.py", r"idle = .* else (\d+)"),
    (CONTRIBUTING, r"16 at once, ([\d,]+) pushes", "as", "checks/pokes.py", r"def check_limit\(program, most=(\d+)\)"),
    (CONTRIBUTING, r"([\d,]+) users who share lists", "as", "checks/many.py", r"else \((\d+), [\d_]+, \d+\)"),
    (CONTRIBUTING, r"of whom (\d+) pull after each", "as", "checks/many.py", r"else \(\d+, [\d_]+, (\d+)\)"),
    (CONTRIBUTING, r"after each of ([\d,]+) acts", "as", "checks/many.py", r"else \(\d+, ([\d_]+), \d+\)"),
    (OPERATING, r"at most (\d+) GB of memory", "as", UNIT, r"MemoryMax=(\d+)G"),
    (OPERATING, r"and (\d+) threads", "as", UNIT, r"TasksMax=(\d+)"),
    (OPERATING, r"after `--connections` connections, ([\d,]+) in the unit", "as", UNIT, r"--connections (\d+)"),
    (OPERATING, r"the (\d+) workers and \d+ poke jobs of `lists.env`", "as", LISTS, r"RV_WORKERS=(\d+)"),
    (OPERATING, r"the \d+ workers and (\d+) poke jobs of `lists.env`", "as", LISTS, r"RV_POKES=(\d+)"),
    (OPERATING, r"waits for a worker for (\d+) seconds", "as", PROXY, r"timeout queue (\d+)s\n    # The server ends"),
    (OPERATING, r"is answered 504 after (\d+)", "as", PROXY, r"timeout server (\d+)s"),
    (OPERATING, r"One more waits for (\d+) seconds", "as", PROXY, r"timeout queue (\d+)s\n    timeout server"),
    (OPERATING, r"tried again after a second, (\w+) times", "as", PROXY, r"retries (\d+)"),
    (OPERATING, r"`nbthread (\d+)`", "as", PROXY, r"nbthread (\d+)"),
    (OPERATING, r"says nothing after (\d+) seconds", "as", PROXY, r"timeout client (\d+)s"),
]


def tracked():
    return subprocess.run(["git", "ls-files"], cwd=TOP, capture_output=True, text=True, check=True).stdout.split()


def words_of(text):
    return set(re.findall(r"[A-Za-z_][A-Za-z0-9_]*(?:-[A-Za-z_][A-Za-z0-9_]*)*", text))


def tree_words(paths):
    """All words of the tree but its documents, and all parts of its paths."""
    words = set()
    for path in paths:
        words |= words_of(path)
        words |= set(path.replace("/", " ").replace(".", " ").split())
        if path.endswith(".md"):
            continue
        try:
            with open(os.path.join(TOP, path), encoding="utf-8") as file:
                text = file.read()
        except UnicodeDecodeError:
            continue
        words |= words_of(text)
        words |= set(re.findall(r"[A-Za-z_][A-Za-z0-9_]*", text))
    return words


def missing_paths(name, paths):
    """Whether a name that looks like a path of the tree leads nowhere."""
    path = name.rstrip("/")
    if not re.fullmatch(r"[A-Za-z0-9_./-]+", name) or not re.match(r"(crates|docs|checks|bench|examples|rv|rv_[a-z]+|trial_[a-z]+)/", name) or "/out/" in name or "CRATE" in name:
        return False
    return not any(p == path or p.startswith(path + "/") or p.endswith("/" + path) or p == "crates/" + path or p.startswith("crates/" + path + "/") for p in paths)


def check_rows(text, paths, found):
    """The rows of the definitions: each name of the first column stands in one of the files that the third column names."""
    for number, line in enumerate(text.split("\n"), 1):
        cells = [cell.strip() for cell in line.strip().strip("|").split(" | ")]
        if not line.startswith("| `") or len(cells) < 3:
            continue
        files = [f for f in re.findall(r"`([^`]+)`", cells[2])]
        folder, texts = "", ""
        for file in files:
            at = "crates/" + (file if "/" in file else folder + file)
            folder = os.path.dirname(at)[len("crates/"):] + "/"
            for path in paths:
                if path == at or path.startswith(at.rstrip("/") + "/"):
                    with open(os.path.join(TOP, path), encoding="utf-8") as opened:
                        texts += opened.read()
        for name in re.findall(r"`([A-Za-z_][A-Za-z0-9_-]*)`", cells[0]):
            if name not in texts and name not in files:
                found.append(f"docs/definitions.md:{number}: {name} does not stand in {', '.join(files)}")


def text_of(path):
    with open(os.path.join(TOP, path), encoding="utf-8") as file:
        return file.read()


def number(text):
    """The number that a text is, in digits or as a word."""
    text = text.lower().replace(",", "").replace("_", "")
    return next((words.index(text) for words in NUMBERS if text in words), None) if text.isalpha() else int(text)


def check_files(paths, documents, found):
    """Each file beside the crates is named by a document, whole or by a pattern."""
    words = set(re.findall(r"[A-Za-z0-9_@*][A-Za-z0-9_.@*/-]*[A-Za-z0-9_*]", "\n".join(documents.values())))
    names, patterns = {word.split("/")[-1] for word in words}, [word for word in words if "*" in word and "/" in word]
    for path in paths:
        if not path.startswith(("checks/", "bench/", "examples/")) or path.startswith("checks/planted/"):
            continue
        if path.split("/")[-1] not in names and not any(fnmatch.fnmatch(path, pattern) for pattern in patterns):
            found.append(f"{path} is named by no document")


def check_numbers(paths, documents, found):
    """Each number of STATED is what is counted."""
    for document, stated, how, where, what, *add in STATED:
        match = re.search(stated, documents[document])
        if how == "files":
            count = len(fnmatch.filter(paths, where))
        elif how == "times":
            count = len(re.findall(what, text_of(where))) + add[0]
        else:
            has = re.search(what, text_of(where))
            count = has and number(has[1])
        if match is None or count is None:
            found.append(f"{document}: {stated if match is None else what} does not stand in {document if match is None else where}")
        elif number(match[1]) != count:
            found.append(f"{document}: {match[0]!r}, where it is {count} by {where}")


def check_words(documents, found):
    """The words that a check takes are those that its own file says."""
    for path, words in re.findall(r"(?m)^- `(checks/[a-z_/]+(?:\.py)?)((?: [^`]*)?)`", documents[CONTRIBUTING]):
        said = re.search(re.escape(path) + r"((?: (?:\[*-*[A-Za-z]+\]*|\.\.\]))*)\n", text_of(path))
        if said is None or said[1] != words:
            found.append(f"{CONTRIBUTING}: {path}{words}, where the file says {said and path + said[1]}")


def check_crates(paths, documents, found):
    """Layers, list and costs have each crate once; in the first two it stands behind those that it stands on."""
    stands = {crate: set(on.split()) for crate, on in re.findall(r"(?m)^(\w+):(.*)$", text_of("crates.txt"))}
    ours = {crate: on & set(stands) for crate, on in stands.items()}
    text = documents[CONTRIBUTING]
    layers = [line.split(", ") for line in re.findall(r"(?m)^    ((?:rv\w*, )*rv\w*)(?:  .*)?$", text)]
    listed = [re.findall(r"`(\w+)`", line) for line in re.findall(r"(?m)^- ((?:`(?:rv|trial)\w*\*?`,? ?)+):", text)]
    table = [(crate, edits) for crate, edits in re.findall(r"(?m)^\| `(\w+)` \| \d+ \| (\w+) \|$", documents[COSTS])]
    programs = {crate for crate in ours if crate.startswith("trial_")}
    for what, crates, wants in (("the layers", sum(reversed(layers), []), set(ours) - programs),
                                ("the list of crates", sum(listed, []), set(ours) - programs | {"trial_stage"}),
                                ("the table of costs", [crate for crate, _ in table], set(ours))):
        if sorted(crates) != sorted(wants):
            found.append(f"{what} has not each crate once: {' '.join(sorted(set(crates) ^ wants)) or 'one stands twice'}")
        elif what != "the table of costs":
            found += [f"in {what} {crate} does not stand behind {on}" for at, crate in enumerate(crates) for on in sorted(ours[crate]) if on in crates[at:]]
    found += [f"{crate} stands on {on}, which is in its layer" for layer in layers for crate in layer for on in sorted(set(layer) & ours.get(crate, set()))]
    for crate, edits in table:
        if (edits == "none") == any(fnmatch.fnmatch(path, f"crates/{crate}/must-fail/*.edit") for path in paths):
            found.append(f"{COSTS}: edits of {crate}: {edits}")


def main():
    paths = tracked()
    words = tree_words(paths) | OTHERS
    found = []
    for document in ["README.md"] + [p for p in paths if p.startswith("docs/") and p.endswith(".md")]:
        with open(os.path.join(TOP, document), encoding="utf-8") as file:
            text = file.read()
        if document == "docs/definitions.md":
            check_rows(text, paths, found)
        for number, line in enumerate(text.split("\n"), 1):
            for name in re.findall(r"`([^`]+)`", line):
                if missing_paths(name, paths):
                    found.append(f"{document}:{number}: {name} leads nowhere")
                elif re.fullmatch(r"[A-Za-z_][A-Za-z0-9_]*(?:-[A-Za-z_][A-Za-z0-9_]*)*", name) and name not in words:
                    found.append(f"{document}:{number}: {name} does not stand in the tree")
    documents = {path: text_of(path) for path in paths if path.endswith(".md")}
    check_files(paths, documents, found)
    check_numbers(paths, documents, found)
    check_words(documents, found)
    check_crates(paths, documents, found)
    for line in found:
        print(line)
    print(f"names: {len(found)} missing or another")
    sys.exit(1 if found else 0)


main()
