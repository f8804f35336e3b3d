#!/usr/bin/env python3
"""Finds what the house asks for and the tree lacks, outside the gate and in seconds: checks/tidy.py

- Who audits the definitions that clauses cite reads them in files that hold nothing else: a file of `specs/` that has a lemma is named
  `..Laws` and has no definition that a clause or a definition of another file cites; one that has none is not named so.
- A clause has at most 250 characters.
- Each public item of a crate has a comment.
- A word keeps its one meaning: WORDS says which words stand in which crates alone.
- Each definition that stands apart from lemmas is cited.
- Each function that neither the program nor a program of cases calls says why it stands, by a comment that has one of EXCUSED.
- Nothing runs for a proof alone but what is named so: a value that is taken and let go stands in functions named `fits` or `.._fit(s)`.
- Each library that crates.txt gives a crate is named in it.

Ends with status 1 where something is found, and says where. Its last line counts what who audits the definitions has to read.
"""
import os
import re
import subprocess
import sys

TOP = os.path.dirname(os.path.dirname(os.path.abspath(__file__)))
MOST_CHARACTERS = 250
# a word in code, what it means, and the crates in which it may stand so; elsewhere another word is taken
WORDS = {
    "pages?|paged|paging": ("the page that a book opens with", r"rv_(book|history|record|keeper|state|store|plain|standby|following|desk|report|room|laws|cli)"),
    "shel(f|ves)": ("where a cell stands", r"rv_(keeper|doubles|record|store|standby|sqlite|following|state|cli|desk|laws|place)"),
    "seats?|seated": ("who takes turns in a room", r"rv_(room|workers|laws|make|serve)"),
    "chunks?|chunked|chunking": ("some items of an order, or of a body", r"rv_(chunks|rows|keeper|http)"),
    "looks?|looked|looking": ("a look of the book, or at a mark", r"(?!rv_(json|net|place)$)\w+"),
    "told": ("what was shown, or is known", r"(?!rv_book$)\w+"),
    "records?|recorded": ("a view record, or a record of a CSV text", r"rv_(views|news|record|state|store|desk|csv|import|cli)"),
    "clos(e|ed|es|ing)": ("a closed book, a keeper's or a room's end, or what HTTP and WebSocket call so", r"(?!rv_(base|book|chunks|rows|json|lines|views|sharing|mutators|news|record|csv|import|sqlite|accounts|doubt|standby|following)$)\w+"),
    "entries": ("entries of a book", r"rv_(book|history|keeper|record|state|store|room|make|report|plain|standby|cli)"),
    "places?|placed": ("a place of the book, or where stores are", r"(?!rv_(json|chunks)$)\w+"),
}
ITEM = re.compile(r"(?:pub )(?:const |unsafe )?(?:fn|struct|enum|trait|const|type|static) (\w+)")
# functions of std's traits, which std calls
OF_TRAITS = ("main", "fmt", "drop", "eq", "partial_cmp", "flush")
EXCUSED = ("Nothing in the program calls it", "No case plays it")


def tracked(*patterns):
    names = subprocess.run(["git", "ls-files", *patterns], cwd=TOP, capture_output=True, text=True, check=True).stdout.split()
    found = {}
    for name in names:
        with open(os.path.join(TOP, name), encoding="utf-8") as file:
            found[name] = file.read()
    return found


class Spec:
    """A file of specs/: its definitions and its lemmas, each name with the lines that say what it is, and what it imports."""

    def __init__(self, text):
        self.definitions, self.lemmas, self.numbers = {}, {}, {}
        self.imports = imports_of(line for line in text.split("\n") if re.match(r"(pub )?use ", line))
        inside, mutual = None, None
        for number, line in enumerate(text.split("\n"), 1):
            word, indent = line.strip(), len(line) - len(line.lstrip())
            if not word or word.startswith("--") or re.match(r"(pub )?use |unfolding ", word):
                continue
            if mutual is not None and indent <= mutual:
                mutual = None
            if re.match(r"abbrev mutual|mutual|module ", word):
                mutual = indent if word.startswith("abbrev") else mutual
                inside = None
                continue
            inside = self.take(word, indent, number, mutual is not None, inside)

    def take(self, word, indent, number, in_mutual, inside):
        found = re.match(r"(abbrev |unfoldable |opaque )?(pub )?(record |data )?(\S+)( .*)?$", word)
        kind, _, record, name, rest = found.groups()
        signs = re.match(r"(?:pub )?\S+ :", word)
        if (kind or record or signs) and not (inside and indent > inside[1]):
            where = self.definitions if kind or record or in_mutual else self.lemmas
            where[name] = [word]
            self.numbers[name] = number
            return (where, indent, name)
        if inside:
            inside[0][inside[2]].append(word)
        return inside


def imports_of(lines):
    """name -> (module, name there), where a line names what it imports"""
    found = {}
    for line in lines:
        match = re.match(r"(?:pub )?use ([\w.]+)\.\{(.*)\}", line.strip())
        for name in match[2].split(",") if match else ():
            there, _, here = name.strip().partition(" as ")
            found[here or there] = (match[1], there)
    return found


def specs_of(antt):
    found = {}
    for name, text in antt.items():
        match = re.match(r"crates/(\w+)/specs/(.*)\.antt$", name)
        if match and match[2] != "Lib":
            found[f"Rattle.{match[1]}.specs.{match[2].replace('/', '.')}"] = (name, Spec(text))
    return found


def words_of(lines):
    return set(re.findall(r"[^\s(){}\[\],;:`.]+", " ".join(lines)))


def names_in(words, name):
    return name in words if "◌" not in name else all(part in words for part in name.split("◌") if part)


def cited_by_clauses(sources, specs):
    """The definitions that sources cite, and those that these cite."""
    todo = []
    for text in sources.values():
        for match in re.finditer(r"ghost use ([^;]*);", text):
            line = re.sub(r"\s+", " ", match[1]).replace("{ ", "{").replace(", }", "}")
            todo += imports_of([f"use {line}"]).values()
            alias = re.match(r"(Rattle\.[\w.]+) as (\w+)$", line)
            if alias:
                todo += [(alias[1], name) for name in re.findall(rf"\b{alias[2]}\.([^\s(){{}},;]+)", text)]
    cited = set()
    while todo:
        module, name = todo.pop()
        if (module, name) in cited or module not in specs or name not in specs[module][1].definitions:
            continue
        cited.add((module, name))
        spec = specs[module][1]
        words = words_of(spec.definitions[name])
        todo += [(module, other) for other in spec.definitions if names_in(words, other)]
        todo += [there for here, there in spec.imports.items() if names_in(words, here)]
    return cited


def mixed_files(specs, cited):
    for module, (name, spec) in specs.items():
        is_of_laws = name.endswith("Laws.antt")
        trusted = [other for other in spec.definitions if (module, other) in cited]
        if spec.lemmas and not is_of_laws:
            yield f"{name}: it has the lemma `{next(iter(spec.lemmas))}` and is not named ..Laws"
        if is_of_laws and not spec.lemmas:
            yield f"{name}: it is named ..Laws and has no lemma"
        if is_of_laws and trusted:
            yield f"{name}: clauses cite its definition `{trusted[0]}`"


def long_clauses(sources):
    for name, text in sources.items():
        for number, line in enumerate(text.split("\n"), 1):
            if len(line) > MOST_CHARACTERS and re.match(r"\s*(ensures|requires|ghost)\b", line):
                yield f"{name}:{number}: a clause of {len(line.strip())} characters"


def comment_above(lines, number):
    above = number - 1
    while above >= 0 and lines[above].strip().startswith("#["):
        above -= 1
    comment = []
    while above >= 0 and lines[above].strip().startswith("//"):
        comment.insert(0, lines[above].strip().lstrip("/ "))
        above -= 1
    return " ".join(comment)


def bare_items(sources):
    for name, text in sources.items():
        lines = text.split("\n")
        for number, line in enumerate(lines):
            found = ITEM.match(line.strip())
            if found and not comment_above(lines, number):
                yield f"{name}:{number + 1}: `{found[1]}` has no comment"


def code_of(text):
    return "\n".join(re.sub(r"//.*", "", re.sub(r'"[^"\n]*"', '""', line)) for line in text.split("\n"))


def strayed_words(sources):
    for name, text in sources.items():
        crate = name.split("/")[1]
        for number, line in enumerate(code_of(text).split("\n"), 1):
            if re.match(r"\s*(ghost |pub |pub\(crate\) )?use |\s*(ensures|requires|ghost)\b", line):
                continue
            for identifier in set(re.findall(r"[A-Za-z_]\w*", line)):
                parts = [part.lower() for part in re.findall(r"[A-Z]+(?![a-z])|[A-Z]?[a-z]+", identifier)]
                for word, (meaning, crates) in WORDS.items():
                    if any(re.fullmatch(word, part) for part in parts) and not re.fullmatch(crates, crate):
                        yield f"{name}:{number}: `{identifier}`, where {meaning} is not meant"


def uncited_definitions(sources, antt, specs):
    lines = [line for text in (*sources.values(), *antt.values()) for line in text.split("\n") if not re.match(r"\s*(ghost |pub )?use ", line)]
    count = {}
    for line in lines:
        if not line.strip().startswith(("--", "//")):
            for word in set(re.findall(r"[^\s(){}\[\],;:`.]+", line)):
                count[word] = count.get(word, 0) + 1
    for name, spec in specs.values():
        for other, own in spec.definitions.items():
            heads = sum(1 for line in own if other in re.findall(r"[^\s(){}\[\],;:`.]+", line)[:4])
            if "◌" not in other and not name.endswith("Laws.antt") and count.get(other, 0) <= heads:
                yield f"{name}:{spec.numbers[other]}: `{other}` is cited by nothing"


def uncalled_functions(sources):
    skipped = re.compile(r"\s*(ensures|requires|ghost|pub use|use)\b")
    bodies = {name: "\n".join(line for line in code_of(text).split("\n") if not skipped.match(line)) for name, text in sources.items()}
    words, heads = {}, {}
    for body in bodies.values():
        for word in re.findall(r"\b[a-z_]\w*\b", body):
            words[word] = words.get(word, 0) + 1
        for word in re.findall(r"\bfn (\w+)", body):
            heads[word] = heads.get(word, 0) + 1
    for name, text in sources.items():
        if name.endswith("/laws.rt") or name.startswith("crates/rv_laws/"):
            continue
        lines = text.split("\n")
        for number, line in enumerate(lines):
            found = re.match(r"\s*(?:pub(?:\(\w+\))? )?(?:const )?fn (\w+)", line)
            if not found or found[1] in OF_TRAITS:
                continue
            if words[found[1]] <= heads[found[1]] and not any(word in comment_above(lines, number) for word in EXCUSED):
                yield f"{name}:{number + 1}: nothing calls `{found[1]}`, and its comment does not say why it stands"


def values_for_proofs(shipped):
    for name, text in shipped.items():
        function = ""
        for number, line in enumerate(text.split("\n"), 1):
            function = (re.findall(r"\bfn (\w+)", line) or [function])[0]
            if re.match(r"\s*let _\w+ = [\w.]+(\(\))?(\.\w+\(\))*;$", line) and not re.search(r"fits?$", function):
                if not re.search(r"\b(close|swap_remove|finish)\b", line):
                    yield f"{name}:{number}: `{function}` takes a value and lets it go"


def unnamed_libraries(rows, sources, antt):
    for crate, libraries in rows:
        text = "".join(text for name, text in (*sources.items(), *antt.items()) if name.startswith(f"crates/{crate}/"))
        for library in libraries.split():
            if not re.search(rf"\b{library}\b", text):
                yield f"crates.txt: {crate} names {library} nowhere"


def lines_of_definitions(specs, antt):
    texts = [antt[name] for name, _ in specs.values() if not name.endswith("Laws.antt")]
    return sum(1 for text in texts for line in text.split("\n") if line.strip() and not re.match(r"(pub )?use ", line))


def main():
    sources, antt = tracked("crates/*.rt"), tracked("crates/*.antt")
    with open(os.path.join(TOP, "crates.txt"), encoding="utf-8") as file:
        rows = [line.strip().split(":") for line in file if ":" in line and not line.startswith("#")]
    libraries = {name: text for name, text in sources.items() if not name.startswith("crates/trial_")}
    shipped = {name: text for name, text in libraries.items() if not name.startswith("crates/rv_plain/")}
    specs = specs_of(antt)
    cited = cited_by_clauses(sources, specs)
    found = [
        *mixed_files(specs, cited),
        *long_clauses(sources),
        *bare_items(libraries),
        *strayed_words(libraries),
        *uncited_definitions(sources, antt, specs),
        *uncalled_functions(sources),
        *values_for_proofs(shipped),
        *unnamed_libraries(rows, sources, antt),
    ]
    for line in found:
        print(line)
    print(f"tidy: {len(found)} found; files of definitions have {lines_of_definitions(specs, antt)} lines, without imports")
    sys.exit(1 if found else 0)


if __name__ == "__main__":
    main()
