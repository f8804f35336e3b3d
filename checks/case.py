#!/usr/bin/env python3
"""Plays one subject, or one case, of a program of cases: checks/case.py CRATE NAME

CRATE is `trial_runs`, `trial_requests` or `trial_serving`, as `rt ci` has built it. NAME is a subject, which stands behind `===` in its
`stdin`, or a part of the names of cases, which stand behind `==`. The program plays these in an empty folder with the crate's `data/`, and
what it writes is compared with the same part of `stdout`; where it differs the differences are shown, with status 1.
"""
import difflib
import pathlib
import shutil
import subprocess
import sys
import tempfile

TOP = pathlib.Path(__file__).resolve().parent.parent


def part(text, name):
    """The lines of the subject of this name, and of the cases whose names have it as a part, each behind its subject's line."""
    found, subject, told, taken = [], None, True, False
    for line in text.splitlines(keepends=True):
        if line.startswith("=== "):
            subject, told, taken = line, False, line[4:].strip() == name
        elif line.startswith("== "):
            taken = name in line or (subject or "")[4:].strip() == name
        if taken:
            found += [subject] * (not told and line != subject) + [line]
            told = True
    return found


def main():
    if len(sys.argv) != 3:
        sys.exit(__doc__)
    crate, name = TOP / "crates" / sys.argv[1], sys.argv[2]
    asked, expected = (part((crate / of).read_text(encoding="utf-8"), name) for of in ("stdin", "stdout"))
    if not asked:
        sys.exit(f"{crate.name} has no such case")
    with tempfile.TemporaryDirectory() as room:
        if (crate / "data").is_dir():
            shutil.copytree(crate / "data", room, dirs_exist_ok=True)
        run = subprocess.run([crate / "out" / crate.name], input="".join(asked), stdout=subprocess.PIPE, cwd=room, text=True, check=False)
    got = run.stdout.splitlines(keepends=True)
    sys.stdout.writelines(got if got == expected else difflib.unified_diff(expected, got, "expected", "got"))
    if got != expected or run.returncode != 0:
        sys.exit(f"status {run.returncode}")


main()
