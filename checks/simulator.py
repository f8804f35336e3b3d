#!/usr/bin/env python3
"""Plays scripts that a seed draws, beside a second model: checks/simulator.py PROGRAM [SCRIPTS [SEED]] [--runs PATH]

PROGRAM is the program `rv` as it was built, SCRIPTS how many scripts are played (200), SEED the seed of the first (1); each script has the
next one. A script is pushes, pulls, retirements and closings, with stops, restarts, kills, calls of the keeper that fail, and requests
that are asked at the same time of several workers, over a store in memory or in a file (`scripts.py` says what its steps are). It is
played by `feed`, by `serve`, or, where a keeper fails, by `trial_runs`, which is looked for beside PROGRAM, or at PATH. The model
follows what was answered: what was not has happened wholly, in part or not at all. Each answer is compared, and, of a file after each
restart and each kill and at the end, and of `trial_runs` after each run, the cells, and the reports `lists`, `activity`, `check` and `ship`.

Where something differs the script is made shorter, for as long as something differs, and the seed, the step, what the program said
and what the model said are told, with the shortest script, as lines that `--script` reads. Ends with status 1 then.

    checks/simulator.py PROGRAM --seed N         plays the script of one seed, and prints it and each answer
    checks/simulator.py PROGRAM --script FILE    plays the script that a file has: its options, and its steps, a line each
"""
import argparse
import collections
import json
import os
import sys
import time

from playing import Difference, play
from scripts import drawn

# how many seconds a script is made shorter for, and how often one is tried whose answers are not sure
BUDGET, TRIES = 90, 3
MARKS = {'"patch":[]': "nothing to put or delete", '"op":"clear"': "without a base", '"patch"': "with a base", '503 {"error"': "in trouble",
         '"error"': "refused", '"closed"': "closed", "None": "not answered", "keeper": "not opened"}


def kind_of(answer):
    return next((kind for mark, kind in MARKS.items() if mark in str(answer)), "pushed or retired")


class Shorter:
    """Makes a script shorter, for as long as the program does other than the model."""

    def __init__(self, program, runs, script, difference):
        self.program, self.runs, self.end = program, runs, time.monotonic() + BUDGET
        self.script, self.difference, self.tries = script, difference, 0
        self.cut(difference.number)

    def cut(self, number):
        """Takes away the steps behind this one, where it was reached by itself."""
        if number < len(self.script[1]):
            self.differs((self.script[0], self.script[1][:number]))

    def differs(self, script):
        """Whether something differs in another script too; that is the script from here on."""
        is_sure = script[0]["program"] != "serve" and not any(step["do"] == "kill" for step in script[1])
        for _ in range(1 if is_sure else TRIES):
            if time.monotonic() > self.end:
                return False
            self.tries += 1
            try:
                play(self.program, self.runs, script)
            except Difference as difference:
                self.script, self.difference = script, difference
                return True
        return False

    def without_steps(self):
        """Takes away as many steps at once as can be, first half of them, at last single ones."""
        size = max(1, len(self.script[1]) // 2)
        while True:
            at = len(self.script[1])
            while at > 0:
                options, steps = self.script
                at = max(0, min(at, len(steps)) - size)
                self.differs((options, steps[:at] + steps[at + size:]))
            if size == 1:
                return
            size = max(1, size // 2)

    def simpler_steps(self, step):
        """What a step may be in place of what it is, the simplest first."""
        for one in step.get("steps", []):
            yield one
        for part in ("steps", "mutations", "fails"):
            for at in range(len(step.get(part, []))):
                yield {**step, part: step[part][:at] + step[part][at + 1:]}
        for at, mutation in enumerate(step.get("mutations", [])):
            for simpler in ({**mutation, "by": 1}, {**mutation, "name": "paint", "args": None}):
                if simpler != mutation:
                    yield {**step, "mutations": [*step["mutations"][:at], simpler, *step["mutations"][at + 1:]]}
        if step["do"] in ("restart", "kill"):
            yield {"do": "stop"}
        if step.get("cookie") is not None:
            yield {**step, "cookie": None}

    def with_simpler_steps(self):
        """Makes each step simpler."""
        at = 0
        while at < len(self.script[1]):
            options, steps = self.script
            if not any(self.differs((options, [*steps[:at], simpler, *steps[at + 1:]])) for simpler in self.simpler_steps(steps[at])):
                at += 1

    def with_simpler_options(self):
        """Has fewer workers, a store in memory, and what is simplest play it, where something differs then too."""
        simplest = {"program": "feed", "store": "memory", "workers": 1, "whole": False}
        for simpler in (simplest, *({name: value} for name, value in simplest.items())):
            options, steps = self.script
            if {**options, **simpler} != options and not any("fails" in step for step in steps):
                self.differs(({**options, **simpler}, steps))

    def shortest(self):
        before = None
        while before != self.script and time.monotonic() < self.end:
            before = self.script
            self.without_steps()
            self.with_simpler_options()
            self.with_simpler_steps()
            self.cut(self.difference.number)
        return self


def text_of_script(script):
    options, steps = script
    return "\n".join(json.dumps(line, ensure_ascii=False) for line in [options, *steps])


def read_script(path):
    with open(path, encoding="utf-8") as lines:
        options, *steps = [json.loads(line) for line in lines if line.strip()]
    return options, steps


def tell_steps(steps):
    for number, asked, answer in steps:
        print(f"{number}: {asked}\n    {answer}")


def tell(difference, script):
    print(f"step {difference.number} of {len(script[1])}: {difference.asked}")
    print(f"the program: {difference.came}\nthe model:   {difference.wanted}")


def tell_difference(program, runs, script, difference, how):
    """Tells of a difference, and of the shortest script that has one, with its lines and their answers."""
    print(f"{how} differs; it is played again by\n    {sys.argv[0]} {program} {how}" + (f" --runs {runs}" if runs else ""))
    tell(difference, script)
    shorter = Shorter(program, runs, script, difference).shortest()
    print(f"\nthe shortest script of {shorter.tries} that were tried, {len(shorter.script[1])} steps of {len(script[1])}, for --script:\n")
    print(text_of_script(shorter.script) + "\n")
    tell_steps(shorter.difference.played)
    tell(shorter.difference, shorter.script)
    sys.exit(1)


def show(program, runs, script, how):
    """Plays one script, and prints it with each answer."""
    print(text_of_script(script) + "\n")
    try:
        played = play(program, runs, script)
    except Difference as difference:
        tell_steps(difference.played)
        tell_difference(program, runs, script, difference, how)
    tell_steps(played.steps)
    print(f"{len(script[1])} steps, {len(played.steps)} answers, {played.lives} runs: as the model's")


def play_all(program, runs, scripts, seed):
    """Plays the scripts of so many seeds."""
    kinds, answers, ends, lives, cells, passed = collections.Counter(), collections.Counter(), collections.Counter(), 0, 0, 0
    for number in range(seed, seed + scripts):
        options, steps = script = drawn(number)
        if options["program"] == "runs" and runs is None:
            passed += 1
            continue
        try:
            played = play(program, runs, script)
        except Difference as difference:
            tell_difference(program, runs, script, difference, f"--seed {number}")
        kinds[f"{options['program']} {options['store']}"] += 1
        answers.update(kind_of(answer) for _, _, answer in played.steps)
        ends.update(step["do"] for step in steps if "mutations" not in step and "cookie" not in step)
        ends["fails"] += sum(len(step.get("fails", [])) for step in steps)
        lives, cells = lives + played.lives, cells + played.cells
    told = ["; ".join(", ".join(f"{count} {kind}" for kind, count in sorted(some.items())) for some in (kinds, answers, ends))]
    told.append(f"{passed} scripts with keepers that fail were passed over: no trial_runs" if passed else "none passed over")
    print(f"{scripts - passed} scripts, {lives} runs, {cells} cells as the model's: {'; '.join(told)}")


def main():
    words = argparse.ArgumentParser(description=__doc__, formatter_class=argparse.RawDescriptionHelpFormatter)
    words.add_argument("program", metavar="PROGRAM")
    words.add_argument("scripts", metavar="SCRIPTS", nargs="?", type=int, default=200)
    words.add_argument("first", metavar="SEED", nargs="?", type=int, default=1)
    words.add_argument("--seed", type=int)
    words.add_argument("--script")
    words.add_argument("--runs")
    asked = words.parse_args()
    program = os.path.abspath(asked.program)
    beside = os.path.normpath(os.path.join(os.path.dirname(program), "../../trial_runs/out/trial_runs"))
    runs = os.path.abspath(asked.runs) if asked.runs else beside if os.path.exists(beside) else None
    one = read_script(asked.script) if asked.script else drawn(asked.seed) if asked.seed is not None else None
    if one is None:
        return play_all(program, runs, asked.scripts, asked.first)
    if one[0]["program"] == "runs" and runs is None:
        sys.exit("the script is one for trial_runs, which is not there")
    show(program, runs, one, f"--script {asked.script}" if asked.script else f"--seed {asked.seed}")


if __name__ == "__main__":
    main()
