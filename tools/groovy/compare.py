#!/usr/bin/env python3
"""Compares the language with Groovy itself: the trials of crates/script_trials that have no events and no steps but `echo`, `println`
and `error` are run by the command `groovy`, and what comes is held against what the program must print for them.

Where they differ, `differences` has to say so: a line for each, the trial (and the row, of a trial that is a list of them), `|`, and
the rule of docs/LANGUAGE.md that makes the difference. The status is 0 where each difference is told there, and no other.

Groovy is Debian's package `groovy` (2.4, the line that Jenkins has), which wants a Java of version 17 or less in JAVA_HOME.
"""
import os
import re
import subprocess
import sys
import tempfile

HERE = os.path.dirname(os.path.realpath(__file__))
TRIALS = f"{HERE}/../../crates/script_trials"
OTHER_STEPS = re.compile(r"\b(stage|retry|catchError|unstable|parallel|input|node|dir|withEnv|sh)\b *[({'\"\w]")
ROW = re.compile(r"(?:println\(|try \{ println)")
MISSING = re.compile(r" is applicable for argument types: .*")


def trials_in(file):
    with open(f"{TRIALS}/{file}", encoding="utf-8", newline="") as text:
        return dict(trial.split("\n", 1) for trial in text.read().split("=== ")[1:])


def rows_of(script):
    """The rows of a script that is a list of them, each of which stands by itself, or None."""
    if not all(ROW.match(line) for line in script.splitlines()[:2]) or not ROW.match(script):
        return None
    return [row.strip("\n") for row in re.split(r"\n(?=println\(|try \{ println)", script)]


def comparable():
    """The scripts that Groovy can run, by their names, and what the program must print; of a trial of rows the whole is cut into them."""
    wanted = trials_in("stdout")
    for name, script in trials_in("stdin").items():
        is_limit = name.startswith("limits") or "Limit reached" in wanted[name]
        if is_limit or OTHER_STEPS.search(script) or re.search(r"^> ", script, re.M) or "Jenkinsfile:" in wanted[name]:
            continue
        yield name, script, wanted[name]


def run(scripts):
    """What Groovy writes for each of these scripts."""
    with tempfile.TemporaryDirectory() as room:
        files = [f"{room}/{at}.groovy" for at in range(len(scripts))]
        for file, script in zip(files, scripts):
            with open(file, "w", encoding="utf-8") as to:
                to.write(script)
        ran = subprocess.run(["groovy", f"{HERE}/pipeline.groovy", *files], stdout=subprocess.PIPE, check=True, text=True)
    return [told(part.split("\n", 1)[1]) for part in re.split(r"^=== (?=/)", ran.stdout, flags=re.M)[1:]]


def told(log):
    """A log of Groovy's without what it adds to messages of methods that are not there."""
    lines = [MISSING.sub("", line) for line in log.splitlines() if not line.startswith("Possible solutions:")]
    return "".join(f"{line}\n" for line in lines)


HEAD, END = "[Pipeline] Start of Pipeline\n", "[Pipeline] End of Pipeline\nFinished: SUCCESS\n"


def compared():
    """Yields the name of each piece, and what the program must print and what Groovy prints for it."""
    pieces = list(comparable())
    whole = [piece for piece in pieces if rows_of(piece[1]) is None]
    for (name, script, wanted), given in zip(whole, run([script for _, script, _ in whole])):
        yield name, script, wanted, given
    for name, script, wanted in pieces:
        rows = rows_of(script)
        if rows is None:
            continue
        given = run(rows)
        body = wanted.removeprefix(HEAD).removesuffix(END).split("\n")[:-1]
        at = 0
        for row, log in zip(rows, given):
            # (a row's text may have newlines of its own)
            count = max(log.removeprefix(HEAD).removesuffix(END).count("\n"), 1) if log.endswith(END) and log.startswith(HEAD) and "\n" in row else 1
            part = "".join(f"{line}\n" for line in body[at : at + count])
            at += count
            yield f"{name}: {row}", row, HEAD + part + END, log


def main():
    with open(f"{HERE}/differences", encoding="utf-8") as text:
        known = dict(line.rsplit(" | ", 1) for line in text.read().splitlines() if line and not line.startswith("#"))
    same, told_of, bad = 0, set(), 0
    for name, _, wanted, given in compared():
        label = name.replace("\n", "\\n")
        if wanted == given:
            same += 1
        elif label in known:
            told_of.add(label)
        else:
            bad += 1
            print(f"=== {label}\n--- the program\n{wanted}--- Groovy\n{given}", end="")
    for label in known.keys() - told_of:
        bad += 1
        print(f"=== {label}\nis no difference")
    print(f"{same} the same, {len(told_of)} differ as told in differences, {bad} not as told")
    return 1 if bad else 0


sys.exit(main())
