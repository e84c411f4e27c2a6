#!/usr/bin/env python3
"""Compares the program `script_trials` with this reference on random scripts: the log of each build and what it says to each event.

The reference is written from docs/LANGUAGE.md, docs/WORLD.md and docs/STEPS.md, and not from the definitions or the program. It
does not count evaluated nodes, cells and heap bytes, and leaves out what takes very long.
"""
import argparse
import difflib
import os
import random
import subprocess
import sys
import threading

from build import Build, TooLong
from random_scripts import Scripts
from script import script

TOP = os.path.dirname(os.path.dirname(os.path.dirname(os.path.realpath(__file__))))
PROGRAM = f"{TOP}/crates/script_trials/out/script_trials"


def expected(parts, events):
    """What the program has to write for a trial; None where the script is left out."""
    build = Build(parts)
    try:
        build.start()
        for event in events:
            build.take(event)
    except (TooLong, RecursionError):
        return None
    return build.answers + build.log


def trials(seed, count):
    """Trials, each as its text and what is expected."""
    chosen = random.Random(seed)
    while count > 0:
        scripts = Scripts(chosen)
        parts, events = scripts.script(), scripts.events()
        wanted = expected(parts, events)
        if wanted is not None:
            count -= 1
            yield "".join(f"> {event}\n" for event in events) + script(parts), wanted


def differs(program, seed, count):
    """Runs trials of a seed; tells how many differ, and the first of them."""
    pairs = list(trials(seed, count))
    given = "".join(f"=== {at}\n{text}" for at, (text, _) in enumerate(pairs))
    run = subprocess.run([program], input=given.encode(), stdout=subprocess.PIPE, check=False)
    written = run.stdout.decode().split("=== ")[1:]
    wrong = []
    for at, (text, wanted) in enumerate(pairs):
        came = written[at].split("\n", 1)[1] if at < len(written) else f"nothing, and status {run.returncode}"
        if came != wanted:
            wrong.append((at, text, wanted, came))
    for at, text, wanted, came in wrong[:1]:
        rows = difflib.unified_diff(wanted.split("\n"), came.split("\n"), "wanted", "came", lineterm="", n=2)
        print(f"=== seed {seed}, trial {at}\n{text}" + "\n".join(rows))
    print(f"seed {seed}: {len(pairs)} scripts, {len(wrong)} differ", flush=True)
    return len(wrong)


def main():
    parser = argparse.ArgumentParser(description=__doc__)
    parser.add_argument("--program", default=PROGRAM, help="the program, as `rt run script_trials` leaves it")
    parser.add_argument("--first", type=int, default=1, help="the first seed")
    parser.add_argument("--seeds", type=int, default=10, help="how many seeds")
    parser.add_argument("--count", type=int, default=400, help="how many scripts of a seed")
    given = parser.parse_args()
    seeds = range(given.first, given.first + given.seeds)
    return sum(differs(given.program, seed, given.count) for seed in seeds)


def with_deep_calls(work):
    """Does work whose calls nest deep: those of a script nest to 1,024, each of them several calls of the reference."""
    sys.setrecursionlimit(400_000)
    threading.stack_size(512 * 1024 * 1024)
    given = []
    thread = threading.Thread(target=lambda: given.append(work()))
    thread.start()
    thread.join()
    return given


if __name__ == "__main__":
    sys.exit(0 if with_deep_calls(main) == [0] else 1)
