"""The tests and the trials of the crates, unproved: `tools/test.py quick` for all of them, `tools/test.py quick NAME..` for those of
these crates and of the crates above them.

The kit compiles each crate with tests, or each program with its input, and runs it, with checks in place of proofs. So it tells within
minutes whether a change does what the tests say. It never takes the place of the gate: it proves nothing and tries no wrong version.
Each of the lanes that work side by side has a copy of the sources, as `build.py` does. A line per crate goes to standard output.
"""
import concurrent.futures
import os
import re
import subprocess
import sys
import time

from build import TOP, Lanes, crates_above, free_memory, listed, sources

# How much memory the compilation of one crate and its run may take, in KiB, how long they may take together, and how long the run
# alone, in seconds. Checks in place of proofs make it slow, and the lanes share the processors.
MEMORY, SECONDS, RUN_SECONDS = 4_000_000, 1800, 900


def has_tests(name):
    """Whether a source of the crate has a test."""
    return any("#[test]" in text_of(file) for file in sources(name) if file.endswith(".rt"))


def text_of(file):
    with open(file, encoding="utf-8") as it:
        return it.read()


def expected(name):
    """What the program of this name has to print, where it is a program with an output to be compared."""
    file = f"{TOP}/crates/{name}/stdout"
    return text_of(file) if os.path.isfile(file) else None


def runs_of(names):
    """The runs to be made, the largest first: each a crate, and whether its tests or the program itself is run."""
    runs = [(name, True) for name in names if has_tests(name)]
    runs += [(name, False) for name in names if expected(name) is not None]
    return sorted(runs, key=lambda run: -sum(os.path.getsize(it) for it in sources(run[0])))


def words_of(name, of_tests):
    """The words for the kit."""
    words = ["try", "--seconds", str(RUN_SECONDS)]
    if of_tests:
        return [*words, "--test"]
    file = f"{TOP}/crates/{name}/args"
    given = text_of(file).splitlines() if os.path.isfile(file) else []
    return [*words, *(["--", *given] if given else [])]


def fault_of(name, of_tests, ran):
    """What is wrong with a run that has ended, if anything is."""
    if "did not end within the time limit" in ran.stderr:
        return f"it had not ended after {RUN_SECONDS} seconds"
    if not of_tests and ran.stdout != expected(name):
        return "it printed something else than crates/{}/stdout has".format(name)
    status = text_of(f"{TOP}/crates/{name}/status") if not of_tests and os.path.isfile(f"{TOP}/crates/{name}/status") else "0"
    if ran.returncode != int(status):
        told = [line for line in (ran.stdout + ran.stderr).splitlines() if re.search(r"FAILED|panicked|error|fault", line)]
        return told[0] if told else f"it ended with status {ran.returncode}"
    return None


def one(lanes, name, of_tests):
    """Makes one run, and gives what is wrong with it."""
    with lanes.one(name) as lane:
        folder = f"{lane}/crates/{name}"
        given = f"{folder}/stdin"
        with open(given if not of_tests and os.path.isfile(given) else os.devnull, "rb") as stdin:
            streams = {"stdin": stdin, "stdout": subprocess.PIPE, "stderr": subprocess.PIPE}
            words = ["rt", *words_of(name, of_tests)]
            try:
                ran = subprocess.run(words, cwd=folder, text=True, errors="replace", timeout=SECONDS, **streams)
            except subprocess.TimeoutExpired:
                return f"it had not ended after {SECONDS} seconds"
    return fault_of(name, of_tests, ran)


def told(name, of_tests, fault, began):
    """The line of a run."""
    what = f"{name}: {'tests' if of_tests else 'program'}"
    return f"{what}: {'ok' if fault is None else f'FAILED: {fault}'} ({time.monotonic() - began:.0f} s)"


def main(names):
    """Makes the runs, and gives the exit status: 0 where each of them is well."""
    unknown = [it for it in names if it not in listed()]
    if unknown:
        print(f"{unknown[0]} is no crate of crates.txt", file=sys.stderr)
        return 2
    began, failed = time.monotonic(), 0
    runs = runs_of(crates_above(names) if names else [*listed()])
    count = max(1, min(len(os.sched_getaffinity(0)), free_memory() // MEMORY))
    lanes = Lanes("quick", count)
    with concurrent.futures.ThreadPoolExecutor(count) as pool:
        waiting = {pool.submit(one, lanes, *run): run for run in runs}
        for it in concurrent.futures.as_completed(waiting):
            failed += it.result() is not None
            print(told(*waiting[it], it.result(), began), flush=True)
    lanes.drop()
    print(f"{len(runs) - failed} passed, {failed} failed, unproved ({time.monotonic() - began:.0f} s)")
    return 1 if failed else 0
