#!/usr/bin/env python3
"""Time, memory and stored bytes of builds that `gen` makes. README.md beside this file says what is measured."""
import argparse
import os
import shutil
import struct
import subprocess
import sys
import tempfile

from process import KIB, measure

TOP = os.path.dirname(os.path.dirname(os.path.realpath(__file__)))
PROGRAM = f"{TOP}/crates/jenkinsd/out/jenkinsd"
TRIALS = f"{TOP}/crates/store_trials/out/store_trials"
AGENTS = '{"job":"gen","agents":[{"name":"gen","root":"%s","executors":1}]}'
SIZES = (200, 2_000)
MOST_TIMES_LONGER = 12
MOST_TIMES_THE_BYTES = 11
MOST_TIMES_THE_READING = 3
MOST_TIMES_THE_STATE = 4
# The crates that read a store: its journal, and the forms of what stands in it.
READERS = ("journal_core", "delta_records", "delta_form", "record_form", "image_form", "field_form", "byte_form")
# What a build's log takes, and what a read of it gives at most.
LOG, READ = 16_777_216, 65_536
OUTPUTS = 10_000


def shortest(runs, words, given=b"", status=0):
    """The shortest processor time and the largest peak in KiB of some runs, and the output of the last."""
    results = [measure(words, given) for _ in range(runs)]
    for _, _, ended, said in results:
        if ended != status:
            refuse(words, ended, said)
    return min(r[0] for r in results), max(r[1] for r in results), results[-1][3]


def refuse(words, ended, said):
    sys.exit(f"bench: {' '.join(words)} ended with status {ended}: {said[-300:].decode(errors='replace').strip()}")


def task(number, times, log):
    return f"> task {number} 0 0 {times} {log}\n"


def trial(script, tasks, command):
    """A trial of store_trials: this command, over hosts in memory on which these tasks end at once, and the bytes of its store."""
    return f"=== a build\n{script}{tasks}> hosts 1\n> {command}\n> bytes\n".encode()


def generated(stages):
    """What `gen` does, over a disk whose bytes are told. On its hosts too each task writes its number."""
    tasks = "".join(task(2 * k, 1, f"out {2 * k}\\n") for k in range(1, stages + 1))
    return trial("", tasks, f"words controller gen {stages}")


def looped(stages):
    """The stages of `gen` in a loop: a build of the same records, whose script is short."""
    script = (
        f'total = 0\nseen = []\nfor (k in 1..{stages}) {{\n  stage("S${{k}}") {{\n    total = total + k\n    seen.add(total)\n'
        '    echo "stage ${k} total ${total}"\n    node { sh "run ${k}" }\n  }\n}\necho "sum ${total} of ${seen.size()}"\n'
    )
    tasks = "".join(task(2 * k, 1, f"out {2 * k}\\n") for k in range(1, stages + 1))
    return trial(script, tasks, "run")


def many_outputs(outputs):
    """A build of so many steps, each of which gives an output of so many bytes that all together nearly fill the log."""
    lines = LOG * 9 // 10 // outputs // 64
    tasks = "".join(task(2 + k, lines, "x" * 63 + "\\n") for k in range(outputs))
    return trial(f"node {{ for (i in 1..{outputs}) {{ sh 'tell' }} }}\n", tasks, "run")


def records(store):
    """The kinds of the records of a store, with the bytes of each."""
    at = 0
    while at < len(store) and store[at] == 1:
        size = struct.unpack_from(">I", store, at + 1)[0]
        yield store[at + 5], size + 5
        at += 5 + size


class Stored:
    """The store of a build in memory, and what its bytes are."""

    def __init__(self, program, given):
        self.seconds, self.peak, said = shortest(1, [program], given)
        self.bytes = bytes.fromhex(said.decode().splitlines()[-1].removeprefix("store "))
        kinds = list(records(self.bytes))
        self.records = len(kinds)
        self.whole = [size for kind, size in kinds if kind == 1]
        self.changes = [size for kind, size in kinds if kind == 2]

    def tell(self, name):
        print(f"{name}: {len(self.bytes):,} bytes; {self.records:,} records, {len(self.whole):,} of them whole images of "
              f"{sum(self.whole):,} bytes, the largest of {max(self.whole):,}, and {len(self.changes):,} of changes of {sum(self.changes):,}", flush=True)


def wanted(stages):
    """The lines of a build of so many stages, reckoned by the rules for nodes, events and lines of the log."""
    log = ["[Pipeline] Start of Pipeline"]
    for k in range(1, stages + 1):
        log += ["[Pipeline] stage", f"[Pipeline] {{ (S{k})", "[Pipeline] echo", f"stage {k} total {k * (k + 1) // 2}", "[Pipeline] node",
                "Running on gen in /gen/workspace/gen", "[Pipeline] {", "[Pipeline] sh", f"out {2 * k}", "[Pipeline] }", "[Pipeline] // node",
                "[Pipeline] }", "[Pipeline] // stage"]
    log += ["[Pipeline] echo", f"sum {stages * (stages + 1) // 2} of {stages}", "[Pipeline] End of Pipeline", "Finished: SUCCESS"]
    return [f"stages {stages}", f"nodes {10 * stages + 3}", f"tasks {stages}", f"records {3 * stages + 1}", f"log {sum(len(line) + 1 for line in log)}", "result SUCCESS"]


def timed(given, sizes):
    """What `gen` takes at two sizes."""
    taken = []
    for stages in sizes:
        seconds, peak, said = shortest(given.runs, [given.program, "gen", str(stages)])
        if said.decode().splitlines() != wanted(stages):
            sys.exit(f"bench: gen {stages} wrote other lines: {said.decode(errors='replace')}")
        taken.append(seconds)
        print(f"gen {stages}: {seconds:.3f} s of a processor, {peak / KIB:.1f} MiB at the peak; {', '.join(said.decode().splitlines())}", flush=True)
    return told("the time of the larger", taken, MOST_TIMES_LONGER)


def told(what, two, most, of="that of the smaller"):
    times = two[1] / two[0]
    print(f"  {what}: {times:.1f} times {of} (at most {most})", flush=True)
    return times <= most


def reopened(given, at, name):
    """What `resume` of a build that has ended takes."""
    cat, _, _ = shortest(given.runs, ["sh", "-c", f"cat {at}/program.dat > /dev/null"])
    seconds, peak, said = shortest(given.runs, [given.program, "resume", at])
    print(f"resume of {name}: {seconds:.3f} s of a processor, {peak / KIB:.1f} MiB at the peak, {len(said):,} bytes of the log; "
          f"cat of the file: {cat:.3f} s, {seconds / cat:.1f} times", flush=True)
    return seconds


def crate(function):
    return function.split("::")[0]


def instructions(words, at):
    """How many instructions a run takes, and how many of these are in calls of the crates that read a store, as callgrind counts them."""
    counts = f"{at}/callgrind"
    tool = ["valgrind", "--tool=callgrind", "--compress-strings=no", "--compress-pos=no", f"--callgrind-out-file={counts}"]
    subprocess.run([*tool, *words], check=True, stdout=subprocess.DEVNULL, stderr=subprocess.DEVNULL)
    whole = reading = 0
    here, called = "", None
    with open(counts, encoding="utf-8") as lines:
        for line in lines:
            key, _, rest = line.rstrip("\n").partition("=")
            if key == "fn":
                here = rest
            elif key == "cfn":
                called = rest
            elif line.startswith("summary: "):
                whole = int(line.split()[1])
            elif called and line[:1].isdigit():
                reading += int(line.split()[1]) if crate(called) in READERS and crate(here) not in READERS else 0
                called = None
    return whole, reading


def read_again(given):
    """What `resume` of a store of many records takes, whose script is short, beside the reading of its file."""
    stages = given.sizes[1]
    stored = Stored(given.trials, looped(stages))
    stored.tell(f"the store of {stages:,} stages in a loop")
    with tempfile.TemporaryDirectory(prefix="controller-gen-") as at:
        with open(f"{at}/program.dat", "wb") as file:
            file.write(stored.bytes)
        reopened(given, at, f"that store of {stored.records:,} records")
        if shutil.which("valgrind") is None:
            print("  no valgrind is here: the reading of the file is not counted")
            return True
        whole, reading = instructions([given.program, "resume", at], at)
        print(f"  {whole / 1e6:.1f} million instructions, {reading / 1e6:.1f} of them in the journal and the forms, which read the file", flush=True)
        return told("resume", (reading, whole), MOST_TIMES_THE_READING, "the reading of its file")


class Allocated:
    """What the program has allocated right before it writes its text, and the most before that, in MiB, as memory.c counts."""

    def __init__(self, library, at, words):
        list_at = f"{at}/memory"
        _, _, ended, said = measure(["env", f"LD_PRELOAD={library}", f"MEMORY_LIST={list_at}", *words])
        if ended != 0:
            refuse(words, ended, said)
        with open(list_at, encoding="utf-8") as file:
            numbers = file.read().split()
        os.remove(list_at)
        if len(numbers) != 2:
            sys.exit(f"bench: memory.c sees no call of {words[0]}: is it linked to the C library as a whole?")
        self.then, self.most = (int(number) / KIB / KIB for number in numbers)


def held(given, at, stages):
    """The most that `gen` has allocated, its disk in memory too, beside what the build takes that `resume` of its store holds."""
    if shutil.which("cc") is None:
        print("  no C compiler is here: what is allocated is not counted")
        return True
    library = f"{at}/memory.so"
    subprocess.run(["cc", "-O1", "-shared", "-fPIC", "-o", library, f"{TOP}/bench/memory.c"], check=True)
    made = Allocated(library, at, [given.program, "gen", str(stages)])
    opened = Allocated(library, at, [given.program, "resume", at])
    print(f"allocated by gen {stages}: {made.most:.1f} MiB at most, {made.then:.1f} at its end, with its disk in memory; by resume of its store: {opened.most:.1f} MiB at most, "
          f"{opened.then:.1f} when the build is open", flush=True)
    return told("the most of gen", (opened.then, made.most), MOST_TIMES_THE_STATE, "what the open build has")


def stored_again(given, few, many):
    """What the stores of both take when they are opened, and what is allocated then."""
    taken = []
    with tempfile.TemporaryDirectory(prefix="controller-gen-") as at:
        for stages, stored in zip(given.sizes, (few, many)):
            with open(f"{at}/program.dat", "wb") as file:
                file.write(stored.bytes)
            taken.append(reopened(given, at, f"the store of gen {stages}"))
        fits = told("the time of resume of the larger", taken, MOST_TIMES_LONGER)
        return held(given, at, given.sizes[1]) and fits


def until_full(given):
    """A step whose outputs of 64 KiB would be 10,000, in a real folder: the log is full at the 256th of them."""
    with tempfile.TemporaryDirectory(prefix="controller-gen-") as at:
        with open(f"{at}/Jenkinsfile", "w", encoding="utf-8") as file:
            file.write(f"node {{ sh '''#!/bin/sh\nhead -c {OUTPUTS * READ} /dev/zero | tr '\\\\0' x''' }}\n")
        with open(f"{at}/agents.json", "w", encoding="utf-8") as file:
            file.write(AGENTS % f"{at}/agent")
        seconds, peak, said = shortest(1, [given.program, "run", at], status=1)
        size = os.path.getsize(f"{at}/program.dat")
        print(f"outputs of 64 KiB until the log is full: {seconds:.2f} s of a processor, {peak / KIB:.1f} MiB at the peak, {len(said):,} bytes of the log, "
              f"{size:,} of the store; its end: {', '.join(said.decode().splitlines()[-2:])}", flush=True)


def main():
    parser = argparse.ArgumentParser(description=__doc__)
    parser.add_argument("--runs", type=int, default=3, help="how often each is done (default: 3)")
    parser.add_argument("--program", default=PROGRAM)
    parser.add_argument("--trials", default=TRIALS, help="the program store_trials")
    parser.add_argument("--sizes", type=int, nargs=2, default=SIZES, metavar=("FEW", "MANY"), help="the two numbers of stages (default: 200 2000)")
    parser.add_argument("--outputs", type=int, default=OUTPUTS, help="how many outputs the build of many outputs has (default: 10,000; none: 0)")
    given = parser.parse_args()
    for program in (given.program, given.trials):
        if not os.access(program, os.X_OK):
            sys.exit(f"bench: {program} is not there: './controller build' makes the one, 'rt run store_trials' the other")
    fits = timed(given, given.sizes)
    few, many = (Stored(given.trials, generated(stages)) for stages in given.sizes)
    for stages, stored in zip(given.sizes, (few, many)):
        stored.tell(f"the store of gen {stages}")
    fits = told("the bytes of the larger", (len(few.bytes), len(many.bytes)), MOST_TIMES_THE_BYTES) and fits
    fits = stored_again(given, few, many) and fits
    fits = read_again(given) and fits
    if given.outputs > 0:
        until_full(given)
        stored = Stored(given.trials, many_outputs(given.outputs))
        stored.tell(f"{given.outputs:,} outputs in memory, {stored.seconds:.2f} s of a processor, {stored.peak / KIB:.1f} MiB at the peak; its store")
    return 0 if fits else 1


if __name__ == "__main__":
    sys.exit(main())
