#!/usr/bin/env python3
"""Kills controllers at random moments while shell steps run: `bench/kills.py [--builds N] [--kills N] [--seed N] [--program PROGRAM]`.

Each build has a random Jenkinsfile with shell steps that really run. It runs once undisturbed; and then, in a folder of its own, its
controller is killed (SIGKILL) at random moments, N times or until the build has ended, and resumed. Each log that it gives in between
has to begin with the one before, its last log and its status have to be those of the undisturbed run, and each of its tasks, which
leaves its name in a file when it is launched, has to have been launched once.

Executors work side by side, so that the lines of branches may come in another order among each other, nodes that wait may get other
executors, and a line of one branch may be cut by one of another. Where the log of a build with branches is not the same, its lines are
compared in any order, those of each step in theirs; and where a line is cut, its characters. Such builds are counted for themselves.

A step that a kill cost, one with code -2 or -1 that the undisturbed run does not have, is lost. So is a build with one. None may be.

`--busy N` has so many processes at work beside it that do nothing but compute. The last line is a row of a table: the load, builds,
kills, tasks, and how many builds lost a step, launched one twice, or were wrong otherwise.

With `--calls` one build of five shell steps is killed right before each call in turn that writes or starts a process, in whichever
thread, by bench/calls.c, which `cc` has to compile.

The same seed gives the same scripts and times. An interrupt (Ctrl-C) ends it with the figures so far. The status is 0 where all is so.
"""
import argparse
import collections
import concurrent.futures
import contextlib
import difflib
import os
import random
import re
import shutil
import subprocess
import sys
import tempfile
import time

TOP = os.path.dirname(os.path.dirname(os.path.realpath(__file__)))
PROGRAM = f"{TOP}/crates/jenkinsd/out/jenkinsd"
AGENTS = """{"job": "killed", "looks": 24, "agents": [
    {"name": "one", "root": "ROOM/one", "labels": ["small"], "executors": 1},
    {"name": "two", "root": "ROOM/two", "labels": ["small"], "executors": 2}
]}"""
LOST = re.compile(r"exit code -[12]$|^code -[12]$", re.M)


class Scripts:
    """Random Jenkinsfiles."""

    def __init__(self, choose):
        self.choose, self.count = choose, 0

    def shell(self, *lines):
        """The script of a step that leaves its name, and takes up to an eighth of a second."""
        self.count += 1
        out = self.choose.choice(["", f"echo 'step {self.count}'", f"seq -f '{self.count}: %g' {self.choose.randrange(1, 4000)}"])
        wait = f"sleep 0.{self.choose.randrange(125):03}"
        return "'''" + "\n".join(["#!/bin/sh", 'echo "$0" >> ROOM/launches', out, wait, *lines]) + "\n'''"

    def step(self):
        kind = self.choose.randrange(8)
        if kind < 3:
            return [f"sh {self.shell()}"]
        if kind == 3:
            return [f"echo sh(script: {self.shell('echo out')}, returnStdout: true).trim()"]
        if kind == 4:
            return [f'echo "code ${{sh(script: {self.shell(f"exit {self.choose.randrange(4)}")}, returnStatus: true)}}"']
        if kind == 5:
            return [f"catchError(buildResult: 'UNSTABLE') {{ sh {self.shell('exit 3')} }}"]
        if kind == 6:
            mark = f"ROOM/mark-{self.count}"
            flaky = self.shell(f"test -e {mark} || {{ touch {mark}; exit 1; }}")
            return [f"retry(2) {{ sh {flaky} }}"]
        return [f"withEnv(['N={self.count}']) {{ dir('d{self.count}') {{ sh {self.shell('echo $N in $(basename $PWD)')} }} }}"]

    def steps(self, most):
        return [line for _ in range(self.choose.randrange(1, most + 1)) for line in self.step()]

    def node(self, most):
        label = self.choose.choice(["", "'one'", "'two'", "'small'"])
        return [f"node{'(' + label + ')' if label else ''} {{", *self.steps(most), "}"]

    def stage(self, name):
        if self.choose.randrange(3) > 0:
            return [f"stage('{name}') {{", *self.node(3), "}"]
        branches = [["{", *self.node(2), "}"] for _ in range(self.choose.randrange(2, 5))]
        inside = ",\n".join(f"b{at}: " + "\n".join(branch) for at, branch in enumerate(branches))
        return [f"stage('{name}') {{", f"parallel(\n{inside}\n)", "}"]

    def script(self):
        return "\n".join(line for at in range(self.choose.randrange(2, 4)) for line in self.stage(f"s{at}")) + "\n"


FIXED = """node('one') {
    sh '''#!/bin/sh\necho "$0" >> ROOM/launches; echo first'''
    echo sh(script: '''#!/bin/sh\necho "$0" >> ROOM/launches; echo out; echo log >&2''', returnStdout: true)
}
parallel(
    a: { node('one') { sh '''#!/bin/sh\necho "$0" >> ROOM/launches; seq 3''' } },
    b: { node('two') { sh '''#!/bin/sh\necho "$0" >> ROOM/launches; sleep 0.02; seq 3''' } })
node { sh '''#!/bin/sh\necho "$0" >> ROOM/launches; exit 3''' }
"""


class Build:
    """A build in a folder of its own."""

    def __init__(self, program, room, script):
        self.program, self.room = program, room
        os.makedirs(f"{room}/build")
        for name, text in (("Jenkinsfile", script), ("agents.json", AGENTS)):
            with open(f"{room}/build/{name}", "w", encoding="utf-8") as file:
                file.write(text.replace("ROOM", room))

    def start(self, command, before=()):
        words = [*before, self.program, command, f"{self.room}/build"]
        return subprocess.Popen(words, stdin=subprocess.DEVNULL, stdout=subprocess.PIPE, stderr=subprocess.DEVNULL)

    def ended(self, controller):
        try:
            log, _ = controller.communicate(timeout=300)
        except subprocess.TimeoutExpired:
            controller.kill()
            raise Wrong("a controller had not ended after 300 seconds") from None
        return log.decode(errors="replace").replace(self.room, "ROOM"), controller.returncode

    def ran(self, command):
        return self.ended(self.start(command))

    def next_command(self):
        """`run` where the store has no build yet, and else `resume`; with the log so far."""
        log, status = self.ran("log")
        if status == 9 and log == "program.dat: no build\n":
            return "run", ""
        return "resume", log if status == 0 else f"log: {log}"

    def launches(self):
        try:
            with open(f"{self.room}/launches", encoding="utf-8") as file:
                return collections.Counter(file.read().replace(self.room, "ROOM").split())
        except FileNotFoundError:
            return collections.Counter()


class Wrong(Exception):
    """What must not be."""


class Twice(Wrong):
    """A task was launched twice."""


def gone_on(build, before):
    """What is known behind a kill: the command to go on with, and the log, which has to begin with the one before."""
    command, log = build.next_command()
    if not log.startswith(before[: before.rfind("\n") + 1]):
        raise Wrong(f"the log does not begin with the one before:\n{before}\n---\n{log}")
    return command, log


def killed(build, kills, seconds, choose):
    """How the build ends whose controller is killed so many times, and how many kills there were."""
    command, log = "run", ""
    for count in range(kills):
        controller = build.start(command)
        try:
            controller.wait(choose.uniform(0, 2 * seconds / kills))
            return build.ended(controller), count
        except subprocess.TimeoutExpired:
            controller.kill()
            controller.communicate()
        command, log = gone_on(build, log)
        time.sleep(choose.choice([0, 0, 0.1, 0.3]))
    return build.ran(command), kills


SAME, REORDERED, COST = "as the undisturbed run", "as the undisturbed run in another order", "with a step that a kill cost"
TWICE, WRONG = "with a task that was launched twice", "wrong"
CUT = "as the undisturbed run in another order, with a line that another branch cut"


def without_places(log):
    """A log without the places of nodes and of `dir`, which name the executor that each got."""
    return re.sub(r"Running (?:on \w+ )?in \S+", "Running", log)


def in_any_order(ended, launches):
    """The lines of a log, without places, and those of each step in their order; the status and the number of launches."""
    log, status = ended
    lines, steps = without_places(log).split("\n"), collections.defaultdict(list)
    for line in lines:
        if step := re.match(r"(?:step )?(\d+)\b", line):
            steps[step[1]].append(line)
    return sorted(lines), steps, status, sum(launches.values())


def letters(ended, launches):
    """How often each character but the newline stands in a log, without places; the status and the number of launches."""
    log, status = ended
    return collections.Counter(without_places(log).replace("\n", "")), status, sum(launches.values())


def judged(first, first_launches, second, launches, has_branches):
    """What became of a build that was killed; or Wrong."""
    twice = [name for name, count in launches.items() if count > 1]
    if twice:
        raise Twice(f"launched twice: {twice}")
    if second == first and launches == first_launches:
        return SAME
    for same, what in ((in_any_order, REORDERED), (letters, CUT)):
        if has_branches and same(first, first_launches) == same(second, launches):
            return what
    if LOST.search(second[0]) and not LOST.search(first[0]) and "\nFinished: " in second[0]:
        return COST
    differ = difflib.unified_diff(first[0].split("\n"), second[0].split("\n"), "undisturbed", "killed", lineterm="", n=1)
    raise Wrong("\n".join([f"status {first[1]} and {second[1]}", *differ][:60] + [f"{first_launches}", f"{launches}"]))


def trial(program, seed, kills):
    """One build: how many kills, how many tasks, what became of it, seconds; or what is wrong."""
    choose = random.Random(seed)
    script = Scripts(choose).script()
    room = tempfile.mkdtemp(prefix="controller-kills-")
    try:
        undisturbed, disturbed = (Build(program, f"{room}/{name}", script) for name in ("undisturbed", "disturbed"))
        began = time.monotonic()
        first = undisturbed.ran("run")
        seconds = time.monotonic() - began
        if first[1] not in (0, 1, 10):
            raise Wrong(f"the undisturbed run: {first}")
        second, count = killed(disturbed, kills, seconds, choose)
        what = judged(first, undisturbed.launches(), second, disturbed.launches(), "parallel(" in script)
        return count, sum(disturbed.launches().values()), what, seconds, None
    except Wrong as why:
        return 0, 0, TWICE if isinstance(why, Twice) else WRONG, 0, f"seed {seed}: {why}"
    finally:
        shutil.rmtree(room, ignore_errors=True)


def each(jobs, items, do):
    """What came of each item, so many at a time; of those that had ended, where an interrupt came."""
    ended = []
    with concurrent.futures.ThreadPoolExecutor(jobs) as lanes:
        try:
            for it in lanes.map(do, items):
                ended.append(it)
        except KeyboardInterrupt:
            lanes.shutdown(cancel_futures=True)
    return ended


def campaign(asked):
    seeds = [asked.seed * 1_000_000 + at for at in range(asked.builds)]
    ended = each(asked.jobs, seeds, lambda seed: trial(asked.program, seed, asked.kills))
    wrong = [why for *_, why in ended if why]
    print(*wrong, sep="\n")
    kills, tasks = (sum(it[at] for it in ended) for at in range(2))
    seconds = sum(it[3] for it in ended) / max(len(ended), 1)
    print(f"{len(ended)} builds, {seconds:.1f} seconds each where undisturbed; {kills} kills; {tasks} tasks launched")
    counts = collections.Counter(it[2] for it in ended)
    for what, count in counts.most_common():
        print(f"{count} {what}")
    load = f"{asked.busy} busy processes" if asked.busy else "quiet"
    print("| load | builds | kills | tasks | lost a step | launched one twice | wrong |")
    print(f"| {load} | {len(ended)} | {kills} | {tasks} | {counts[COST]} | {counts[TWICE]} | {counts[WRONG]} |")
    return 1 if wrong or counts[COST] else 0


@contextlib.contextmanager
def busy(count):
    """So many processes that only compute, while what is inside is done."""
    workers = [subprocess.Popen([sys.executable, "-c", "while True: pass"]) for _ in range(count)]
    try:
        yield
    finally:
        for worker in workers:
            worker.kill()
            worker.wait()


def at_each_call(asked):
    """Kills the fixed build right before each call in turn, and resumes it."""
    room = tempfile.mkdtemp(prefix="controller-calls-")
    try:
        library = f"{room}/calls.so"
        subprocess.run(["cc", "-O1", "-shared", "-fPIC", "-o", library, f"{TOP}/bench/calls.c"], check=True)
        undisturbed = Build(asked.program, f"{room}/undisturbed", FIXED)
        first, calls = watched(undisturbed, library, 0)
        if not calls:
            raise SystemExit("bench/calls.c sees no call of this program: is it linked to the C library as a whole?")
        ended = each(asked.jobs, range(1, len(calls) + 1), lambda number: killed_at(asked.program, room, library, number, undisturbed, first))
        print(*(f"{name}: {what}" for name, what in ended if isinstance(what, Wrong)), sep="\n")
        figures = collections.Counter((name, what) for name, what in ended if isinstance(what, str))
        for (name, what), count in sorted(figures.items()):
            print(f"{name}: {count} {what}")
        return 1 if any(what == COST or isinstance(what, Wrong) for _, what in ended) else 0
    finally:
        shutil.rmtree(room, ignore_errors=True)


def watched(build, library, number):
    """How a run ends that is killed right before the call of this number, and the names of its calls so far."""
    controller = build.start("run", ["env", f"LD_PRELOAD={library}", f"CALLS_LIST={build.room}/calls", f"CALLS_KILL={number}"])
    ended = build.ended(controller)
    try:
        with open(f"{build.room}/calls", encoding="utf-8") as calls:
            return ended, calls.read().split()
    except FileNotFoundError:
        return ended, []


def killed_at(program, room, library, number, undisturbed, first):
    """The name of the call before which the build was killed, and what became of it."""
    build = Build(program, f"{room}/{number}", FIXED)
    (log, status), calls = watched(build, library, number)
    if status != -9:
        return "none", "ended before so many calls"
    try:
        command, _ = gone_on(build, log)
        return calls[-1], judged(first, undisturbed.launches(), build.ran(command), build.launches(), True)
    except Wrong as why:
        return f"{number}, {calls[-1]}", why
    finally:
        shutil.rmtree(build.room, ignore_errors=True)


def main():
    parser = argparse.ArgumentParser(description=__doc__.splitlines()[0])
    parser.add_argument("--builds", type=int, default=200)
    parser.add_argument("--kills", type=int, default=5)
    parser.add_argument("--seed", type=int, default=1)
    parser.add_argument("--jobs", type=int, default=2, help="builds side by side")
    parser.add_argument("--program", default=PROGRAM)
    parser.add_argument("--busy", type=int, default=0, help="processes beside it that only compute")
    parser.add_argument("--calls", action="store_true")
    asked = parser.parse_args()
    if not os.access(asked.program, os.X_OK):
        raise SystemExit(f"{asked.program} is not there: './controller build' makes it")
    with busy(asked.busy):
        return at_each_call(asked) if asked.calls else campaign(asked)


if __name__ == "__main__":
    sys.exit(main())
