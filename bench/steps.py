#!/usr/bin/env python3
"""What shell steps cost: `bench/steps.py [--program PROGRAM] [--runs N]`.

It takes the shortest of some runs each: a build of 100 steps `sh 'true'`, and a shell that runs the same scripts in a loop, with and
without the shell around each that a task has; the system calls of such a step, of all threads of the controller, and how long its
syncs and pauses take, where strace is there; eight branches that each sleep a second, on eight executors; output into the log, and
into a file; and what an idle wait takes of a processor.
"""
import argparse
import collections
import os
import re
import shutil
import subprocess
import tempfile
import time

TOP = os.path.dirname(os.path.dirname(os.path.realpath(__file__)))
PROGRAM = f"{TOP}/crates/jenkinsd/out/jenkinsd"
STEPS = 100
# What docs/HOSTS.md says of the process that a task is.
TASK = """( sh -xe "$0/script.sh" ) > "$0/jenkins-log.txt" 2>&1; echo $? > "$0/jenkins-result.tmp"; mv "$0/jenkins-result.tmp" "$0/jenkins-result.txt\""""
LOOP = """for i in $(seq %d); do mkdir -p d; echo true > d/script.sh; setsid sh -c '%s' d; rm -r d; done"""


class Ran:
    """A run of a command: its seconds, and processor seconds of its own and of its children."""

    def __init__(self, words, folder=None, status=0):
        began = time.monotonic()
        with open(os.devnull, "wb") as nowhere:
            child = subprocess.Popen(words, cwd=folder, stdin=subprocess.DEVNULL, stdout=nowhere, stderr=nowhere)
        _, ended, used = os.wait4(child.pid, 0)
        child.returncode = os.waitstatus_to_exitcode(ended)
        self.seconds, self.processor = time.monotonic() - began, used.ru_utime + used.ru_stime
        if child.returncode != status:
            raise SystemExit(f"{words}: status {child.returncode}, not {status}")


class Room:
    def __init__(self, program, at):
        self.program, self.at = program, at

    def build(self, script, executors=1):
        shutil.rmtree(f"{self.at}/build", ignore_errors=True)
        os.makedirs(f"{self.at}/build")
        with open(f"{self.at}/build/Jenkinsfile", "w", encoding="utf-8") as file:
            file.write(script)
        with open(f"{self.at}/build/agents.json", "w", encoding="utf-8") as file:
            file.write('{"job": "cost", "agents": [{"name": "m", "root": "%s/agent", "executors": %d}]}' % (self.at, executors))

    def run(self, script, before=(), executors=1):
        self.build(script, executors)
        return Ran([*before, self.program, "run", f"{self.at}/build"])

    def calls(self, script):
        """The system calls of the controller, with all its threads and without its tasks: how many of each name, and their seconds."""
        self.run(script, ["strace", "-f", "-b", "execve", "-qq", "-T", "-o", f"{self.at}/calls"])
        count, seconds = collections.Counter(), collections.Counter()
        with open(f"{self.at}/calls", encoding="utf-8", errors="replace") as file:
            lines = [line.split(maxsplit=1) for line in file]
        # A process that goes on as another program is a task, or what starts it; but the first, which is the controller.
        tasks = {pid for pid, call in lines[1:] if call.startswith("execve(")}
        for pid, call in lines:
            ended = re.match(r"(?:<\.\.\. )?(\w+)(?:\(| resumed>).* <(\d+\.\d+)>$", call)
            if ended and pid not in tasks:
                count[ended[1]] += 1
                seconds[ended[1]] += float(ended[2])
        return count, seconds


def shortest(runs, run):
    return min((run() for _ in range(runs)), key=lambda ran: ran.seconds)


def main():
    parser = argparse.ArgumentParser(description=__doc__.splitlines()[0])
    parser.add_argument("--program", default=PROGRAM)
    parser.add_argument("--runs", type=int, default=3)
    asked = parser.parse_args()
    if not os.access(asked.program, os.X_OK):
        raise SystemExit(f"{asked.program} is not there: './controller build' makes it")
    with tempfile.TemporaryDirectory(prefix="controller-steps-") as at:
        room, runs = Room(os.path.abspath(asked.program), at), asked.runs
        empty = shortest(runs, lambda: room.run("node { }"))
        steps = shortest(runs, lambda: room.run("node { %d.times { sh 'true' } }" % STEPS))
        size = os.path.getsize(f"{at}/build/program.dat")
        wrapped = shortest(runs, lambda: Ran(["sh", "-c", LOOP % (STEPS, TASK)], at))
        with open(f"{at}/true.sh", "w", encoding="utf-8") as file:
            file.write("true")
        plain = shortest(runs, lambda: Ran(["sh", "-c", f"for i in $(seq {STEPS}); do sh -xe true.sh; done"], at))
        one = lambda seconds: f"{seconds / STEPS * 1000:.1f} ms"
        print(f"a step: {one(steps.seconds - empty.seconds)}, of which {one(steps.processor - empty.processor)} processor; store {size // STEPS:,} bytes")
        print(f"the same processes in a shell's loop: {one(wrapped.seconds)}; sh -xe alone: {one(plain.seconds)}")
        if shutil.which("strace"):
            (count, seconds), (count_before, seconds_before) = (room.calls(script) for script in ("node { %d.times { sh 'true' } }" % STEPS, "node { }"))
            count.subtract(count_before)
            seconds.subtract(seconds_before)
            told = ", ".join(f"{name} {number / STEPS:.1f}" for name, number in count.most_common() if number / STEPS >= 0.5)
            print(f"system calls of the controller for a step: {sum(count.values()) / STEPS:.0f} ({told})")
            longest = ", ".join(f"{name} {one(time)}" for name, time in seconds.most_common(6))
            print(f"a step waits, under strace, in all threads together: {longest}")
        parts = ", ".join(f"b{at}: {{ node {{ sh 'sleep 1' }} }}" for at in range(8))
        eight = shortest(runs, lambda: room.run(f"parallel({parts})", executors=8))
        print(f"eight branches that each sleep a second on eight executors: {eight.seconds:.2f} s, {eight.processor:.2f} s of a processor")
        output = shortest(runs, lambda: room.run("node { sh '#!/bin/sh\\nhead -c 8388608 /dev/zero | tr \"\\\\0\" x' }"))
        stored = os.path.getsize(f"{at}/build/program.dat")
        print(f"8 MiB into the log: {output.seconds:.2f} s, {output.processor:.2f} s of a processor, store {stored / 2**20:.0f} MiB")
        log = shortest(runs, lambda: Ran([room.program, "log", f"{at}/build"]))
        print(f"its log: {log.seconds:.2f} s, {log.processor:.2f} s of a processor")
        file = shortest(runs, lambda: room.run("node { sh 'head -c 104857600 /dev/zero > big' }"))
        print(f"100 MiB into a file: {file.seconds:.2f} s, {file.processor:.2f} s of a processor")
        idle = room.run("node { sh 'sleep 60' }")
        print(f"waiting 60 seconds for a task: {(idle.processor - empty.processor) * 1000:.0f} ms of a processor")


if __name__ == "__main__":
    main()
