#!/usr/bin/env python3
"""Runs the script of a folder by this reference, with answers from standard input: `tools/reference/run.py [--graph] DIR < ANSWERS`.

Standard output and the exit status are those of `./controller run DIR`, where the agents file is without a fault. Shell steps really
run, one behind the other. What it does not know has the status 125. With `--graph` the text of the flow graph is printed in place of
the log.
"""
import json
import sys

from build import Build, Executor, RESULTS, TooLong
from compare import with_deep_calls
from hosts import serve
from parse import parsed
from tokens import Fault

LONGEST = 1_048_576
STATUSES = dict(zip(RESULTS, (0, 10, 1, 11, 12)))


class Unknown(Exception):
    """What this reference does not know."""


def answer(build, line):
    """One answer line: the lowest-numbered open input of its id proceeds or is aborted; any other line is passed over."""
    word, _, rest = line.strip("\n").partition(" ")
    number_or_id, by, name = rest.partition(" by ")
    for number, request in sorted(build.requests.items()):
        if request["kind"] == "input" and number_or_id == (request["id"] or str(number)) and by and word in ("proceed", "abort"):
            build.take(f"{word} {number} {name}")
            return


def grant(build):
    """The grants that are due."""
    while (due := build.next_grant()) is not None:
        build.take("granted %d %d" % due)


def work(build, answers):
    """Rounds: the executors serve shell steps, and then answers are read while an input is open."""
    while not build.is_over:
        serve(build, lambda: grant(build))
        line = ""
        while any(request["kind"] == "input" for request in build.requests.values()):
            line = answers.readline()
            if not line:
                break
            answer(build, line)
            grant(build)
        if not line and not any(request["kind"] == "task" for request in build.requests.values()):
            return


def site(text):
    """The job and the executors of an agents file."""
    try:
        file = json.loads(text)
        agents = [Executor(it["name"], it["root"], [it["name"], *it.get("labels", [])]) for it in file["agents"] for _ in range(it["executors"])]
        return file["job"], agents
    except (ValueError, KeyError, TypeError):
        raise Unknown("an agents file with a fault") from None


def ran(folder, answers, wants_graph=False):
    """What is printed, and the exit status."""
    with open(f"{folder}/Jenkinsfile", "rb") as script, open(f"{folder}/agents.json", "rb") as agents:
        source, agents = script.read(), agents.read()
    if len(source) > LONGEST:
        return f"Jenkinsfile: longer than {LONGEST} bytes\n", 4
    try:
        source = source.decode()
        build = Build(parsed(source), *site(agents))
        build.start()
        grant(build)
        work(build, answers)
    except Fault as fault:
        return fault.told(source) + "\n", 4
    except (TooLong, RecursionError, UnicodeDecodeError):
        raise Unknown("a script that takes very long, or is not UTF-8") from None
    return build.graph() if wants_graph else build.log, STATUSES[RESULTS[build.result]] if build.is_over else 3


def main():
    try:
        text, status = ran(sys.argv[-1], sys.stdin, sys.argv[1] == "--graph")
    except OSError:
        text, status = "controller: read failed\n", 6
    except Unknown as what:
        print(f"not known to this reference: {what}", file=sys.stderr)
        return 125
    sys.stdout.write(text)
    return status


if __name__ == "__main__":
    sys.exit(with_deep_calls(main)[0])
