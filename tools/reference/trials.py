#!/usr/bin/env python3
"""Compares this reference with what the program must print for the trials of crates/script_trials, which are sources with events.

A trial is left out that meets a limit which the reference does not count, or asks for what it does not tell: `requests`, `tail`,
`agents` and `start`; and so are those of images. Those of crates/store_trials are others: what they show is what commands do.
The status is 0 where no other trial differs.
"""
import os
import re
import sys

from build import Build, TooLong
from compare import with_deep_calls
from parse import parsed
from tokens import Fault

TRIALS = f"{os.path.dirname(os.path.dirname(os.path.dirname(os.path.realpath(__file__))))}/crates/script_trials"
UNCOUNTED = re.compile(r"Limit reached: (?!call depth|value depth|green threads)")
UNTOLD = ("requests", "tail", "agents", "start")
OTHER = "images: "


def trials_in(file):
    with open(f"{TRIALS}/{file}", encoding="utf-8", newline="") as text:
        return [trial.split("\n", 1) for trial in text.read().split("=== ")[1:]]


def told(source, orders):
    """What a build of this source says to these events, and its log; or its fault."""
    try:
        build = Build(parsed(source))
    except Fault as fault:
        return fault.told(source) + "\n"
    build.start()
    for order in orders:
        if order == "graph":
            build.answers += build.graph()
        else:
            build.take(order)
    return build.answers + build.log


def compared():
    same = left_out = 0
    differ = []
    for (name, trial), (_, wanted) in zip(trials_in("stdin"), trials_in("stdout")):
        lines = trial.split("\n")
        orders = [line[2:] for line in lines if line.startswith("> ")]
        asks = {order.split(" ")[0] for order in orders}
        try:
            unknown = name.startswith(OTHER) or UNCOUNTED.search(wanted) or asks.intersection(UNTOLD)
            source = "\n".join(line for line in lines if not line.startswith("> "))
            given = None if unknown else told(source, orders)
        except TooLong:
            given = None
        left_out += given is None
        same += given == wanted
        if given not in (None, wanted):
            differ.append(f"=== {name}\n{given}--- wanted\n{wanted}")
    print("".join(differ) + f"{same} trials the same, {len(differ)} differ, {left_out} left out")
    return len(differ)


if __name__ == "__main__":
    sys.exit(0 if with_deep_calls(compared) == [0] else 1)
