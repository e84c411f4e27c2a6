#!/usr/bin/env python3
"""Runs the controller without proving it: `tools/unproved.py WORD..`, as `./controller` does where the program is not built.

The kit compiles the sources anew and runs them, with checks in place of proofs, in the way of `quick_try.py` or, where its parts are
others than that file names or a part fails, by its `rt try`. Standard output and the exit status are those of the program, and the
store is the one of the folder. Standard error first says that the run is unproved, and on a terminal counts the seconds until it has
ended. Where the kit gives no answer, because it cannot compile the sources or the run passes one of its bounds, the exit status is
125; a build that had begun is then stopped as by a kill.
"""
import contextlib
import os
import re
import select
import shutil
import signal
import subprocess
import sys
import tempfile
import time

import quick_try
import reasons
from explained import tell

TOP = os.path.dirname(os.path.dirname(os.path.realpath(__file__)))
NO_ANSWER = 125
# The status of a build that waits for an answer.
WAITS = 3
SECONDS = "600"
# How much is read of standard input, in bytes.
GIVEN = 64 << 20
COMMANDS = ("run", "resume", "log", "graph", "check")
# Those that read answers; `gen` makes a script without a question.
READERS = ("run", "resume")
MOST_STAGES = 2000
# What the program prints for other words, with status 2.
USAGE = "usage: controller run|resume|log|graph|check DIR\n       controller gen N\n"


class NoKit(Exception):
    """The kit is not on the PATH."""


def say(text):
    print(f"controller: {text}", file=sys.stderr, flush=True)


def are_a_command(words):
    """Whether the program takes these words for a command, by its own rule."""
    if len(words) != 2:
        return False
    verb, operand = words
    if verb == "gen":
        return re.fullmatch("[1-9][0-9]{0,3}", operand) is not None and int(operand) <= MOST_STAGES
    return verb in COMMANDS and operand != "" and not operand.startswith("-")


def with_whole_path(words):
    """The kit's run stands in a folder of its own, so the words name DIR from the root on."""
    verb, operand = words
    return [verb, operand if verb == "gen" else os.path.abspath(operand)]


def given():
    """What standard input gives until it ends, or is silent for two seconds."""
    text = bytearray()
    if sys.stdin is None or sys.stdin.isatty():
        return text
    while len(text) < GIVEN and select.select([0], [], [], 2)[0]:
        more = os.read(0, 1 << 20)
        if not more:
            return text
        text += more
    say(f"standard input did not end: the program gets its first {len(text)} bytes")
    return text


def kit_run(words):
    """What the kit's run said on standard error, where the kit's own lines follow those of the program, and what it printed."""
    rt = shutil.which("rt")
    if rt is None:
        raise NoKit
    kit = os.path.dirname(os.path.dirname(os.path.realpath(rt)))
    with tempfile.TemporaryDirectory(prefix="controller-") as folder:
        with open(f"{folder}/stdin", "wb") as file:
            file.write(given() if words[0] in READERS else b"")
        if quick_try.is_here(kit):
            told, status, printed = quick_run(kit, folder, words)
            # The kit's last line says that nothing is proved, once it has run the program.
            if status < 0 or told.endswith(" proved=no\n"):
                return told, printed
            why = "; ".join(told.splitlines()[:2]) or f"status {status}"
            say(f"the quick way failed ({why}); the kit now runs the program in its own way")
        told, _, printed = called([rt, "try", "--seconds", SECONDS, "--", *words], folder)
        return told, printed


def quick_run(kit, folder, words):
    """What the quick way said on standard error, its exit status, which is 1 where it could not begin, and what it printed."""
    try:
        command = quick_try.command(kit, folder, SECONDS, words)
    except Exception as why:  # The kit's own way is there for sources of whatever form.
        return f"{type(why).__name__}: {why}", 1, b""
    return called(command, folder)


def called(command, folder):
    """What the command wrote on standard error, its exit status, and what it wrote on standard output, which is passed on."""
    # The kit writes it when the run has ended; a terminal that shows the count gets it once that line is cleared.
    streams = {"stdout": subprocess.PIPE, "stderr": subprocess.PIPE}
    # The kit's memory is not given back while it works, since it wants it again at once.
    env = {**os.environ, "TMPDIR": folder, "MIMALLOC_PURGE_DELAY": "-1"}
    with open(f"{folder}/stdin", "rb") as stdin:
        child = subprocess.Popen(command, cwd=f"{TOP}/crates/jenkinsd", env=env, stdin=stdin, start_new_session=True, **streams)
    try:
        printed, told = counted(child) if sys.stderr.isatty() else child.communicate()
    except BaseException:
        # The kit's own way ends what it began; nothing else does.
        with contextlib.suppress(ProcessLookupError):
            os.killpg(child.pid, signal.SIGTERM if command[1] == "try" else signal.SIGKILL)
        child.wait()
        raise
    sys.stdout.buffer.write(printed or b"")
    sys.stdout.flush()
    return told.decode(errors="replace"), child.returncode, printed


def counted(child):
    """What the child writes, for a terminal, which shows until its end that something is at work."""
    began = time.monotonic()
    try:
        while True:
            with contextlib.suppress(subprocess.TimeoutExpired):
                return child.communicate(timeout=1)
            print(f"\rcontroller: compiling and running, {time.monotonic() - began:.0f} s", end="", file=sys.stderr, flush=True)
    finally:
        print("\r\033[K", end="", file=sys.stderr, flush=True)


def main(words):
    for it in (signal.SIGTERM, signal.SIGHUP):
        # What is ignored from outside, as nohup does, stays so.
        if signal.getsignal(it) != signal.SIG_IGN:
            signal.signal(it, lambda number, _: sys.exit(128 + number))
    if not are_a_command(words):
        print(USAGE, end="")
        say("./controller build proves and builds the program")
        return 2
    say("unproved and slow; ./controller build proves and builds the program")
    try:
        told, printed = kit_run(with_whole_path(words))
    except KeyboardInterrupt:
        say("stopped; resume goes on with a build that had begun")
        return 130
    except NoKit:
        say("Rattle's kit is not here: 'rt' is not on the PATH")
        return NO_ANSWER
    except OSError as why:
        say(f"the kit could not be run: {why.strerror}")
        return NO_ANSWER
    ended = re.findall(r"^run=ended status=(\d+) .*$", told, re.M)
    told = re.sub(r"^(interpreter:|checked: ended|run=ended|races:) .*\n?", "", told, flags=re.M)
    sys.stderr.write(told)
    if ended:
        # The kit's own lines follow those of the program.
        status = int(ended[-1])
        tell(reasons.Call(f"{TOP}/controller", words, None, printed.decode(errors="replace")), status)
        if status == WAITS and words[0] in READERS and sys.stdin is not None and sys.stdin.isatty():
            say("no answer is read from a terminal here: give answers by a pipe or a file, or ./controller build")
        return status
    say("the kit gave no answer (it bounds a run's time and output): ./controller build makes a program without such bounds")
    return NO_ANSWER


if __name__ == "__main__":
    sys.exit(main(sys.argv[1:]))
