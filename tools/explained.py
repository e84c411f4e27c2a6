#!/usr/bin/env python3
"""Runs the program, and tells on standard error what its one line or its log leaves open: `tools/explained.py NAME PROGRAM WORD..`.

`./controller` ends in it; NAME is how that was called. The program has the standard input, output and error of this script. But of
answers that come through a pipe or are typed it gets a copy, so that what fits no question can be told (given_answers.py). This script
ends as the program ended, with its status or by the signal that ended it. Where this script is killed, the program is: the system is
asked for that before the program begins. Where the system cannot be asked, the program takes this script's place, and nothing is told.
What is told is in `reasons.py`; nothing of it is proved.
"""
import contextlib
import os
import resource
import signal
import sys

from locks import wait_for_ending

# Python changes these when it begins; the program gets them as they are by default.
CHANGED_BY_PYTHON = (signal.SIGPIPE, signal.SIGXFSZ)
SET_SIGNAL_AT_END_OF_PARENT = 1
WITH_ANSWERS = ("run", "resume")


def prctl():
    """The system's call by which a process asks for a signal at the end of its parent; None where there is none."""
    try:
        import ctypes

        return ctypes.CDLL(None).prctl
    except (ImportError, OSError, AttributeError):
        return None


def become(program, words):
    """The program in this process."""
    for it in CHANGED_BY_PYTHON:
        signal.signal(it, signal.SIG_DFL)
    os.execv(program, [program, *words])


def started(program, words, ask, given):
    """The number of a process with the program, which is killed where this one ends. `given` is its standard input."""
    own = os.getpid()
    child = os.fork()
    if child:
        return child
    try:
        if given != 0:
            os.dup2(given, 0)
        if ask(SET_SIGNAL_AT_END_OF_PARENT, signal.SIGKILL, 0, 0, 0) == 0 and os.getppid() == own:
            become(program, words)
    finally:
        os._exit(125)


def end_by(number):
    """Ends this process by the signal, as the program ended; without an image of its memory."""
    resource.setrlimit(resource.RLIMIT_CORE, (0, 0))
    with contextlib.suppress(OSError):
        signal.signal(number, signal.SIG_DFL)
    os.kill(os.getpid(), number)
    return 128 + number


def answers_of(folder):
    """The answers that a call is given, and how many records the store of its folder has; nothing where there is nothing to tell of them."""
    with contextlib.suppress(Exception):
        from builds import count_of_records
        from given_answers import of_standard_input

        return of_standard_input(folder), count_of_records(f"{folder}/program.dat")
    return None, 0


def hand_on(answers, child):
    """Hands the answers of a pipe or a terminal on. What goes wrong here ends the answers, as if no more came."""
    try:
        answers.work(child)
    except Exception as why:
        with contextlib.suppress(OSError):
            print(f"controller: the answers on standard input could not be handed on: {why}", file=sys.stderr, flush=True)


def loaded():
    """What tells of a call, loaded; None where that cannot be: it never ends the program."""
    with contextlib.suppress(Exception):
        from reasons import Call

        return Call
    return None


def tell(call, status):
    """Tells what there is to tell. What goes wrong here, a terminal that is gone or a store of another form, tells nothing."""
    with contextlib.suppress(Exception):
        for line in call.lines(status):
            print(line, file=sys.stderr, flush=True)


def main(name, program, *words):
    # An interrupt at the terminal reaches the program too, and this script ends as that does.
    if signal.getsignal(signal.SIGINT) == signal.default_int_handler:
        signal.signal(signal.SIGINT, signal.SIG_DFL)
    ask = prctl()
    if ask is None or words[:1] == ("gen",):
        become(program, words)
    answers, records = None, 0
    if len(words) == 2 and words[0] in WITH_ANSWERS:
        # A program whose launcher was killed a moment ago has the lock until it is gone.
        wait_for_ending(f"{words[1]}/program.lock")
        answers, records = answers_of(words[1])
    are_handed = hasattr(answers, "work")
    child = started(program, words, ask, answers.its_end if are_handed else 0)
    # While the program is at work.
    call_of = loaded()
    if are_handed:
        hand_on(answers, child)
    _, ended = os.waitpid(child, 0)
    if os.WIFSIGNALED(ended):
        return end_by(os.WTERMSIG(ended))
    status = os.WEXITSTATUS(ended)
    if call_of is not None:
        read_again = (answers, records) if answers is not None and not are_handed else None
        tell(call_of(program, words, read_again, name=name), status)
    return status


if __name__ == "__main__":
    sys.exit(main(*sys.argv[1:]))
