"""The answers that a call of the program is given on its standard input, and those of them that fit no open input.

Of a file what was read is read again when the call has ended. From a pipe or a terminal what was read is gone, so this script hands it
on, a line at a time, and tells at once of a line that fits nothing. It takes a line only while an input is open and the line before it
has done what it does: what the program would not read is left where it is.
"""
import contextlib
import os
import re
import select
import stat
import sys

from plain_words import one_line

ANSWER = re.compile(rb"(proceed|abort) ([^ \t]+) by (.+)", re.S)
# How many bytes of a file are looked at; a longer line is passed over by the program; how much of one is shown.
OF_A_FILE, LONGEST, SHOWN = 1 << 20, 1024, 100
# How many lines that were passed over are told.
MOST_TOLD = 10
# Milliseconds between two looks while something stands in standard input that is not asked for, and how often it is looked for what a
# line does, behind which it is taken to do nothing.
PAUSE, LOOKS = 100, 50


def told(number, text):
    """What is told of a line that fits no open input."""
    shown = text if len(text) <= SHOWN else text[: SHOWN - 1] + "\u2026"
    return f"controller: answer {number} fits no open input, and was passed over: {one_line(shown)}"


def told_of_more(count):
    """What is told of the lines behind those that are told one by one."""
    return [f"controller: {count} more answers were passed over"] if count > 0 else []


def id_of(line):
    """The id of the input that a line answers; None where it is no answer."""
    form = ANSWER.fullmatch(line)
    with contextlib.suppress(UnicodeDecodeError):
        return form and len(line) <= LONGEST and form[3].decode() and form[2].decode(errors="replace")
    return None


class OfFile:
    """Standard input where it is a file, and up to where it was read before."""

    def __init__(self):
        self.begin = os.lseek(0, 0, os.SEEK_CUR)

    def lines(self):
        """The lines that were read since then."""
        read = os.lseek(0, 0, os.SEEK_CUR) - self.begin
        return os.pread(0, min(max(read, 0), OF_A_FILE), self.begin).split(b"\n")


class Inputs:
    """The inputs of a build that are open, by the store at this path."""

    def __init__(self, path):
        # Loaded when they are first needed: most builds ask nothing.
        from build_view import View
        from store_records import Store

        self.path, self.view, self.store, self.seen, self.is_known = path, View(), Store(path), None, True

    def open(self):
        """Their ids by their numbers; None where the store is not known."""
        from store_changes import INPUT
        from store_records import NoRecord, NotARecord, mark_of

        mark = mark_of(self.path)
        if self.is_known and mark != self.seen:
            try:
                for record in self.store.records():
                    self.view.take(record)
            except NoRecord:
                mark = None
            except (NotARecord, OSError):
                self.is_known = False
            self.seen = mark
        return {number: it.text for number, it in self.view.requests.items() if it.kind == INPUT} if self.is_known else None


class Handed:
    """Standard input where it is a pipe or a terminal: the program has a pipe in its place."""

    def __init__(self, folder):
        self.path, self.inputs, self.count, self.passed = f"{folder}/program.dat", None, 0, 0
        self.its_end, self.own_end = os.pipe()
        # The input that the last line answers, and how often it was looked whether it has.
        self.answered, self.looks = None, 0

    def work(self, child):
        """Hands lines on until the program has ended or the answers have; then tells how many more fitted nothing."""
        os.close(self.its_end)
        try:
            self.hand_on(child)
        finally:
            os.close(self.own_end)
            say(told_of_more(self.passed - MOST_TOLD))

    def hand_on(self, child):
        ended, watched = os.pidfd_open(child), select.poll()
        watched.register(ended, select.POLLIN)
        watched.register(0, select.POLLIN)
        goes_on = True
        while goes_on:
            found = dict(watched.poll())
            if ended in found:
                return
            is_over = 0 in found and not found[0] & select.POLLIN
            if not is_over and not self.may_take():
                select.select([ended], [], [], PAUSE / 1000)
            else:
                goes_on = not is_over and self.take(ended)

    def may_take(self):
        """Whether the program reads a line now."""
        self.inputs = self.inputs or Inputs(self.path)
        found = self.inputs.open()
        if found is None:
            return True
        self.looks += 1
        if self.answered in found and self.looks < LOOKS:
            return False
        self.answered = None
        return bool(found)

    def take(self, ended):
        """Hands a line on, its newline once it is known what it answers; whether more may come."""
        line, byte = bytearray(), b""
        while byte != b"\n":
            if ended in select.select([0, ended], [], [])[0]:
                return True
            byte = os.read(0, 1)
            if byte in (b"", b"\n"):
                self.judge(bytes(line).removesuffix(b"\r"))
            elif len(line) <= 2 * LONGEST:
                line += byte
            with contextlib.suppress(BrokenPipeError):
                os.write(self.own_end, byte)
            if not byte:
                return False
        return True

    def judge(self, line):
        """Tells of a line that answers no open input."""
        found = self.inputs.open()
        own, self.count = id_of(line), self.count + 1
        numbers = [number for number, it in (found or {}).items() if it == own]
        self.answered, self.looks = min(numbers, default=None), 0
        if line and found is not None and not numbers:
            self.passed += 1
            say([told(self.count, line.decode(errors="replace"))] if self.passed <= MOST_TOLD else [])


def say(lines):
    """Tells lines on standard error; one that is closed or gone changes nothing of the answers."""
    with contextlib.suppress(OSError):
        for line in lines if sys.stderr is not None else []:
            print(line, file=sys.stderr, flush=True)


def of_standard_input(folder):
    """What standard input is, before a call that works on this folder begins; None where nothing is told of its answers."""
    try:
        mode = os.fstat(0).st_mode
        if stat.S_ISREG(mode):
            return OfFile()
        is_handed = (stat.S_ISFIFO(mode) or os.isatty(0)) and hasattr(os, "pidfd_open")
        return Handed(folder) if is_handed else None
    except OSError:
        return None
