"""Lines, texts and spans of time of a build as they are shown to people."""
import re

# Sequences that a terminal takes for commands, those of colors among them, and what else has no shape.
SEQUENCE = re.compile("\x1b(?:\\[[0-?]*[ -/]*[@-~]|\\][^\x07\x1b]*(?:\x07|\x1b\\\\)?|[ -/]*[0-~])")
COLOR = re.compile("\x1b\\[[0-9;:]*m")
SHAPELESS = re.compile("[\x00-\x08\x0b-\x1f\x7f-\x9f\u2028-\u202e\u2066-\u2069\ufeff\ufffe\uffff]")
# What the function `withoutTrace` of library/ puts in front of a script.
WITHOUT_TRACE = re.compile(r"\A(#!/bin/sh -e\n)?\{ case \$- in .*?\} 4>&2 2>/dev/null\n(?:file=\$\(mktemp\)\ncat > \"\$file\" <<'\w+'\n)?", re.S)
# What exit codes of shell steps mean; those below 0 are the controller's own.
MEANING_OF_CODES = {
    -1: ": the task is gone, and left no code",
    -2: ": the task was not launched",
    126: ": a command could not be run",
    127: ": a command was not found",
    130: ": interrupted",
    137: ": killed by a signal",
    143: ": ended by a signal",
}


def printable(line, keeps_colors=False):
    """A line as it may be shown: what it wrote last where it wrote over itself by CR, without commands to a terminal, and with
    signs for what has no shape."""
    if SHAPELESS.search(line) is None:
        return line
    line = next((it for it in reversed(line.split("\r")) if it), "")
    colors = iter(COLOR.findall(line) if keeps_colors else ())
    parts = [SHAPELESS.sub(picture_of, SEQUENCE.sub("", it)) for it in (COLOR.split(line) if keeps_colors else [line])]
    return parts[0] + "".join(next(colors) + part for part in parts[1:])


def printable_lines(text):
    """The lines of a text as they may be shown."""
    return text if SHAPELESS.search(text) is None else "\n".join(map(printable, text.split("\n")))


def one_line(text):
    """A name as it may be shown within a line."""
    return printable(text.replace("\n", " "))


def picture_of(found):
    code = ord(found[0])
    return chr(0x2400 + code) if code < 32 else "\u2421" if code == 127 else "\ufffd"


def first_line(text):
    """The first line of a script that has something, and is no `#!` line."""
    lines = [line.strip() for line in WITHOUT_TRACE.sub("", text).split("\n")]
    return printable(next((line for line in lines if line and not line.startswith("#!")), lines[0]))


def meaning_of_code(code):
    """What the exit code of a shell step means, where it means something."""
    return MEANING_OF_CODES.get(code, "")


def duration(seconds):
    """A span of time for people."""
    if seconds < 9.95:
        return f"{max(seconds, 0):.1f} s"
    seconds = round(seconds)
    if seconds < 60:
        return f"{seconds} s"
    if seconds < 3600:
        return f"{seconds // 60} min {seconds % 60} s"
    return f"{seconds // 3600} h {seconds % 3600 // 60} min"
