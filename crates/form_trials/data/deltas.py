#!/usr/bin/env python3
"""Deltas as docs/FORMATS.md spells them ("Records of changes"), by python3's struct: an independent writer of the rows
in src/deltas.rt. What they make of the image INPUT of images.py was worked out by hand, and where they break is what
delta_places.py prints."""
import os
import struct
import sys

sys.dont_write_bytecode = True
sys.path.append(os.path.dirname(os.path.realpath(__file__)))
from images import NONE, NULL, TRUE, context, frame, name, rows, text, u8, u32, whole  # noqa: E402


def delta(next_request=2, next_thread=1, result=0, ended=0, bindings=(), cells=(), nodes=(), log=b"", closed=(),
          requests=(), held=(), ended_threads=(), threads=()):
    return (u32(next_request, next_thread) + u8(result, ended) + rows(*bindings) + rows(*cells) + rows(*nodes)
            + text(log) + rows(*map(u32, closed)) + rows(*requests) + rows(*held) + rows(*map(u32, ended_threads))
            + rows(*threads))


def cell(number, value):
    """A variable's cell."""
    return u32(number) + u8(0) + value


def entry(key, value):
    return u8(1) + text(key) + value


def grown_list(number, *values):
    return u32(number) + u8(6) + rows(*values)


def grown_map(number, *entries):
    return u32(number) + u8(7) + rows(*entries)


def node(kind, word, *parents, start=0):
    return u8(kind) + text(word) + u32(start) + rows(*map(u32, parents))


def an_input(number):
    return u8(0) + u32(number, 0) + u8(2) + text(b"go")


def task(number):
    return (u8(0) + u32(number, 0) + u8(1) + u32(0) + text(b"/w") + text(b"/w") + rows() + text(b"true") + u8(0, 1)
            + struct.pack(">Q", 0) + text(b""))


def grown(number, taken, out):
    return u8(1) + u32(number) + struct.pack(">Q", taken) + text(out)


def thread(number, head, request, kept, *frames):
    return u32(number) + NONE + u32(head) + u8(0) + u32(request) + context([], [], []) + u32(kept) + rows(*frames)


NOTHING = delta()

# The input is decided: a variable `ab`, cell 0 changed and cell 2 new, a node, a task in place of the input, an executor,
# and the innermost frame of thread 0 in place of the one that it had.
DECIDED = delta(3, bindings=[name(b"ab", 2)], cells=[cell(0, TRUE), cell(2, whole(5))], nodes=[node(1, b"sh", 3)],
                log=b"sh\n", closed=[1], requests=[task(2)], held=[u32(0, 9, 1)],
                threads=[thread(0, 4, 2, 1, frame(42, 7, 1, [], []))])

# The task wrote `ok` to its output stream and 6 bytes to its log stream.
GROWN = delta(3, log=b"+ true", requests=[grown(2, 6, b"ok")], held=[u32(0, 9, 1)])

# The build ends.
OVER = delta(3, 1, 4, 1, nodes=[node(6, b"", 4)], closed=[2], ended_threads=[0])

# A list of one value and a map of one entry are new, and then have more behind them.
GATHERED = delta(cells=[u32(2) + u8(2) + rows(NULL), u32(3) + u8(3) + rows(entry(b"k", TRUE))])
LONGER = delta(cells=[grown_list(2, TRUE, whole(5)), grown_map(3, entry(b"l", NULL))])

# What does not fit the image INPUT with these: a list and a map that stand as a map and a list, and a key that stands.
NOT_LONGER = {
    "A_MAP": delta(cells=[grown_list(3, NULL)]),
    "A_LIST": delta(cells=[grown_map(2, entry(b"l", NULL))]),
    "KEY_AGAIN": delta(cells=[grown_map(3, entry(b"l", NULL), entry(b"k", TRUE))]),
}

# What does not fit the image INPUT: cell 5 alone, a second variable `a`, an input closed and written, an input that grew,
# a request closed that is not open, three frames kept of two, a new thread that keeps one, a thread ended and written, a
# variable that grew as a list, and a list that grew and did not stand.
MISFITS = {
    "A_GAP": delta(cells=[cell(5, NULL)]),
    "TWICE": delta(bindings=[name(b"a", 0)]),
    "CLOSED_AND_WRITTEN": delta(closed=[1], requests=[an_input(1)]),
    "NO_TASK": delta(requests=[grown(1, 6, b"ok")]),
    "NOT_OPEN": delta(closed=[7]),
    "THREE_KEPT": delta(threads=[thread(0, 3, 1, 3)]),
    "NEW_KEEPS": delta(threads=[thread(1, 3, 1, 1)]),
    "ENDED_AND_WRITTEN": delta(ended_threads=[0], threads=[thread(0, 3, 1, 0)]),
    "A_VARIABLE": delta(cells=[grown_list(0, NULL)]),
    "NO_CELL": delta(cells=[grown_list(2, NULL)]),
}

# Lists that do not rise, each cut off behind the number or name that tells so.
FRONT = u32(2, 1) + u8(0, 0)
UNRISEN = {
    "NAMES": FRONT + u32(2) + name(b"b", 0) + text(b"b"),
    "CELLS": FRONT + rows() + u32(2) + cell(3, NULL) + u32(3),
    "CLOSED": FRONT + rows() + rows() + rows() + text(b"") + u32(2) + u32(4, 4),
    "REQUESTS": FRONT + rows() + rows() + rows() + text(b"") + rows() + u32(2) + grown(4, 0, b"") + u8(0) + u32(3),
    "HELD": FRONT + rows() + rows() + rows() + text(b"") + rows() + rows() + u32(2) + u32(7, 1, 1) + u32(7),
    "ENDED": FRONT + rows() + rows() + rows() + text(b"") + rows() + rows() + rows() + u32(2) + u32(1, 0),
    "THREADS": (FRONT + rows() + rows() + rows() + text(b"") + rows() + rows() + rows() + rows() + u32(2)
                + thread(1, 3, 1, 0) + u32(0)),
}

# One cell, cut off behind what is wrong: a kind that no written cell has, and a key that stands twice, told at its place.
CELL = FRONT + rows() + u32(1) + u32(2)
WRONG_CELLS = {
    "KIND": CELL + u8(8),
    "KEY": CELL + u8(7) + u32(2) + entry(b"k", NULL) + u8(1) + text(b"k"),
}

# One thread, cut off behind what is wrong: a wait of kind 2, a list of held requests that ends early, and a frame with a
# value of kind 9.
THREAD = FRONT + rows() + rows() + rows() + text(b"") + rows() * 4 + u32(1) + u32(0) + NONE + u32(3)
WRONG = {
    "WAIT": THREAD + u8(2),
    "CONTEXT": THREAD + u8(0) + u32(1) + u32(1),
    "FRAME": THREAD + u8(0) + u32(1) + context([], [], []) + u32(0, 1) + u8(0) + u32(0, 0) + rows() + u32(1) + u8(9),
}

if __name__ == "__main__":
    ROWS = {"NOTHING": NOTHING, "DECIDED": DECIDED, "GROWN": GROWN, "OVER": OVER, "GATHERED": GATHERED, "LONGER": LONGER,
            **NOT_LONGER, **MISFITS, **UNRISEN, **WRONG_CELLS, **WRONG}
    for word, row in ROWS.items():
        print(f'const {word}: &[u8] = b"\\')
        for start in range(0, len(row), 25):
            print("    " + "".join(f"\\x{byte:02x}" for byte in row[start:start + 25]) + "\\")
        print('";\n')
