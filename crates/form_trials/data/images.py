#!/usr/bin/env python3
"""Images as docs/FORMATS.md spells them, by python3's struct: an independent writer of the rows in src/images.rt."""
import struct


def u8(*values):
    return bytes(values)


def u32(*values):
    return b"".join(struct.pack(">I", value) for value in values)


def text(value):
    return u32(len(value)) + value


def rows(*items):
    return u32(len(items)) + b"".join(items)


def some(item):
    return u8(1) + item


NONE = u8(0)
NULL, FALSE, TRUE = u8(0), u8(1), u8(2)


def whole(value):
    return u8(3) + struct.pack(">i", value)


def in_cell(number):
    return u8(4) + u32(number)


def name(word, cell):
    return text(word) + u32(cell)


def image(next_request, next_thread, result, ended, bindings, cells, nodes, log, requests, held, threads):
    return (u32(next_request, next_thread) + u8(result, ended) + rows(*bindings) + rows(*cells) + rows(*nodes)
            + text(log) + rows(*requests) + rows(*held) + rows(*threads))


def thread(number, parent, head, wait, context, frames):
    return u32(number) + parent + u32(head) + wait + context + rows(*frames)


def context(held, folders, pairs):
    return rows(*map(u32, held)) + rows(*map(text, folders)) + rows(*(text(a) + text(b) for a, b in pairs))


def frame(kind, node, at, env, values):
    return u8(kind) + u32(node, at) + rows(*env) + rows(*values)


EMPTY = image(1, 0, 0, 0, [], [], [], b"", [], [], [])

ENDED = image(3, 1, 2, 1, [name(b"x", 0)], [u8(0) + whole(-6)],
              [u8(0) + text(b"") + u32(0) + rows(), u8(6) + text(b"") + u32(0) + rows(u32(2))],
              b"Finished: FAILURE\n", [], [], [])

INPUT = image(2, 1, 0, 0, [name(b"a", 0), name(b"b", 1)], [u8(0) + NULL, u8(0) + in_cell(0)],
              [u8(0) + text(b"") + u32(0) + rows(), u8(1) + text(b"input") + u32(0) + rows(u32(2))],
              b"[Pipeline] input\n", [u32(1, 0) + u8(2) + text(b"go")], [],
              [thread(0, NONE, 3, u8(0) + u32(1), context([], [], []),
                      [frame(0, 0, 1, [name(b"y", 1)], []), frame(43, 5, 0, [], [whole(7)])])])

ALL_KINDS = image(
    6, 4, 4, 0, [name(b"x", 0), name(b"xy", 1)],
    [u8(0) + FALSE, u8(0) + TRUE, u8(1) + text(b"\xff\0"), u8(2) + rows(NULL, in_cell(3)),
     u8(3) + rows(u8(0) + struct.pack(">i", 3) + NULL, u8(1) + text(b"3") + TRUE),
     u8(4) + u32(9) + rows(name(b"it", 0), name(b"x", 0)), u8(5) + u8(0) + some(text(b"no")), u8(5) + u8(14) + NONE],
    [u8(kind) + text(b"n") + u32(kind) + rows(u32(2), u32(3)) for kind in range(7)],
    b"", [u32(1, 1) + u8(0) + NONE, u32(2, 2) + u8(0) + some(text(b"linux")),
          u32(5, 3) + u8(1) + u32(7) + text(b"/w") + text(b"/w/d") + rows(text(b"A") + text(b"1")) + text(b"true")
          + u8(1, 0) + struct.pack(">Q", 1 << 33) + text(b"out")],
    [u32(0, 3, 1), u32(7, 4, 2)],
    [thread(0, NONE, 4, u8(1) + rows(text(b"p") + u32(1) + u8(0, 0),
                                     text(b"q") + u32(2) + u8(1) + u32(8) + u8(1, 0) + whole(5) + u32(0),
                                     text(b"r") + u32(3) + u8(1) + u32(9) + u8(1, 1) + u32(6) + u32(1)),
            context([3, 4], [b"/w", b"/w/d"], [(b"A", b"1"), (b"A", b"2")]), [frame(44, 1, 0, [], [])]),
     thread(1, some(u32(0)), 6, u8(0) + u32(1), context([], [], []), [frame(45, 2, 0, [], [])])])

# Names that do not rise, and nothing behind the second one.
UNRISEN = u32(1, 0) + u8(0, 0) + u32(2) + name(b"b", 0) + text(b"b")

if __name__ == "__main__":
    for row in ("EMPTY", "ENDED", "INPUT", "ALL_KINDS", "UNRISEN"):
        print(f'const {row}: &[u8] = b"\\')
        for start in range(0, len(globals()[row]), 25):
            print("    " + "".join(f"\\x{byte:02x}" for byte in globals()[row][start:start + 25]) + "\\")
        print('";')
