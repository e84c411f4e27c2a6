#!/usr/bin/env python3
"""The bytes of the events in src/fields.rt, by python3's struct: an independent writer of docs/FORMATS.md, "Events"."""
import struct


def number(*values):
    return b"".join(struct.pack(">I", value) for value in values)


def text(value):
    return number(len(value)) + value


ROWS = [
    ("Start(node {}, {})", b"\0" + text(b"node {}") + text(b"{}")),
    ("Granted(1, 0)", b"\1" + number(1, 0)),
    ("Output(2, Log, 0, hi)", b"\2" + number(2) + b"\0" + struct.pack(">Q", 0) + text(b"hi")),
    ("Output(2, Out, 2^40, no bytes)", b"\2" + number(2) + b"\1" + struct.pack(">Q", 1 << 40) + text(b"")),
    ("Exited(2, 3)", b"\3" + number(2) + struct.pack(">i", 3)),
    ("Exited(4294967295, -1)", b"\3" + number(0xFFFFFFFF) + struct.pack(">i", -1)),
    ("Lost(2, NotStarted)", b"\4" + number(2) + b"\0"),
    ("Lost(2, Gone)", b"\4" + number(2) + b"\1"),
    ("Decided(1, proceed, ann)", b"\5" + number(1) + b"\1" + text(b"ann")),
    ("Decided(1, abort, ann)", b"\5" + number(1) + b"\0" + text(b"ann")),
]

for name, row in ROWS:
    print('b"' + "".join(f"\\x{byte:02x}" for byte in row) + '".as_slice(), // ' + name)
