"""What the records of a build's store add to its log, in the form of docs/FORMATS.md: for `tools/follow`, while the build runs.

Of a record what stands in front of its log is gone over, and what stands behind it is not looked at. Whether a store is whole,
and its last image one that a build can have, only the program tells.
"""
import os
import struct
from typing import NamedTuple, Optional

U32 = struct.Struct(">I")
OPEN = b"\1"
# The exit statuses of a build that has ended, by its result.
STATUSES = (0, 10, 1, 11, 12)


class NoRecord(Exception):
    """There is no store, or one without a record: as before a build has begun."""


class NotARecord(Exception):
    """A record that is cut short or of another form."""


def of_size(size):
    return lambda _, at: at + size


def row(*parts):
    """What has these parts, one after the other. Of each it is a function from its place to the place behind it."""

    def behind(payload, at):
        for part in parts:
            at = part(payload, at)
        return at

    return behind


def rows(item):
    def behind(payload, at):
        count, at = number_at(payload, at), at + 4
        for _ in range(count):
            at = item(payload, at)
            if at > len(payload):
                raise NotARecord
        return at

    return behind


def kinds(*forms):
    """What begins with its kind, which is the number of a form."""

    def behind(payload, at):
        if payload[at] >= len(forms):
            raise NotARecord
        return forms[payload[at]](payload, at + 1)

    return behind


def number_at(payload, at):
    return U32.unpack_from(payload, at)[0]


def text(payload, at):
    return at + 4 + number_at(payload, at)


nothing, byte, number, long_number = of_size(0), of_size(1), of_size(4), of_size(8)
value = kinds(nothing, nothing, nothing, number, number)
binding = row(text, number)
entry = row(kinds(number, text), value)
CELLS = (value, text, rows(value), rows(entry), row(number, rows(binding)), row(byte, kinds(nothing, text)))
flow_node = row(byte, text, number, rows(number))
event = kinds(
    row(text, text),
    row(number, number),
    row(number, byte, long_number, text),
    row(number, number),
    row(number, byte),
    row(number, byte, text),
)
flow_nodes = rows(flow_node)
# What stands in front of the flow nodes.
image = row(rows(binding), rows(kinds(*CELLS)))
delta = row(rows(binding), rows(row(number, kinds(*CELLS, rows(value), rows(entry)))))
WHOLE, CHANGES = 1, 2


class Record(NamedTuple):
    """Of a record the piece of the log that it has, the piece's place in the log, and the status of a build that it ends; and for
    `store_changes.py` its payload, and where in it the flow nodes stand."""

    piece: memoryview
    place: int
    status: Optional[int]
    payload: bytes
    nodes_at: int

    @staticmethod
    def read(payload, size):
        """The record of a payload that stands behind records whose log has this size."""
        try:
            if payload[0] not in (WHOLE, CHANGES):
                raise NotARecord
            at = event(payload, 1) + 8
            result, has_ended = payload[at], payload[at + 1]
            nodes_at = (image if payload[0] == WHOLE else delta)(payload, at + 2)
            at = flow_nodes(payload, nodes_at)
            end = text(payload, at)
        except (IndexError, struct.error):
            raise NotARecord from None
        if end > len(payload) or result >= len(STATUSES):
            raise NotARecord
        status = STATUSES[result] if has_ended else None
        return Record(memoryview(payload)[at + 4 : end], 0 if payload[0] == WHOLE else size, status, payload, nodes_at)


class Store:
    """The records of a store, each of them once, as they come; and the size of the log that they have."""

    def __init__(self, path):
        self.path, self.file, self.gate, self.size = path, None, 0, 0

    def __enter__(self):
        return self

    def __exit__(self, *_):
        self.close()

    def records(self):
        """Those that came since the last time; all, where another file is in the place of the one that was read."""
        self.open()
        if self.gate == 0 and not self.has_record():
            raise NoRecord
        while (head := self.bytes(5, self.gate))[:1] == OPEN:
            if len(head) < 5:
                raise NotARecord
            end = self.gate + 5 + number_at(head, 1)
            if end >= os.fstat(self.file.fileno()).st_size:
                raise NotARecord
            record = Record.read(self.bytes(end - self.gate - 5, self.gate + 5), self.size)
            self.gate, self.size = end, record.place + len(record.piece)
            yield record
        if not head:
            self.gate = self.size = 0
            raise NotARecord

    def open(self):
        """Opens the file that is there now, where it is another one."""
        try:
            found = os.stat(self.path)
            if self.file and os.path.samestat(found, os.fstat(self.file.fileno())):
                return
            file = open(self.path, "rb", buffering=0)
        except FileNotFoundError:
            raise NoRecord from None
        self.close()
        self.file, self.gate, self.size = file, 0, 0

    def close(self):
        if self.file:
            self.file.close()

    def has_record(self):
        """Whether the file has the bytes of one, and its first gate is open."""
        head = self.bytes(6, 0)
        return len(head) == 6 and head[:1] == OPEN

    def bytes(self, count, place):
        return os.pread(self.file.fileno(), count, place)


def mark_of(path):
    """What changes when the store at this path does; None where there is none."""
    try:
        found = os.stat(path)
    except OSError:
        return None
    return found.st_ino, found.st_size, found.st_mtime_ns
