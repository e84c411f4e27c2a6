#!/usr/bin/env python3
"""Where bytes break the form of a delta, as docs/FORMATS.md says ("Records of changes", "Where the form breaks"): an
independent reader of the rows in deltas.py. It prints the places that src/deltas.rt wants."""
import sys

sys.dont_write_bytecode = True
import deltas  # noqa: E402


class Broken(Exception):
    """The place of the first byte that is not of the form."""


class Reader:
    def __init__(self, data):
        self.data, self.at = data, 0
        self.ends, self.kinds = [], []

    def field(self, start, size):
        """The bytes up to here and this many more are a field."""
        if len(self.data) - self.at < size:
            raise Broken(start)
        self.at += size
        self.ends.append(self.at)

    def number(self, size=4):
        self.field(self.at, size)
        return int.from_bytes(self.data[self.at - size:self.at], "big")

    def kind(self, count):
        """A kind or a flag of which there are so many."""
        self.kinds.append(self.at)
        start, found = self.at, self.number(1)
        if found >= count:
            raise Broken(start)
        return found

    def text(self):
        start, size = self.at, self.number()
        self.ends.pop()
        self.field(start, size)
        return self.data[start + 4:self.at]

    def listed(self, item):
        for _ in range(self.number()):
            item()

    def rising(self, item):
        """A list of items, each of which reads one part that has to be above that of the item before."""
        last = None

        def above(part):
            nonlocal last
            start, found = self.at, part()
            if last is not None and found <= last:
                raise Broken(start)
            last = found

        self.listed(lambda: item(above))

    def optional(self, item):
        if self.kind(2) == 1:
            item()

    def value(self):
        if self.kind(5) >= 3:
            self.number()

    def binding(self):
        self.text()
        self.number()

    def pair(self):
        self.text()
        self.text()

    def entries(self):
        keys = []

        def entry():
            start, kind = self.at, self.kind(2)
            key = (kind, self.text() if kind == 1 else self.number())
            if key in keys:
                raise Broken(start)
            keys.append(key)
            self.value()

        self.listed(entry)

    def cell(self):
        kind = self.kind(8)
        if kind == 0:
            self.value()
        elif kind == 1:
            self.text()
        elif kind in (2, 6):
            self.listed(self.value)
        elif kind in (3, 7):
            self.entries()
        elif kind == 4:
            self.number()
            self.listed(self.binding)
        else:
            self.kind(15)
            self.optional(self.text)

    def node(self):
        self.kind(7)
        self.text()
        self.number()
        self.listed(self.number)

    def request(self):
        kind = self.kind(3)
        if kind == 0:
            self.optional(self.text)
        elif kind == 1:
            self.number()
            self.text()
            self.text()
            self.listed(self.pair)
            self.text()
            self.kind(2)
            self.kind(2)
            self.number(8)
            self.text()
        else:
            self.text()

    def written_request(self, above):
        if self.kind(2) == 0:
            above(self.number)
            self.number()
            self.request()
        else:
            above(self.number)
            self.number(8)
            self.text()

    def branch(self):
        self.text()
        self.number()
        ended = self.kind(2)
        if ended:
            self.number()
        start = self.at
        if self.kind(2) != ended:
            raise Broken(start)
        if ended:
            if self.kind(2) == 0:
                self.value()
            else:
                self.number()
            self.number()

    def frame(self):
        self.number(1)
        self.number()
        self.number()
        self.listed(self.binding)
        self.listed(self.value)

    def written_thread(self, above):
        above(self.number)
        self.optional(self.number)
        self.number()
        if self.kind(2) == 0:
            self.number()
        else:
            self.listed(self.branch)
        self.listed(self.number)
        self.listed(self.text)
        self.listed(self.pair)
        self.number()
        self.listed(self.frame)

    def delta(self):
        self.number()
        self.number()
        self.kind(5)
        self.kind(2)
        self.rising(lambda above: (above(self.text), self.number()))
        self.rising(lambda above: (above(self.number), self.cell()))
        self.listed(self.node)
        self.text()
        self.rising(lambda above: above(self.number))
        self.rising(self.written_request)
        self.rising(lambda above: (above(self.number), self.number(), self.number()))
        self.rising(lambda above: above(self.number))
        self.rising(self.written_thread)
        if self.at < len(self.data):
            raise Broken(self.at)


def place(data):
    """The first place where the form breaks, and None where it does not."""
    try:
        Reader(data).delta()
    except Broken as broken:
        return broken.args[0]


def changed(data, at, byte):
    return data[:at] + bytes([byte]) + data[at + 1:]


if __name__ == "__main__":
    for word in ("NOTHING", "DECIDED", "GROWN", "LONGER"):
        reader = Reader(getattr(deltas, word))
        reader.delta()
        print(f"({word}, &{reader.ends}, &{reader.kinds}),")
    nothing = Reader(deltas.NOTHING)
    nothing.delta()
    for end, byte in zip(nothing.ends, [3, 2, 5, 2] + 9 * [1]):
        print((end - 1, byte, place(changed(deltas.NOTHING, end - 1, byte))))
    for word, row in {**deltas.UNRISEN, **deltas.WRONG_CELLS, **deltas.WRONG}.items():
        print(f"({word}, {place(row)}),")
