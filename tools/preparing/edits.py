"""Changes of a source, and from where each piece of what comes of them is."""
from bisect import bisect_right
from collections import defaultdict


class Edits:
    """What is put before and behind nodes and in place of pieces of a source. Nodes are given from the outside in."""

    def __init__(self, source):
        self.source = source
        self.fronts, self.backs, self.cuts = defaultdict(list), defaultdict(list), {}

    def before(self, at, text):
        """Puts a text in front of what begins at a character: those of outer nodes first."""
        self.fronts[at].append(text)

    def behind(self, at, text):
        """Puts a text behind what ends at a character: those of inner nodes first."""
        self.backs[at].insert(0, text)

    def around(self, node, front, back):
        self.before(node.begin, front)
        self.behind(node.end, back)

    def replace(self, begin, end, text):
        """Puts a text in place of a piece. Its line feeds are kept, so that each line stays at its number."""
        missing = self.source.count("\n", begin, end) - text.count("\n")
        self.cuts[begin] = (end, text + "\n" * max(0, missing))

    def applied(self, begin=0, end=None):
        """The new source of a piece of the old one, and where its own pieces stood.

        Each of these is a triple: where it begins in the new source and in the old one, and its length.
        """
        end = len(self.source) if end is None else end
        out, pieces, length, at = [], [], 0, begin

        def put(text):
            nonlocal length
            out.append(text)
            length += len(text)

        for place in sorted({*self.fronts, *self.backs, *self.cuts, end}):
            if place < at or place > end:
                continue
            if place > at:
                pieces.append((length, at, place - at))
                put(self.source[at:place])
                at = place
            if place > begin:
                put("".join(self.backs.get(place, [])))
            if place < end or place == len(self.source):
                put("".join(self.fronts.get(place, [])))
                if place in self.cuts:
                    at, text = self.cuts[place]
                    put(text)
        return "".join(out), pieces


class Lines:
    """Lines and columns of a text, both counted from 1."""

    def __init__(self, text):
        self.starts = [0] + [at + 1 for at, sign in enumerate(text) if sign == "\n"]

    def place(self, at):
        line = bisect_right(self.starts, at)
        return line, at - self.starts[line - 1] + 1
