"""Label expressions, as the chapter on labels in docs/FORMATS.md says."""
import re

TOKEN = re.compile(rb'[ \t]*(?:(?P<name>(?:[A-Za-z0-9_./]|-(?!>))+|"[^"]+")|(?P<sign><->|->|&&|\|\||[!()])|(?P<end>\Z)|(?P<bad>))')
MOST_OPEN = 64


class BadLabel(Exception):
    """A label with a fault, at this byte."""

    def __init__(self, at):
        super().__init__(at)
        self.at = at


class Label:
    """Reads an expression, and tells of each part whether it holds of labels."""

    def __init__(self, text, labels):
        self.text, self.labels, self.at, self.open = text.encode(), labels, 0, 0
        self.kind, self.value, self.begins = None, None, 0
        self.advance()

    def advance(self):
        token = TOKEN.match(self.text, self.at)
        self.kind = token.lastgroup
        self.value, self.begins, self.at = token[self.kind], token.start(self.kind), token.end()

    def took(self, sign):
        if self.kind != "sign" or self.value != sign:
            return False
        self.advance()
        return True

    def fault(self):
        return BadLabel(self.begins)

    def whole(self):
        holds = self.level()
        if self.kind != "end":
            raise self.fault()
        return holds

    def level(self):
        """Each of both arrows at most once; `->` binds more tightly."""
        operands, arrows = [self.disjunction()], []
        while self.kind == "sign" and self.value in (b"->", b"<->") and self.value not in arrows:
            arrows.append(self.value)
            self.advance()
            operands.append(self.disjunction())
        if b"->" in arrows:
            at = arrows.index(b"->")
            operands[at : at + 2] = [not operands[at] or operands[at + 1]]
        return operands[0] if len(operands) == 1 else operands[0] == operands[1]

    def disjunction(self):
        holds = self.conjunction()
        while self.took(b"||"):
            holds = self.conjunction() or holds
        return holds

    def conjunction(self):
        holds = self.negation()
        while self.took(b"&&"):
            holds = self.negation() and holds
        return holds

    def negation(self):
        negations = 0
        while self.took(b"!"):
            negations += 1
        return self.atom() == (negations % 2 == 0)

    def atom(self):
        if self.kind == "name":
            name = self.value.strip(b'"').decode(errors="replace")
            self.advance()
            return name in self.labels
        if self.kind != "sign" or self.value != b"(" or self.open == MOST_OPEN:
            raise self.fault()
        self.open += 1
        self.advance()
        holds = self.level()
        if not self.took(b")"):
            raise self.fault()
        self.open -= 1
        return holds


def fits(label, labels):
    """Whether an executor with these labels fits; a label that is blank or missing fits any."""
    return not (label or "").strip(" \t") or Label(label, labels).whole()


def fault_of(label):
    """The byte of a label's fault; None where it has none."""
    try:
        fits(label, [])
    except BadLabel as bad:
        return bad.at
    return None
