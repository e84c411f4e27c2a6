"""The exact grammar as a net below the tolerant reader: whatever `check` refuses is told, also where no rule knows it.

Each statement is read by tools/reference/parse.py on its own, with the insides of its blocks and closures blanked, since those are
read on their own too. So one run tells the faults of all statements, and not only the first one.
"""
import os
import sys

from groovy_reader import Block, Closure, Unreadable

sys.path.append(f"{os.path.dirname(os.path.dirname(os.path.realpath(__file__)))}/reference")
from parse import Parser, parsed  # noqa: E402
from tokens import Fault, Token, tokens_of  # noqa: E402



class Piece:
    """A statement with what stands directly in it: its source with the insides of its blocks blanked."""

    def __init__(self, script, statement, is_top):
        self.is_top, self.blocks = is_top, list(blocks_in(statement))
        self.inner = [inside(script, block) for block in self.blocks]
        self.begin, self.end = statement.begin, statement.end
        text, at = [], self.begin
        for begin, end in self.inner:
            text += [script.source[at:begin], blank(script.source[begin:end])]
            at = end
        self.text = "".join(text) + script.source[at : self.end]

    def has(self, at):
        """Whether a place is in this piece, and not in a block inside it."""
        return self.begin <= at <= self.end and not any(begin <= at < end for begin, end in self.inner)

    def fault(self):
        """The first fault of the grammar in it, as its kind and its place in the script; None where it has none."""
        tokens, lexical = tokens_of(self.text)
        parser = Parser(tokens if lexical is None else tokens + [Token("end", None, lexical.at)])
        try:
            parser.newline()
            (parser.top if self.is_top else parser.statement)()
            parser.separators()
            if not parser.is_kind("end"):
                raise parser.fault()
        except Fault as fault:
            if lexical is None or fault.kind == "unexpected token":
                return fault.kind, self.begin + fault.at
        return None if lexical is None else (lexical.kind, self.begin + lexical.at)


def inside(script, block):
    """The characters between the braces of a block or closure."""
    if isinstance(block, Closure):
        return block.body.begin, block.body.end
    begin = block.begin + script.source.startswith("{", block.begin)
    return begin, max(begin, block.end - script.source.endswith("}", begin, block.end))


def blank(text):
    return "".join(it if it == "\n" else " " for it in text)


def blocks_in(node):
    """The blocks in braces and the closures inside a node, but none inside these."""
    for child in node.children():
        if isinstance(child, Closure) or isinstance(child, Block) and child.has_braces:
            yield child
        else:
            yield from blocks_in(child)


def statements_in(block):
    return block.body.statements if isinstance(block, Closure) else block.statements


def pieces(script):
    """The pieces of a script, an outer one before those inside it."""
    waiting = [(it, True) for it in reversed(script.statements)]
    while waiting:
        statement, is_top = waiting.pop()
        if not isinstance(statement, Unreadable):
            piece = Piece(script, statement, is_top)
            yield piece
            waiting += [(it, False) for block in reversed(piece.blocks) for it in reversed(statements_in(block))]


def first_fault(source):
    """What `check` tells of a script, as the kind and the place; None where it accepts it."""
    try:
        parsed(source)
    except Fault as fault:
        return fault.kind, fault.at
    except RecursionError:
        return None
    return None



