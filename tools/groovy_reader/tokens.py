"""The tokens of Groovy source, for a reader that goes on behind each fault.

Each character of the source is in a token, in a blank, in a comment, or in a note that says what is wrong there. The tokens
are those of Groovy, so they are more than those of the product's language: regular expressions, decimal numbers, annotations,
operators that it does not have. `newline` tokens stand where a newline may end a statement: not inside `(`, `[` and `${`.
"""
import re
from collections import namedtuple

# `kind` is name, word, number, text, sign, newline, or of a text with expressions: open, part, ${, $, close; unknown for a character
# with which nothing of Groovy begins; at last end.
# `value` is the name, the word, the sign, the number as it is written, or the characters that a text stands for.
# `quote` is the opening of a text. `spaced` says whether a blank, a comment or a newline stands directly before.
Token = namedtuple("Token", "kind value begin end quote spaced")
# What is wrong with the characters from `begin` to `end`.
Note = namedtuple("Note", "kind begin end")

WORDS = frozenset("""def void if else while for in return break continue try catch finally throw new true false null import package
    class interface enum trait extends implements static final switch case default do assert as instanceof this super""".split())
SIGNS = [
    ">>>=", "...", "..<", "<=>", "===", "!==", "==~", "**=", "<<=", ">>=", ">>>", "->", "..", "?.", "?:", "?=", "*.", ".&", ".@",
    "+=", "-=", "*=", "/=", "%=", "&=", "|=", "^=", "++", "--", "**", "||", "&&", "==", "!=", "<=", ">=", "=~", "<<", ">>", "::",
    *"()[]{},;:?.=<>+-*/%!&|^~@",
]
SIGN = re.compile("|".join(map(re.escape, SIGNS)))
CLOSING = {")": "(", "]": "[", "}": "{"}
ESCAPES = {"n": "\n", "t": "\t", "r": "\r", "b": "\b", "f": "\f", "\\": "\\", "'": "'", '"': '"', "$": "$"}
NAME = re.compile(r"[^\W\d][\w$]*|\$[\w$]+")
PATH_NAME = re.compile(r"[^\W\d]\w*")
NUMBER = re.compile(r"0[xX][0-9a-fA-F_]+[gGlLiI]?|0[bB][01_]+[gGlLiI]?|[0-9][0-9_]*(?:\.[0-9][0-9_]*)?(?:[eE][+-]?[0-9]+)?[gGlLiIdDfF]?")
# Characters that stand for themselves in every form of text.
ORDINARY = re.compile(r"[^\\$'\"/\r\n]+")
# Behind these kinds and signs an operator stands, and no operand: there `/` divides.
ENDS_AN_OPERAND = (")", "]", "}", "++", "--")


class Lexer:
    """Reads the tokens of a source once; `tokens` and `notes` have what was found."""

    def __init__(self, source):
        self.source, self.at, self.tokens, self.notes = source, 0, [], []
        # What is open: "(", "[", "{", "${", and a text as its quotes and the place of its opening.
        self.open = []
        self.is_spaced = False

    def next_is(self, text):
        return self.source.startswith(text, self.at)

    def add(self, kind, value, begin, quote=None):
        self.tokens.append(Token(kind, value, begin, self.at, quote, self.is_spaced))

    def note(self, kind, begin, end):
        self.notes.append(Note(kind, begin, end))

    def texts(self):
        return [it for it in self.open if not isinstance(it, str)]

    def run(self):
        """Reads the source to its end."""
        self.at = 1 if self.next_is("\ufeff") else 0
        if self.next_is("#!"):
            self.skip_line()
        while self.at < len(self.source):
            self.one()
        for _, opening in self.texts():
            self.note("unended text", opening, opening + 1)
        self.add("end", None, self.at)
        return self

    def skip_line(self):
        end = self.source.find("\n", self.at)
        self.at = len(self.source) if end < 0 else end

    def skip_blanks(self):
        """Goes over blanks and comments, up to what is none."""
        begin = self.at
        while self.at < len(self.source):
            if self.source[self.at] in " \t\r":
                self.at += 1
            elif self.source[self.at] == "\f":
                self.note("form feed", self.at, self.at + 1)
                self.at += 1
            elif self.next_is("//"):
                self.skip_line()
            elif self.next_is("/*"):
                self.skip_comment()
            elif re.compile(r"\\\r?\n").match(self.source, self.at):
                self.note("joined lines", self.at, self.at + 1)
                self.at = self.source.index("\n", self.at) + 1
            else:
                break
        self.is_spaced = self.at > begin

    def skip_comment(self):
        end = self.source.find("*/", self.at + 2)
        if end < 0:
            self.note("unended comment", self.at, self.at + 2)
        self.at = len(self.source) if end < 0 else end + 2

    def one(self):
        """The token, the newline or the fault at this place."""
        self.skip_blanks()
        if self.at == len(self.source):
            return
        here, begin = self.source[self.at], self.at
        name = NAME.match(self.source, begin)
        if here == "\n":
            self.newline()
        elif name:
            self.at = name.end()
            if not re.fullmatch("[A-Za-z0-9_]+", name[0]):
                self.note("letters of a name", begin, self.at)
            self.add("word" if name[0] in WORDS else "name", name[0], begin)
        elif here in "0123456789":
            self.at = NUMBER.match(self.source, begin).end()
            self.add("number", self.source[begin : self.at], begin)
        elif here in "'\"":
            self.text(here * 3 if self.next_is(here * 3) else here)
        elif self.next_is("$/") and self.wants_an_operand():
            self.text("$/")
        elif here == "/" and self.begins_a_slashy_text():
            self.text("/")
        else:
            self.sign()

    def newline(self):
        begin = self.at
        if self.open and self.open[-1] == "${" and len(self.texts()[-1][0]) == 1:
            self.note("newline in a text", self.texts()[-1][1], self.texts()[-1][1] + 1)
        self.at += 1
        inside = self.open and self.open[-1] != "{"
        if not inside and self.tokens and self.tokens[-1].kind != "newline":
            self.add("newline", None, begin)

    def sign(self):
        begin = self.at
        found = SIGN.match(self.source, begin)
        if found is None:
            self.at += 1
            self.note("unknown character", begin, self.at)
            self.add("unknown", self.source[begin], begin)
            return
        sign, self.at = found[0], found.end()
        if sign in ("(", "[", "{"):
            self.open.append(sign)
        ends = sign in CLOSING and self.open and isinstance(self.open[-1], str)
        was = self.open.pop() if ends else None
        self.add("sign", sign, begin)
        if was == "${":
            self.rest_of_text()

    # --- texts

    def wants_an_operand(self):
        """Whether an operand stands here rather than an operator."""
        before = self.tokens[-1] if self.tokens else None
        if before is None or before.kind in ("newline", "${", "word"):
            return before is None or before.value not in ("true", "false", "null", "this", "super")
        return before.kind == "sign" and before.value not in ENDS_AN_OPERAND

    def begins_a_slashy_text(self):
        """Whether `/` opens a text: where an operand stands, or as the argument of a call without parentheses."""
        if self.source[self.at + 1 : self.at + 2] in ("=", ""):
            return False
        if self.wants_an_operand():
            return True
        is_command = self.tokens[-1].kind == "name" and self.is_spaced
        return is_command and re.compile(r"/[^\s/](?:[^/\n]|\\/)*/").match(self.source, self.at) is not None

    def text(self, quotes):
        """A text from its opening, which stands here."""
        begin = self.at
        self.at += len(quotes)
        if quotes[0] == "'":
            content = self.plain(quotes, begin)
            self.close(quotes)
            self.add("text", content, begin, quotes)
        else:
            self.open.append((quotes, begin))
            self.rest_of_text(begin)

    def closing(self, quotes):
        return {"$/": "/$"}.get(quotes, quotes)

    def close(self, quotes):
        """Goes over the closing quotes; where the text has no end there is nothing to go over."""
        if self.next_is(self.closing(quotes)):
            self.at += len(quotes)

    def plain(self, quotes, opening):
        """The characters up to the closing quotes, or up to an expression in the forms that have some."""
        made = []
        while self.at < len(self.source) and not self.next_is(self.closing(quotes)):
            here = self.source[self.at]
            if here == "\n" and quotes in ("'", '"'):
                self.note("unended text", opening, opening + 1)
                break
            if here == "$" and quotes[0] != "'" and re.compile(r"\$(?:[^\W\d]|\{)").match(self.source, self.at):
                break
            run = ORDINARY.match(self.source, self.at)
            made.append(run[0] if run else self.character(quotes))
            self.at = run.end() if run else self.at
        if self.at == len(self.source):
            self.note("unended text", opening, opening + 1)
        return "".join(made)

    def character(self, quotes):
        """One character of a text, as what it stands for."""
        begin, here = self.at, self.source[self.at]
        if here == "\\" and quotes not in ("/", "$/"):
            return self.escape()
        self.at += 1
        if quotes == "/" and here == "\\" and self.next_is("/"):
            self.at += 1
            return "/"
        if here == "$" and quotes in ('"', '"""'):
            self.note("dollar", begin, self.at)
        if here == "\r" and self.next_is("\n"):
            self.note("carriage return in a text", begin, self.at)
        return here

    def escape(self):
        begin, behind = self.at, self.source[self.at + 1 : self.at + 6]
        self.at += 2
        if behind[:1] in ESCAPES:
            return ESCAPES[behind[0]]
        if behind[:1] == "\n":
            return ""
        if re.fullmatch("u[0-9a-fA-F]{4}", behind) and not 0xD800 <= int(behind[1:], 16) <= 0xDFFF:
            self.at += 4
            return chr(int(behind[1:], 16))
        if behind[:2] == "\r\n":
            self.at += 1
        self.at = min(self.at, len(self.source))
        self.note("bad escape", begin, self.at)
        return self.source[begin : self.at]

    def rest_of_text(self, begins=None):
        """A text that may have expressions, from its opening, which is given, or behind an expression, up to the next one."""
        quotes, opening = self.open[-1]
        begin = self.at
        content = self.plain(quotes, opening)
        at_expression = self.next_is("$") and not self.next_is(self.closing(quotes))
        if not at_expression:
            self.end_of_text(quotes, opening, begins, content, begin)
            return
        if begins is not None:
            self.tokens.append(Token("open", None, opening, opening + len(quotes), quotes, self.is_spaced))
        if content:
            self.add("part", content, begin, quotes)
        if self.next_is("${"):
            self.open.append("${")
            self.at += 2
            self.add("${", None, self.at - 2)
        else:
            self.path()

    def end_of_text(self, quotes, opening, begins, content, begin):
        if begins is None and content:
            self.add("part", content, begin, quotes)
        closing = self.at
        self.close(quotes)
        self.open.pop()
        if begins is None:
            self.add("close", None, closing, quotes)
        else:
            self.add("text", content, opening, quotes)

    def path(self):
        """`$` and names behind dots."""
        self.at += 1
        self.add("$", None, self.at - 1)
        while True:
            name = PATH_NAME.match(self.source, self.at)
            self.at = name.end()
            self.add("word" if name[0] in WORDS else "name", name[0], name.start())
            if not re.compile(r"\.[^\W\d]").match(self.source, self.at):
                break
            self.at += 1
            self.add("sign", ".", self.at - 1)
        self.rest_of_text()


def tokens_of(source):
    """The tokens of a source up to `end`, and the notes on what is wrong with its characters."""
    lexer = Lexer(source).run()
    return lexer.tokens, lexer.notes
