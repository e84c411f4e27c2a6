"""The tokens of a script, as the chapter on tokens in docs/LANGUAGE.md says, or its lexical fault."""
import re
from collections import namedtuple

# `kind` is name, word, number, text, sign, newline, or of a text with expressions: open, part, ${, $, close; at last end.
Token = namedtuple("Token", "kind value at")

WORDS = set("""def void if else while for in return break continue try catch finally throw new true false null import package class
    interface enum trait extends implements static final switch case default do assert as instanceof this super""".split())
SIGNS = ["->", "..", "?.", "?:", "+=", "-=", "*=", "%=", "++", "--", "||", "&&", "==", "!=", "<=", ">=", *"()[]{},;:?.=<>+-*%!"]
GOES_ON_BEHIND = set("|| && == != < <= > >= + - * % , : ? ?: .. -> = += -= *= %= { ;".split())
GOES_ON_BEFORE = re.compile(r"\.(?!\.)|\?\.|(else|catch|finally)(?![A-Za-z0-9_])")
ESCAPES = {"n": "\n", "t": "\t", "r": "\r", "b": "\b", "f": "\f", "\\": "\\", "'": "'", '"': '"', "$": "$"}
NAME = re.compile(r"[A-Za-z_][A-Za-z0-9_]*")
MOST_NESTING = 128
LARGEST = 2147483647


class Fault(Exception):
    """A fault of a script: its kind, and where it is in characters from the beginning."""

    def __init__(self, kind, at):
        super().__init__(kind)
        self.kind, self.at = kind, at

    def told(self, source):
        front = source[: self.at]
        column = self.at - (front.rfind("\n") + 1) + 1
        first_line_mark = front.startswith("\ufeff") and "\n" not in front
        return f"Jenkinsfile:{front.count(chr(10)) + 1}:{column - first_line_mark}: {self.kind}"


class Lexer:
    def __init__(self, source):
        self.source, self.at, self.tokens = source, 0, []
        # What is open: "(", "[", "{", "${", and a text as its quotes and the place of its opening.
        self.open = []

    def next_is(self, text):
        return self.source.startswith(text, self.at)

    def add(self, kind, value, at):
        self.tokens.append(Token(kind, value, at))

    def brackets(self):
        return [it for it in self.open if isinstance(it, str)]

    def texts(self):
        return [it for it in self.open if not isinstance(it, str)]

    def push(self, bracket, at):
        if len(self.brackets()) == MOST_NESTING:
            raise Fault("nesting over 128", at)
        self.open.append(bracket)

    def run(self):
        """All tokens. A fault leaves those before it."""
        self.at = 1 if self.next_is("\ufeff") else 0
        if self.next_is("#!"):
            self.skip_line()
        while self.at < len(self.source):
            self.one()
        if self.texts():
            raise Fault("unended text", self.texts()[-1][1])
        self.add("end", None, self.at)

    def skip_line(self):
        end = self.source.find("\n", self.at)
        self.at = len(self.source) if end < 0 else end

    def skip_blanks(self):
        """Blanks and comments, up to what is none."""
        while self.at < len(self.source):
            if self.source[self.at] in " \t\r":
                self.at += 1
            elif self.next_is("//"):
                self.skip_line()
            elif self.next_is("/*"):
                end = self.source.find("*/", self.at + 2)
                if end < 0:
                    raise Fault("unended comment", self.at)
                self.at = end + 2
            else:
                return

    def one(self):
        self.skip_blanks()
        at = self.at
        if at == len(self.source):
            return
        here = self.source[at]
        name = NAME.match(self.source, at)
        if here == "\n":
            self.newline()
        elif name:
            self.at = name.end()
            self.add("word" if name[0] in WORDS else "name", name[0], at)
        elif here in "0123456789":
            self.number()
        elif here in "'\"":
            self.text()
        else:
            self.sign()

    def newline(self):
        at, texts = self.at, self.texts()
        inside = self.open and self.open[-1] != "{"
        if self.open and self.open[-1] == "${" and len(texts[-1][0]) == 1:
            raise Fault("unended text", texts[-1][1])
        self.at += 1
        before = self.tokens[-1] if self.tokens else Token("newline", None, 0)
        if inside or before.kind == "newline" or before.kind == "sign" and before.value in GOES_ON_BEHIND:
            return
        back = self.at
        self.skip_to_a_token()
        goes_on = GOES_ON_BEFORE.match(self.source, self.at)
        self.at = back
        if not goes_on:
            self.add("newline", None, at)

    def skip_to_a_token(self):
        try:
            self.skip_blanks()
            while self.next_is("\n"):
                self.at += 1
                self.skip_blanks()
        except Fault:
            pass

    def number(self):
        at = self.at
        digits = re.compile(r"[0-9]+").match(self.source, at)[0]
        self.at += len(digits)
        is_bad = int(digits) > LARGEST or len(digits) > 1 and digits[0] == "0"
        if is_bad or re.compile(r"[A-Za-z_]|\.[0-9]").match(self.source, self.at):
            raise Fault("bad number", at)
        self.add("number", int(digits), at)

    def sign(self):
        at = self.at
        sign = next((it for it in SIGNS if self.next_is(it)), None)
        if sign is None:
            raise Fault("unexpected character", at)
        self.at += len(sign)
        if sign in ("(", "[", "{"):
            self.push(sign, at)
        ends = sign in (")", "]", "}") and self.open and isinstance(self.open[-1], str)
        was = self.open.pop() if ends else None
        self.add("sign", sign, at)
        if was == "${":
            self.rest_of_text()

    # --- texts

    def text(self):
        at = self.at
        quote = self.source[at]
        quotes = quote * 3 if self.next_is(quote * 3) else quote
        self.at += len(quotes)
        if quote == '"':
            self.open.append((quotes, at))
            self.rest_of_text(at)
            return
        content = self.plain(quotes, at)
        self.at += len(quotes)
        self.add("text", content, at)

    def plain(self, quotes, opening):
        """The characters up to the closing quotes, or in a double-quoted text up to an expression."""
        made = ""
        while not self.next_is(quotes):
            if self.at == len(self.source) or self.source[self.at] == "\n" and len(quotes) == 1:
                raise Fault("unended text", opening)
            if self.next_is("$") and quotes[0] == '"':
                if re.compile(r"\$[A-Za-z_{]").match(self.source, self.at):
                    break
                cut = self.at + 1 == len(self.source)
                raise Fault("unended text" if cut else "bad escape", opening if cut else self.at)
            made += self.escape(opening) if self.next_is("\\") else self.taken()
        return made

    def taken(self):
        self.at += 1
        return self.source[self.at - 1]

    def escape(self, opening):
        at, behind = self.at, self.source[self.at + 1 : self.at + 6]
        if behind[:1] in ESCAPES:
            self.at += 2
            return ESCAPES[behind[0]]
        if behind[:1] == "\n":
            self.at += 2
            return ""
        if re.fullmatch("u[0-9a-fA-F]{4}", behind) and not 0xD800 <= int(behind[1:], 16) <= 0xDFFF:
            self.at += 6
            return chr(int(behind[1:], 16))
        is_cut = at + 1 + len(behind) == len(self.source) and re.fullmatch("(u[0-9a-fA-F]{0,3})?", behind)
        raise Fault("unended text" if is_cut else "bad escape", opening if is_cut else at)

    def rest_of_text(self, begins=None):
        """A double-quoted text from its opening, which is given, or behind an expression, up to the next one or its end."""
        quotes, opening = self.open[-1]
        at = self.at
        content = self.plain(quotes, opening)
        is_over = self.next_is(quotes)
        if is_over and begins is not None:
            self.add("text", content, opening)
        else:
            if begins is not None:
                self.add("open", None, opening)
            if content:
                self.add("part", content, at)
            if is_over:
                self.add("close", None, self.at)
        if is_over:
            self.at += len(quotes)
            self.open.pop()
        elif self.next_is("${"):
            self.push("${", self.at)
            self.add("${", None, self.at)
            self.at += 2
        else:
            self.path()

    def path(self):
        self.add("$", None, self.at)
        self.at += 1
        while True:
            name = NAME.match(self.source, self.at)
            self.add("word" if name[0] in WORDS else "name", name[0], self.at)
            self.at = name.end()
            if not re.compile(r"\.[A-Za-z_]").match(self.source, self.at):
                break
            self.add("sign", ".", self.at)
            self.at += 1
        self.rest_of_text()


def tokens_of(source):
    """The tokens of a script, and its lexical fault or None."""
    lexer = Lexer(source)
    try:
        lexer.run()
    except Fault as fault:
        return lexer.tokens, fault
    return lexer.tokens, None
