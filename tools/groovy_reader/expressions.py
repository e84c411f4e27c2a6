"""Reads expressions: the part of the reader that `reader.py` puts statements on."""
from .nodes import (Argument, Assignment, Binary, Call, Cast, Choice, Closure, Constant, Embedded, Entry, GString, Group, Identifier, Index,
                    ListLiteral, MapLiteral, Name, New, Number, Postfix, Prefix, Property, Text, TextPart, Type)

# The operators between two operands, from those that bind least.
RANKS = [
    ("||",), ("&&",), ("|",), ("^",), ("&",), ("==", "!=", "<=>", "===", "!==", "=~", "==~"),
    ("<", "<=", ">", ">=", "in", "instanceof", "as", "!in"), ("<<", ">>", ">>>", "..", "..<"), ("+", "-"), ("*", "/", "%"), ("**",),
]
CHANGES = ("=", "+=", "-=", "*=", "/=", "%=", "**=", "<<=", ">>=", ">>>=", "&=", "|=", "^=", "?=")
DOTS = (".", "?.", "*.", ".&", ".@", "::")
BUILT_IN = frozenset("boolean byte char double float int long short".split())
# Classes that stand in a cast also before a bracket.
USUAL = BUILT_IN | frozenset("""String Integer Long Double Float Boolean BigDecimal BigInteger Object List Map Set Collection GString
    CharSequence ArrayList LinkedHashMap HashMap""".split())


def opens(token):
    """Whether a token opens a bracket or a text with expressions."""
    return token.kind in ("open", "${") or token.kind == "sign" and token.value in ("(", "[", "{")


def change_of_depth(token):
    """How many brackets more are open behind a token."""
    opens_one = token.kind == "${" or token.kind == "sign" and token.value in ("(", "[", "{")
    return opens_one - (token.kind == "sign" and token.value in (")", "]", "}"))


class Stuck(Exception):
    """No Groovy stands at a token, of which this is the number."""

    def __init__(self, at):
        super().__init__(at)
        self.at = at


def closings(tokens):
    """For each token that opens brackets or a text the token that closes it, where one does."""
    made, opened = {}, []
    for at, token in enumerate(tokens):
        if opens(token):
            opened.append(at)
        elif opened and (token.kind == "close" or token.kind == "sign" and token.value in (")", "]", "}")):
            made[opened.pop()] = at
    return made


class Tokens:
    """The tokens, and the place that was reached."""

    def __init__(self, source, tokens):
        self.source, self.tokens, self.at = source, tokens, 0
        self.closings = closings(tokens)

    def token_at(self, at):
        """A token; behind the last one the end of the source stands."""
        return self.tokens[min(at, len(self.tokens) - 1)]

    def ahead(self, by=0):
        return self.token_at(self.at + by)

    def is_kind(self, *kinds, by=0):
        return self.ahead(by).kind in kinds

    def sees(self, *signs, by=0):
        return self.ahead(by).kind in ("sign", "word") and self.ahead(by).value in signs

    def stuck(self):
        return Stuck(self.at)

    def take(self, *kinds):
        if not self.is_kind(*kinds):
            raise self.stuck()
        self.at += 1
        return self.tokens[self.at - 1]

    def took(self, *signs):
        """Whether one of these signs or words stood there; it is taken then."""
        if not self.sees(*signs):
            return False
        self.at += 1
        return True

    def want(self, sign):
        if not self.took(sign):
            raise self.stuck()

    def newlines(self):
        while self.is_kind("newline"):
            self.at += 1

    def behind_newlines(self, *signs):
        """Whether one of these signs or words comes next, also behind newlines, which are taken then."""
        by = 1 if self.is_kind("newline") else 0
        if not self.sees(*signs, by=by):
            return False
        self.at += by
        return True

    def begin(self):
        return self.ahead().begin

    def end(self):
        """The end of the token that was taken last."""
        return self.tokens[self.at - 1].end if self.at else 0

    def identifier(self, *kinds):
        token = self.take(*(kinds or ("name",)))
        return Identifier(token.begin, token.end, token.value)

    # --- types

    def type_end(self, at):
        """The token behind a type that begins at a token; None where none does."""
        def sees(*signs):
            return self.token_at(at).kind in ("sign", "word") and self.token_at(at).value in signs

        if self.token_at(at).kind != "name":
            return None
        at += 1
        while sees(".") and self.token_at(at + 1).kind == "name":
            at += 2
        if sees("<"):
            at = self.type_arguments_end(at)
            if at is None:
                return None
        while sees("[") and self.token_at(at + 1).value == "]":
            at += 2
        return at

    def type_arguments_end(self, at):
        depth = 0
        while True:
            token = self.token_at(at)
            depth += {"<": 1, ">": -1, ">>": -2, ">>>": -3}.get(token.value, 0) if token.kind == "sign" else 0
            is_part = token.kind == "name" or token.value in ("<", ">", ">>", ">>>", ",", ".", "?", "[", "]", "extends", "super", "&")
            if not is_part or depth < 0:
                return None
            at += 1
            if depth == 0:
                return at

    def type(self):
        end = self.type_end(self.at)
        if end is None:
            raise self.stuck()
        begin, self.at = self.begin(), end
        return Type(begin, self.end(), self.source[begin : self.end()])

    def is_class_name(self, begin, end):
        """Whether the tokens of a type can only be one: a class or a type that Groovy has, or one with dots, arguments or brackets."""
        name = self.token_at(begin).value
        return end > begin + 1 or name in BUILT_IN or name[:1].isupper()


class Expressions(Tokens):
    def expression(self):
        """An expression, assignments among them."""
        left = self.choice()
        if not self.sees(*CHANGES):
            return left
        sign = self.take("sign")
        self.newlines()
        value = self.whole()
        return Assignment(left.begin, value.end, left, sign.value, value, sign.begin)

    def whole(self):
        """An expression, or a call without parentheses."""
        left = self.expression()
        is_path = isinstance(left, (Name, Property)) or isinstance(left, Call) and left.form != "closure"
        if not is_path or not self.begins_an_argument():
            return left
        arguments = self.arguments()
        made = Call(left.begin, self.end(), left, arguments, "command")
        while self.is_kind("name"):
            made = self.chained(made)
        return made

    def chained(self, made):
        """`from a copy b`: each further pair is a method of what stands before."""
        made = Property(made.begin, self.ahead().end, made, " ", self.identifier())
        if not self.begins_an_argument():
            return made
        arguments = self.arguments()
        return Call(made.begin, self.end(), made, arguments, "command")

    def begins_an_argument(self):
        if self.is_kind("name", "number", "text", "open"):
            return True
        if self.sees("!"):
            return self.ahead().spaced and not self.ahead(1).spaced and not self.sees("in", by=1)
        return self.sees("true", "false", "null", "this", "super", "new") or self.is_kind("word") and self.sees(":", by=1)

    def choice(self):
        test = self.binary(0)
        if self.behind_newlines("?:"):
            self.at += 1
            self.newlines()
            otherwise = self.choice()
            return Choice(test.begin, otherwise.end, test, None, otherwise)
        if not self.behind_newlines("?"):
            return test
        self.at += 1
        self.newlines()
        then = self.expression()
        self.newlines()
        self.want(":")
        self.newlines()
        otherwise = self.expression()
        return Choice(test.begin, otherwise.end, test, then, otherwise)

    def binary(self, rank):
        if rank == len(RANKS):
            return self.unary()
        left = self.binary(rank + 1)
        while True:
            sign, width = self.operator(RANKS[rank])
            if sign is None:
                return left
            sign_at = self.begin()
            self.at += width
            self.newlines()
            right = self.type() if sign in ("as", "instanceof") else self.binary(rank + 1)
            left = Binary(left.begin, right.end, left, sign, right, sign_at)

    def operator(self, signs):
        if "!in" in signs and self.sees("!") and self.sees("in", by=1):
            return "!in", 2
        return (self.ahead().value, 1) if self.sees(*signs) else (None, 0)

    def unary(self):
        begin = self.begin()
        if self.sees("!", "-", "+", "~", "++", "--"):
            sign = self.take("sign").value
            operand = self.unary()
            return Prefix(begin, operand.end, sign, operand)
        if self.sees("(") and self.is_cast():
            self.at += 1
            to = self.type()
            self.want(")")
            operand = self.unary()
            return Cast(begin, operand.end, to, operand)
        return self.suffixes(self.primary())

    def is_cast(self):
        end = self.type_end(self.at + 1)
        if end is None or not self.is_class_name(self.at + 1, end) or self.token_at(end).value != ")":
            return False
        behind = self.token_at(end + 1)
        if behind.kind in ("sign",) and behind.value in ("(", "[", "{"):
            return self.token_at(self.at + 1).value in USUAL
        return behind.kind in ("name", "number", "text", "open") or behind.value in ("true", "false", "null", "new", "this", "super")

    # --- what stands behind a primary

    def suffixes(self, made):
        while True:
            if self.behind_newlines(*DOTS):
                made = self.dotted(made)
            elif self.sees("(") and isinstance(made, (Name, Property, Call, Index, Group, Closure, Constant)):
                made = self.call(made)
            elif self.sees("["):
                made = self.index(made)
            elif self.sees("{") and isinstance(made, (Name, Property)):
                made = self.call(made)
            elif self.sees("++", "--"):
                made = Postfix(made.begin, self.ahead().end, made, self.take("sign").value)
            else:
                return made

    def dotted(self, on):
        dot = self.take("sign").value
        self.newlines()
        if self.is_kind("name", "word"):
            name = self.identifier("name", "word")
        elif self.is_kind("text", "open"):
            name = self.primary()
        elif self.sees("(", "[", "@"):
            self.took("@")
            name = self.identifier("name", "word") if self.is_kind("name", "word") else self.primary()
        else:
            raise self.stuck()
        return Property(on.begin, self.end(), on, dot, name)

    def index(self, on):
        self.want("[")
        items = [] if self.sees("]") else self.arguments("]")
        self.want("]")
        return Index(on.begin, self.end(), on, items)

    def call(self, what):
        """A call with parentheses, closures behind them, or closures alone."""
        arguments, form, trailing = [], "closure", 0
        if self.took("("):
            form = "parentheses"
            arguments = [] if self.sees(")") else self.arguments(")")
            self.want(")")
        while self.sees("{"):
            closure = self.closure()
            arguments.append(Argument(closure.begin, closure.end, None, closure))
            trailing += 1
        return Call(what.begin, self.end(), what, arguments, form, trailing)

    def arguments(self, closing=None):
        """Arguments with commas between, up to the closing sign where one is given; a comma may stand before it."""
        made = [self.argument()]
        while self.took(","):
            self.newlines()
            if closing and self.sees(closing):
                break
            made.append(self.argument())
        return made

    def argument(self):
        begin = self.begin()
        if self.sees("*") and self.sees(":", by=1):
            self.at += 2
            value = self.expression()
            return Argument(begin, value.end, None, value, True)
        if self.took("*"):
            value = self.expression()
            return Argument(begin, value.end, None, value, True)
        key = self.key()
        value = self.expression()
        return Argument(begin, value.end, key, value)

    def key(self):
        """The key of an entry or a named argument, with its `:`; None where no key stands there."""
        if self.is_kind("name", "word") and self.sees(":", by=1):
            key = self.identifier("name", "word")
        elif self.is_kind("text", "number") and self.sees(":", by=1) or self.is_computed_key():
            key = self.primary()
        else:
            return None
        self.want(":")
        self.newlines()
        return key

    def is_computed_key(self):
        """Whether a text with expressions or parentheses stand here with a `:` behind."""
        if not (self.is_kind("open") or self.sees("(")) or self.at not in self.closings:
            return False
        behind = self.token_at(self.closings[self.at] + 1)
        return behind.kind == "sign" and behind.value == ":"

    # --- primaries

    def primary(self):
        token = self.ahead()
        if token.kind == "number":
            self.at += 1
            return Number(token.begin, token.end, token.value)
        if token.kind == "text":
            self.at += 1
            return Text(token.begin, token.end, token.value, token.quote)
        if token.kind == "open":
            return self.gstring()
        if token.kind == "name":
            self.at += 1
            return Name(token.begin, token.end, token.value)
        if self.took("true", "false", "null", "this", "super"):
            return Constant(token.begin, token.end, token.value)
        if self.sees("("):
            return self.group()
        if self.sees("["):
            return self.list_or_map()
        if self.sees("{"):
            return self.closure()
        if self.sees("new"):
            return self.made_new()
        raise self.stuck()

    def group(self):
        begin = self.begin()
        self.want("(")
        inner = self.whole()
        self.want(")")
        return Group(begin, self.end(), inner)

    def list_or_map(self):
        begin = self.begin()
        self.want("[")
        if self.sees(":") and self.sees("]", by=1):
            self.at += 2
            return MapLiteral(begin, self.end(), [])
        items = [] if self.sees("]") else self.arguments("]")
        self.want("]")
        if any(it.key is not None for it in items):
            return MapLiteral(begin, self.end(), [Entry(it.begin, it.end, it.key, it.value) for it in items])
        return ListLiteral(begin, self.end(), items)

    def made_new(self):
        begin = self.begin()
        self.want("new")
        if self.is_kind("name"):
            kind = self.new_type()
        else:
            raise self.stuck()
        if self.sees("["):
            sizes = []
            while self.took("["):
                sizes += [] if self.sees("]") else self.arguments("]")
                self.want("]")
            return New(begin, self.end(), kind, sizes, is_array=True)
        self.want("(")
        arguments = [] if self.sees(")") else self.arguments(")")
        self.want(")")
        has_body = self.sees("{")
        if has_body:
            self.skip_braces()
        return New(begin, self.end(), kind, arguments, has_body=has_body)

    def new_type(self):
        """The class behind `new`; brackets behind it are the sizes of an array."""
        begin = self.begin()
        self.at += 1
        while self.sees(".") and self.is_kind("name", by=1):
            self.at += 2
        if self.sees("<"):
            end = self.type_arguments_end(self.at) or (self.at + 2 if self.sees(">", by=1) else None)
            if end is None:
                raise self.stuck()
            self.at = end
        return Type(begin, self.end(), self.source[begin : self.end()])

    def skip_braces(self):
        """Goes over `{` up to the `}` that closes it, whatever stands between."""
        depth = 0
        while not self.is_kind("end"):
            depth += change_of_depth(self.take(self.ahead().kind))
            if depth == 0:
                return
        raise self.stuck()

    def gstring(self):
        opening = self.take("open")
        parts = []
        while not self.is_kind("close"):
            begin = self.begin()
            if self.is_kind("part"):
                part = self.take("part")
                parts.append(TextPart(part.begin, part.end, part.value))
            elif self.is_kind("$"):
                self.at += 1
                parts.append(Embedded(begin, self.ahead().end, self.path(), False))
                parts[-1].end = self.end()
            else:
                parts.append(self.embedded())
        self.take("close")
        return GString(opening.begin, self.end(), parts, opening.quote)

    def embedded(self):
        begin = self.begin()
        self.take("${")
        is_lazy = self.took("->")
        if self.sees("}"):
            value = Constant(self.begin(), self.begin(), "null")
        else:
            value = self.whole()
        self.want("}")
        return Embedded(begin, self.end(), value, True, is_lazy)

    def path(self):
        name = self.take("name", "word")
        made = Constant(name.begin, name.end, name.value) if name.kind == "word" else Name(name.begin, name.end, name.value)
        while self.sees(".") and self.ahead(1).kind in ("name", "word") and self.ahead().begin == self.end():
            self.at += 1
            behind = self.identifier("name", "word")
            made = Property(made.begin, behind.end, made, ".", behind)
        return made

    def closure(self):
        begin = self.begin()
        self.want("{")
        parameters = self.heads()
        body = self.statements_up_to_brace(self.end())
        self.want("}")
        return Closure(begin, self.end(), parameters, body)

    def heads(self):
        """The parameters of a closure; None where it has no heads."""
        back = self.at
        self.newlines()
        if self.took("->"):
            return []
        if self.has_arrow():
            parameters = self.parameters("->")
            self.want("->")
            return parameters
        self.at = back
        return None

    def has_arrow(self):
        """Whether `->` stands in front of what ends a statement or begins a block."""
        at = self.at
        while True:
            token = self.token_at(at)
            is_line_end = token.kind == "newline" and self.token_at(at - 1).value != ","
            if is_line_end or token.kind == "end" or token.kind == "sign" and token.value in (";", "{", "}", "->", ")", "]"):
                return token.value == "->"
            at = self.closings.get(at, at) + 1
