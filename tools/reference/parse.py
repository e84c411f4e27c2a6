"""The tree of a script, as the grammar in docs/LANGUAGE.md says, in the tuples that `build.py` runs; or its first fault."""
import contextlib

from tokens import Fault, Token, tokens_of

CLASSES = ("Exception", "RuntimeException", "Error")
CHANGES = ("=", "+=", "-=", "*=", "%=")


class Parser:
    def __init__(self, tokens):
        self.tokens, self.at = tokens, 0
        # The names of each scope around, whether a loop is around, and the faults of scopes that were found.
        self.scopes, self.functions, self.in_loop, self.scope_faults = [set()], set(), False, []

    # --- scopes

    @contextlib.contextmanager
    def scope(self, *names, in_loop=None):
        was = self.in_loop
        self.in_loop = was if in_loop is None else in_loop
        self.scopes.append(set(names))
        yield
        self.scopes.pop()
        self.in_loop = was

    def declared(self, name, names=None):
        """The name of a token that declares it."""
        names = self.scopes[-1] if names is None else names
        if name.value in names:
            kind = "function" if names is self.functions else "name"
            self.scope_faults.append(Fault(f"{kind} already declared", name.at))
        names.add(name.value)
        return name.value

    # --- tokens

    def ahead(self, by=0):
        return self.tokens[min(self.at + by, len(self.tokens) - 1)]

    def is_kind(self, *kinds, by=0):
        return self.ahead(by).kind in kinds

    def sees(self, *signs, by=0):
        return self.ahead(by).kind in ("sign", "word") and self.ahead(by).value in signs

    def fault(self):
        return Fault("unexpected end" if self.is_kind("end") else "unexpected token", self.ahead().at)

    def take(self, kind):
        if not self.is_kind(kind):
            raise self.fault()
        self.at += 1
        return self.tokens[self.at - 1]

    def took(self, *signs):
        """Whether one of these signs or words stood there; it is taken then."""
        if not self.sees(*signs):
            return False
        self.at += 1
        return True

    def want(self, sign):
        if not self.took(sign):
            raise self.fault()

    def newline(self):
        if self.is_kind("newline"):
            self.at += 1

    def separators(self):
        found = False
        while self.is_kind("newline") or self.sees(";"):
            self.at += 1
            found = True
        return found

    # --- statements

    def script(self):
        self.newline()
        parts = [] if self.is_kind("end") or self.sees(";") else [self.top()]
        while self.separators() and parts and not self.is_kind("end"):
            parts.append(self.top())
        if not self.is_kind("end"):
            raise self.fault()
        return parts

    def top(self):
        is_function = self.sees("void") or self.sees("def") and self.is_kind("name", by=1) and self.sees("(", by=2)
        if not is_function:
            return self.statement()
        self.at += 1
        name = self.declared(self.take("name"), self.functions)
        self.want("(")
        parameters = []
        with self.scope(in_loop=False):
            while not self.took(")"):
                if parameters:
                    self.want(",")
                if self.sees("def") or self.is_kind("name") and self.is_kind("name", by=1):
                    self.at += 1
                parameters.append(self.declared(self.take("name")))
            self.newline()
            return ("function", name, parameters, self.in_braces())

    def in_braces(self):
        self.want("{")
        made = self.statements()
        self.want("}")
        return made

    def block(self):
        with self.scope():
            return self.in_braces()

    def statements(self):
        made = []
        self.separators()
        while not self.sees("}"):
            made.append(self.statement())
            if not self.separators():
                break
        return made

    def body(self, in_loop=None):
        self.newline()
        with self.scope(in_loop=in_loop):
            return self.in_braces() if self.sees("{") else [self.simple()]

    def statement(self):
        for word in ("if", "while", "for", "try"):
            if self.took(word):
                return getattr(self, "a_" + word)()
        return self.simple()

    def tested(self):
        self.want("(")
        test = self.expression()
        self.want(")")
        return test

    def a_if(self):
        arms, otherwise = [(self.tested(), self.body())], None
        while otherwise is None and self.took("else"):
            if self.took("if"):
                arms.append((self.tested(), self.body()))
            else:
                otherwise = self.body()
        return ("if", arms, otherwise)

    def a_while(self):
        return ("while", self.tested(), self.body(in_loop=True))

    def a_for(self):
        with self.scope():
            return self.headed_for()

    def headed_for(self):
        self.want("(")
        has_type = self.sees("def") or self.is_kind("name") and self.is_kind("name", by=1)
        name = self.ahead(1 if has_type else 0)
        if name.kind == "name" and (self.sees("in", by=1 + has_type) or has_type and self.sees(":", by=2)):
            self.at += 2 + has_type
            self.declared(name)
            over = self.expression()
            self.want(")")
            return ("each", name.value, over, self.body(in_loop=True))
        first = self.declaration() if has_type or self.sees("def") else self.assignment()
        self.want(";")
        test = self.expression()
        self.want(";")
        following = self.assignment()
        self.want(")")
        return ("steps", first, test, following, self.body(in_loop=True))

    def a_try(self):
        self.newline()
        body, catches, last = self.block(), [], None
        while self.took("catch"):
            self.want("(")
            has_class = self.is_kind("name") and self.is_kind("name", by=1)
            kind = self.ahead().value if has_class else "Exception"
            if has_class:
                if kind not in ("Exception", "Throwable"):
                    self.at += 1
                    raise self.fault()
                self.at += 1
            with self.scope():
                name = self.declared(self.take("name"))
                self.want(")")
                self.newline()
                catches.append((kind == "Throwable", name, self.in_braces()))
        if self.took("finally"):
            self.newline()
            last = self.block()
        elif not catches:
            raise self.fault()
        return ("try", body, catches, last)

    def declaration(self):
        """A declaration with its value, as the head of a `for` has it."""
        self.at += 1
        name = self.declared(self.take("name"))
        self.want("=")
        return ("declare", name, self.whole())

    def assignment(self):
        """An assignment, as the head of a `for` has it."""
        target = self.target(self.suffixed())
        if not target:
            raise self.fault()
        return self.assigned(target) or self.wrong()

    def wrong(self):
        raise self.fault()

    def assigned(self, target):
        """What is done to a target; None where no sign of an assignment stands there."""
        if self.took("++", "--"):
            return ("step", target, 1 if self.tokens[self.at - 1].value == "++" else -1)
        if self.took(*CHANGES):
            return ("assign", target, self.tokens[self.at - 1].value, self.whole())
        return None

    def simple(self):
        if self.took("def"):
            name = self.declared(self.take("name"))
            return ("declare", name, self.whole() if self.took("=") else None)
        if self.is_kind("name") and self.is_kind("name", by=1) and self.sees("=", by=2):
            return self.declaration()
        if self.took("return"):
            is_bare = self.is_kind("newline", "end") or self.sees(";", "}", "else")
            return ("return", None if is_bare else self.whole())
        for word in ("break", "continue"):
            if self.took(word):
                if not self.in_loop:
                    self.scope_faults.append(Fault(f"{word} outside a loop", self.tokens[self.at - 1].at))
                return (word,)
        if self.took("throw"):
            return ("throw", self.expression())
        if self.sees("{"):
            raise self.fault()
        made = self.whole()
        target = self.target(made)
        return target and self.assigned(target) or ("evaluate", made)

    @staticmethod
    def target(made):
        """What an assignment writes to; None where the expression is no target."""
        if made[0] == "name":
            return made
        if made[0] != "suffixed":
            return None
        form, what, *rest = made[2][-1]
        if form == "method" or rest and rest[0]:
            return None
        return (form, ("suffixed", made[1], made[2][:-1]) if made[2][:-1] else made[1], what)

    def whole(self):
        plain = self.is_kind("text", "number", "name", "open", by=1) or self.sees("true", "false", "null", by=1)
        is_call = self.is_kind("name") and plain and not (self.is_kind("name", by=1) and self.sees("=", by=2))
        if is_call:
            name = self.take("name").value
            return ("call", name, self.arguments())
        return self.expression()

    # --- calls

    def is_named(self):
        return self.is_kind("name", "text") and self.sees(":", by=1)

    def arguments(self):
        named, others, has_names = [], [], self.is_named()
        while True:
            if has_names:
                if not self.is_named():
                    # A name or a text could be one of a further argument: what stands behind it is the fault.
                    self.at += self.is_kind("name", "text")
                    raise self.fault()
                name = self.ahead().value
                self.at += 2
                named.append((name, self.expression()))
            else:
                others.append(self.expression())
            if not self.took(","):
                return named, others

    def called(self):
        """The arguments of a call with parentheses or a closure."""
        named, others = [], []
        if self.took("("):
            if not self.sees(")"):
                named, others = self.arguments()
            self.want(")")
        if self.sees("{"):
            others = others + [self.closure()]
        return named, others

    # --- expressions

    def expression(self):
        left = self.logical("or")
        if self.took("?:"):
            return ("default", left, self.expression())
        if self.took("?"):
            then = self.logical("or")
            self.want(":")
            return ("chosen", left, then, self.expression())
        return left

    def logical(self, form):
        sign, inner = ("||", lambda: self.logical("and")) if form == "or" else ("&&", self.equal)
        operands = [inner()]
        while self.took(sign):
            operands.append(inner())
        return (form, operands) if operands[1:] else operands[0]

    def once(self, inner, *signs):
        left = inner()
        if self.took(*signs):
            sign = self.tokens[self.at - 1].value
            return ("joined", sign, left, inner())
        return left

    def chain(self, inner, *signs):
        left = inner()
        while self.took(*signs):
            sign = self.tokens[self.at - 1].value
            left = ("joined", sign, left, inner())
        return left

    def equal(self):
        return self.once(self.relation, "==", "!=")

    def relation(self):
        return self.once(self.span, "<", "<=", ">", ">=")

    def span(self):
        return self.once(self.sum, "..")

    def sum(self):
        return self.chain(self.product, "+", "-")

    def product(self):
        return self.chain(self.signed, "*", "%")

    def signed(self):
        signs = []
        while self.took("!", "-", "+"):
            signs.append(self.tokens[self.at - 1].value)
        made = self.suffixed()
        return ("signed", signs, made) if signs else made

    def suffixed(self):
        made, suffixes = self.primary(), []
        while self.sees(".", "?.", "["):
            suffixes.append(self.suffix())
        return ("suffixed", made, suffixes) if suffixes else made

    def suffix(self):
        if self.took("["):
            index = self.expression()
            self.want("]")
            return ("index", index)
        is_safe = self.sees("?.")
        self.at += 1
        name = self.take("name").value
        if self.sees("(", "{"):
            return ("method", name, is_safe, self.called())
        return ("property", name, is_safe)

    def primary(self):
        if self.is_kind("number", "text"):
            self.at += 1
            return ("literal", self.tokens[self.at - 1].value)
        if self.is_kind("open"):
            return self.text()
        if self.is_kind("name"):
            name = self.take("name").value
            return ("call", name, self.called()) if self.sees("(", "{") else ("name", name)
        for word, value in (("true", True), ("false", False), ("null", None)):
            if self.took(word):
                return ("literal", value)
        if self.took("("):
            inner = self.expression()
            self.want(")")
            return ("group", inner)
        if self.took("["):
            return self.list_or_map()
        if self.sees("{"):
            return self.closure()
        if self.took("new"):
            return self.thrown()
        raise self.fault()

    def thrown(self):
        name = self.ahead()
        if name.kind != "name" or name.value not in CLASSES:
            raise self.fault()
        self.at += 1
        self.want("(")
        message = None if self.sees(")") else self.expression()
        self.want(")")
        return ("new", name.value, message)

    def text(self):
        self.take("open")
        parts = []
        while not self.is_kind("close"):
            if self.is_kind("part"):
                parts.append(self.take("part").value)
            elif self.is_kind("$"):
                self.at += 1
                made, path = ("name", self.take("name").value), []
                while self.took("."):
                    path.append(("property", self.take("name").value, False))
                parts.append(("suffixed", made, path) if path else made)
            else:
                self.take("${")
                parts.append(self.expression())
                self.want("}")
        self.take("close")
        return ("text", parts)

    def list_or_map(self):
        if self.took(":"):
            self.want("]")
            return ("map", [])
        items, entries = [], []
        while not self.took("]"):
            if items or entries:
                self.want(",")
                if self.took("]"):
                    break
            key = None if items else self.key(bool(entries))
            if key is not None:
                entries.append((key, self.expression()))
            else:
                items.append(self.expression())
        return ("map", entries) if entries else ("list", items)

    def key(self, is_sure):
        """The key of an entry, with its `:`; None where an element of a list stands there."""
        back = self.at
        if self.is_kind("name", "text", "number"):
            self.at += 1
            key = ("literal", self.tokens[back].value)
        elif self.is_kind("open"):
            key = ("computed", self.text())
        elif self.took("("):
            key = ("computed", self.expression())
            self.want(")")
        else:
            key = None
        if key is not None and self.took(":"):
            return key
        if is_sure:
            raise self.fault()
        self.at = back
        return None

    def closure(self):
        self.want("{")
        with self.scope(in_loop=False):
            parameters = self.heads()
            if parameters is None:
                self.scopes[-1].add("it")
            body = self.statements()
            self.want("}")
        return ("closure", parameters, body)

    def heads(self):
        """The parameters of a closure; None where it has no heads."""
        if self.took("->"):
            return []
        if self.is_kind("name") and self.sees("->", ",", by=1):
            parameters = [self.declared(self.take("name"))]
            while self.took(","):
                parameters.append(self.declared(self.take("name")))
            self.want("->")
            return parameters
        if (self.sees("def") or self.is_kind("name")) and self.is_kind("name", by=1) and self.sees("->", by=2):
            self.at += 3
            return [self.declared(self.tokens[self.at - 2])]
        return None


def parsed(source):
    """The tree of a script; else its first fault is raised."""
    tokens, lexical = tokens_of(source)
    parser = Parser(tokens if lexical is None else [it for it in tokens if it.at < lexical.at] + [Token("end", None, lexical.at)])
    try:
        tree = parser.script()
    except Fault as fault:
        if lexical is None or fault.kind == "unexpected token":
            raise
    if lexical is not None:
        raise lexical
    if parser.scope_faults:
        raise min(parser.scope_faults, key=lambda fault: fault.at)
    return tree
