"""Reads the statements of a script, and goes on behind what it cannot read."""
from .expressions import Expressions, Stuck, change_of_depth, opens
from .nodes import (Annotated, Annotation, Assert, Block, Break, Case, Catch, ClassDefinition, Continue, Declaration, Declarator, DoWhile,
                    Evaluate, ForIn, ForSteps, Function, If, Import, Labeled, Modifier, Package, Parameter, Return, Script, Switch,
                    Throw, Try, Unreadable, While)
from .tokens import Note, tokens_of

MODIFIERS = frozenset("final static public private protected abstract synchronized transient volatile native strictfp default".split())


class Reader(Expressions):
    def __init__(self, source, tokens):
        super().__init__(source, tokens)
        self.faults, self.notes = [], []

    # --- rows of statements

    def script(self):
        statements = []
        while not self.is_kind("end"):
            if self.separators():
                continue
            if self.sees("}", ")", "]"):
                self.fault(self.at, self.at)
            else:
                self.add_statement(statements)
        return statements

    def separators(self):
        begin = self.at
        while self.is_kind("newline") or self.sees(";"):
            self.at += 1
        return self.at > begin

    def statements_up_to_brace(self, begin, *stops):
        """The statements up to a `}` or a stop, which is not taken; `begin` is where the block begins."""
        statements = []
        self.separators()
        while not self.sees("}", *stops) and not self.is_kind("end"):
            self.add_statement(statements)
            self.separators()
        return Block(begin, self.begin() if self.sees("}") else self.end(), statements)

    def add_statement(self, statements):
        """One statement; where it cannot be read to its end what is left of it becomes a piece of its own."""
        first = self.at
        try:
            statements.append(self.statement())
            first = self.at
            if self.is_kind("name", "text", "open") or self.is_kind("word") and not self.sees("in", "as", "instanceof", "case", "default"):
                self.notes.append(Note("missing separator", self.begin(), self.ahead().end))
            elif not (self.is_kind("newline", "end") or self.sees(";", "}", "case", "default")):
                raise self.stuck()
        except Stuck as stuck:
            statements.append(self.fault(first, stuck.at))
        except RecursionError:
            statements.append(self.fault(first, first))

    def fault(self, first, stuck):
        """Goes on behind what could not be read: at the next newline or `;`, or the `}` that closes the block."""
        self.at, depth = max(first, stuck), 0
        while not self.is_kind("end"):
            if depth == 0 and (self.is_kind("newline") or self.sees(";", "}")) and self.at > first:
                break
            depth = max(0, depth + change_of_depth(self.take(self.ahead().kind)))
        begin = self.token_at(first).begin
        made = Unreadable(begin, max(self.end(), begin), self.token_at(stuck).begin)
        self.faults.append(made)
        return made

    # --- one statement

    def statement(self):
        begin = self.begin()
        if self.sees("@"):
            return self.annotated()
        if self.is_kind("word"):
            read = {
                "import": self.an_import, "package": self.a_package, "if": self.an_if, "while": self.a_while, "do": self.a_do,
                "for": self.a_for, "try": self.a_try, "switch": self.a_switch, "return": self.a_return, "throw": self.a_throw,
                "break": self.a_jump, "continue": self.a_jump, "assert": self.an_assert,
            }.get(self.ahead().value)
            if read is not None:
                return read(begin)
        if self.sees("{"):
            return self.block()
        if self.is_kind("name") and self.sees(":", by=1):
            label = self.identifier()
            self.at += 1
            self.newlines()
            inner = self.statement()
            return Labeled(begin, inner.end, label, inner)
        return self.definition(begin) or self.evaluation(begin)

    def evaluation(self, begin):
        expression = self.whole()
        return Evaluate(begin, expression.end, expression)

    def annotated(self):
        begin, annotations = self.begin(), []
        while self.sees("@") and not self.sees("interface", by=1):
            annotations.append(self.annotation())
            self.newlines()
        inner = None if self.is_kind("end") or self.sees(";", "}") else self.statement()
        return Annotated(begin, self.end() if inner is None else inner.end, annotations, inner)

    def annotation(self):
        begin = self.begin()
        self.want("@")
        name = self.type().name
        arguments = None
        if self.sees("(") and not self.ahead().spaced:
            self.at += 1
            arguments = [] if self.sees(")") else self.arguments(")")
            self.want(")")
        return Annotation(begin, self.end(), name, arguments)

    def an_import(self, begin):
        self.want("import")
        is_static = self.took("static")
        path = self.dotted_path()
        alias = self.identifier().name if self.took("as") else None
        return Import(begin, self.end(), path, is_static, alias)

    def a_package(self, begin):
        self.want("package")
        path = self.dotted_path()
        return Package(begin, self.end(), path)

    def dotted_path(self):
        begin = self.begin()
        self.take("name")
        while self.sees(".", "*."):
            self.at += 1
            if not self.took("*"):
                self.take("name", "word")
        return self.source[begin : self.end()]

    # --- definitions and declarations

    def definition(self, begin):
        """A class, a function or a declaration; None where none begins here."""
        back = self.at
        modifiers = self.modifiers()
        if self.sees("class", "interface", "enum", "trait") or self.sees("@") and self.sees("interface", by=1):
            return self.a_class(begin)
        keyword, kind = "", None
        if self.sees("def", "void"):
            keyword = self.take("word").value
        if self.sees("(") and (keyword == "def" or self.is_tuple_assignment()):
            return self.tuple_declaration(begin, modifiers, keyword)
        if self.has_type(bool(modifiers or keyword)):
            kind = self.type()
        is_begun = keyword or kind or modifiers
        if is_begun and self.is_kind("name", "text") and self.sees("(", by=1) and (keyword or self.is_function()):
            return self.function(begin, modifiers, keyword, kind)
        if is_begun and self.is_kind("name", "word"):
            return self.declaration(begin, modifiers, keyword, kind)
        self.at = back
        return None

    def modifiers(self):
        """The modifiers in front of a definition; a name among them only where a definition goes on behind it."""
        made = []
        while self.ahead().value in MODIFIERS and self.is_kind("name", "word"):
            goes_on = self.is_kind("name", by=1) or self.ahead(1).kind == "word" and self.ahead(1).value not in ("in", "as", "instanceof")
            if not (goes_on or self.sees("@", "(", by=1) and self.ahead().value == "final"):
                break
            token = self.take("name", "word")
            made.append(Modifier(token.begin, token.end, token.value))
            if self.sees("@"):
                self.annotation()
        return made

    def has_type(self, is_sure):
        """Whether a type stands here with a name behind it that it declares."""
        end = self.type_end(self.at)
        if end is None or self.token_at(end).kind != "name":
            return False
        behind = self.token_at(end + 1)
        if is_sure or behind.value == "=" and behind.kind == "sign":
            return True
        if not self.is_class_name(self.at, end):
            return False
        if behind.value == "(" and behind.kind == "sign":
            return self.is_function(end - self.at)
        return behind.kind in ("newline", "end") or behind.value in (";", "}", ",", "in", ":")

    def is_function(self, by=0):
        """Whether the parentheses behind a name are followed by a body."""
        at = self.at + by + 1
        at = self.closings.get(at, at) + 1
        at += self.token_at(at).kind == "newline"
        return self.token_at(at).kind == "sign" and self.token_at(at).value == "{" or self.token_at(at).value == "throws"

    def function(self, begin, modifiers, keyword, kind):
        name = self.identifier("name", "text")
        self.want("(")
        parameters = self.parameters(")")
        self.want(")")
        if self.is_kind("name") and self.ahead().value == "throws":
            self.at += 1
            self.types_between(",")
        self.newlines()
        body = self.block()
        return Function(begin, body.end, modifiers, keyword, kind, name, parameters, body)

    def types_between(self, sign):
        made = [self.type()]
        while self.took(sign):
            made.append(self.type())
        return made

    def parameters(self, closing):
        """The parameters up to the closing sign, which is not taken."""
        made = []
        self.newlines()
        while not self.sees(closing):
            if made:
                self.want(",")
                self.newlines()
            made.append(self.parameter())
            self.newlines()
        return made

    def parameter(self):
        begin, modifiers = self.begin(), []
        while self.sees("@"):
            modifiers.append(self.annotation())
        while self.sees("final", "def"):
            token = self.take("word")
            modifiers.append(Modifier(token.begin, token.end, token.value))
        kind, is_open = None, False
        end = self.type_end(self.at)
        if end is not None and (self.token_at(end).kind == "name" or self.token_at(end).value == "..."):
            kind = self.type()
            is_open = self.took("...")
        name = self.identifier()
        default = None
        if self.took("="):
            self.newlines()
            default = self.choice()
        return Parameter(begin, self.end(), modifiers, kind, name, default, is_open)

    def declaration(self, begin, modifiers, keyword, kind):
        names = [self.declarator()]
        while self.took(","):
            self.newlines()
            names.append(self.declarator())
        return Declaration(begin, self.end(), modifiers, keyword, kind, names)

    def declarator(self):
        name, value = self.identifier("name", "word"), None
        if self.took("="):
            self.newlines()
            value = self.whole()
        return Declarator(name.begin, self.end(), name, value)

    def is_tuple_assignment(self):
        by = 1
        while self.is_kind("name", by=by) and self.sees(",", by=by + 1):
            by += 2
        return by > 1 and self.is_kind("name", by=by) and self.sees(")", by=by + 1) and self.sees("=", by=by + 2)

    def tuple_declaration(self, begin, modifiers, keyword):
        self.want("(")
        names = []
        for part in self.parameters(")"):
            names.append(Declarator(part.begin, part.end, part.name, None, part.type))
        self.want(")")
        value = None
        if self.took("="):
            self.newlines()
            value = self.whole()
        return Declaration(begin, self.end(), modifiers, keyword, None, names, True, value)

    def a_class(self, begin):
        self.took("@")
        word = self.take("word").value
        name = self.identifier().name
        while not self.sees("{"):
            if self.is_kind("end"):
                raise self.stuck()
            self.at += 1
        self.skip_braces()
        return ClassDefinition(begin, self.end(), word, name)

    # --- statements with bodies

    def block(self):
        begin = self.begin()
        self.want("{")
        made = self.statements_up_to_brace(begin)
        self.want("}")
        made.end = self.end()
        return made

    def body(self):
        """A block, or the one statement in its place."""
        self.newlines()
        if self.sees("{"):
            return self.block()
        if self.sees(";"):
            return Block(self.begin(), self.begin(), [], False)
        inner = self.statement()
        return Block(inner.begin, inner.end, [inner], False)

    def tested(self):
        self.want("(")
        test = self.whole()
        self.want(")")
        return test

    def an_if(self, begin):
        self.want("if")
        test, then, otherwise = self.tested(), self.body(), None
        if self.is_else():
            self.want("else")
            by = 1 if self.is_kind("newline") else 0
            if self.sees("if", by=by):
                self.newlines()
                otherwise = self.an_if(self.begin())
            else:
                otherwise = self.body()
        return If(begin, self.end(), test, then, otherwise)

    def is_else(self):
        """Whether `else` goes on, behind newlines and a `;`, which are taken then."""
        back = self.at
        self.separators()
        if self.sees("else"):
            return True
        self.at = back
        return False

    def a_while(self, begin):
        self.want("while")
        test, body = self.tested(), self.body()
        return While(begin, self.end(), test, body)

    def a_do(self, begin):
        self.want("do")
        body = self.body()
        self.separators()
        self.want("while")
        test = self.tested()
        return DoWhile(begin, self.end(), body, test)

    def a_for(self, begin):
        self.want("for")
        self.want("(")
        back = self.at
        each = self.for_in_head()
        if each is not None:
            modifiers, keyword, kind, name, sign = each
            collection = self.whole()
            self.want(")")
            body = self.body()
            return ForIn(begin, self.end(), modifiers, keyword, kind, name, sign, collection, body)
        self.at = back
        first = self.for_part(";")
        test = None if self.sees(";") else self.whole()
        self.want(";")
        following = self.for_part(")")
        body = self.body()
        return ForSteps(begin, self.end(), first, test, following, body)

    def for_in_head(self):
        """What stands up to `in` or `:`; None where this is a `for` with three parts."""
        modifiers, keyword, kind = self.modifiers(), "", None
        if self.sees("def"):
            keyword = self.take("word").value
        end = self.type_end(self.at)
        if end is not None and self.token_at(end).kind == "name":
            kind = self.type()
        if not self.is_kind("name") or not self.sees("in", ":", by=1):
            return None
        return modifiers, keyword, kind, self.identifier(), self.take("word", "sign").value

    def for_part(self, closing):
        made = []
        while not self.took(closing):
            if made:
                self.want(",")
            made.append(self.definition(self.begin()) or self.evaluation(self.begin()))
        return made

    def a_try(self, begin):
        self.want("try")
        self.newlines()
        resources = []
        if self.took("("):
            while not self.took(")"):
                if not self.took(";"):
                    resources.append(self.definition(self.begin()) or self.evaluation(self.begin()))
            self.newlines()
        body, catches, last = self.block(), [], None
        while self.behind_newlines("catch"):
            catches.append(self.a_catch())
        if self.behind_newlines("finally"):
            self.at += 1
            self.newlines()
            last = self.block()
        return Try(begin, self.end(), body, catches, last, resources)

    def a_catch(self):
        begin = self.begin()
        self.want("catch")
        self.want("(")
        self.took("final", "def")
        types = []
        if not (self.is_kind("name") and self.sees(")", by=1)):
            types = self.types_between("|")
        name = self.identifier()
        self.want(")")
        self.newlines()
        body = self.block()
        return Catch(begin, self.end(), types, name, body)

    def a_switch(self, begin):
        self.want("switch")
        subject = self.tested()
        self.newlines()
        self.want("{")
        self.separators()
        cases = []
        while not self.took("}"):
            cases.append(self.a_case())
        return Switch(begin, self.end(), subject, cases)

    def a_case(self):
        begin = self.begin()
        value = None
        if not self.took("default"):
            self.want("case")
            value = self.expression()
        self.want(":")
        body = self.statements_up_to_brace(self.end(), "case", "default")
        return Case(begin, self.end(), value, body.statements)

    # --- statements of one line

    def is_over(self):
        return self.is_kind("newline", "end") or self.sees(";", "}", "else", "case", "default")

    def a_return(self, begin):
        self.want("return")
        value = None if self.is_over() else self.whole()
        return Return(begin, self.end(), value)

    def a_throw(self, begin):
        self.want("throw")
        value = self.whole()
        return Throw(begin, self.end(), value)

    def a_jump(self, begin):
        word = self.take("word").value
        label = self.identifier() if self.is_kind("name") else None
        return (Break if word == "break" else Continue)(begin, self.end(), label)

    def an_assert(self, begin):
        self.want("assert")
        test, message = self.whole(), None
        if self.took(":", ","):
            self.newlines()
            message = self.whole()
        return Assert(begin, self.end(), test, message)


def read(source):
    """The tree of a source, whatever it has."""
    tokens, notes = tokens_of(source)
    reader = Reader(source, tokens)
    statements = reader.script()
    ends = {at: tokens[end].begin for at, end in reader.closings.items()}
    brackets = [(token.begin, ends.get(at)) for at, token in enumerate(tokens) if opens(token)]
    return Script(source, statements, notes + reader.notes, reader.faults, brackets)
