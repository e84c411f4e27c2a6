"""The walk over statements: which names they declare, and what of them is reached."""
from groovy_reader import (Block, Call, Closure, Constant, Declaration, Evaluate, GString, Identifier, If, ListLiteral, MapLiteral, Name,
                           Number, Return, Text, Throw, Try, Unreadable)

from .context import ALL, AS_CALLED, EXCEPTIONS, NOTHING, Context
from .findings import REFUSED
from .kinds import CLOSURE, MAP, NULL, NUMBER, TEXT, THROWABLE

# The kinds that a loop's variable has over a collection of a plain kind.
OF_ENTRIES = {TEXT: TEXT, MAP: MAP}


class Statements(Context):
    """Each method `do_..` walks the statements of one class."""

    def statements(self, statements):
        was, is_over = self.takes, False
        for statement in statements:
            self.statement(statement)
            if not is_over and ends(statement):
                is_over, self.takes = True, ALL
        self.takes = was

    def statement(self, node):
        walk = getattr(self, "do_" + type(node).__name__.lower(), None)
        if walk is not None:
            walk(node)
        elif isinstance(node, Unreadable):
            return
        else:
            for child in node.children():
                self.any(child)

    def any(self, node):
        """A statement, a block, an expression or a part of one."""
        if isinstance(node, Block):
            self.block(node)
        elif hasattr(self, "do_" + type(node).__name__.lower()) or type(node).__name__ == "Labeled":
            self.statement(node)
        else:
            self.value(node)

    def block(self, node, in_loop=None):
        self.inside(self.statements, node.statements, in_loop=in_loop)

    do_block = block

    def do_import(self, node):
        """Nothing of it is a value."""

    do_package = do_classdefinition = do_import

    def do_annotated(self, node):
        names = [it.name.rsplit(".", 1)[-1] for it in node.annotations]
        if "Library" in names and isinstance(node.statement, Evaluate):
            return
        if "Field" in names and isinstance(node.statement, Declaration):
            for declarator in node.statement.names:
                self.bound.add(declarator.name.name)
                self.value(declarator.value)
            return
        if node.statement is not None:
            self.statement(node.statement)

    def do_function(self, node):
        was = self.function, self.takes, self.on_executor
        self.function, self.takes = node.name.name if isinstance(node.name, Identifier) else node.name.value, NOTHING
        self.on_executor = AS_CALLED
        self.inside(self.function_body, node, is_function=True, in_loop=False)
        self.function, self.takes, self.on_executor = was

    def function_body(self, node):
        for parameter in node.parameters:
            self.value(parameter.default)
            self.declare(parameter.name)
        self.statements(node.body.statements)

    def do_declaration(self, node):
        if node.is_tuple:
            self.value(node.value)
            for declarator in node.names:
                self.write(declarator.name.name) if not node.keyword and not node.modifiers else self.declare(declarator.name)
            return
        for declarator in node.names:
            kind = NULL if declarator.value is None else self.value(declarator.value)
            self.declare(declarator.name, None if kind == NULL else kind)
            variable = self.scope.names[declarator.name.name]
            variable.is_empty = isinstance(declarator.value, ListLiteral) and not declarator.value.items
            variable.is_broken = declarator.value is not None and self.is_broken(declarator.value)
            variable.closure = declarator.value if variable.kind == CLOSURE and isinstance(declarator.value, Closure) else None

    def do_evaluate(self, node):
        self.value(node.expression)

    def do_if(self, node):
        self.value(node.test)
        self.only_if(truth(node.test) is not False, self.block, node.then)
        if node.otherwise is not None:
            walk = self.do_if if isinstance(node.otherwise, If) else self.block
            self.only_if(truth(node.test) is not True, walk, node.otherwise)

    def do_while(self, node):
        self.value(node.test)
        self.only_if(truth(node.test) is not False, self.block, node.body, True)

    def do_switch(self, node):
        """A `break` in it is no fault of its own: it goes with the `switch`."""
        self.value(node.subject)
        for case in node.cases:
            self.value(case.value)
            self.inside(self.statements, case.statements, in_loop=True)

    def do_dowhile(self, node):
        self.block(node.body, True)
        self.value(node.test)

    def do_forin(self, node):
        kind = self.value(node.collection)
        entries = entry_kind(node.collection, kind)
        self.inside(self.for_in, node, entries)

    def for_in(self, node, kind):
        self.declare(node.name, kind)
        self.only_if(truth(node.collection) is not False, self.block, node.body, True)

    def do_forsteps(self, node):
        self.inside(self.for_steps, node)

    def for_steps(self, node):
        for part in node.first:
            self.statement(part)
        self.value(node.test)
        self.block(node.body, True)
        for part in node.following:
            self.statement(part)

    def do_try(self, node):
        for resource in node.resources:
            self.statement(resource)
        self.taking(max(map(taken_by, node.catches), default=NOTHING), self.block, node.body)
        for caught in node.catches:
            self.inside(self.caught, caught)
        if node.last is not None:
            self.block(node.last)

    def caught(self, node):
        self.declare(node.name, THROWABLE)
        self.statements(node.body.statements)

    def do_break(self, node):
        if not self.in_loop:
            word = type(node).__name__.lower()
            self.tell(node, REFUSED, f"{word}-outside-a-loop", f"`{word}` stands in no loop of its own function or closure",
                      "`return`, where the body is a closure")

    do_continue = do_break


def taken_by(catch):
    """What a catch takes and does not throw on."""
    if any(isinstance(it, Throw) or is_error(it) for it in catch.body.walk()):
        return NOTHING
    return ALL if any(kind.name == "Throwable" for kind in catch.types) else EXCEPTIONS


def is_error(node):
    """Whether this is a call of the step `error`."""
    return isinstance(node, Call) and isinstance(node.what, Name) and node.what.name == "error"


def truth(node):
    """Whether an expression is true, where it is written down; else None."""
    if isinstance(node, Constant):
        return {"true": True, "false": False, "null": False}.get(node.word)
    if isinstance(node, Text):
        return node.value != ""
    if isinstance(node, Number) and node.written.isdigit():
        return int(node.written) != 0
    if isinstance(node, (ListLiteral, MapLiteral)):
        return bool(node.items if isinstance(node, ListLiteral) else node.entries)
    return None


def ends(statement):
    """Whether nothing behind a statement is reached."""
    if isinstance(statement, Evaluate):
        return is_error(statement.expression)
    if isinstance(statement, Try):
        return any(isinstance(it, Return) for it in statement.body.statements)
    if isinstance(statement, If):
        return statement.otherwise is not None and ends_always(statement.then) and ends_always(statement.otherwise)
    return isinstance(statement, (Return, Throw)) or type(statement).__name__ in ("Break", "Continue")


def ends_always(part):
    return ends(part) if isinstance(part, If) else any(map(ends, part.statements))


def entry_kind(collection, kind):
    """The kind of the entries of what a loop goes over."""
    if getattr(collection, "sign", None) in ("..", "..<"):
        return NUMBER
    if isinstance(collection, ListLiteral) and collection.items:
        if all(isinstance(it.value, (Text, GString)) for it in collection.items):
            return TEXT
        if all(isinstance(it.value, Number) for it in collection.items):
            return NUMBER
    return OF_ENTRIES.get(kind)
