"""The walk over expressions: each has a kind where that is plain, and operators, indexes and properties are looked at by kinds."""
from groovy_reader import Closure, Identifier, Index, MapLiteral, Name, Number, Property, Text, TextPart

from . import kinds
from .context import ALL, BROKEN, NOTHING, UNTOLD, Variable
from .differences import METHOD, has_row
from .findings import EXCEPTION
from .kinds import CLOSURE, LIST, MAP, NULL, NUMBER, TEXT, THROWABLE, TRUTH
from .statement_walk import Statements, truth
from .steps import STEPS


# Operators whose value is a truth value, whatever the operands are.
LOGICAL = ("==", "!=", "&&", "||", "in", "!in", "==~", "<", "<=", ">", ">=")


class Values(Statements):
    """Each method `of_..` walks the expressions of one class, and gives the kind of the value."""

    def value(self, node):
        if node is None:
            return None
        walk = getattr(self, "of_" + type(node).__name__.lower(), self.parts)
        kind = self.known[id(node)] = walk(node)
        return None if kind == BROKEN else kind

    def is_broken(self, node):
        """Whether the value of an expression is none, since nothing has the name that it begins with; this was told."""
        return self.known.get(id(node)) == BROKEN

    def kind_of(self, node):
        """The kind of an expression over which the walk went."""
        return None if self.is_broken(node) else self.known.get(id(node))

    def parts(self, node):
        for child in node.children():
            self.any(child)

    def of_number(self, node):
        return NUMBER if node.written.isdigit() else None

    def of_text(self, node):
        return TEXT

    def of_gstring(self, node):
        for part in node.parts:
            if not isinstance(part, TextPart):
                self.value(part.value)
        return TEXT

    def of_constant(self, node):
        return {"true": TRUTH, "false": TRUTH, "null": NULL}.get(node.word)

    def of_group(self, node):
        kind = self.value(node.inner)
        return BROKEN if self.is_broken(node.inner) else kind

    def of_listliteral(self, node):
        for item in node.items:
            self.value(item.value)
        return LIST

    def of_mapliteral(self, node):
        for entry in node.entries:
            if entry.key is not None and not isinstance(entry.key, (Identifier, Text, Number)):
                self.value(entry.key)
            self.value(entry.value)
        return MAP

    def of_closure(self, node):
        """A closure that is kept: where it is called the text does not tell."""
        was, self.in_unknown = self.in_unknown, False
        self.on(UNTOLD, self.given_closure, node)
        self.in_unknown = was
        return CLOSURE

    def given_closure(self, node):
        """A closure that runs where it stands, as the body of a step or what a method calls."""
        self.inside(self.closure_body, node, in_loop=False)
        return CLOSURE

    def argument(self, node):
        """An argument of a call that runs its closures, or those of a map, where it stands."""
        if isinstance(node, Closure):
            self.known[id(node)] = CLOSURE
            return self.given_closure(node)
        if isinstance(node, MapLiteral):
            self.known[id(node)] = MAP
            for entry in node.entries:
                self.argument(entry.value) if isinstance(entry.value, Closure) else self.value(entry.value)
            return MAP
        return self.value(node)

    def closure_body(self, node):
        if node.parameters is None:
            self.scope.names["it"] = Variable("it", node.begin, None)
        for parameter in node.parameters or []:
            self.value(parameter.default)
            self.declare(parameter.name)
        self.statements(node.body.statements)

    def of_new(self, node):
        for argument in node.arguments:
            self.value(argument.value)
        return THROWABLE if node.type.name in ("Exception", "RuntimeException", "Error") else BROKEN

    def of_name(self, node):
        variable = self.scope.find(node.name)
        if variable is not None:
            variable.is_empty = False
            return BROKEN if variable.is_broken else variable.kind
        if not self.is_bound(node.name):
            self.unknown_name(node, node)
            return BROKEN
        return BROKEN if node.name in self.broken_names else None

    def of_choice(self, node):
        self.value(node.test)
        test = truth(node.test)
        then = self.taking(ALL if test is False else NOTHING, self.value, node.then)
        otherwise = self.taking(ALL if test is True else NOTHING, self.value, node.otherwise)
        return then if then == otherwise and node.then is not None else None

    # --- operators

    def of_prefix(self, node):
        kind = self.value(node.operand)
        if node.sign == "!":
            return TRUTH
        if node.sign in ("-", "+") and kind not in (None, NUMBER):
            name = "negative" if node.sign == "-" else "positive"
            self.tell(node, EXCEPTION, name, f"a {kind} has no operator `{node.sign}`")
        return NUMBER if node.sign in ("-", "+") else None

    def of_postfix(self, node):
        kind = self.value(node.operand)
        if isinstance(node.operand, Name):
            self.write(node.operand.name)
        if kind not in (None, NUMBER):
            self.tell(node, EXCEPTION, "plus", f"a {kind} has no operator `{node.sign}`")
        return None

    def of_binary(self, node):
        left = self.value(node.left)
        if node.sign in ("as", "instanceof"):
            return TRUTH if node.sign == "instanceof" else None
        decides = node.sign == "&&" and truth(node.left) is False or node.sign == "||" and truth(node.left) is True
        right = self.taking(ALL if decides else NOTHING, self.value, node.right)
        if node.sign not in LOGICAL and (self.is_broken(node.left) or self.is_broken(node.right)):
            return BROKEN
        if node.sign not in kinds.METHOD_OF_SIGN and node.sign not in ("==", "!=", "&&", "||"):
            return TRUTH if node.sign in ("in", "!in", "==~") else None
        return self.joined(node, node.sign, left, right)

    def joined(self, node, sign, left, right):
        """An operator between values of two kinds."""
        is_good, kind = kinds.joined(sign, left, right)
        if is_good is False:
            owner = {TEXT: "String", LIST: "List"}.get(left)
            key = f"{owner}.{kinds.METHOD_OF_SIGN[sign]}"
            key = key if has_row(METHOD, key) else "operator"
            self.tell(node, EXCEPTION, key, f"no operator `{sign}` takes {shown(left)} and {shown(right)}")
        return kind

    # --- assignments, properties, indexes

    def of_assignment(self, node):
        kind = None
        if self.is_unknown_root(node.target):
            self.unknown_target(node)
        elif node.sign != "=":
            kind = self.value(node.target)
        elif not isinstance(node.target, Name):
            self.target(node.target)
        given = self.value(node.value)
        if node.sign in ("+=", "-=", "*=", "%="):
            given = self.joined(node, node.sign[0], kind, given)
        if isinstance(node.target, Name):
            self.write(node.target.name)
            if self.is_broken(node.value):
                self.broken_names.add(node.target.name)
        return given

    def is_unknown_root(self, target):
        """Whether what is written to is a property of a name that nothing has."""
        name = target.on if isinstance(target, Property) else None
        return isinstance(name, Name) and self.scope.find(name.name) is None and not self.is_bound(name.name)

    def target(self, node):
        """What is written to: the parts that are evaluated before."""
        if isinstance(node, Property):
            kind = self.root(node.on, node)
            if kind not in (None, MAP):
                self.tell(node, EXCEPTION, "property", f"a {kind} takes no property `{self.script.written(node.name)}`")
            return
        if isinstance(node, Index):
            self.grows(node)
            kind = self.value(node.on)
            for item in node.items:
                self.value(item.value)
            if kind not in (None, MAP, LIST):
                self.tell(node, EXCEPTION, "index", f"a {kind} takes nothing by an index")
            return
        self.value(node)

    def grows(self, node):
        """`x[0] = v` where nothing was put into the list x since `def x = []`."""
        variable = self.scope.find(node.on.name) if isinstance(node.on, Name) else None
        if variable is not None and variable.is_empty and node.items and isinstance(node.items[0].value, Number):
            self.tell(node, EXCEPTION, "list-grows", f"`{variable.name}` is an empty list here, and a list does not grow by an index")

    def of_property(self, node):
        kind = self.root(node.on, node)
        name = self.script.written(node.name)
        if not isinstance(node.name, Identifier):
            self.value(node.name)
        elif kinds.has_property(kind, name) is False and not (kind == NULL and node.dot == "?."):
            self.tell(node, EXCEPTION, "property", f"a {kind} has no property `{name}`")
        if self.is_broken(node.on):
            return BROKEN
        return TEXT if kind == THROWABLE and name == "message" else None

    def root(self, on, whole):
        """The kind of what stands before a dot; an unknown name there is told together with what stands behind it."""
        name = on
        while isinstance(name, Property):
            name = name.on
        if isinstance(name, Name) and self.scope.find(name.name) is None and not self.is_bound(name.name):
            self.unknown_name(name, whole)
            self.known[id(on)] = BROKEN
            return None
        return self.value(on)

    def of_index(self, node):
        kind = self.value(node.on)
        given = [self.value(item.value) for item in node.items]
        if isinstance(node.on, Name) and node.on.name in STEPS and self.scope.find(node.on.name) is None:
            return None
        if kind not in (None, LIST, MAP, TEXT):
            self.tell(node, EXCEPTION, "index", f"a {kind} has no index")
        elif kind in (LIST, TEXT) and given and given[0] not in (None, NUMBER) and not is_range(node):
            self.tell(node, EXCEPTION, "index", f"the index of a {kind} is a number")
        return TEXT if kind == TEXT else None


def is_range(index):
    return any(getattr(it.value, "sign", None) in ("..", "..<") for it in index.items)


def shown(kind):
    return "a value" if kind is None else kind if kind == NULL else f"a {kind}"
