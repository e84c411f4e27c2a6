"""The names of scripts: what they declare, which functions they have, and what is plain of the kinds of their variables."""
from groovy_reader.nodes import (Annotated, Assignment, Binary, Call, Catch, Choice, Closure, Constant, Declaration, ForIn, Function, Group,
                                 GString, Identifier, ListLiteral, MapLiteral, Name, Number, Parameter, Property, Text)

# Methods that give a text, or a list, whatever they are called on.
TEXTS = frozenset("trim toString replace toUpperCase toLowerCase substring join capitalize".split())
LISTS = frozenset("tokenize readLines collect keySet values split withIndex toList sort flatten".split())


class Names:
    """The names of all scripts that become one: the Jenkinsfile and the files whose functions it calls."""

    def __init__(self, trees):
        self.functions, self.declared, self.assigned, self.fields, self.values = {}, set(), set(), set(), {}
        # The types with which a name is declared; None for each declaration without one.
        self.types = {}
        for tree in trees:
            for node in tree.walk():
                self.take(node)

    def take(self, node):
        """Takes the names that one node declares or sets."""
        if isinstance(node, Function):
            self.functions.setdefault(node.name.name, []).append(node)
        elif isinstance(node, (Parameter, Catch, ForIn)):
            self.declare(node.name.name, None)
            self.types.setdefault(node.name.name, []).append(None if isinstance(node, Catch) else node.type)
        elif isinstance(node, Declaration):
            for it in node.names:
                self.declare(it.name.name, it.value)
                self.types.setdefault(it.name.name, []).append(it.type or node.type)
        elif isinstance(node, Assignment) and isinstance(node.target, Name):
            self.assigned.add(node.target.name)
            if node.sign == "=":
                self.values.setdefault(node.target.name, []).append(node.value)
        elif isinstance(node, Annotated) and any(it.name.split(".")[-1] == "Field" for it in node.annotations):
            self.fields |= {it.name.name for it in node.statement.names} if isinstance(node.statement, Declaration) else set()

    def declare(self, name, value):
        self.declared.add(name)
        self.values.setdefault(name, []).append(value)

    def has_texts(self, node, depth=0):
        """Whether a value can only be a list of texts."""
        if isinstance(node, ListLiteral):
            return all(self.kind(it.value) == "text" for it in node.items)
        if isinstance(node, Name) and depth < 4:
            values = self.values.get(node.name, [])
            return bool(values) and all(value is not None and self.has_texts(value, depth + 1) for value in values)
        return isinstance(node, Call) and isinstance(node.what, Property) and word_of(node.what.name) in ("tokenize", "readLines", "split")

    def kind(self, node, depth=0):
        """'text', 'list', 'map', 'number' or 'closure' where a value can only be of that kind; else None."""
        if isinstance(node, Group):
            return self.kind(node.inner, depth)
        for form, kind in ((Text, "text"), (GString, "text"), (ListLiteral, "list"), (MapLiteral, "map"), (Number, "number"), (Closure, "closure")):
            if isinstance(node, form):
                return kind
        if isinstance(node, Name) and depth < 4:
            kinds = {self.kind(value, depth + 1) for value in self.values.get(node.name, [None])}
            return kinds.pop() if len(kinds) == 1 else None
        if isinstance(node, Binary):
            if node.sign in ("..", "..<"):
                return "list"
            return self.kind(node.left, depth) if node.sign == "+" and self.kind(node.left, depth) in ("text", "list") else None
        if isinstance(node, Choice) and node.then is not None:
            kinds = {self.kind(node.then, depth), self.kind(node.otherwise, depth)}
            return kinds.pop() if len(kinds) == 1 else None
        if isinstance(node, Call) and isinstance(node.what, Property):
            name = word_of(node.what.name)
            return "text" if name in TEXTS else "list" if name in LISTS else None
        return None


def word_of(node):
    """The word of a name that is written as one; None of a name that is written as a text, and of another node."""
    return node.name if isinstance(node, (Identifier, Name)) else None


def key_of(node):
    """The name of an argument or an entry, written as a word or as a text."""
    return node.value if isinstance(node, Text) else word_of(node)


def is_of(node, name):
    """Whether a node is a property or a method of the variable with this name."""
    return isinstance(node, Property) and isinstance(node.on, Name) and node.on.name == name


def is_call_of(node, name):
    """Whether a node calls the function or step of this name."""
    return isinstance(node, Call) and isinstance(node.what, Name) and node.what.name == name


def is_plain(node):
    """Whether the evaluation of an expression does nothing else, so that it may come earlier or later."""
    return isinstance(node, (Text, Number, Constant, Name)) or isinstance(node, Group) and is_plain(node.inner) \
        or isinstance(node, ListLiteral) and all(is_plain(it.value) for it in node.items) \
        or isinstance(node, Property) and node.dot in (".", "?.") and is_plain(node.on)
