"""The tree of Groovy source. Each node has its place: the characters from `begin` up to `end`, without blanks around it."""
from dataclasses import dataclass, field, fields
from typing import Any, List, Optional


@dataclass
class Node:
    begin: int
    end: int

    def children(self):
        """The nodes directly inside this one, in the order of their fields."""
        for it in fields(self):
            yield from nodes_in(getattr(self, it.name))

    def walk(self):
        """This node and all nodes inside it, an outer one before its inner ones."""
        yield self
        for child in self.children():
            yield from child.walk()


def nodes_in(value):
    if isinstance(value, Node):
        yield value
    elif isinstance(value, (list, tuple)):
        for item in value:
            yield from nodes_in(item)


# --- parts of statements and expressions


@dataclass
class Identifier(Node):
    """A declared or called name, or one behind a dot."""

    name: str


@dataclass
class Type(Node):
    """A class name as it is written, with dots, arguments and brackets: `Map<String, List<Integer>>`, `int[]`."""

    name: str


@dataclass
class Annotation(Node):
    """`@NonCPS`, `@Library('x')`; arguments are None where there are no parentheses."""

    name: str
    arguments: Optional[List["Argument"]]


@dataclass
class Modifier(Node):
    """`final`, `static`, `public` and such."""

    word: str


@dataclass
class Parameter(Node):
    modifiers: List[Node]
    type: Optional[Type]
    name: Identifier
    default: Optional[Node]
    is_open: bool = False  # `String... names`


@dataclass
class Argument(Node):
    """An argument of a call: with a name (`key` is an Identifier, a Text or another key), or without; `*list` is spread."""

    key: Optional[Node]
    value: Node
    is_spread: bool = False


@dataclass
class Entry(Node):
    """An entry of a map; `*: map` has the key None."""

    key: Optional[Node]
    value: Node


# --- expressions


@dataclass
class Number(Node):
    written: str


@dataclass
class Text(Node):
    """A text without an expression: the characters that it stands for, and its opening, as `'` or `\"\"\"` or `/`."""

    value: str
    quote: str


@dataclass
class TextPart(Node):
    """Plain characters of a text with expressions."""

    value: str


@dataclass
class GString(Node):
    """A text with expressions: TextParts and expressions. `has_braces` tells of each expression whether it stands in `${ }`."""

    parts: List[Node]
    quote: str


@dataclass
class Embedded(Node):
    """`${ expression }` or `$name.name` in a text; `is_lazy` for `${ -> expression }`."""

    value: Node
    has_braces: bool
    is_lazy: bool = False


@dataclass
class Constant(Node):
    """`true`, `false`, `null`, `this`, `super`."""

    word: str


@dataclass
class Name(Node):
    name: str


@dataclass
class Group(Node):
    inner: Node


@dataclass
class ListLiteral(Node):
    items: List[Argument]


@dataclass
class MapLiteral(Node):
    entries: List[Entry]


@dataclass
class Block(Node):
    """Statements in braces, braces included; or a body without them, which is one statement."""

    statements: List[Node]
    has_braces: bool = True


@dataclass
class Closure(Node):
    """`parameters` is None where it has no heads. `body` goes from behind `{` or `->` up to `}`."""

    parameters: Optional[List[Parameter]]
    body: Block


@dataclass
class Property(Node):
    """`on.name`; `dot` is `.`, `?.`, `*.`, `.&` or `.@`; `name` is an Identifier, or a text or an expression."""

    on: Node
    dot: str
    name: Node


@dataclass
class Index(Node):
    on: Node
    items: List[Argument]


@dataclass
class Call(Node):
    """A call: `what` is a Name, a Property or any expression. `form` is "parentheses", "closure" or "command" (`echo 'x'`).

    Closures behind the parentheses are the last `trailing` of the arguments.
    """

    what: Node
    arguments: List[Argument]
    form: str
    trailing: int = 0


@dataclass
class Prefix(Node):
    """`!a`, `-a`, `+a`, `~a`, `++a`, `--a`."""

    sign: str
    operand: Node


@dataclass
class Postfix(Node):
    """`a++`, `a--`."""

    operand: Node
    sign: str


@dataclass
class Binary(Node):
    """Two operands; `sign` may be a word: `in`, `instanceof`, `as` (whose right operand is a Type), `!in`. `sign_at` is its place."""

    left: Node
    sign: str
    right: Node
    sign_at: int = 0


@dataclass
class Choice(Node):
    """`test ? then : otherwise`, or `test ?: otherwise` with `then` None."""

    test: Node
    then: Optional[Node]
    otherwise: Node


@dataclass
class Assignment(Node):
    target: Node
    sign: str
    value: Node
    sign_at: int = 0


@dataclass
class Cast(Node):
    type: Type
    operand: Node


@dataclass
class New(Node):
    """`new T(arguments)`; `has_body` for an anonymous class, `is_array` for `new T[n]`."""

    type: Type
    arguments: List[Argument]
    is_array: bool = False
    has_body: bool = False


@dataclass
class Unreadable(Node):
    """Source that is no Groovy, or none that this reader knows; `fault` is the place of the token at which it stopped."""

    fault: int


# --- statements


@dataclass
class Import(Node):
    path: str
    is_static: bool
    alias: Optional[str]


@dataclass
class Package(Node):
    path: str


@dataclass
class ClassDefinition(Node):
    """A class, interface, enum or trait; its members are not read."""

    word: str
    name: str


@dataclass
class Function(Node):
    """`type` is None for `def` alone; `keyword` is `def` or `void` or empty."""

    modifiers: List[Node]
    keyword: str
    type: Optional[Type]
    name: Identifier
    parameters: List[Parameter]
    body: Block


@dataclass
class Declarator(Node):
    """One name of a declaration with its value; in `def (a, int b) = e` with its type."""

    name: Identifier
    value: Optional[Node]
    type: Optional[Type] = None


@dataclass
class Declaration(Node):
    """`def a = 1, b`, `final String s`; of a tuple (`def (a, b) = e`) the value is in `value`."""

    modifiers: List[Node]
    keyword: str
    type: Optional[Type]
    names: List[Declarator]
    is_tuple: bool = False
    value: Optional[Node] = None


@dataclass
class Evaluate(Node):
    """An expression as a statement, assignments and calls among them."""

    expression: Node


@dataclass
class Annotated(Node):
    """Annotations in front of a statement: `@Library('x') _`, `@Field def x = 1`, `@NonCPS def f() { }`. `statement` may be None."""

    annotations: List[Annotation]
    statement: Optional[Node]


@dataclass
class If(Node):
    test: Node
    then: Block
    otherwise: Optional[Node]  # a Block, or an If for `else if`


@dataclass
class While(Node):
    test: Node
    body: Block


@dataclass
class DoWhile(Node):
    body: Block
    test: Node


@dataclass
class ForIn(Node):
    """`for (x in c)`, `for (T x : c)`; `sign` is `in` or `:`."""

    modifiers: List[Node]
    keyword: str
    type: Optional[Type]
    name: Identifier
    sign: str
    collection: Node
    body: Block


@dataclass
class ForSteps(Node):
    """`for (first; test; following)`: statements, of which each may be missing."""

    first: List[Node]
    test: Optional[Node]
    following: List[Node]
    body: Block


@dataclass
class Catch(Node):
    """`types` is empty for `catch (e)`."""

    types: List[Type]
    name: Identifier
    body: Block


@dataclass
class Try(Node):
    body: Block
    catches: List[Catch]
    last: Optional[Block]
    resources: List[Node] = field(default_factory=list)


@dataclass
class Case(Node):
    """`case value:`; `default:` has the value None."""

    value: Optional[Node]
    statements: List[Node]


@dataclass
class Switch(Node):
    subject: Node
    cases: List[Case]


@dataclass
class Return(Node):
    value: Optional[Node]


@dataclass
class Throw(Node):
    value: Node


@dataclass
class Break(Node):
    label: Optional[Identifier]


@dataclass
class Continue(Node):
    label: Optional[Identifier]


@dataclass
class Assert(Node):
    test: Node
    message: Optional[Node]


@dataclass
class Labeled(Node):
    label: Identifier
    statement: Node


@dataclass
class Script:
    """A source with its statements and what was wrong on the way.

    `notes` are faults of characters (tokens.Note); `faults` are places at which the reader found no Groovy, with the piece of source
    that it went over (nodes of Unreadable). `brackets` has the places of each opening bracket and of what closes it, or None.
    """

    source: str
    statements: List[Node]
    notes: List[Any]
    faults: List[Unreadable]
    brackets: List[Any] = field(default_factory=list)

    def walk(self):
        for statement in self.statements:
            yield from statement.walk()

    def written(self, node):
        """The source of a node."""
        return self.source[node.begin : node.end]

    def bracket_around(self, at):
        """The place of the innermost bracket that is open at a character; None where none is."""
        return max((begin for begin, end in self.brackets if begin < at and (end is None or at <= end)), default=None)

    def place(self, at):
        """The line and the column of a character, both counted from 1; a byte order mark is no character of the first line."""
        front = self.source[:at]
        line = front.count("\n") + 1
        mark = line == 1 and self.source.startswith("\ufeff")
        return line, at - (front.rfind("\n") + 1) + 1 - mark
