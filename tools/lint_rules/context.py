"""Where a walk over a script stands: scopes, what takes a throwable, whether a statement runs on an executor; and what it found.

The walk goes over the script as a build would, as far as the text tells. What would be thrown inside a `try` or a `catchError` that takes
it is a warning; so is what stands in a function that nothing calls, or behind a `return`.
"""
from groovy_reader import Annotated, Function, Identifier

from .findings import ERROR, EXCEPTION, REFUSED, WARNING, Finding

# What takes a throwable: nothing, a catch of exceptions, or one of all.
NOTHING, EXCEPTIONS, ALL = 0, 1, 2
# Whether a statement runs on an executor: it does not, it does, it does where its function is called so, or the text does not tell.
OUTSIDE, INSIDE, AS_CALLED, UNTOLD = "outside", "inside", "as called", "untold"
# The kind of what begins with a name that nothing has: nothing more is told of it.
BROKEN = "broken"


class Variable:
    """A declared name: where, and of which kind where nothing writes it again."""

    def __init__(self, name, at, kind):
        self.name, self.at, self.kind = name, at, kind
        # Whether it is a list into which nothing was put since its declaration; the closure that it is.
        self.is_empty, self.closure, self.is_broken = False, None, False


class Scope:
    """The names of a block, a `for` head, a catch, a function or a closure. `is_function` hides those around it."""

    def __init__(self, around=None, is_function=False):
        self.around, self.is_function, self.names = around, is_function, {}

    def find(self, name):
        scope = self
        while scope is not None:
            if name in scope.names:
                return scope.names[name]
            scope = None if scope.is_function else scope.around
        return None


class Context:
    """The state of one walk. The first walk learns what is written and called; the second one, which has `learnt`, tells."""

    def __init__(self, script, learnt=None):
        self.script, self.learnt = script, learnt
        self.functions = {it.name.name: it for it in functions_of(script)}
        # Names that the script sets without a declaration, the places of declarations that are written again, and the calls
        # of functions, each with the function around it and what takes its throwables.
        self.bound, self.written, self.calls = set(), set(), []
        self.declared_anywhere = {}
        # Those of the names whose value begins with a name that nothing has.
        self.broken_names = set()
        # Whether the walk is among the arguments of a step that nothing has, which has to be written anew as a whole.
        self.in_unknown = False
        self.scope, self.in_loop, self.takes, self.function, self.on_executor = Scope(), False, NOTHING, None, OUTSIDE
        self.found = []
        # The kinds of expressions, by the identity of their nodes.
        self.known = {}
        # Steps that need a node, and run on an executor only where their function is called so.
        self.needing = []

    def run(self):
        names = set()
        for function in functions_of(self.script):
            if function.name.name in names:
                self.tell(function.name, REFUSED, "function-declared", f"the function `{function.name.name}` is declared twice",
                          "one function for each name")
            names.add(function.name.name)
        self.statements(self.script.statements)
        return self

    # --- findings

    def tell(self, node, stage, key, what, instead=None):
        self.found.append((self.function, self.takes, Finding(node.begin, node.end, stage, key, what, instead)))

    def findings(self):
        """The findings, each as a warning where what it throws is taken or never comes."""
        takes = self.takes_of_functions()
        for function, around, finding in self.found + self.without_a_node():
            takes_all = max(around, takes.get(function, NOTHING))
            is_taken = finding.stage == EXCEPTION and takes_all >= EXCEPTIONS or finding.stage == ERROR and takes_all >= ALL
            if is_taken:
                finding.stage = WARNING
            yield finding

    def takes_of_functions(self):
        """What takes the throwables of each function, wherever it is called."""
        takes = {name: ALL for name in self.functions}
        for _ in range(len(takes) + 1):
            for name in takes:
                sites = [max(around, takes.get(function, NOTHING)) for function, around, called, _ in self.calls if called == name]
                takes[name] = min(sites, default=ALL)
        return takes

    def without_a_node(self):
        """The steps that need a node, in functions that are called outside of one."""
        called_outside = set()
        for _ in range(len(self.functions) + 1):
            for function, _, called, on_executor in self.calls:
                if on_executor == OUTSIDE or on_executor == AS_CALLED and function in called_outside:
                    called_outside.add(called)
        return [it for it in self.needing if it[0] in called_outside]

    # --- where the walk stands

    def inside(self, walk, *arguments, is_function=False, in_loop=None):
        """Walks inside a new scope."""
        was = self.scope, self.in_loop
        self.scope = Scope(self.scope, is_function)
        self.in_loop = self.in_loop if in_loop is None else in_loop
        walk(*arguments)
        self.scope, self.in_loop = was

    def taking(self, takes, walk, *arguments):
        """Walks where something takes what is thrown."""
        was, self.takes = self.takes, max(self.takes, takes)
        made = walk(*arguments)
        self.takes = was
        return made

    def only_if(self, comes, walk, *arguments):
        """Walks what a build comes to, or what it never does, where nothing can be thrown."""
        self.taking(NOTHING if comes else ALL, walk, *arguments)

    def on(self, on_executor, walk, *arguments):
        """Walks what runs on an executor, or does not."""
        was, self.on_executor = self.on_executor, on_executor
        made = walk(*arguments)
        self.on_executor = was
        return made

    # --- names

    def declare(self, name, kind=None):
        """Declares the name of an Identifier."""
        if name.name in self.scope.names:
            what = f"`{name.name}` is already declared in this scope"
            self.tell(name, REFUSED, "name-declared", what, "it without `def`, or another name")
        is_written = self.learnt is not None and name.begin in self.learnt.written
        self.scope.names[name.name] = Variable(name.name, name.begin, None if is_written or self.learnt is None else kind)
        self.declared_anywhere.setdefault(name.name, name.begin)

    def write(self, name):
        """A name is written without a declaration."""
        variable = self.scope.find(name)
        if variable is None:
            self.bound.add(name)
        else:
            self.written.add(variable.at)

    def is_bound(self, name):
        return self.learnt is None or name in self.learnt.bound


def functions_of(script):
    """The functions at the top level, those behind annotations among them."""
    for statement in script.statements:
        inner = statement.statement if isinstance(statement, Annotated) else statement
        if isinstance(inner, Function) and isinstance(inner.name, Identifier):
            yield inner
