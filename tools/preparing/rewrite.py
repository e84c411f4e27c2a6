"""A file of Groovy, rewritten in the product's language."""
from groovy_reader import nodes as g

from . import arguments
from .calls import Calls
from .declarations import Declarations
from .edits import Edits
from .exceptions import Exceptions
from .findings import Findings
from .jenkins_names import JenkinsNames
from .members import Members
from .names import Names, word_of
from .operators import Operators
from .spelling import simple
from .statements import Statements
from .steps import Steps


class Module:
    """A file whose functions the script calls: `vars/NAME.groovy` of a shared library, or what `load` names."""

    def __init__(self, name, file, script):
        self.name, self.file, self.script = name, file, script
        self.functions = {it.name.name: it for it in functions_of(script)}
        self.has_call = "call" in self.functions

    def name_of(self, function):
        return self.name if function == "call" else f"{self.name}_{function}"


def functions_of(script):
    """The functions of a file, annotated ones too."""
    for it in script.statements:
        inner = it.statement if isinstance(it, g.Annotated) else it
        if isinstance(inner, g.Function):
            yield inner


class Rewriter(Declarations, Statements, Exceptions, Operators, Members, Calls, Steps, JenkinsNames):
    """Goes over the tree of a file, from the outside in, and notes what becomes of its nodes."""

    def __init__(self, context, script, file, module=None):
        self.context, self.script, self.file, self.module = context, script, file, module
        self.source, self.edits, self.found = script.source, Edits(script.source), Findings(script, file)
        self.functions_here = {it.name.name: it for it in functions_of(script)}
        self.own_functions = set(self.functions_here)
        self.names, self.library = Names([script]), context.library
        self.names.assigned |= context.assigned
        self.names.declared -= {"it"}
        self.caught = {it.name.name for it in script.walk() if isinstance(it, g.Catch)}
        self.done, self.skipped, self.as_functions, self.valued, self.added = set(), set(), set(), set(), []
        self.parents = {}
        for statement in script.statements:
            self.keep_parents(statement)

    def keep_parents(self, node):
        for child in node.children():
            self.parents[id(child)] = node
            self.keep_parents(child)

    # --- what the rules use

    def parent(self, node):
        return self.parents.get(id(node))

    def skip(self, node):
        """Leaves a node and all inside it as they are."""
        if node is not None:
            self.skipped |= {id(it) for it in node.walk()}

    def need(self, name, node=None):
        """Takes a function of the library into the script."""
        is_hidden = node is not None and self.is_declared(node, name)
        if node is not None and (name not in self.library or is_hidden):
            self.found.refuse(node, f"the script has a function `{name}` of its own, and this needs the library's: give it another name")
        self.context.needed.add(name)

    def is_variable(self, node, name):
        """Whether a name means a variable at a node: one that is declared around it, or one that is set without `def` anywhere."""
        return self.is_declared(node, name) or name in self.context.assigned

    def is_declared(self, node, name):
        """Whether a variable of a name is declared around a node."""
        inner = node
        while inner is not None:
            around = self.parent(inner)
            if isinstance(around, (g.Function, g.Closure)):
                if any(it.name.name == name for it in around.parameters or []):
                    return True
                if isinstance(around, g.Function):
                    return False
            elif isinstance(around, (g.ForIn, g.Catch)) and around.name.name == name:
                return True
            elif isinstance(around, g.Declaration) and any(it.name.name == name for it in around.names if it.end <= inner.begin):
                return True
            rows = around.statements if isinstance(around, (g.Block, g.Case)) else around.first if isinstance(around, g.ForSteps) else \
                self.script.statements if around is None else []
            if any(name in declared_by(it) for it in rows if it.begin < inner.begin):
                return True
            inner = around
        return False

    def fresh(self, name):
        while True:
            self.context.fresh += 1
            made = f"{name}{self.context.fresh}"
            if made not in self.source:
                return made

    def called(self, function):
        """What a function of this file is called in the prepared script."""
        if self.module is not None and function in self.own_functions:
            return self.module.name_of(function)
        return function

    def rewritten(self, node):
        """The text of a node by the rules, for another place; the node itself is then left as it is."""
        outer, self.edits = self.edits, Edits(self.source)
        self.visit(node)
        text, _ = self.edits.applied(node.begin, node.end)
        self.edits = outer
        self.skip(node)
        return text

    def is_caught(self, name):
        return name in self.context.caught_classes

    def is_ignored(self, argument):
        call = self.parent(argument)
        name = call.what.name if isinstance(call, g.Call) and isinstance(call.what, g.Name) else ""
        return word_of(argument.key) in arguments.IGNORED.get(name, ())

    # --- the way over the tree

    def all(self):
        for note in self.script.notes:
            # A key with other letters is written in quotes.
            if note.kind != "letters of a name" or not any(isinstance(it, g.Identifier) and it.begin == note.begin for it in self.keys()):
                self.found.add("refused", note.begin, note.kind)
        for statement in self.script.statements:
            self.visit(statement)

    def keys(self):
        return [it.key for it in self.script.walk() if isinstance(it, (g.Argument, g.Entry))]

    def visit(self, node):
        """Applies the rule of a node, and then those of the nodes inside it."""
        if id(node) in self.skipped:
            return
        rule = getattr(self, "on_" + type(node).__name__, None)
        if rule is not None:
            rule(node)
        if isinstance(node, g.Call) and isinstance(node.what, g.Name):
            self.skipped.add(id(node.what))
        for child in node.children():
            self.visit(child)

    def on_Property(self, node):
        Members.on_Property(self, node)
        self.a_property(node)

    def on_Index(self, node):
        if isinstance(node.on, g.Name) and node.on.name == "env" and not self.is_variable(node, "env"):
            self.on_index_of_environment(node)
        else:
            Members.on_Index(self, node)

    def on_Evaluate(self, node):
        """The last statement of a function of a type gives its value."""
        body = self.parent(node)
        function = self.parent(body) if isinstance(body, g.Block) else None
        is_last = isinstance(function, g.Function) and function.body is body and body.statements[-1] is node
        if is_last and not isinstance(node.expression, g.Assignment):
            self.as_type(node.expression, function.type)

    def on_Return(self, node):
        around = self.parent(node)
        while around is not None and not isinstance(around, (g.Function, g.Closure)):
            around = self.parent(around)
        if isinstance(around, g.Function) and node.value is not None:
            self.as_type(node.value, around.type)

    def on_Constant(self, node):
        if node.word == "this" and not isinstance(self.parent(node), g.Return):
            self.found.refuse(node, "`this`: functions of the script are called by their names")
        elif node.word == "super":
            self.found.refuse(node, "`super`")


def declared_by(statement):
    return {it.name.name for it in statement.names} if isinstance(statement, g.Declaration) else ()


def caught_classes(scripts):
    return {simple(kind.name) for script in scripts for it in script.walk() if isinstance(it, g.Catch) for kind in it.types}
