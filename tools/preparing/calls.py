"""What calls of functions, of steps and of methods become, and the forms of their arguments."""
from groovy_reader import nodes as g

from . import arguments, library
from .names import is_plain, word_of
from .spelling import literal
from .words import STEPS


# Functions of the library whose commands read the environment, as they do in Jenkins; the others do what Jenkins does by itself.
WITH_ENVIRONMENT = ("checkout", "git")


class Calls:
    """Rules of a Rewriter on calls."""

    def on_Call(self, node):
        """A call by what is called, and then the forms of its arguments."""
        what = node.what
        if isinstance(what, g.Property):
            self.a_call_of_property(node)
        elif isinstance(what, g.Name):
            self.a_call_of_name(node)
        elif isinstance(what, (g.Call, g.Index, g.Group, g.Closure, g.Constant)):
            self.edits.behind(what.end, ".call")
        self.arguments_in_order(node)
        self.in_parentheses(node)

    def a_call_of_property(self, node):
        """`a.b(..)`: of a file of functions, of a variable of Jenkins, or a method."""
        what = node.what
        on = what.on
        if isinstance(on, g.Name) and on.name == "steps" and not self.is_variable(node, "steps") or isinstance(on, g.Constant) and on.word == "this":
            self.edits.replace(on.begin, what.name.begin, "")
            self.skip(on)
            self.skip(what)
            self.a_call_of_name(node, what.name.name)
        elif isinstance(on, g.Name) and self.is_of_module(on.name, what.name):
            self.a_call_of_module(node, on.name, what.name.name)
        elif isinstance(on, g.Name) and on.name == "env" and not self.is_variable(node, "env"):
            self.found.refuse(node, f"`env.{word_of(what.name) or '..'}(..)`: read and set `env.NAME`")
        elif isinstance(on, g.Name) and on.name == "currentBuild" and not self.is_variable(node, "currentBuild"):
            self.a_call_of_build(node)
        elif not self.is_thrown_causes(what) and (origin(on) is None or not self.is_unknown(origin(on))):
            self.a_method(node)

    def is_of_module(self, module, name):
        """Whether a file of functions has one of that name."""
        return module in self.context.modules and word_of(name) in self.context.modules[module].functions

    def a_call_of_module(self, node, module, name):
        what = node.what
        number = self.number_of_arguments(node)
        self.edits.replace(what.begin, what.end, self.for_arguments(self.context.modules[module].name_of(name), name, number, node, module))
        self.skip(what)

    def a_call_of_build(self, node):
        if word_of(node.what.name) == "getPreviousBuild" and not node.arguments:
            self.edits.replace(node.begin, node.end, "null")
            self.found.changed(node, "`currentBuild.getPreviousBuild()` is null: a build of a folder is its first")
        else:
            self.found.refuse(node, f"`currentBuild.{word_of(node.what.name) or '..'}(..)`")

    def a_call_of_name(self, node, name=None):
        """A call of a function, a step, or a function of the library."""
        name = name or node.what.name
        if self.is_variable(node, name):
            return
        if name in self.own_functions or name in self.context.modules and self.context.modules[name].has_call:
            self.a_call_of_function(node, name)
        elif name in self.context.dropped:
            self.a_dropped_call(node, name)
        elif name == "pipeline":
            self.found.refuse(node, "a Declarative Pipeline: write its stages as a scripted one")
            self.skip(node)
        elif name in library.PUBLIC:
            self.a_call_of_library(node, name)
        elif hasattr(self, "step_" + name):
            getattr(self, "step_" + name)(node)
        elif name not in STEPS and self.is_of_windows(node):
            self.found.note(node, f"`{name}` is not reached: all agents are Unix")
        elif name not in STEPS:
            self.found.refuse(node, f"nothing has the step or function `{name}`: give a function by `--vars`, or leave it out by `--drop {name}`")

    def a_call_of_library(self, node, name):
        """A step of Jenkins that a function of the library does, with the arguments that it knows."""
        for entry, what in arguments.refused(node, name):
            self.found.refuse(entry, what)
        if name in arguments.NOTES and name not in self.context.noted:
            self.context.noted.add(name)
            self.found.note(node, f"`{name}`: {arguments.NOTES[name]}")
        if name in WITH_ENVIRONMENT:
            self.with_set_variables(node)
        own = getattr(self, "step_" + name, None)
        if own is not None:
            own(node)
        else:
            self.need(name, node)

    def with_set_variables(self, node):
        """The shell steps of a call get the variables that the script sets by `env`."""
        if self.context.set_names:
            self.need("environmentSet", node)
            names = ", ".join(map(literal, sorted(self.context.set_names)))
            self.edits.around(node, f"withEnv(environmentSet([{names}])) {{ ", " }")

    def is_of_windows(self, node):
        """Whether a node stands where `isUnix()` is false."""
        inner = node
        while self.parent(inner) is not None:
            around = self.parent(inner)
            if isinstance(around, g.If):
                test = self.source[around.test.begin : around.test.end].replace(" ", "")
                if test == "isUnix()" and inner is around.otherwise or test == "!isUnix()" and inner is around.then:
                    return True
            inner = around
        return False

    def a_call_of_function(self, node, name):
        number = self.number_of_arguments(node)
        module = name if name in self.context.modules and name not in self.own_functions else None
        to = self.for_arguments(self.called(name), "call" if module else name, number, node, module)
        if to != name:
            self.edits.replace(node.what.begin, node.what.end, to)

    def number_of_arguments(self, node):
        keys = sum(it.key is not None for it in node.arguments)
        return len(node.arguments) - max(0, keys - 1)

    def for_arguments(self, to, name, number, node, module):
        """The function to call for a number of arguments, where some may be left out."""
        functions = self.context.modules[module].functions if module else self.functions_here
        function = functions.get(name)
        if function is None or len(function.parameters) == number:
            return to
        defaults = sum(it.default is not None for it in function.parameters)
        if len(function.parameters) - defaults <= number < len(function.parameters):
            return f"{to}With{number}"
        if not (number == 0 and len(function.parameters) == 1):
            self.found.refuse(node, f"`{name}` takes {len(function.parameters)} argument(s), and {number} are given")
        return to

    # --- the forms of calls

    def arguments_in_order(self, node):
        """Named arguments stand first, as one map, where others stand before them."""
        written = node.arguments[: len(node.arguments) - node.trailing]
        keys = [it.key is not None for it in written]
        if not any(keys) or all(keys) or isinstance(node.what, g.Name) and node.what.name in ("pipeline",):
            return
        if not all(is_plain(it.value) or isinstance(it.value, (g.Closure, g.GString, g.MapLiteral)) for it in written):
            self.found.refuse(node, "named arguments behind others: write them first, `f([a: 1], x)`")
            return
        first = written[0]
        if keys[0]:
            last = max(at for at, is_key in enumerate(keys) if is_key)
            if all(keys[: last + 1]):
                self.edits.around(g.Node(first.begin, written[last].end), "[", "]")
                return
        self.found.changed(node, "named arguments become a map in front of the others")
        moved = [self.rewritten(it) for it in written if it.key is not None]
        if any("\n" in it for it in moved):
            self.found.refuse(node, "named arguments of several lines behind others: write them first, `f([a: 1], x)`")
            return
        self.edits.before(first.begin, f"[{', '.join(moved)}], ")
        for at, it in enumerate(written):
            if it.key is not None:
                self.edits.replace(written[at - 1].end if at else it.begin, it.end, "")

    def in_parentheses(self, node):
        """A call without parentheses where the language does not read one."""
        if node.form != "command" or not node.arguments:
            return
        parent, first = self.parent(node), node.arguments[0]
        is_whole = isinstance(parent, (g.Evaluate, g.Declarator, g.Assignment, g.Return)) and id(node) not in self.valued
        is_word = isinstance(first.value, (g.Text, g.Name, g.Number, g.GString, g.Constant, g.Call, g.Property, g.Binary, g.Closure, g.Choice))
        is_word = is_word and (first.key is not None or self.source[first.begin] not in "[({!-+~" and not is_turned(first.value))
        if is_whole and is_word and isinstance(node.what, g.Name):
            return
        if id(node) in self.as_functions:
            return
        self.edits.replace(node.what.end, first.begin, "(")
        self.edits.behind(node.end, ")")
        self.found.changed(node, "a call gets parentheses")


def origin(node):
    """The name with which a chain of properties and methods begins; None of another value."""
    while isinstance(node, (g.Property, g.Index)) or isinstance(node, g.Call) and isinstance(node.what, g.Property):
        node = node.what.on if isinstance(node, g.Call) else node.on
    return node if isinstance(node, g.Name) else None


def is_turned(node):
    """Whether what comes first in an expression is written behind the rest, as the value that a list is asked for."""
    while isinstance(node, (g.Binary, g.Choice)):
        if isinstance(node, g.Binary) and node.sign in ("in", "!in"):
            return True
        node = node.left if isinstance(node, g.Binary) else node.test
    return False
