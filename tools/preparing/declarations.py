"""What of Groovy's declarations is outside the product's language, written in it: imports, variables, functions, closures."""
from groovy_reader import nodes as g

from .spelling import simple
from .words import COERCED, TRUTHS


class Declarations:
    """Rules of a Rewriter on imports, annotations and declarations."""

    # --- what is taken away

    def on_Import(self, node):
        self.edits.replace(node.begin, node.end, "")
        self.found.changed(node, f"`import {node.path}` goes: there are no classes to import")

    def on_Package(self, node):
        self.edits.replace(node.begin, node.end, "")
        self.found.changed(node, "`package` goes")

    def on_Annotated(self, node):
        """Annotations go; `@Field` and `@Library` with what they mean."""
        names = {simple(it.name) for it in node.annotations}
        if "Library" in names:
            self.edits.replace(node.begin, node.end, "")
            self.found.changed(node, "`@Library` goes: its functions come from the folder that `--vars` names")
            self.skip(node.statement)
            return
        for it in node.annotations:
            self.edits.replace(it.begin, it.end, "")
        if "Field" in names and isinstance(node.statement, g.Declaration):
            self.a_field(node.statement)
        for name in sorted(names - {"Field"}):
            self.found.changed(node, f"`@{name}` goes" + (": nothing has to be serializable" if name == "NonCPS" else ""))

    def a_field(self, node):
        """A field of the script is a variable that functions see too: one that is set without `def`."""
        first = node.names[0]
        if len(node.names) > 1 or node.is_tuple:
            self.found.refuse(node, "`@Field` with several names: give each a line of its own")
            return
        running = (g.Evaluate, g.Declaration, g.If, g.Try, g.ForIn)
        if self.module is None and any(it.begin < node.begin and isinstance(it, running) for it in self.script.statements):
            self.found.refuse(node, "`@Field` behind statements, before which Groovy sets it: put it in front of them")
        self.edits.replace(node.begin, first.begin, "")
        if first.value is None:
            self.edits.behind(first.end, " = null")
        self.done.add(id(node))
        self.found.changed(node, f"`@Field` becomes a variable without `def`, which functions see: `{first.name.name}`")

    # --- declarations and functions

    def on_Declaration(self, node):
        """A declaration of one name, by `def` or by a plain type with a value."""
        if id(node) in self.done:
            return
        if node.is_tuple:
            self.several(node)
            return
        first = node.names[0]
        is_typed = node.type is not None and not node.modifiers and not node.keyword
        is_written = is_typed and node.type.name.isidentifier() and first.value is not None and len(node.names) == 1
        if not is_written and self.source[node.begin : first.begin].split() != ["def"]:
            self.edits.replace(node.begin, first.begin, "def ")
            self.found.changed(node, "a declaration without its modifiers or type: `def`")
        for it in node.names:
            if it.value is not None:
                self.as_type(it.value, node.type)
        for before, it in zip(node.names, node.names[1:]):
            self.edits.replace(before.end, it.begin, "; def ")
            self.found.changed(it, f"`{it.name.name}` becomes a declaration of its own")

    def as_type(self, value, kind):
        """Groovy makes a text of what a variable or function of the type String gets, and a truth value for boolean."""
        name = simple(kind.name) if kind is not None else ""
        function = COERCED.get(name)
        if function is None or name == "String" and self.names.kind(value) == "text" or isinstance(value, g.Constant):
            return
        if name != "String" and (isinstance(value, g.Prefix) and value.sign == "!" or isinstance(value, g.Binary) and value.sign in TRUTHS):
            return
        self.need(function, value)
        self.edits.around(value, f"{function}(", ")")
        if isinstance(value, g.Call) and value.form == "command":
            self.valued.add(id(value))
        self.found.changed(value, f"a value for the type {name}: `{function}(..)` of the library")

    def several(self, node):
        """`def (a, b) = e` becomes a declaration of each."""
        names = [it.name.name for it in node.names]
        if node.value is None:
            self.edits.replace(node.begin, node.end, "; ".join(f"def {name}" for name in names))
            return
        whole = self.fresh("values")
        self.edits.replace(node.begin, node.value.begin, f"def {whole} = ")
        word = "def " if node.keyword else ""
        self.edits.behind(node.end, "".join(f"; {word}{name} = {whole}[{at}]" for at, name in enumerate(names)))
        self.found.changed(node, "a declaration of several names becomes one of each")

    def on_Function(self, node):
        """A function by `def`, of parameters without defaults."""
        first = node.name
        header = self.source[node.begin : first.begin].split()
        name = self.called(first.name)
        if header not in (["def"], ["void"]) or name != first.name:
            self.edits.replace(node.begin, first.end, f"def {name}")
            if header not in (["def"], ["void"]):
                self.found.changed(node, f"`{first.name}` is declared by `def`")
        for it in node.parameters:
            self.a_parameter(it)
        defaults = [it for it in node.parameters if it.default is not None]
        if defaults:
            self.with_defaults(node, name, defaults)
        if any(it.is_open for it in node.parameters):
            self.found.refuse(node, "a parameter for any number of arguments: take a list")

    def a_parameter(self, node, is_typed=True):
        """A parameter without what the language does not read: a default, modifiers, a type with dots or arguments."""
        is_written = node.type is None or is_typed and node.type.name.isidentifier()
        if not is_written or [it for it in node.modifiers if getattr(it, "word", "") != "def"] or node.modifiers and not is_typed:
            self.edits.replace(node.begin, node.name.begin, "")
        if node.default is not None:
            self.edits.replace(node.name.end, node.end, "")

    def with_defaults(self, node, name, defaults):
        """For each number of arguments that may be left out a function of its own, which calls this one."""
        fixed = len(node.parameters) - len(defaults)
        texts = {id(it): self.rewritten(it.default) for it in defaults}
        own = {it.name.name for it in node.parameters}
        for it in defaults:
            if any(isinstance(inner, g.Name) and inner.name in own for inner in it.default.walk()):
                self.found.refuse(it, "a default that speaks of another parameter: set it in the function")
        for left in range(len(defaults)):
            given, kept = [], fixed + left
            parameters = []
            filled = 0
            for it in node.parameters:
                if it.default is None or filled < left:
                    filled += it.default is not None
                    parameters.append(it.name.name)
                    given.append(it.name.name)
                else:
                    given.append(f"({texts[id(it)]})")
            self.added.append(f"def {name}With{kept}({', '.join(parameters)}) {{ return {name}({', '.join(given)}) }}")
        self.found.changed(node, f"the defaults of `{name}` become functions with fewer parameters")

    def on_Closure(self, node):
        several = len(node.parameters or []) > 1
        for it in node.parameters or []:
            if it.default is not None:
                self.found.refuse(it, "a closure's parameter with a default: set it in the closure")
            elif it.type is not None or it.modifiers:
                self.a_parameter(it, is_typed=not several and not (it.modifiers and it.type))
