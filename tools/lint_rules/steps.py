"""Calls of steps whose arguments are written in the script: parameters, values, bodies and labels, as docs/STEPS.md says."""
import os
import sys

from groovy_reader import Closure, Constant, GString, Identifier, ListLiteral, MapLiteral, Number, Text

from .findings import EXCEPTION, Finding
from .kinds import CLOSURE, LIST, MAP, NUMBER, TEXT, TRUTH

sys.path.append(f"{os.path.dirname(os.path.dirname(os.path.realpath(__file__)))}/reference")
from labels import fault_of  # noqa: E402
from steps import RESULT_NAMES, STEPS, is_override  # noqa: E402

# Parameters of Jenkins that the product's steps do not have, with the row that says what to write.
ROWS = {
    ("catchError", "stageResult"): "catchError.stageResult", ("input", "submitter"): "input.submitter",
}
DEAF = ("println", "parallel")


class Unknown:
    """A value that the script does not tell."""


def value_of(node):
    """The value of a literal: None, a truth value, a number, a text, or Unknown."""
    if isinstance(node, Text):
        return node.value
    if isinstance(node, Number):
        return int(node.written) if node.written.isdigit() else Unknown
    if isinstance(node, Constant) and node.word in ("true", "false", "null"):
        return {"true": True, "false": False, "null": None}[node.word]
    return Unknown


def text_of(value):
    return {None: "null", True: "true", False: "false"}[value] if value is None or isinstance(value, bool) else str(value)


class StepCall:
    """One call of a step; `kind_of` tells the kind of an argument."""

    def __init__(self, call, kind_of):
        self.call, self.kind_of, self.name = call, kind_of, call.what.name
        self.parameters, self.optional, self.has_body = STEPS[self.name]
        self.found = []
        self.body, arguments = self.split(call.arguments)
        self.given = self.bound(arguments)

    def split(self, arguments):
        """The body, or None, or Unknown where the last argument may be one; and the arguments without it."""
        if not arguments or arguments[-1].key is not None:
            return None, arguments
        last = arguments[-1]
        kind = CLOSURE if isinstance(last.value, Closure) else self.kind_of(last.value)
        if kind == CLOSURE:
            return last, arguments[:-1]
        return (Unknown if kind is None else None), arguments

    def bound(self, arguments):
        """The arguments by their parameters; None where the script does not tell them."""
        named = [it for it in arguments if it.key is not None]
        others = [it for it in arguments if it.key is None]
        if any(it.is_spread for it in others) or named and others:
            return None
        if named:
            return {self.parameters[0]: named[0]} if self.name == "println" else self.by_names(named)
        if len(others) > (2 if self.body is Unknown else 1):
            self.tell(others[1], f"`{self.name}` takes one argument without a name: {self.usage()}", key=f"{self.name}.arguments")
            return None
        if not others or self.body is Unknown and len(others) == 1 and self.kind_of(others[0].value) is None and self.has_body:
            return {} if not others else None
        first = others[0]
        if self.name not in DEAF and isinstance(first.value, MapLiteral):
            return self.by_names(first.value.entries)
        is_map = self.name not in DEAF and self.kind_of(first.value) in (None, MAP) and not isinstance(first.value, (Text, GString))
        return None if is_map else {self.parameters[0]: first}

    @staticmethod
    def by_names(entries):
        made = {}
        for entry in entries:
            if not isinstance(entry.key, (Identifier, Text)):
                return None
            made[entry.key.name if isinstance(entry.key, Identifier) else entry.key.value] = entry
        return made

    def usage(self):
        """The step as docs/STEPS.md lists it."""
        written = [f"[{it}]" if it in self.optional else it for it in self.parameters]
        return f"`{self.name}({', '.join(written)})`" + (" and a body" if self.has_body else "")

    def tell(self, node, what, instead=None, key=None):
        self.found.append(Finding(node.begin, node.end, EXCEPTION, key or f"{self.name}.arguments", what, instead))

    def findings(self):
        """What is wrong with the call, the first fault of each parameter."""
        given = self.given
        if given is not None:
            for name, argument in ([] if self.name == "parallel" and self.is_named() else given.items()):
                self.parameter(name, argument)
            if self.name == "parallel":
                self.branches()
            missing = [it for it in self.parameters if it not in given and it not in self.optional]
            if missing and not (self.name == "parallel" and given):
                self.tell(self.call.what, f"`{self.name}` is given no `{missing[0]}`: {self.usage()}")
        self.bodies()
        return self.found

    def is_named(self):
        return any(it.key is not None for it in self.call.arguments)

    def bodies(self):
        if self.body is None and self.has_body:
            self.tell(self.call.what, f"`{self.name}` needs a body in braces: {self.usage()}")
        elif self.body not in (None, Unknown) and not self.has_body:
            self.tell(self.body, f"`{self.name}` takes no body: {self.usage()}")
        elif self.body not in (None, Unknown) and isinstance(self.body.value, Closure) and len(self.body.value.parameters or []) > 1:
            self.tell(self.body.value.parameters[1], f"the body of `{self.name}` is called without arguments, and takes more than one")

    def parameter(self, name, argument):
        if name not in self.parameters:
            place = argument.key if getattr(argument, "key", None) is not None else argument
            key = ROWS.get((self.name, name), f"{self.name}.{name}")
            self.tell(place, f"`{self.name}` has no parameter `{name}`: {self.usage()}", key=key)
            return
        look = getattr(self, "bad_" + name, None)
        if look is not None:
            look(argument.value)

    # --- values that are refused where they are written

    def bad_buildResult(self, node):
        value = value_of(node)
        if value is not Unknown and text_of(value) not in RESULT_NAMES:
            self.tell(node, "`buildResult` is none of " + ", ".join(RESULT_NAMES))

    def bad_count(self, node):
        value, kind = value_of(node), self.kind_of(node)
        if kind not in (None, NUMBER) or value is not Unknown and not isinstance(value, bool) and isinstance(value, int) and value < 1:
            self.tell(node, "the count of `retry` is a whole number of at least 1")

    def flag(self, node, name):
        if self.kind_of(node) not in (None, TRUTH):
            self.tell(node, f"`{name}` is `true` or `false`")

    def bad_returnStatus(self, node):
        self.flag(node, "returnStatus")

    def bad_returnStdout(self, node):
        self.flag(node, "returnStdout")
        status = (self.given or {}).get("returnStatus")
        if status is not None and value_of(status.value) is True and value_of(node) is True:
            self.tell(node, "`sh` gives its status or its output, and not both")

    def bad_id(self, node):
        value = value_of(node)
        if value is not Unknown and (text_of(value) == "" or any(blank in text_of(value) for blank in " \t\n\r\f")):
            self.tell(node, "the `id` of an input is a text without blanks that is not empty")

    def bad_overrides(self, node):
        if self.kind_of(node) not in (None, LIST):
            self.tell(node, "`withEnv` takes a list of texts `NAME=value`")
        for item in node.items if isinstance(node, ListLiteral) else []:
            self.override(item.value)

    def override(self, node):
        """One override; of a text with expressions its plain front tells enough where it has an `=`."""
        front = node.parts[0].value if isinstance(node, GString) and hasattr(node.parts[0], "value") else ""
        if isinstance(node, GString):
            is_bad = isinstance(front, str) and (front.startswith("=") or "+" in front.partition("=")[0])
        else:
            value = value_of(node)
            is_bad = value is not Unknown and not is_override(value) or value is Unknown and self.kind_of(node) not in (None, TEXT)
        if is_bad:
            written = node.value if isinstance(node, Text) else front if isinstance(front, str) else ""
            key = "withEnv.PATH+" if "+" in written.partition("=")[0] else "withEnv.overrides"
            self.tell(node, "an override is a text `NAME=value` whose name has no `+`", key=key)

    def bad_label(self, node):
        value = value_of(node)
        if self.name == "node" and isinstance(value, str) and value.strip(" \t") and fault_of(value) is not None:
            self.tell(node, f"the label has a fault at its byte {fault_of(value)}")

    def branches(self):
        """The branches of `parallel`, each by its name."""
        entries = self.given.items() if self.is_named() else []
        first = (self.given or {}).get("branches")
        if not self.is_named() and first is not None:
            if self.kind_of(first.value) not in (None, MAP):
                self.tell(first, "`parallel` takes a map of names to closures")
            entries = (self.by_names(first.value.entries) or {}).items() if isinstance(first.value, MapLiteral) else []
        for name, entry in entries:
            if name == "failFast":
                self.tell(entry, "`parallel` has no `failFast`", key="parallel.failFast")
            elif self.kind_of(entry.value) not in (None, CLOSURE):
                self.tell(entry.value, f"the branch `{name}` is no closure")
            elif isinstance(entry.value, Closure) and len(entry.value.parameters or []) > 1:
                self.tell(entry.value.parameters[1], f"the branch `{name}` is called without arguments, and takes more than one")
