"""The walk over calls: of functions, closures, steps and methods."""
from groovy_reader import Call, Closure, Constant, Group, Identifier, Index, Name, Node, Prefix, Property

from . import kinds
from .context import ALL, AS_CALLED, BROKEN, INSIDE, NOTHING, OUTSIDE
from .differences import METHOD, has_row
from .findings import EXCEPTION, WARNING, Finding
from .kinds import CLOSURE, MAP, NULL, NUMBER, TEXT
from .statement_walk import truth
from .steps import DEAF, STEPS, StepCall
from .value_walk import Values

# Methods that call their closure while they run.
WALKS = (*kinds.WALKS, "times", "call")


class Calls(Values):
    """Looks at each call as what its name is: a variable, a function, a step, a method."""

    def of_call(self, node):
        if isinstance(node.what, Name):
            return self.call_of_name(node)
        if isinstance(node.what, Property):
            return self.call_of_method(node)
        self.value(node.what)
        self.arguments(node)
        return None

    def arguments(self, node):
        for argument in node.arguments:
            self.value(argument.value)

    def call_of_name(self, node):
        name = node.what.name
        variable = self.scope.find(name)
        if variable is not None:
            self.arguments(node)
            if variable.kind not in (None, CLOSURE):
                self.tell(node.what, EXCEPTION, "call", f"`{name}` is a {variable.kind} and no closure")
            elif variable.closure is not None:
                self.given(node, name, 1 if variable.closure.parameters is None else len(variable.closure.parameters))
            return None
        if name in self.functions:
            self.arguments(node)
            self.call_of_function(node, self.functions[name])
            return None
        if name in STEPS and not (self.learnt and name in self.learnt.bound):
            return self.call_of_step(node)
        if name == "pipeline" and node.trailing:
            self.declarative(node)
            return None
        if self.is_bound(name) and self.learnt is not None:
            self.arguments(node)
            return None
        self.unknown_step(node)
        self.arguments_of_unknown(node)
        return BROKEN

    def arguments_of_unknown(self, node):
        """The arguments of a step that nothing has; steps that describe something for it alone are not told."""
        was = self.in_unknown
        for argument in node.arguments:
            self.in_unknown = not isinstance(argument.value, Closure)
            self.value(argument.value)
        self.in_unknown = was

    def call_of_function(self, node, function):
        self.calls.append((self.function, self.takes, function.name.name, self.on_executor))
        if not any(it.default is not None or it.is_open for it in function.parameters):
            self.given(node, function.name.name, len(function.parameters))

    def given(self, node, name, wanted):
        """A function or a closure that takes so many arguments is called."""
        others = [it for it in node.arguments if it.key is None]
        count = len(others) + (len(others) < len(node.arguments))
        if count != wanted and not any(it.is_spread for it in others) and not (wanted == 1 and count == 0):
            self.tell(node.what, EXCEPTION, "arguments", f"`{name}` takes {counted(wanted, 'argument')}, and is given {count}")

    # --- steps

    def call_of_step(self, node):
        if node.what.name in ("sh", "dir"):
            self.needs_a_node(node)
        takes = ALL if node.what.name == "catchError" else NOTHING
        on_executor = INSIDE if node.what.name == "node" else self.on_executor
        was = self.in_unknown
        for argument in node.arguments:
            is_body = isinstance(argument.value, Closure)
            named = isinstance(argument.key, Identifier) and node.what.name not in DEAF
            self.in_unknown = was or named and argument.key.name not in STEPS[node.what.name][0]
            self.on(on_executor if is_body else self.on_executor, self.taking, takes if is_body else NOTHING, self.argument, argument.value)
        self.in_unknown = was
        if self.learnt is not None:
            self.found += [(self.function, self.takes, finding) for finding in StepCall(node, self.kind_of).findings()]
        if node.what.name != "sh":
            return None
        asked = {it.key.name: it.value for it in node.arguments if isinstance(it.key, Identifier)}
        if is_constant(asked.get("returnStdout"), "true"):
            return TEXT
        return NUMBER if is_constant(asked.get("returnStatus"), "true") else None

    def needs_a_node(self, node):
        finding = Finding(node.what.begin, node.what.end, EXCEPTION, "outside-a-node", f"`{node.what.name}` stands in no `node`",
                          f"`node {{ {node.what.name} .. }}`")
        if self.on_executor == OUTSIDE:
            self.found.append((self.function, self.takes, finding))
        elif self.on_executor == AS_CALLED:
            self.needing.append((self.function, self.takes, finding))

    # --- methods

    def call_of_method(self, node):
        on, name = node.what.on, self.script.written(node.what.name)
        kind = self.root(on, node) if not isinstance(on, Name) or self.scope.find(on.name) or self.is_bound(on.name) else None
        if isinstance(on, Name) and kind is None and self.scope.find(on.name) is None and not self.is_bound(on.name):
            self.unknown_name(on, node)
            self.arguments(node)
            return BROKEN
        inner = on.inner if isinstance(on, Group) else on
        never = isinstance(inner, Prefix) and inner.sign == "-" or truth(inner) is False
        for argument in node.arguments:
            self.taking(ALL if never else NOTHING, self.argument if name in WALKS else self.value, argument.value)
        is_plain = isinstance(node.what.name, Identifier) and node.what.dot in (".", "?.", "*.", " ")
        if self.is_broken(on):
            return BROKEN
        if is_plain and not is_unknown(self, on):
            self.method(node, None if node.what.dot == "*." else kind, name)
        return kinds.given_by(kind, name) if is_plain and node.what.dot != "*." else None

    def method(self, node, kind, name):
        """A method of a value; without a plain kind it has to be one of some kind."""
        others = [it for it in node.arguments if it.key is None]
        count = len(others) + (len(others) < len(node.arguments))
        what = node.what
        place = Node(what.name.begin, what.name.end)
        stage = WARNING if what.dot == "?." and kind in (None, NULL) else EXCEPTION
        if kind == MAP and not kinds.counts_of(MAP, name):
            key = name if has_row(METHOD, name) else "map-method"
            self.tell(place, stage, key, f"a map has no method `{name}`", self.similar(name, MAP))
        elif kind is not None and kinds.counts_of(kind, name) == set():
            owner = f"{'String' if kind == TEXT else 'List'}.{name}"
            key = owner if has_row(METHOD, owner) else name if has_row(METHOD, name) else "method"
            instead = self.with_a_counter(node) if name == "eachWithIndex" else None if key == owner else self.similar(name, kind)
            self.tell(place, stage, key, f"a {kind} has no method `{name}`", instead)
        elif kind is None and not kinds.is_a_name(name):
            self.tell(place, stage, name if has_row(METHOD, name) else "method", f"no value has a method `{name}`", self.similar(name))
        elif kind is not None and (counts := kinds.counts_of(kind, name)) is not None and count not in counts:
            self.tell(place, stage, "arguments", f"`{name}` of a {kind} takes {listed(counts)}, and is given {count}")
        elif kind is None and not kinds.is_a_method(name, count):
            self.tell(place, stage, "arguments", f"no method `{name}` takes {counted(count, 'argument')}")
        else:
            self.method_arguments(node, kind, name, others)

    def with_a_counter(self, node):
        """What to write for `list.eachWithIndex { item, index -> .. }`; None where the list is no plain name."""
        closure = node.arguments[-1].value if node.arguments else None
        if not isinstance(node.what.on, Name) or not isinstance(closure, Closure) or len(closure.parameters or []) != 2:
            return None
        items, (item, index) = node.what.on.name, (it.name.name for it in closure.parameters)
        return f"`for (int {index} = 0; {index} < {items}.size(); {index}++) {{ def {item} = {items}[{index}]; .. }}`"

    def method_arguments(self, node, kind, name, others):
        """The arguments of a method that is there."""
        if name in kinds.WALKS or name == "times":
            given = self.kind_of(others[0].value) if others else None
            if given not in (None, CLOSURE):
                self.tell(others[0], EXCEPTION, "arguments", f"`{name}` takes a closure")
            heads = len(others[0].value.parameters or []) if others and isinstance(others[0].value, Closure) else 0
            most = 2 if kind in (MAP, None) and name != "times" else 1
            if heads > most:
                self.tell(others[0].value.parameters[most], EXCEPTION, "arguments",
                          f"the closure of `{name}` is given {counted(most, 'argument')}, and takes {heads}")
            return
        for wanted, argument in zip(kinds.WANTED.get(name, {}).get(kind, ()), others):
            given = self.kind_of(argument.value)
            if given not in (None, wanted):
                self.tell(argument, EXCEPTION, "arguments", f"`{name}` of a {kind} takes a {wanted}, and is given a {given}")


def is_unknown(walk, on):
    """Whether what stands before a dot begins with a name that nothing has, which was told."""
    while isinstance(on, (Property, Call, Index)):
        on = on.what if isinstance(on, Call) else on.on
    if isinstance(on, Constant) and on.word in ("this", "super"):
        return True
    return isinstance(on, Name) and walk.scope.find(on.name) is None and not walk.is_bound(on.name) and on.name not in walk.functions \
        and on.name not in STEPS


def is_constant(node, word):
    return isinstance(node, Constant) and node.word == word


def counted(number, what):
    return f"{'no' if number == 0 else number} {what}{'' if number == 1 else 's'}"


def listed(counts):
    return " or ".join(counted(it, "argument") for it in sorted(counts))
