"""What `node` asks of the agents: labels that no executor fits, executors that are held already, steps that share one."""
import os
import sys

from groovy_reader import Call, Closure, Function, Identifier, MapLiteral, Name, Node, Text

from .findings import WAITS, WARNING, Finding

sys.path.append(f"{os.path.dirname(os.path.dirname(os.path.realpath(__file__)))}/reference")
from labels import BadLabel, fits  # noqa: E402

# How deep calls of functions are followed.
MOST_DEPTH = 20


def label_of(call):
    """The label of a `node` step: a text, empty where it has none, or None where the script does not tell it."""
    for argument in call.arguments:
        if isinstance(argument.value, Closure):
            continue
        if argument.key is None and isinstance(argument.value, MapLiteral):
            return None
        if argument.key is None or isinstance(argument.key, Identifier) and argument.key.name == "label":
            return argument.value.value if isinstance(argument.value, Text) else None
    return ""


def is_step(node, name):
    return isinstance(node, Call) and isinstance(node.what, Name) and node.what.name == name


class Executors:
    """Walks the nodes of a script; `executors` is None where no agents file is there."""

    def __init__(self, script, executors):
        self.script, self.executors, self.found = script, executors, []
        self.functions = {it.name.name: it for it in script.walk() if isinstance(it, Function) and isinstance(it.name, Identifier)}
        self.asked, self.is_open = [], False

    def tell(self, node, stage, key, what, instead=None):
        if not any(it.begin == node.begin and it.key == key for it in self.found):
            self.found.append(Finding(node.begin, node.end, stage, key, what, instead))

    def run(self):
        for statement in self.script.statements:
            if not isinstance(statement, Function):
                self.walk(statement, (), ())
        for function in self.functions.values():
            self.walk(function.body, (), (function.name.name,))
        if self.executors is not None and not self.is_open:
            self.agents_without_a_label()
        return self.found

    def walk(self, node, held, inside):
        """Walks with what the nodes around hold: for each the set of executors of which it has one."""
        if is_step(node, "node"):
            held = held + (self.a_node(node, held),)
        elif is_step(node, "parallel") and held:
            self.branches(node)
        elif isinstance(node, Call) and isinstance(node.what, Name):
            called = self.functions.get(node.what.name)
            if called is not None and called.name.name not in inside and len(inside) < MOST_DEPTH:
                self.walk(called.body, held, inside + (called.name.name,))
        for child in node.children():
            self.walk(child, held, inside)

    def a_node(self, node, held):
        """The executors of which a `node` gets one, as their numbers; None where that is not known."""
        label = label_of(node)
        if label is None or self.executors is None:
            self.is_open = self.is_open or label is None
            return None
        try:
            fitting = frozenset(at for at, it in enumerate(self.executors) if fits(label, it.labels))
        except BadLabel:
            return None
        self.asked.append(fitting)
        place = Node(node.what.begin, node.what.end)
        if not fitting:
            what = f"no agent of the agents file fits the label `{label}`" if label.strip(" \t") else "the agents file has no agent"
            self.tell(place, WAITS, "label-without-an-agent", f"{what}: the build waits here for ever", self.labels())
            return None
        held_here = [it for it in held if it is not None and it <= fitting]
        maybe = [it for it in held if it is not None and it & fitting]
        if len(held_here) >= len(fitting):
            self.tell(place, WAITS, "node-in-a-node", "the nodes around hold every executor that this one could have: it waits for ever",
                      "its steps without a `node` of their own, or more `executors` in the agents file")
        elif len(maybe) >= len(fitting):
            self.tell(place, WARNING, "node-in-a-node", "the nodes around may hold every executor that this one could have",
                      "its steps without a `node` of their own, or more `executors` in the agents file")
        return fitting

    def labels(self):
        names = sorted({label for it in self.executors for label in it.labels})
        return "one of " + ", ".join(f"`{it}`" for it in names) if names else None

    def agents_without_a_label(self):
        """Agents of which no `node` of the script gets an executor."""
        used = frozenset().union(*self.asked)
        if not self.asked:
            return
        for agent in dict.fromkeys(it.agent for it in self.executors):
            if not any(self.executors[at].agent == agent for at in used):
                self.tell(Node(0, 0), WARNING, "agent-without-a-label", f"no label of the script names the agent `{agent}`")

    def branches(self, node):
        """Branches that share the executor of the node around them: their shell steps run one after the other."""
        branches = [it.value for it in node.arguments if isinstance(it.value, Closure)]
        for argument in node.arguments:
            if isinstance(argument.value, MapLiteral):
                branches += [it.value for it in argument.value.entries if isinstance(it.value, Closure)]
        sharing = [it for it in branches if self.has_shell(it.body, ())]
        if len(sharing) > 1:
            self.tell(Node(node.what.begin, node.what.end), WARNING, "branches-share-an-executor",
                      f"{len(sharing)} branches share the executor of the node around them: their shell steps run one after the other, "
                      "and one that waits for the step of another branch waits for ever", "a `node` in each branch, and none around them")

    def has_shell(self, node, inside):
        """Whether a shell step runs in a branch without a node of its own."""
        if is_step(node, "sh"):
            return True
        if is_step(node, "node"):
            return False
        if isinstance(node, Call) and isinstance(node.what, Name) and node.what.name in self.functions and node.what.name not in inside:
            if self.has_shell(self.functions[node.what.name].body, inside + (node.what.name,)):
                return True
        return any(self.has_shell(child, inside) for child in node.children())


def findings(script, executors):
    """What the nodes of a script ask and do not get."""
    return Executors(script, executors).run()
