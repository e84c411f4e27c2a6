"""What a build is made of: the steps, bodies and branches of its flow graph, and their states; and the graph's text."""
import enum
import re
from typing import NamedTuple

from store_changes import Node

LINE = re.compile(r"(\d+) (start|end|atom|block|body|end-body|end-block)(?: (?!<- [\d ]+$)(.*?))?(?: <- ([\d ]+))?")
BRANCH = "Branch: "


class BadText(Exception):
    """A line that no graph's text has."""


class State(enum.Enum):
    """How a step, a body or a build stands; the value is the word for it."""

    SUCCEEDED = "succeeded"
    UNSTABLE = "unstable"
    FAILED = "failed"
    ABORTED = "aborted"
    RUNNING = "running"
    WAITING = "waiting"

    @property
    def sign(self):
        """What tells the state where there is no room for the word."""
        return SIGNS[self]


SIGNS = {
    State.SUCCEEDED: "\u2713",
    State.UNSTABLE: "!",
    State.FAILED: "\u2717",
    State.ABORTED: "\u2298",
    State.RUNNING: "\u25b8",
    State.WAITING: "?",
}

class Answer(NamedTuple):
    """What somebody said to an input."""

    proceeds: bool
    name: str


# --- what a build is made of; `began` and `ended` are numbers of records


class Thing:
    """A step, a step with bodies, or a body."""

    def __init__(self, number, name, home):
        self.number, self.name, self.home, self.end_number = number, name, home, None
        self.state, self.began, self.ended = State.SUCCEEDED, None, None
        self.head, self.tail, self.pieces = None, None, []
        # What a step waits for, or waited for.
        self.request = None

    def extent(self):
        """From the first byte of the log that is this thing's to behind the last one."""
        places = [it for it in (self.head, self.tail, *self.pieces) if it is not None]
        return (min(it[0] for it in places), max(it[1] for it in places)) if places else None


class Step(Thing):
    """A step without a body; its home is the body in which it stands."""

    def __init__(self, number, name, home=None):
        super().__init__(number, name, home)
        self.code, self.answer, self.is_open = None, None, False


class Block(Thing):
    """A step with bodies."""

    def __init__(self, number, name, home=None):
        super().__init__(number, name, home)
        self.bodies, self.is_open = [], True

    def is_parallel(self):
        return self.name == "parallel"


class Body(Thing):
    """A body of a step, which is its home, or without one the script itself."""

    def __init__(self, number=None, label="", home=None):
        super().__init__(number, home.name if home else "", home)
        self.label, self.items, self.is_open = label, [], True
        # What the script printed itself, each with the number of items in front of it.
        self.printed = []

    def is_branch(self):
        return self.home is not None and self.home.is_parallel()

    def title(self):
        """The name of a branch or a stage."""
        return self.label[len(BRANCH):] if self.is_branch() and self.label.startswith(BRANCH) else self.label


def body_around(thing):
    """The body in which a thing stands, which a body is itself."""
    return thing if isinstance(thing, Body) else thing.home


def boxes_around(thing):
    """The bodies around a thing and it itself, from outside."""
    body, found = body_around(thing), []
    while body is not None:
        found.append(body)
        body = body.home.home if body.home else None
    return found[::-1]


def branches_around(thing):
    """The names of the branches that run beside others in which a thing stands, from outside."""
    return [it.title() for it in boxes_around(thing) if it.is_branch() and len(it.home.bodies) > 1]


def is_stage_or_branch(body):
    return body.is_branch() or body.name == "stage"


class Tree:
    """The things of a flow graph, to which its nodes are added in their order."""

    def __init__(self):
        self.script, self.made, self.home, self.nodes, self.step_count = Body(), {}, {}, [], 0

    def add(self, node):
        """Adds a node, and answers the thing that it begins or ends."""
        try:
            thing = self.placed(node)
        except (KeyError, IndexError, ValueError, AttributeError):
            raise BadText(f"node {node.number} does not follow from those before it") from None
        self.nodes.append(node)
        return thing

    def placed(self, node):
        number, kind = node.number, node.kind
        if kind == "start":
            self.script.number = number
            self.made[number] = self.home[number] = self.script
        elif kind in ("atom", "block"):
            body = self.behind(node.parents[0])
            thing = self.made[number] = (Step if kind == "atom" else Block)(number, node.name, body)
            self.home[number] = body
            body.items.append(thing)
            self.step_count += kind == "atom"
        elif kind == "body":
            before = self.made[node.parents[0]]
            block = before if isinstance(before, Block) else self.home[node.parents[0]]
            body = self.made[number] = Body(number, node.name, block)
            self.home[number] = block
            block.bodies.append(body)
        elif kind == "end":
            return self.closed(self.script, number)
        else:
            # Behind the end of a body stands its block or another body of that; behind that of a block what holds the block.
            self.home[number] = self.home[node.begun]
            begun = self.closed(self.made[node.begun], number)
            self.made[number] = begun if kind == "end-block" else None
            return begun
        return self.made[number]

    def closed(self, thing, number):
        thing.is_open, thing.end_number = False, number
        return thing

    def body_of(self, node):
        """The body in which a node that comes next stands, or whose end it is."""
        if node.kind == "end" or not node.parents:
            return self.script
        if node.begun is None:
            return self.behind(node.parents[0])
        return body_around(self.made[node.begun])

    def behind(self, parent):
        """The body in which something stands right behind this node."""
        here = self.made[parent]
        return here if isinstance(here, Body) else self.home[parent]

    def of_nodes(self):
        """The things that the nodes begin or end, in the nodes' order."""
        begun = ((it, it.number if it.begun is None else it.begun) for it in self.nodes)
        return [self.script if node.kind == "end" else self.made[number] for node, number in begun]

    def steps(self):
        """The steps without a body, in the order in which they began."""
        return [self.made[node.number] for node in self.nodes if node.kind == "atom"]

    def log_line(self, node):
        """The line that a node has in the log."""
        if node.kind == "body":
            words = "{" + (f" ({node.name})" if node.name else "")
        elif node.kind == "end-block":
            words = f"// {self.made[node.begun].name}"
        else:
            words = {"start": "Start of Pipeline", "end": "End of Pipeline", "end-body": "}"}.get(node.kind, node.name)
        return f"[Pipeline] {words}\n".encode()


def unescaped(label):
    return re.sub(r"\\(.)", lambda it: {"n": "\n", "r": "\r"}.get(it[1], it[1]), label)


def nodes_of(text):
    """The nodes of a graph's text, in order."""
    for at, line in enumerate(text.removesuffix("\n").split("\n"), 1):
        found = LINE.fullmatch(line)
        if found is None:
            raise BadText(f"line {at} is of no graph's text: {line}")
        number, kind, name, parents = found.groups()
        is_end = kind.startswith("end-")
        begun = int((name or "").removeprefix("of ") or -1) if is_end else None
        yield Node(int(number), kind, "" if is_end else unescaped(name or ""), begun, tuple(map(int, (parents or "").split())))


def tree_of(text):
    tree = Tree()
    for node in nodes_of(text):
        tree.add(node)
    return tree
