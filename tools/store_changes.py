"""All that a record of a build's store tells of the build, in the form of docs/FORMATS.md: its event, and its flow nodes,
requests and threads, or those that are new. Variables and values are gone over.
"""
import struct
from typing import Dict, List, NamedTuple, Optional, Tuple

from store_records import U32, WHOLE, NotARecord, binding, byte, kinds, long_number, nothing, number, row, rows, text, value

I32, U64 = struct.Struct(">i"), struct.Struct(">Q")
START, GRANTED, OUTPUT, EXITED, LOST, DECIDED = range(6)
# The stream of an output that goes to the log.
LOG_STREAM = 0
# The codes of a task that was not launched, and of one that is gone.
LOST_CODES = (-2, -1)
NODE_KINDS = ("start", "atom", "block", "body", "end-body", "end-block", "end")
NODE, TASK, INPUT = "node", "task", "input"

pairs = rows(row(text, text))
outcome = kinds(value, number)
branch = row(text, number, kinds(byte, row(number, byte, outcome, number)))
wait = kinds(number, rows(branch))
context = row(rows(number), rows(text), pairs)
frame = row(byte, number, number, rows(binding), rows(value))
parent = kinds(nothing, number)
numbers = rows(number)
held_executors = rows(row(number, number, number))
whole_thread_rest = row(wait, context, rows(frame))
thread_rest = row(wait, context, number, rows(frame))


class Event(NamedTuple):
    """What a build accepted of a request: of an output the stream and the bytes, of an end the code, of an answer whether it lets
    the build proceed and the name; or its start, with the script and the agents file."""

    kind: int
    request: Optional[int] = None
    value: Optional[int] = None
    content: bytes = b""
    agents: bytes = b""


class Node(NamedTuple):
    """A flow node; `begun` is the number of the node whose end it is."""

    number: int
    kind: str
    name: str
    begun: Optional[int]
    parents: Tuple[int, ...]


class Request(NamedTuple):
    """What a thread waits for: an executor with the label `text`, a task with this script, an answer to the input with this id."""

    number: int
    thread: int
    kind: str
    text: str
    workspace: str = ""
    gives_code: bool = False
    keeps_output: bool = False
    taken: int = 0


class Changes(NamedTuple):
    """What a record tells of the build behind its event: all of it, or what is new.

    `taken` has of tasks how many bytes of their log are taken, and `heads` of threads the last flow node.
    """

    is_whole: bool
    event: Event
    nodes: List[Node]
    closed: List[int]
    requests: List[Request]
    taken: Dict[int, int]
    heads: Dict[int, int]


class Reader:
    """Takes what stands in a payload, from a place on."""

    def __init__(self, payload, at):
        self.payload, self.at = payload, at

    def skip(self, form):
        self.at = form(self.payload, self.at)

    def unpacked(self, form):
        self.at += form.size
        return form.unpack_from(self.payload, self.at - form.size)[0]

    def number(self):
        return self.unpacked(U32)

    def byte(self):
        self.at += 1
        return self.payload[self.at - 1]

    def flag(self):
        return self.byte() == 1

    def content(self):
        begun = self.at + 4
        self.skip(text)
        return bytes(self.payload[begun : self.at])

    def text(self):
        return self.content().decode(errors="replace")

    def items(self, item):
        return [item() for _ in range(self.number())]

    def event(self):
        kind = self.byte()
        if kind == START:
            return Event(kind, content=self.content(), agents=self.content())
        request = self.number()
        if kind == OUTPUT:
            stream = self.byte()
            self.skip(long_number)
            return Event(kind, request, stream, self.content())
        if kind == DECIDED:
            return Event(kind, request, self.byte(), self.content())
        if kind == LOST:
            return Event(kind, request, LOST_CODES[self.byte()])
        return Event(kind, request, self.number() if kind == GRANTED else self.unpacked(I32))

    def node(self, place):
        kind, name = NODE_KINDS[self.byte()], self.text()
        begun, parents = self.number(), tuple(self.items(self.number))
        return Node(place, kind, name, begun if kind.startswith("end-") else None, parents)

    def nodes(self, first):
        return [self.node(first + at) for at in range(self.number())]

    def request(self):
        place, thread, kind = self.number(), self.number(), (NODE, TASK, INPUT)[self.byte()]
        if kind == NODE:
            return Request(place, thread, kind, self.text() if self.flag() else "")
        if kind == INPUT:
            return Request(place, thread, kind, self.text())
        self.skip(number)
        workspace = self.text()
        self.skip(text)
        self.skip(pairs)
        script, gives_code, keeps_output, taken = self.text(), self.flag(), self.flag(), self.unpacked(U64)
        self.skip(text)
        return Request(place, thread, kind, script, workspace, gives_code, keeps_output, taken)

    def written_request(self, requests, taken):
        if self.byte() == 0:
            requests.append(self.request())
        else:
            place = self.number()
            taken[place] = self.unpacked(U64)
            self.skip(text)

    def head(self, rest):
        """A thread's number, and its last flow node."""
        place = self.number()
        self.skip(parent)
        last = self.number()
        self.skip(rest)
        return place, last


def changes_of(record, node_count):
    """What a record tells, behind records that have so many flow nodes."""
    try:
        return (whole if record.payload[0] == WHOLE else new)(record, node_count)
    except (IndexError, struct.error):
        raise NotARecord from None


def whole(record, node_count):
    reader = Reader(record.payload, record.nodes_at)
    nodes = reader.nodes(2)
    reader.skip(text)
    requests = reader.items(reader.request)
    reader.skip(held_executors)
    heads = reader.items(lambda: reader.head(whole_thread_rest))
    event = Reader(record.payload, 1).event()
    return Changes(True, event, nodes[node_count:], [], requests, {}, dict(heads))


def new(record, node_count):
    reader, requests, taken = Reader(record.payload, record.nodes_at), [], {}
    nodes = reader.nodes(2 + node_count)
    reader.skip(text)
    closed = reader.items(reader.number)
    reader.items(lambda: reader.written_request(requests, taken))
    reader.skip(held_executors)
    reader.skip(numbers)
    heads = reader.items(lambda: reader.head(thread_rest))
    event = Reader(record.payload, 1).event()
    return Changes(False, event, nodes, closed, requests, taken, dict(heads))
