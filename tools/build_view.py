"""A build as its store, or its flow graph and its log, tell it: what of the log is whose, the states, and what failed.

The tools that show a build share this module. A store tells most: which step wrote which bytes of the log, with which code a
shell step ended, who answered. A graph's text and a log tell less: lines that branches wrote side by side go to the step whose
line stands above them, and which of several shell steps failed is a guess. A line of `println` goes to the step above it, in
either way. What is told of failures is a guess where a script catches what it throws; nothing is proved of this module.
"""
import enum
import os
import re
import subprocess
from typing import NamedTuple, Optional

import output
from build_tree import Answer, Block, Body, State, Step, Thing, Tree, body_around, boxes_around, is_stage_or_branch, nodes_of
from plain_words import first_line, printable
from store_changes import DECIDED, EXITED, INPUT, LOG_STREAM, LOST, OUTPUT, START, changes_of
from store_records import STATUSES, NoRecord, NotARecord, Store

RESULTS = ("SUCCESS", "UNSTABLE", "FAILURE", "NOT_BUILT", "ABORTED")
FINISHED = re.compile(rf"^Finished: ({'|'.join(RESULTS)})\n?\Z", re.M)
EXIT_CODE = re.compile(r"^ERROR: script returned exit code (-?\d+)$", re.M)
NO_NODE = "MissingContextVariableException"
NEWLINE = 10
# The status where nothing can be told.
NO_ANSWER, NO_BUILD = 125, 9
STATE_OF_RESULT = {"SUCCESS": State.SUCCEEDED, "UNSTABLE": State.UNSTABLE, "FAILURE": State.FAILED, "ABORTED": State.ABORTED}
# A text of the script in which nothing is put in, the arguments with names of one call of `sh`, and one of them.
TEXT = r"""'''(?:\\.|[^\\])*?'''|\"\"\"(?:\\.|[^\\$])*?\"\"\"|'(?:\\.|[^\\'\n])*'|"(?:\\.|[^\\"$\n])*\""""
SHELL_CALL = re.compile(rf"\bsh\b\s*\(?\s*((?:\w+\s*:\s*(?:{TEXT}|\w+)\s*,?\s*)+)", re.S)
ARGUMENT = re.compile(rf"(\w+)\s*:\s*({TEXT})", re.S)
ESCAPES = {"n": "\n", "t": "\t", "r": "\r", "b": "\b", "f": "\f"}


class NoText(Exception):
    """The program tells no graph or no log of a folder, for this reason, and with this status."""

    def __init__(self, why, status):
        super().__init__(why)
        self.status = status if status > 0 else NO_ANSWER


class Part(enum.Enum):
    """What bytes of the log are to the thing whose they are."""

    HEAD = "its line with [Pipeline] in front"
    TAIL = "the line of its end"
    TEXT = "what a step writes"
    PRINTED = "what the script prints in a body, between the steps there"
    AFTER = "what is said behind the end of a body, or of the build"


class Span(NamedTuple):
    """Bytes of the log, and what they are to whom."""

    owner: object
    part: Part
    start: int
    end: int


# --- reading


class View:
    """A build so far: its tree, its log, and what is open."""

    def __init__(self):
        self.tree, self.log, self.has_log, self.has_store = Tree(), bytearray(), True, False
        # The open requests; of each request, open or not, the step that made it; of threads the last flow nodes.
        self.requests, self.askers, self.heads = {}, {}, {}
        # The size of the log and the number of nodes after each record; and the status of a build that has ended.
        self.counts, self.status = [], None
        # What the build was begun with, and the labels of its shell steps by their scripts.
        self.script, self.agents, self.labels = b"", b"", {}
        self.writer, self.spans = (self.tree.script, Part.PRINTED), []

    def take(self, record):
        """Takes the next record of the store, and answers the spans of what it adds to the log."""
        changes = changes_of(record, len(self.tree.nodes))
        start, event = len(self.log), changes.event
        if not record.place <= start <= record.place + len(record.piece) and record.piece:
            raise NotARecord
        self.log += record.piece[start - record.place :]
        self.has_store, self.spans = True, []
        asker = self.askers.get(event.request)
        start = self.line_ended(start) if event.kind != OUTPUT else start
        owned = min(len(event.content), len(self.log) - start) if event.kind == OUTPUT and event.value == LOG_STREAM else 0
        self.attribute(start, owned, changes.nodes, first_writer(event, asker, self.tree.script), self.waiting(changes))
        self.settle(event, asker)
        self.follow(changes)
        self.counts.append((len(self.log), len(self.tree.nodes)))
        self.status = record.status
        return self.spans

    def take_texts(self, nodes, log):
        """Takes a graph's text and, where there is one, the log."""
        self.has_log = log is not None
        self.log += log or b""
        if self.log and self.log[-1] != NEWLINE:
            self.log.append(NEWLINE)
        self.attribute(0, 0, nodes, self.writer)
        for step in self.tree.steps():
            approved = step.name == "input" and re.search(r"^Approved by (.*)\n\Z", self.text(step.pieces), re.M)
            step.answer = Answer(True, approved[1]) if approved else None

    def line_ended(self, start):
        """Where a line of the log begins, if the one before ended here; that newline goes to whoever wrote the line."""
        if 0 < start < len(self.log) and self.log[start - 1] != NEWLINE and self.log[start] == NEWLINE:
            self.put(self.writer, start, start + 1)
            return start + 1
        return start

    def waiting(self, changes):
        """The nodes behind which a thread waits at once for an executor or a task, and so writes nothing."""
        heads = {**self.heads, **changes.heads}
        return {heads.get(it.thread) for it in changes.requests if it.kind != INPUT}

    def attribute(self, start, owned, nodes, writer, waiting=()):
        """Says of each byte from `start` on whose it is: so many bytes are the first writer's, and then each node has a line.

        What stands behind the line of a node that writes nothing was printed by the thread that comes next, where its node stands.
        """
        at = start + owned
        for node in nodes:
            line = self.tree.log_line(node) if self.has_log else b""
            found = self.line_at(line, at)
            if found < 0 or not self.has_log:
                self.begin(node)
                continue
            self.put(writer or (self.tree.body_of(node), Part.PRINTED), start, found)
            thing = self.begin(node)
            start = at = found + len(line)
            self.put((thing, Part.TAIL if node.kind.startswith("end") else Part.HEAD), found, at)
            is_silent = node.number in waiting or node.kind == "body" and thing.is_branch()
            writer = None if is_silent else writer_behind(node, thing)
        self.put(writer or self.writer, start, len(self.log))

    def line_at(self, line, at):
        """Where this line stands first in the log, from a place on."""
        if (at == 0 or self.log[at - 1] == NEWLINE) and self.log.startswith(line, at):
            return at
        found = self.log.find(b"\n" + line, at)
        return found + 1 if found >= 0 else -1

    def begin(self, node):
        thing, record = self.tree.add(node), len(self.counts)
        if node.kind.startswith("end"):
            thing.ended = record
        else:
            thing.began = record
        return thing

    def put(self, writer, start, end):
        if start == end:
            return
        self.writer = owner, part = writer
        self.spans.append(Span(owner, part, start, end))
        if part == Part.HEAD:
            owner.head = start, end
        elif part == Part.TAIL:
            owner.tail = start, end
        elif part == Part.PRINTED:
            owner.printed.append((len(owner.items), start, end))
        elif owner.pieces and owner.pieces[-1][1] == start:
            owner.pieces[-1] = owner.pieces[-1][0], end
        else:
            owner.pieces.append((start, end))

    def settle(self, event, asker):
        """Keeps how a step ended, and what a build was begun with."""
        if event.kind == START:
            self.script, self.agents = event.content, event.agents
            self.labels = labels_of(event.content.decode(errors="replace"))
        elif event.kind in (EXITED, LOST):
            asker.code = event.value
        elif event.kind == DECIDED:
            asker.answer = Answer(event.value == 1, event.content.decode(errors="replace"))

    def follow(self, changes):
        """Keeps what is open."""
        before = self.requests
        self.requests = {} if changes.is_whole else dict(before)
        self.heads = changes.heads if changes.is_whole else {**self.heads, **changes.heads}
        for request in changes.requests:
            self.requests[request.number] = request
            if request.number not in self.askers:
                self.asked(request)
        for number, taken in changes.taken.items():
            self.requests[number] = self.requests[number]._replace(taken=taken)
        for number in changes.closed:
            self.requests.pop(number, None)
        for number in before.keys() - self.requests.keys():
            asker = self.askers[number]
            if isinstance(asker, Step):
                asker.is_open, asker.ended = False, len(self.counts)

    def asked(self, request):
        asker = self.tree.made.get(self.heads.get(request.thread))
        if not isinstance(asker, (Step, Block)):
            raise NotARecord
        self.askers[request.number], asker.request = asker, request
        if isinstance(asker, Step):
            asker.is_open = True

    def words_of(self, task):
        """What a task is called: its label, or the first line of its script."""
        label = self.labels.get(task.text)
        return printable(label.replace("\n", " ")) if label else first_line(task.text)

    def has_ended(self):
        return not self.tree.script.is_open

    def text(self, pieces):
        return b"".join(bytes(self.log[start:end]) for start, end in pieces).decode(errors="replace")

    def result(self):
        """The result that the end of the build tells."""
        if self.status is not None:
            return RESULTS[STATUSES.index(self.status)]
        found = FINISHED.search(self.text(self.tree.script.pieces)) if self.has_log and self.has_ended() else None
        return found and found[1]


def first_writer(event, asker, script):
    """Whose the bytes are that a record adds in front of the line of its first node."""
    if asker is None:
        return script, Part.PRINTED
    return (asker.home, Part.PRINTED) if event.kind in (EXITED, LOST) else (asker, Part.TEXT)


def writer_behind(node, thing):
    """Whose the bytes are behind the line of a node."""
    if node.kind in ("atom", "block"):
        return thing, Part.TEXT
    if node.kind in ("end", "end-body"):
        return thing, Part.AFTER
    return body_around(thing), Part.PRINTED


def told(program, command, folder):
    """What the program prints of the build in a folder."""
    ran = subprocess.run([program, command, folder], stdin=subprocess.DEVNULL, stdout=subprocess.PIPE, check=False)
    if ran.returncode != 0:
        raise NoText(ran.stdout.decode(errors="replace").strip() or f"{command} ended with status {ran.returncode}", ran.returncode)
    return ran.stdout


def of_texts(graph, log):
    """The build of a graph's text and of a log, where there is one."""
    view = View()
    view.take_texts(nodes_of(graph), log)
    return view


def of_folder(folder, program):
    """The build of a folder: by the records of its store, or where those are not known by what the program tells."""
    if not os.path.isdir(folder):
        raise NoText(output.no_folder(folder), NO_BUILD)
    try:
        view = View()
        with Store(f"{folder}/program.dat") as store:
            for record in store.records():
                view.take(record)
        return view
    except (NoRecord, NotARecord):
        graph = told(program, "graph", folder).decode(errors="replace")
        return of_texts(graph, told(program, "log", folder))


def unquoted(text):
    inside = text[3:-3] if text[:3] in ("'''", '"""') else text[1:-1]
    return re.sub(r"\\(.)", lambda it: ESCAPES.get(it[1], it[1]), inside, flags=re.S)


def labels_of(script):
    """The labels of shell steps by their scripts, where the build's script has both as texts; the store keeps no label."""
    calls = [dict(ARGUMENT.findall(found[1])) for found in SHELL_CALL.finditer(script)]
    return {unquoted(it["script"]): unquoted(it["label"]) for it in calls if "script" in it and "label" in it}


def line_numbers(log, places):
    """Of places in the log the numbers of their lines, from 1."""
    numbers, line, before = {}, 1, 0
    for place in sorted(set(places)):
        line += log.count(b"\n", before, place)
        numbers[place], before = line, place
    return numbers


def control_folder(request):
    """The control folder of a task, as docs/HOSTS.md tells."""
    return f"{request.workspace}@tmp/durable-{request.number:08x}"


# --- states


class Ending(NamedTuple):
    """Whether a body was left by a throw, as the log says, and what was thrown."""

    is_thrown: bool
    message: str


def ending_of(view, body):
    """How a body ended, where the log tells: of the script, a branch, `catchError`, and a try before the last."""
    if not view.has_log or body.is_open:
        return None
    said = view.text(body.pieces)
    if body.home is None:
        message = FINISHED.sub("", said).strip("\n")
        return Ending(message != "", message)
    if body.is_branch():
        return Ending(said.startswith("Failed in branch "), "")
    if body.home.name == "catchError":
        return Ending(said != "", said.strip("\n"))
    if body.home.name == "retry" and body is not body.home.bodies[-1]:
        return Ending(True, said.strip("\n").removesuffix("\nRetrying"))
    return None


def may_have_thrown(view, step):
    """Whether a step threw; nothing where that is not known."""
    if step.name == "error" or step.answer is not None and not step.answer.proceeds:
        return True
    if not view.has_store:
        return None if step.name == "sh" or step.name == "input" and step.answer is None else False
    if step.name != "sh":
        return False
    if step.request is None:
        return True
    return step.code not in (None, 0) and not step.request.gives_code


def fits(view, step, message):
    """Whether a step can have thrown what has this message in the log; without one, whether it threw."""
    thrown = may_have_thrown(view, step)
    if thrown is False:
        return False
    is_last = step is step.home.items[-1]
    if message == "":
        return thrown or is_last
    code = EXIT_CODE.search(message)
    if step.name == "sh" and step.request is None and view.has_store:
        return NO_NODE in message
    if step.name == "sh":
        return code is not None and (int(code[1]) == step.code if thrown else is_last)
    if step.name == "input":
        return "Rejected by " in message and (thrown or is_last)
    return re.search("^ERROR: ", message, re.M) is not None


def path_by_message(view, body, message):
    """The way from a body that was left by a throw to the last step in it that can have thrown it, or nothing."""
    for item in reversed(body.items):
        if isinstance(item, Step):
            if fits(view, item, message):
                return [item]
            continue
        for inner in bodies_thrown(view, item):
            path = path_by_message(view, inner, message)
            if path:
                return [item, inner, *path]
    return []


def bodies_thrown(view, block):
    """The bodies through which a throw can have come out of a block, the likeliest first."""
    if block.name == "catchError":
        return []
    if block.is_parallel():
        failed = [it for it in block.bodies if (ending_of(view, it) or Ending(not view.has_log, "")).is_thrown]
        return sorted(failed, key=lambda it: it.end_number or 0)
    return block.bodies[-1:]


def path_downward(view, body):
    """The way to what came last in a body that was left by a throw: its boxes, and a step where that can have thrown."""
    last = body.items[-1] if body.items else None
    if isinstance(last, Step):
        return [] if may_have_thrown(view, last) is False else [last]
    if last is None or last.name == "catchError":
        return []
    if not last.bodies:
        return [last]
    inner = next(iter(bodies_thrown(view, last)), None)
    return [last, inner, *path_downward(view, inner)] if inner else []


def path_to_fault(view, body, message):
    """The way from a body that was left by a throw to what failed in it."""
    return path_by_message(view, body, message) or path_downward(view, body)


def own_state(view, step):
    if view.has_ended():
        is_stopped = step.is_open
    else:
        is_last_of_all = not view.has_store and step.home.is_open and step is step.home.items[-1]
        if step.is_open or is_last_of_all and step.name in ("sh", "input"):
            return State.WAITING if step.name == "input" else State.RUNNING
        is_stopped = False
    if is_stopped or step.answer is not None and not step.answer.proceeds:
        return State.ABORTED
    if step.name == "unstable":
        return State.UNSTABLE
    return State.FAILED if may_have_thrown(view, step) else State.SUCCEEDED


class Marks:
    """Gives each thing of a build its state."""

    def __init__(self, view):
        self.view = view
        # The ways to faults, each behind the body that was left.
        self.faults = []

    def mark(self):
        script = self.view.tree.script
        for step in self.view.tree.steps():
            step.state = own_state(self.view, step)
        self.mark_thrown(script)
        self.mark_upward(script, False)
        self.mark_around(script)
        self.mark_open(script)
        script.state = STATE_OF_RESULT.get(self.view.result(), script.state)
        return self

    def mark_thrown(self, body):
        """What failed in a body of which the log says that it was left by a throw, and each box from there up to it."""
        ending = ending_of(self.view, body)
        if ending and ending.is_thrown:
            path = path_to_fault(self.view, body, ending.message)
            self.faults.append((body, path, ending.message))
            state = State.ABORTED if path and path[-1].name == "input" else State.FAILED
            for thing in (body, *path):
                thing.state = state
        for item in body.items:
            for inner in getattr(item, "bodies", []):
                self.mark_thrown(inner)

    def mark_upward(self, body, is_known):
        """Where the log does not tell, a failure goes up through each box that ends behind it."""
        is_known = is_known and body.home is not None or ending_of(self.view, body) is not None
        for item in body.items:
            if isinstance(item, Block):
                self.mark_block_upward(item, is_known)
        if not is_known and body.items and body.items[-1].state in (State.FAILED, State.ABORTED):
            body.state = body.items[-1].state

    def mark_block_upward(self, block, is_known):
        is_scope = block.is_parallel() or block.name == "catchError"
        for inner in block.bodies:
            self.mark_upward(inner, is_known and not is_scope)
        if block.name == "retry":
            for earlier in block.bodies[:-1]:
                earlier.state = State.FAILED
        ends = block.bodies if block.is_parallel() else block.bodies[-1:]
        failed = [it.state for it in ends if it.state in (State.FAILED, State.ABORTED)]
        if failed and block.state == State.SUCCEEDED and (not is_known or block.name == "catchError"):
            block.state = State.UNSTABLE if block.name == "catchError" else failed[0]

    def mark_around(self, body):
        """What went on after something marked in it is unstable; tries that were tried again count for nothing."""
        for item in body.items:
            if isinstance(item, Block):
                for inner in item.bodies:
                    self.mark_around(inner)
                ends = item.bodies[-1:] if item.name == "retry" else item.bodies
                if item.state == State.SUCCEEDED and any(is_marked(inner) for inner in ends):
                    item.state = State.UNSTABLE
        if body.state == State.SUCCEEDED and any(is_marked(item) for item in body.items):
            body.state = State.UNSTABLE

    def mark_open(self, body):
        """What is open runs, or waits where all that is open in it waits; where the build has ended it was stopped."""
        for item in body.items:
            for inner in getattr(item, "bodies", []):
                self.mark_open(inner)
            if isinstance(item, Block) and item.is_open:
                within = [it.state == State.WAITING for it in item.bodies if it.is_open]
                item.state = self.open_state(all(within) if within else is_waiting_node(self.view, item))
        if body.is_open:
            body.state = self.open_state(bool(body.items) and body.items[-1].state == State.WAITING)

    def open_state(self, waits):
        if self.view.has_ended():
            return State.ABORTED
        return State.WAITING if waits else State.RUNNING


def is_marked(thing):
    return thing.state in (State.UNSTABLE, State.FAILED, State.ABORTED)


def is_waiting_node(view, block):
    """Whether a `node` waits for an executor."""
    return block.request is not None and block.request.number in view.requests


# --- what failed


class Fault(NamedTuple):
    """What failed: the stages and branches around it from outside, the step where that is known, what was thrown, and whether a
    `catchError` caught it."""

    boxes: list
    step: Optional[Thing]
    message: str
    is_caught: bool


def faults_of(view, marks):
    """What failed, the build's own failure first, each step once; not what was tried again."""
    found, seen = [], set()
    for body, path, message in marks.faults:
        inside = path[-1] if path else body
        if inside in seen or body.name == "retry":
            continue
        seen.add(inside)
        boxes = [it for it in boxes_around(inside) if is_stage_or_branch(it)]
        is_caught = any(it.name == "catchError" for it in boxes_around(body))
        found.append(Fault(boxes, None if isinstance(inside, Body) else inside, message, is_caught))
    return found
