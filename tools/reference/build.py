"""A build: what its script, its steps and its events do, as docs/WORLD.md and docs/STEPS.md say.

A script is a list of statements. Statements and expressions are tuples: their form first, and then their parts, as `script.py`
writes them. Each evaluation is a generator, which yields what its green thread waits for and goes on with the answer.
"""
from collections import namedtuple

from labels import fits
from methods import call_method
from steps import Steps
from values import (Closure, LimitReached, List, Map, Throwable, Thrown, ERRORS, bad_argument, is_number, is_true, key_of,
                    no_method, operate, read_index, read_property, signed, text_of, throws, wrap, write_index, write_property)

RESULTS = ["SUCCESS", "UNSTABLE", "FAILURE", "NOT_BUILT", "ABORTED"]
MOST_CALLS = 1_024
MOST_THREADS = 256
# A script that takes more is left out: the nodes of an event are not counted here.
MOST_TURNS = 60_000


# An executor of an agent, whose name is among the labels.
Executor = namedtuple("Executor", "agent root labels")
ONE_EXECUTOR = [Executor("m", "/w", ["m"])]


class TooLong(Exception):
    pass


class Returned(Exception):
    def __init__(self, value):
        super().__init__()
        self.value = value


class Broke(Exception):
    pass


class Continued(Exception):
    pass


class Names:
    """A variable and those around it; its cell is a list of one value."""

    def __init__(self, name, value, around):
        self.name, self.cell, self.around = name, [value], around


class Thread:
    def __init__(self, number, parent, name=""):
        self.number, self.parent, self.name = number, parent, name
        self.folders = list(parent.folders) if parent else []
        # The executors of the nodes that it is in, and the variables of `withEnv`.
        self.nodes = list(parent.nodes) if parent else []
        self.overrides = list(parent.overrides) if parent else []
        self.calls, self.run, self.answer, self.is_ready = 0, None, None, True
        # Its last flow node.
        self.head = None
        self.outcome, self.open, self.ended = None, [], []


def cell_in(names, name):
    while names is not None:
        if names.name == name:
            return names.cell
        names = names.around
    return None


class Build(Steps):
    """A build of a script, for a job and executors."""

    def __init__(self, script, job="demo", executors=ONE_EXECUTOR):
        self.job, self.executors = job, executors
        self.functions = {part[1]: part for part in script if part[0] == "function"}
        self.statements = [part for part in script if part[0] != "function"]
        self.binding, self.log, self.result, self.is_over = {}, "", 0, False
        self.threads, self.next_thread = [], 0
        # The open requests, and the workspaces of the executors that are held, by their numbers.
        self.requests, self.next_request, self.held = {}, 1, {}
        self.turns, self.answers = 0, ""
        # The flow nodes from 2 on: each its words, and the nodes right before it.
        self.nodes = []

    # --- names

    def cell(self, names, name):
        return cell_in(names, name) or self.binding.get(name)

    def read(self, names, name):
        cell = self.cell(names, name)
        if cell is None:
            raise throws("MissingProperty", f"No such property: {name} for class: WorkflowScript")
        return cell[0]

    def write(self, names, name, value):
        cell = self.cell(names, name)
        if cell is None:
            cell = self.binding[name] = [None]
        cell[0] = value

    # --- statements: each gives its value, and the names of the statements behind it

    def count(self):
        self.turns += 1
        if self.turns > MOST_TURNS:
            raise TooLong

    def block(self, thread, statements, names):
        value = None
        for statement in statements:
            value, names = yield from self.statement(thread, statement, names)
        return value

    def statement(self, thread, statement, names):
        self.count()
        form = statement[0]
        if form == "declare":
            value = (yield from self.value(thread, statement[2], names)) if statement[2] else None
            return None, Names(statement[1], value, names)
        value = yield from getattr(self, "do_" + form)(thread, names, *statement[1:])
        return value, names

    def do_evaluate(self, thread, names, expression):
        return (yield from self.value(thread, expression, names))

    def do_assign(self, thread, names, target, sign, expression):
        target = yield from self.target(thread, target, names)
        old = None if sign == "=" else self.read_target(names, target)
        value = yield from self.value(thread, expression, names)
        if sign != "=":
            value = operate(sign[0], old, value)
        self.write_target(names, target, value)
        return value

    def do_step(self, thread, names, target, change):
        target = yield from self.target(thread, target, names)
        old = self.read_target(names, target)
        if not is_number(old):
            raise no_method(old, "plus")
        self.write_target(names, target, wrap(old + change))
        return wrap(old + change)

    def do_if(self, thread, names, arms, otherwise):
        for test, body in arms:
            if is_true((yield from self.value(thread, test, names))):
                return (yield from self.block(thread, body, names))
        return (yield from self.block(thread, otherwise or [], names))

    def turn(self, thread, body, names):
        """A turn of a loop; whether the loop goes on."""
        self.count()
        try:
            yield from self.block(thread, body, names)
        except Broke:
            return False
        except Continued:
            pass
        return True

    def do_while(self, thread, names, test, body):
        while is_true((yield from self.value(thread, test, names))):
            if not (yield from self.turn(thread, body, names)):
                break

    def do_steps(self, thread, names, first, test, following, body):
        _, names = yield from self.statement(thread, first, names)
        while is_true((yield from self.value(thread, test, names))):
            if not (yield from self.turn(thread, body, names)):
                break
            yield from self.statement(thread, following, names)

    def do_each(self, thread, names, name, over, body):
        over = yield from self.value(thread, over, names)
        at = 0
        while True:
            if isinstance(over, Map):
                items = [Map({"key": key, "value": item}) for key, item in over.entries.items()]
            else:
                items = [] if over is None else over.items if isinstance(over, List) else over if isinstance(over, str) else [over]
            if at >= len(items) or not (yield from self.turn(thread, body, Names(name, items[at], names))):
                return None
            at += 1

    def do_try(self, thread, names, body, catches, last):
        try:
            value = yield from self.guarded(thread, names, body, catches)
        except (Thrown, Returned, Broke, Continued):
            yield from self.block(thread, last or [], names)
            raise
        yield from self.block(thread, last or [], names)
        return value

    def guarded(self, thread, names, body, catches):
        try:
            return (yield from self.block(thread, body, names))
        except Thrown as thrown:
            for catches_all, name, handler in catches:
                if catches_all or thrown.throwable.kind not in ERRORS:
                    return (yield from self.block(thread, handler, Names(name, thrown.throwable, names)))
            raise

    def do_return(self, thread, names, expression):
        raise Returned((yield from self.value(thread, expression, names)) if expression else None)

    def do_throw(self, thread, names, expression):
        value = yield from self.value(thread, expression, names)
        if not isinstance(value, Throwable):
            raise throws("IllegalArgument", "not a throwable")
        raise Thrown(value)

    def do_break(self, thread, names):
        raise Broke
        yield

    def do_continue(self, thread, names):
        raise Continued
        yield

    # --- targets: a name, or a value with a property or an index

    def target(self, thread, target, names):
        if target[0] == "name":
            return target
        on = yield from self.value(thread, target[1], names)
        if target[0] == "property":
            return ("property", on, target[2])
        return ("index", on, (yield from self.value(thread, target[2], names)))

    def read_target(self, names, target):
        if target[0] == "name":
            return self.read(names, target[1])
        return (read_property if target[0] == "property" else read_index)(*target[1:])

    def write_target(self, names, target, value):
        if target[0] == "name":
            self.write(names, target[1], value)
        else:
            (write_property if target[0] == "property" else write_index)(*target[1:], value)

    # --- expressions

    def value(self, thread, expression, names):
        self.count()
        return (yield from getattr(self, "of_" + expression[0])(thread, names, *expression[1:]))

    def values(self, thread, names, expressions):
        values = []
        for expression in expressions:
            values.append((yield from self.value(thread, expression, names)))
        return values

    def of_literal(self, thread, names, value):
        return value
        yield

    def of_name(self, thread, names, name):
        return self.read(names, name)
        yield

    def of_group(self, thread, names, expression):
        return (yield from self.value(thread, expression, names))

    def of_list(self, thread, names, items):
        return List((yield from self.values(thread, names, items)))

    def of_map(self, thread, names, entries):
        pairs = []
        for (form, key), item in entries:
            if form == "computed":
                key = yield from self.value(thread, key, names)
            pairs.append((key, (yield from self.value(thread, item, names))))
        made = {}
        for key, item in pairs:
            made[key_of(key)] = item
        return Map(made)

    def of_text(self, thread, names, parts):
        values = []
        for part in parts:
            values.append(part if isinstance(part, str) else (yield from self.value(thread, part, names)))
        return "".join(text_of(value) for value in values)

    def of_closure(self, thread, names, parameters, body):
        return Closure(parameters, body, names)
        yield

    def of_new(self, thread, names, kind, message):
        return Throwable(kind, text_of((yield from self.value(thread, message, names))) if message else None)

    def of_signed(self, thread, names, signs, expression):
        value = yield from self.value(thread, expression, names)
        for sign in reversed(signs):
            value = signed(sign, value)
        return value

    def of_joined(self, thread, names, sign, left, right):
        left, right = yield from self.values(thread, names, [left, right])
        return operate(sign, left, right)

    def of_and(self, thread, names, operands):
        for operand in operands:
            if not is_true((yield from self.value(thread, operand, names))):
                return False
        return True

    def of_or(self, thread, names, operands):
        for operand in operands:
            if is_true((yield from self.value(thread, operand, names))):
                return True
        return False

    def of_chosen(self, thread, names, test, then, otherwise):
        chosen = is_true((yield from self.value(thread, test, names)))
        return (yield from self.value(thread, then if chosen else otherwise, names))

    def of_default(self, thread, names, expression, otherwise):
        value = yield from self.value(thread, expression, names)
        return value if is_true(value) else (yield from self.value(thread, otherwise, names))

    def of_suffixed(self, thread, names, expression, suffixes):
        value = yield from self.value(thread, expression, names)
        for suffix in suffixes:
            value = yield from self.suffix(thread, names, value, *suffix)
        return value

    def suffix(self, thread, names, value, form, what, *rest):
        if form == "index":
            return read_index(value, (yield from self.value(thread, what, names)))
        is_safe = rest[0]
        if form == "property":
            return None if is_safe and value is None else read_property(value, what)
        arguments = yield from self.arguments(thread, names, rest[1])
        return None if is_safe and value is None else (yield from self.method(thread, value, what, arguments))

    # --- calls

    def arguments(self, thread, names, given):
        named, others = given
        front = []
        if named:
            made = {}
            for name, expression in named:
                made[name] = yield from self.value(thread, expression, names)
            front = [Map(made)]
        return front + (yield from self.values(thread, names, others))

    def body(self, thread, parameters, statements, names, arguments):
        """The body of a function or a closure."""
        parameters = ["it"] if parameters is None else parameters
        if len(parameters) == 1 and not arguments:
            arguments = [None]
        if len(parameters) != len(arguments):
            raise throws("MissingMethod", "No signature of method: groovy.lang.Closure.call()")
        if thread.calls == MOST_CALLS:
            raise LimitReached("call depth")
        thread.calls += 1
        for name, value in zip(parameters, arguments):
            names = Names(name, value, names)
        try:
            return (yield from self.block(thread, statements, names))
        except Returned as returned:
            return returned.value
        finally:
            thread.calls -= 1

    def call(self, thread, closure, arguments):
        return (yield from self.body(thread, closure.parameters, closure.body, closure.names, arguments))

    def of_call(self, thread, names, name, given):
        declared = cell_in(names, name)
        if declared is not None:
            called = declared[0]
            return (yield from self.method(thread, called, "call", (yield from self.arguments(thread, names, given))))
        arguments = yield from self.arguments(thread, names, given)
        if name in self.functions:
            _, _, parameters, statements = self.functions[name]
            return (yield from self.body(thread, parameters, statements, None, arguments))
        bound = self.binding.get(name, [None])[0]
        if isinstance(bound, Closure):
            return (yield from self.call(thread, bound, arguments))
        return (yield from self.step(thread, name, arguments))

    def method(self, thread, value, name, arguments):
        if name == "call" and isinstance(value, Closure):
            return (yield from self.call(thread, value, arguments))
        walks = isinstance(value, (List, Map)) and name in ("each", "collect", "find", "findAll", "any", "every")
        if len(arguments) == 1 and (walks or name == "times" and is_number(value)):
            if not isinstance(arguments[0], Closure):
                raise bad_argument()
            return (yield from self.walk(thread, value, name, arguments[0]))
        return call_method(value, name, arguments)

    def turn_of_walk(self, value, at, takes_two):
        """The element of a turn and what the closure gets; None past the end."""
        if is_number(value):
            return (at, [at]) if at < value else None
        if isinstance(value, List):
            return (value.items[at], [value.items[at]]) if at < len(value.items) else None
        if at >= len(value.entries):
            return None
        key, item = list(value.entries.items())[at]
        return (key, item), [key, item] if takes_two else [Map({"key": key, "value": item})]

    def walk(self, thread, value, name, closure):
        takes_two = closure.parameters is not None and len(closure.parameters) == 2
        kept, at = [], 0
        while True:
            turn = self.turn_of_walk(value, at, takes_two)
            if turn is None:
                break
            self.count()
            element, arguments = turn
            given = yield from self.call(thread, closure, arguments)
            if name == "collect":
                kept.append(given)
            elif name == "findAll" and is_true(given):
                kept.append(element)
            elif name == "find" and is_true(given):
                return arguments[0] if len(arguments) == 1 else Map({"key": arguments[0], "value": arguments[1]})
            elif name == "any" and is_true(given):
                return True
            elif name == "every" and not is_true(given):
                return False
            at += 1
        if name == "findAll" and isinstance(value, Map):
            return Map(dict(kept))
        at_end = {"each": value, "any": False, "every": True, "find": None, "times": None}
        return at_end[name] if name in at_end else List(kept)

    # --- the log and the end

    def line(self, text):
        if self.log and not self.log.endswith("\n"):
            self.log += "\n"
        self.log += text + "\n"

    def note(self, text):
        self.line("[Pipeline] " + text)

    def node(self, words, parents):
        """A new flow node, and its number."""
        self.nodes.append((words, list(parents)))
        return len(self.nodes) + 1

    def go_to(self, thread, words):
        """A new flow node behind the last one of a thread."""
        thread.head = self.node(words, [thread.head])
        return thread.head

    def graph(self):
        """The text of the flow graph."""
        lines = []
        for number, (words, parents) in enumerate(self.nodes, 2):
            behind = " <- " + " ".join(map(str, parents)) if number > 2 else ""
            lines.append(f"{number} {words}{behind}\n")
        return "".join(lines)

    def worsen(self, result):
        self.result = max(self.result, RESULTS.index(result))

    def finish(self, cause, heads):
        self.node("end", heads)
        self.note("End of Pipeline")
        if cause is not None:
            self.line(cause)
        self.line("Finished: " + RESULTS[self.result])
        self.is_over = True

    def finish_script(self, thread, outcome):
        ended, value = outcome
        if ended == "value":
            self.finish(None, [thread.head])
        elif value.kind == "FlowInterrupted":
            self.worsen("ABORTED")
            self.finish(value.message, [thread.head])
        else:
            self.worsen("FAILURE")
            self.finish(f"ERROR: {value.message or ''}" if value.kind == "Abort" else text_of(value), [thread.head])

    # --- green threads

    def script(self, thread):
        try:
            return "value", (yield from self.block(thread, self.statements, None))
        except Returned as returned:
            return "value", returned.value
        except Thrown as thrown:
            return "thrown", thrown.throwable

    def new_thread(self, parent, name=""):
        thread = Thread(self.next_thread, parent, name)
        self.next_thread += 1
        return thread

    def start(self):
        self.note("Start of Pipeline")
        thread = self.new_thread(None)
        thread.head = self.node("start", [])
        thread.run = self.script(thread)
        self.threads.append(thread)
        self.settle()

    def settle(self):
        """The lowest-numbered ready thread goes on, until none is ready or the build is over."""
        try:
            while not self.is_over and any(thread.is_ready for thread in self.threads):
                self.go_on(min((thread for thread in self.threads if thread.is_ready), key=lambda thread: thread.number))
        except LimitReached as limit:
            self.worsen("FAILURE")
            self.finish(f"Limit reached: {limit}", [thread.head for thread in self.threads])

    def go_on(self, thread):
        thread.is_ready = False
        try:
            branches = thread.run.send(thread.answer)
        except StopIteration as stop:
            self.end_thread(thread, stop.value)
            return
        thread.answer = None
        if branches is not None:
            if len(self.threads) + len(branches) > MOST_THREADS:
                raise LimitReached("green threads")
            thread.open = list(branches)
            self.threads.extend(branches)

    def end_thread(self, thread, outcome):
        thread.outcome = outcome
        parent = thread.parent
        if parent is None:
            self.finish_script(thread, outcome)
            return
        self.threads.remove(thread)
        parent.open.remove(thread)
        parent.ended.append(thread)
        parent.is_ready = not parent.open

    # --- events

    def take(self, line):
        """An event, as a line of a trial; an answer other than Accepted is kept."""
        word, number, rest = (line.split(" ", 2) + [""])[:3]
        request = self.requests.get(int(number))
        answer = "Finished" if self.is_over else getattr(self, "take_" + word)(int(number), request, rest)
        if answer is not None:
            self.answers += f"{line}: {answer}\n"

    def answer(self, number, value):
        thread = self.requests.pop(number)["thread"]
        thread.is_ready, thread.answer, self.turns = True, value, 0
        self.settle()

    def take_granted(self, number, request, executor):
        at = int(executor)
        if request is None or request["kind"] != "node" or not self.may_have(request, at):
            return "NotOpen"
        self.held[at] = self.new_workspace(self.executors[at])
        return self.answer(number, at)

    def may_have(self, request, at):
        """Whether the request may be given this executor."""
        return at < len(self.executors) and at not in self.held and fits(request["label"], self.executors[at].labels)

    def new_workspace(self, executor):
        """The first one of the job on the agent that no other of its executors has."""
        first = f"{executor.root}/workspace/{self.job}"
        used = [workspace for at, workspace in self.held.items() if self.executors[at].agent == executor.agent]
        names = [first] + [f"{first}@{place}" for place in range(2, len(used) + 2)]
        return next(name for name in names if name not in used)

    def next_grant(self):
        """The lowest-numbered request that a free executor fits, with the first such executor; None where there is none."""
        for number, request in sorted(self.requests.items()):
            fit = [at for at in range(len(self.executors)) if request["kind"] == "node" and self.may_have(request, at)]
            if fit:
                return number, fit[0]
        return None

    def take_decided(self, number, request, name, proceeds):
        if request is None or request["kind"] != "input":
            return "NotOpen"
        return self.answer(number, (proceeds, name))

    def take_proceed(self, number, request, name):
        return self.take_decided(number, request, name, True)

    def take_abort(self, number, request, name):
        return self.take_decided(number, request, name, False)

    def take_exited(self, number, request, code):
        if request is None or request["kind"] != "task":
            return "NotOpen"
        return self.answer(number, (int(code), request["out"]))

    def take_lost(self, number, request, why):
        return self.take_exited(number, request, -1 if why == "gone" else -2)

    def take_log(self, number, request, rest):
        return self.take_output(request, "log", rest)

    def take_out(self, number, request, rest):
        return self.take_output(request, "out", rest)

    def take_output(self, request, stream, rest):
        if request is None or request["kind"] != "task" or stream == "out" and not request["keeps"]:
            return "NotOpen"
        start, text = rest.split(" ", 1)
        if int(start) != len(request[stream]):
            return f"WrongPlace {{ kept: {len(request[stream])} }}"
        text = text.replace("\\n", "\n")
        request[stream] += text
        if stream == "log":
            self.log += text
        return None
