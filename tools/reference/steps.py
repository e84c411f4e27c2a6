"""The steps, as docs/STEPS.md says."""
from labels import fault_of
from values import Closure, List, Map, Thrown, is_number, text_of, throws

# The parameters of each step, those that may be left out, and whether it has a body.
STEPS = {
    "println": (["value"], [], False),
    "echo": (["message"], [], False),
    "error": (["message"], [], False),
    "unstable": (["message"], [], False),
    "stage": (["name"], [], True),
    "catchError": (["message", "buildResult"], ["message", "buildResult"], True),
    "retry": (["count"], [], True),
    "node": (["label"], ["label"], True),
    "dir": (["path"], [], True),
    "withEnv": (["overrides"], [], True),
    "sh": (["script", "returnStatus", "returnStdout", "label"], ["returnStatus", "returnStdout", "label"], False),
    "input": (["message", "id", "ok"], ["id", "ok"], False),
    "parallel": (["branches"], [], False),
}
RESULT_NAMES = ("SUCCESS", "UNSTABLE", "FAILURE", "NOT_BUILT", "ABORTED")


def is_override(value):
    name, equals, _ = value.partition("=") if isinstance(value, str) else ("", "", "")
    return equals == "=" and name != "" and "+" not in name


def is_bad(parameter, value, given):
    """Whether an argument cannot be used; the text of a value that takes any may meet a limit."""
    if parameter == "buildResult":
        return text_of(value) not in RESULT_NAMES
    if parameter == "count":
        return not is_number(value) or value < 1
    if parameter == "overrides":
        return not isinstance(value, List) or not all(is_override(item) for item in value.items)
    if parameter in ("returnStatus", "returnStdout"):
        both = parameter == "returnStdout" and value is True and given.get("returnStatus") is True
        return not isinstance(value, bool) or both
    if parameter == "id":
        return text_of(value) == "" or any(blank in text_of(value) for blank in " \t\n\r\f")
    if parameter == "branches":
        return not isinstance(value, Map)
    if parameter != "value":
        text_of(value)
    return False


def bound(name, arguments):
    """The arguments of a step by their parameters, and its body; or the first fault is thrown."""
    parameters, optional, has_body = STEPS[name]
    body = arguments[-1] if arguments and isinstance(arguments[-1], Closure) else None
    arguments = arguments if body is None else arguments[:-1]

    def fault(what):
        return throws("IllegalArgument", f"{name}: {what}")

    if len(arguments) > 1:
        raise fault("too many arguments")
    given = {}
    if arguments and isinstance(arguments[0], Map) and name not in ("println", "parallel"):
        given = dict(arguments[0].entries)
    elif arguments:
        given = {parameters[0]: arguments[0]}
    for parameter in given:
        if parameter not in parameters:
            raise fault(f"unknown {text_of(parameter)}")
    for parameter, value in given.items():
        if is_bad(parameter, value, given):
            raise fault(f"bad {parameter}")
    if name == "parallel" and given:
        for branch, closure in given["branches"].entries.items():
            if branch == "failFast" or not isinstance(closure, Closure):
                raise fault(f"bad {text_of(branch)}")
    for parameter in parameters:
        if parameter not in given and parameter not in optional:
            raise fault(f"missing {parameter}")
    if has_body != (body is not None):
        raise fault("needs a body" if has_body else "takes no body")
    if name == "node" and fault_of(text_of(given.get("label", ""))) is not None:
        raise fault(f"label has a fault at {fault_of(text_of(given['label']))}")
    return given, body


def body_words(label):
    """The words of a body's flow node in the text of the graph."""
    for character, escape in (("\\", "\\\\"), ("\n", "\\n"), ("\r", "\\r")):
        label = label.replace(character, escape)
    return f"body {label}" if label else "body"


def failure_line(throwable):
    return f"ERROR: {throwable.message or ''}" if throwable.kind == "Abort" else f"ERROR: {text_of(throwable)}"


def missing_folder():
    return throws("MissingContext", "Required context class hudson.FilePath is missing")


class Steps:
    """The part of a build that its steps are."""

    def step(self, thread, name, arguments):
        if name not in STEPS:
            raise throws("NoSuchMethod", f"No such DSL method '{name}' found among steps")
        given, body = bound(name, arguments)
        words = {parameter: text_of(value) for parameter, value in given.items() if parameter not in ("branches", "overrides")}
        if name == "println":
            self.line(words["value"])
            return None
        begun = self.go_to(thread, ("atom " if body is None and name != "parallel" else "block ") + name)
        self.note(name)
        value = yield from getattr(self, "step_" + name)(thread, words, given, body)
        if body is not None:
            self.go_to(thread, f"end-block of {begun}")
            self.note("// " + name)
            ended, value = value
            if ended == "thrown":
                raise value
        return value

    def step_echo(self, thread, words, given, body):
        self.line(words["message"])
        return None
        yield

    def step_error(self, thread, words, given, body):
        raise throws("Abort", words["message"])
        yield

    def step_unstable(self, thread, words, given, body):
        self.line("WARNING: " + words["message"])
        self.worsen("UNSTABLE")
        return None
        yield

    def inside(self, thread, body, label=""):
        """The body of a step, between its lines; how it ended."""
        begun = self.go_to(thread, body_words(label))
        self.note("{ (" + label + ")" if label else "{")
        try:
            ended = "value", (yield from self.call(thread, body, []))
        except Thrown as thrown:
            ended = "thrown", thrown
        self.go_to(thread, f"end-body of {begun}")
        self.note("}")
        return ended

    def step_stage(self, thread, words, given, body):
        return (yield from self.inside(thread, body, words["name"]))

    def step_catchError(self, thread, words, given, body):
        ended, thrown = yield from self.inside(thread, body)
        if ended == "thrown":
            if "message" in words:
                self.line(words["message"])
            if thrown.throwable.kind != "FlowInterrupted":
                self.line(failure_line(thrown.throwable))
            elif thrown.throwable.message is not None:
                self.line(thrown.throwable.message)
            self.worsen(words.get("buildResult", "FAILURE"))
        return "value", None

    def step_retry(self, thread, words, given, body):
        for left in reversed(range(given["count"])):
            ended, value = yield from self.inside(thread, body)
            if ended == "value" or left == 0 or value.throwable.kind == "FlowInterrupted":
                break
            self.line(failure_line(value.throwable))
            self.line("Retrying")
        return ended, value

    def step_withEnv(self, thread, words, given, body):
        before = len(thread.overrides)
        thread.overrides += given["overrides"].items
        ended = yield from self.inside(thread, body)
        del thread.overrides[before:]
        return ended

    def step_dir(self, thread, words, given, body):
        if not thread.folders:
            self.go_to(thread, f"end-block of {thread.head}")
            self.note("// dir")
            raise missing_folder()
        path = words["path"]
        folder = path if path.startswith("/") else thread.folders[-1] + "/" + path
        return (yield from self.in_folder(thread, body, f"Running in {folder}", folder))

    def in_folder(self, thread, body, line, folder):
        self.line(line)
        thread.folders.append(folder)
        ended = yield from self.inside(thread, body)
        thread.folders.pop()
        return ended

    def ask(self, thread, kind, **more):
        number = self.next_request
        self.next_request += 1
        self.requests[number] = {"kind": kind, "thread": thread, **more}
        return number

    def step_node(self, thread, words, given, body):
        self.ask(thread, "node", label=words.get("label"))
        executor = yield
        workspace = self.held[executor]
        thread.nodes.append(executor)
        ended = yield from self.in_folder(thread, body, f"Running on {self.executors[executor].agent} in {workspace}", workspace)
        thread.nodes.pop()
        del self.held[executor]
        return ended

    def step_sh(self, thread, words, given, body):
        if not thread.folders:
            raise missing_folder()
        keeps = given.get("returnStdout", False)
        self.ask(thread, "task", keeps=keeps, log="", out="", script=words["script"], executor=thread.nodes[-1], folder=thread.folders[-1],
                 overrides=list(thread.overrides))
        code, out = yield
        if given.get("returnStatus", False):
            return code
        if code != 0:
            raise throws("Abort", f"script returned exit code {code}")
        return out if keeps else None

    def step_input(self, thread, words, given, body):
        self.line(words["message"])
        self.line(words.get("ok", "Proceed") + " or Abort")
        self.ask(thread, "input", id=words.get("id"))
        proceeds, name = yield
        if not proceeds:
            raise throws("FlowInterrupted", f"Rejected by {name}")
        self.line("Approved by " + name)
        return None

    def step_parallel(self, thread, words, given, body):
        closures = given["branches"].entries
        if not closures:
            self.line("No branches to run")
        names = [text_of(name) for name in closures]
        heads = []
        for name in names:
            heads.append(self.node(body_words(f"Branch: {name}"), [thread.head]))
            self.note(f"{{ (Branch: {name})")
        branches = []
        for name, head, closure in zip(names, heads, closures.values()):
            branch = self.new_thread(thread, name)
            branch.head = head
            branch.run = self.branch(branch, closure)
            branches.append(branch)
        thread.ended = []
        if branches:
            yield branches
        thread.head = self.node(f"end-block of {thread.head}", [branch.head for branch in branches] or [thread.head])
        self.note("// parallel")
        for branch in thread.ended:
            if branch.outcome[0] == "thrown":
                raise Thrown(branch.outcome[1])
        return Map({branch.name: branch.outcome[1] for branch in branches})

    def branch(self, thread, closure):
        begun = thread.head
        try:
            outcome = "value", (yield from self.call(thread, closure, []))
        except Thrown as thrown:
            outcome = "thrown", thrown.throwable
        self.go_to(thread, f"end-body of {begun}")
        self.note("}")
        if outcome[0] == "thrown":
            self.line(f"Failed in branch {thread.name}")
        return outcome
