"""What Jenkins' steps become."""
from groovy_reader import nodes as g

from .names import key_of
from .words import OF_THE_JOB


def named(call):
    """The named arguments of a call, by their names."""
    return {key_of(it.key): it for it in call.arguments if it.key is not None}


class Steps:
    """Rules of a Rewriter on steps, each a method `step_NAME`."""

    def step_sh(self, node):
        """A shell step gets the variables that were set by `env`, and the credentials without a trace of its commands."""
        self.with_set_variables(node)
        if self.context.has_credentials:
            script = named(node).get("script") or next((it for it in node.arguments if it.key is None), None)
            if script is None:
                self.found.refuse(node, "a shell step whose script is not told, in a script with credentials")
            else:
                self.need("withoutTrace", node)
                self.edits.around(script.value, "withoutTrace(", ")")
        encoding = named(node).get("encoding")
        if encoding is not None:
            self.without_argument(node, encoding)

    def without_argument(self, node, argument, filled=""):
        """Takes an argument away; where it is the only one something may stand in its place."""
        written = node.arguments[: len(node.arguments) - node.trailing]
        at = written.index(argument)
        if at + 1 < len(written):
            self.edits.replace(argument.begin, written[at + 1].begin, "")
        else:
            self.edits.replace(written[at - 1].end if at else argument.begin, argument.end, "" if at else filled)
        self.skip(argument)

    def step_withEnv(self, node):
        """A name with a `+` puts its value in front of the variable, which has to be read first."""
        first = node.arguments[0].value if node.arguments else None
        if first is None:
            return
        written = [text_of(it.value) for it in first.items] if isinstance(first, g.ListLiteral) else [None]
        if any(it is None or "+" in it.split("=")[0] for it in written):
            self.need("withPaths", node)
            self.edits.around(first, "withPaths(", ")")
            self.found.changed(node, "`NAME+X=v` of `withEnv` becomes `withPaths(..)` of the library, which reads the variable by a shell step")

    def step_catchError(self, node):
        """Its results are those of the build alone."""
        given = named(node)
        if "catchInterruptions" in given:
            self.found.refuse(given["catchInterruptions"], "`catchInterruptions`")
        if "stageResult" in given:
            self.without_argument(node, given["stageResult"], "null" if self.context.reads_result else "")
            self.found.changed(given["stageResult"], "`stageResult` goes: a stage has no result of its own; that of the build is the same")
        if self.context.reads_result:
            self.renamed(node, "catchErrorHere")

    def renamed(self, node, name):
        self.need(name, node)
        self.edits.replace(node.what.begin, node.what.end, name)
        if name == "catchErrorHere" and len(node.arguments) == node.trailing:
            opening = node.arguments[-1].begin
            self.edits.replace(node.what.end, opening, "(null) ")

    def step_unstable(self, node):
        if self.context.reads_result:
            self.renamed(node, "unstableHere")

    def step_parallel(self, node):
        """`failFast` may be left out where it is false."""
        fast = named(node).get("failFast")
        if fast is None:
            return
        if isinstance(fast.value, g.Constant) and fast.value.word == "false":
            self.without_argument(node, fast)
            self.found.changed(fast, "`failFast: false` goes: so it is")
        else:
            self.found.refuse(fast, "`failFast`: all branches run to their ends")

    def step_stage(self, node):
        if not any(isinstance(it.value, g.Closure) or isinstance(it.value, g.Name) for it in node.arguments[1:]) and not node.trailing:
            self.found.refuse(node, "a `stage` without a body: put what belongs to it in braces")
        if "concurrency" in named(node):
            self.found.refuse(node, "`concurrency`")

    def step_input(self, node):
        for name, it in named(node).items():
            if name not in ("message", "id", "ok"):
                self.found.refuse(it, f"`{name}` of `input`")

    def step_retry(self, node):
        for name, it in named(node).items():
            if name != "count":
                self.found.refuse(it, f"`{name}` of `retry`")

    def step_node(self, node):
        """Nothing to change: the label is the main argument."""

    def step_properties(self, node):
        """What a job's properties say of parameters is read before; the rest is for Jenkins."""
        names = sorted({it.what.name for it in node.walk() if isinstance(it, g.Call) and isinstance(it.what, g.Name) and it.what.name in OF_THE_JOB})
        self.edits.replace(node.begin, node.end, "")
        self.skip(node)
        self.found.changed(node, "`properties` goes" + (f": nothing here does {', '.join(names)}" if names else ""))

    def step_waitUntil(self, node):
        """A closure with options becomes one map."""
        self.need("waitUntil", node)
        written = node.arguments[: len(node.arguments) - node.trailing]
        if not written or node.trailing != 1:
            return
        closure = node.arguments[-1]
        if not all(it.key is not None for it in written):
            self.found.refuse(node, "`waitUntil` with such arguments")
            return
        self.edits.before(written[0].begin, "[")
        self.edits.replace(written[-1].end, closure.begin, ", body: ")
        self.edits.behind(node.end, "])")
        self.found.changed(node, "`waitUntil(..) { }` becomes `waitUntil([.., body: { }])`")

    def step_sleep(self, node):
        given = named(node)
        unit = given.get("unit")
        if unit is not None and not (isinstance(unit.value, g.Text) and unit.value.value in ("SECONDS", "MINUTES", "HOURS", "MILLISECONDS")):
            self.found.refuse(node, "`sleep` with such a unit")
        self.need("sleep", node)

    def step_load(self, node):
        if id(node) not in self.context.loads:
            self.found.refuse(node, "`load` that is not `def NAME = load 'PATH'` of a file beside the script")

    def step_timeout(self, node):
        self.found.refuse(node, "`timeout`: a body cannot be stopped; `sh 'timeout 300 make'` stops a command, "
                                "and `--drop timeout` leaves the limit out")

    def step_error(self, node):
        """As it is."""

    def a_dropped_call(self, node, name):
        """Calls the function that stands in place of a step that is left out."""
        number = self.number_of_arguments(node)
        self.context.dropped[name].append((number, node.trailing))
        if node.trailing and number == 1 and node.form == "closure":
            self.edits.behind(node.what.end, "(null) ")
        elif node.trailing and number == 1:
            self.edits.behind(self.source.index("(", node.what.end) + 1, "null")
        self.skip_arguments_of_dropped(node)
        self.found.note(node, f"`{name}` is left out, as `--drop` says" + (": its body runs" if node.trailing else ""))

    def skip_arguments_of_dropped(self, node):
        """What a call that is left out asks for is not evaluated where it stands on one line."""
        written = node.arguments[: len(node.arguments) - node.trailing]
        if not written:
            return
        begin, end = written[0].begin, written[-1].end
        if node.form == "command":
            self.edits.replace(node.what.end, end, "(null)")
            self.as_functions.add(id(node))
        else:
            self.edits.replace(begin, end, "null")
        for it in written:
            self.skip(it)


def text_of(node):
    """The front of a text as far as it is written out; None of another expression."""
    if isinstance(node, g.Text):
        return node.value
    if isinstance(node, g.GString) and node.parts and isinstance(node.parts[0], g.TextPart):
        return node.parts[0].value if "=" in node.parts[0].value else None
    return None
