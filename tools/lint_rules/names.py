"""What nothing has: names, steps and methods, each told with what may be meant; and the walk over a whole script."""
import difflib
import re

from groovy_reader import Call, Evaluate, Name, Node, Property, Text

from . import kinds
from .call_walk import Calls
from .context import UNTOLD
from .differences import METHOD, NAME, STEP, has_row
from .findings import ERROR, EXCEPTION
from .steps import STEPS

PACKAGES = ("java", "javax", "groovy", "hudson", "jenkins", "org", "com", "net", "io")
# Names as variables of the environment have them, and those that a shell step has.
VARIABLE = re.compile(r"[A-Z][A-Z0-9]*(_[A-Z0-9]+)+|[A-Z]{4,}")
OF_STEPS = ("JOB_NAME", "BUILD_NUMBER", "NODE_NAME", "EXECUTOR_NUMBER", "WORKSPACE")
# The results that a `catchError` gives in place of an assignment, besides UNSTABLE.
WORSE = ("FAILURE", "NOT_BUILT", "ABORTED")
# What to write for a call of some steps, shorter than their rows.
IN_PLACE = {it: "the statements of its body alone" for it in ("timestamps", "ansiColor", "script")} | {"isUnix": "`true`"}
# The sections of a Declarative Pipeline whose bodies are statements of a script, and those that hold further sections.
CODE = frozenset("steps script always changed fixed regression aborted failure success unstable unsuccessful cleanup".split())
SECTIONS = frozenset("pipeline stages stage parallel matrix post".split())
METHODS = {kind: {name for table in (kinds.reference.OF_ALL, kinds.TABLES.get(kind, {})) for name, _ in table} for kind in kinds.KINDS}


# So many names are compared with all others: of a script with thousands of unknown names that would take long.
MOST_SUGGESTIONS = 50


class Walk(Calls):
    """The whole walk."""

    # How many names were compared so far.
    suggestions = 0

    def unknown_name(self, node, whole):
        """A name that nothing has; `whole` is the expression that begins with it."""
        if self.learnt is None:
            return
        name, written = node.name, self.script.written(whole)
        place = Node(node.begin, min(whole.end, node.begin + len(written.split("\n")[0])))
        declared = self.learnt.declared_anywhere.get(name)
        if name in STEPS or name in self.functions:
            what = "a step" if name in STEPS else "a function"
            self.tell(node, EXCEPTION, "call-without-arguments", f"`{name}` is {what}; as a name it has no value", f"`{name}(..)`")
        elif name in PACKAGES and whole is not node:
            self.tell(place, EXCEPTION, "class-name", "a class with its package: no class is there")
        elif declared is not None:
            self.of_another_scope(node, name, declared)
        else:
            self.of_nothing(node, whole, place)

    def of_nothing(self, node, whole, place):
        """A name that the script declares nowhere."""
        name, key = node.name, self.key_of(node.name, whole)
        what, instead = f"nothing has the name `{name}`", None
        if name == "scm" and self.in_unknown:
            return
        if key == "name" and VARIABLE.fullmatch(name):
            key, instead = "env.BUILD_NUMBER" if name in OF_STEPS else "env", variable_of_a_step(name)
            what += ": a variable of the environment is no name of a script"
        elif key in ("env", "env.BUILD_NUMBER") and self.script.written(whole.name) != "BRANCH_NAME":
            instead = variable_of_a_step(self.script.written(whole.name))
        elif key == "name" and name[:1].isupper():
            key, what = "class-name", f"no class `{name}` is there"
        elif key == "name":
            instead = self.similar_name(name) or ("a function of the script" if isinstance(whole, Call) else None)
        self.tell(node if key == "name" else place, EXCEPTION, key, what, instead)

    def key_of(self, name, whole):
        """The row that tells of a name, or of what is read of it."""
        if isinstance(whole, Call) and isinstance(whole.what, Property):
            called = f"{name}.{self.script.written(whole.what.name)}"
            if has_row(NAME, called):
                return called
        if name == "env" and isinstance(whole, Property):
            return "env.BUILD_NUMBER" if self.script.written(whole.name) in OF_STEPS else "env"
        if name == "currentBuild":
            return "currentBuild.read"
        if name == "scm":
            return "checkout"
        return name if has_row(NAME, name) else "name"

    def unknown_target(self, node):
        """`env.MODE = ..`, `currentBuild.result = ..`, and the like."""
        name = node.target.on
        if name.name == "env":
            self.tell(node, EXCEPTION, "env.write", "nothing has the name `env`")
        elif name.name == "currentBuild":
            result = node.value.value if isinstance(node.value, Text) else ""
            is_result = self.script.written(node.target.name) == "result"
            is_result = is_result and result != "SUCCESS"
            key = "currentBuild.result" if result == "UNSTABLE" else "currentBuild.result.NOT_BUILT"
            instead = f"`catchError(buildResult: '{result}') {{ error 'why' }}`" if is_result and result in WORSE else None
            self.tell(node, EXCEPTION, key if is_result else "currentBuild.read", "nothing has the name `currentBuild`", instead)
        else:
            self.unknown_name(name, node.target)

    def of_another_scope(self, node, name, declared):
        line = self.script.place(declared)[0]
        if self.function is not None:
            what = f"a function does not see the variable `{name}` that is declared at line {line}"
            self.tell(node, EXCEPTION, "another-scope", what, f"`{name}` there without `def`, or pass it as an argument")
        elif declared > node.begin:
            self.tell(node, EXCEPTION, "another-scope", f"`{name}` is declared at line {line}, behind this place", "the declaration first")
        else:
            what = f"`{name}`, declared at line {line}, is not seen outside its braces"
            self.tell(node, EXCEPTION, "another-scope", what, "the declaration in front of the braces")

    def unknown_step(self, node):
        name = node.what.name
        if self.in_unknown or self.learnt is None:
            return
        key = name if has_row(STEP, name) else "class-name" if name[:1].isupper() else "step-unknown"
        self.tell(node.what, ERROR, key, f"no step and no function has the name `{name}`", self.similar_call(key, name))

    def similar_call(self, key, name):
        if key != "step-unknown":
            return IN_PLACE.get(key)
        return self.suggested(name, [*STEPS, *self.functions]) or "a shell step, or a function of the script"

    def similar_name(self, name):
        return self.suggested(name, [*self.learnt.declared_anywhere, *self.learnt.bound])

    def similar(self, name, *of_kinds):
        """A method of these kinds, or of any, whose name is nearly this one; a row of the tables goes before."""
        return None if has_row(METHOD, name) else self.suggested(name, [it for kind in of_kinds or kinds.KINDS for it in METHODS[kind]])

    def suggested(self, name, names):
        """A name that is nearly the same, for a spelling mistake; it is looked for as often as a reader may want it."""
        if self.suggestions == MOST_SUGGESTIONS:
            return None
        self.suggestions += 1
        close = difflib.get_close_matches(name, sorted(set(names)), 1, 0.75)
        return f"`{close[0]}`" if close else None

    # --- a Declarative Pipeline

    def declarative(self, node):
        self.tell(node.what, ERROR, "pipeline", "a Declarative Pipeline")
        self.on(UNTOLD, self.sections, node.arguments[-1].value)

    def sections(self, closure):
        """The bodies in a Declarative Pipeline that are statements of a script."""
        for statement in closure.body.statements:
            call = statement.expression if isinstance(statement, Evaluate) else None
            if not isinstance(call, Call) or not isinstance(call.what, Name) or not call.trailing:
                continue
            body = call.arguments[-1].value
            if call.what.name in CODE:
                self.inside(self.statements_of_steps, body)
            elif call.what.name in SECTIONS:
                self.sections(body)

    def statements_of_steps(self, closure):
        for statement in closure.body.statements:
            call = statement.expression if isinstance(statement, Evaluate) else None
            if isinstance(call, Call) and isinstance(call.what, Name) and call.what.name == "script" and call.trailing:
                self.inside(self.statements, call.arguments[-1].value.body.statements)
            else:
                self.statement(statement)


def variable_of_a_step(name):
    """What to write for a variable of the environment, as a value."""
    return f"its value, of a step in a `node`: `sh(script: 'echo ${name}', returnStdout: true).trim()`"


def findings(script):
    """What a script names, calls and does that nothing has."""
    learnt = Walk(script).run()
    return list(Walk(script, learnt).run().findings())
