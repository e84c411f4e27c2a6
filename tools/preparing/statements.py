"""What of Groovy's statements is outside the product's language, written in it: loops, choices, `switch`, `assert`."""
from groovy_reader import nodes as g

from . import patterns
from .names import is_plain
from .spelling import literal, simple
from .words import COERCED


def leaves(statement):
    """Whether nothing behind a statement runs after it: it returns, throws or begins the next turn, whatever it chooses."""
    if isinstance(statement, g.If):
        return statement.otherwise is not None and leaves(statement.then) and leaves(statement.otherwise)
    if isinstance(statement, g.Block):
        return bool(statement.statements) and leaves(statement.statements[-1])
    if isinstance(statement, g.Switch):
        ends = [it.statements[-1] for it in statement.cases if it.statements]
        return any(it.value is None for it in statement.cases) and all(map(leaves, ends))
    return isinstance(statement, (g.Return, g.Throw, g.Continue))


def is_simple(statement):
    """Whether a statement stays one that may stand in the place of a block."""
    if isinstance(statement, g.Evaluate):
        return not isinstance(statement.expression, g.Assignment) or not isinstance(statement.expression.value, g.Assignment)
    return isinstance(statement, (g.Return, g.Throw, g.Break, g.Continue))


class Statements:
    """Rules of a Rewriter on loops and choices."""

    def on_ForIn(self, node):
        head = self.source[node.begin : node.name.begin].split("(", 1)
        begin = node.begin + len(head[0]) + 1
        if node.modifiers or node.type is not None and not node.type.name.isidentifier() or node.type is not None and node.keyword:
            self.edits.replace(begin, node.name.begin, "def ")
        elif node.sign == ":" and node.type is None and not node.keyword:
            self.edits.before(node.name.begin, "def ")
        function = COERCED.get(simple(node.type.name)) if node.type is not None else None
        if function is not None and not (function == "textOf" and self.names.has_texts(node.collection)):
            self.need(function, node)
            if node.body.has_braces:
                self.edits.behind(node.body.begin + 1, f" {node.name.name} = {function}({node.name.name});")
                self.found.changed(node.type, f"a loop over values for the type {node.type.name}: `{function}(..)` of the library")
            else:
                self.found.refuse(node.type, f"a loop over values for the type {node.type.name} without braces: write `def`")

    def on_ForSteps(self, node):
        if node.test is None or len(node.first) != 1 or len(node.following) != 1:
            self.found.refuse(node, "a `for` without one beginning, one test and one step: write `while`")
        for it in node.first:
            if isinstance(it, g.Declaration) and it.type is not None and not it.type.name.isidentifier():
                self.found.refuse(it, "a `for` over a variable of such a type: write `def`")

    def on_DoWhile(self, node):
        self.found.refuse(node, "`do`: write `while (true) { ..; if (!test) { break } }` (Jenkins' Groovy has no `do` either)")

    def on_Labeled(self, node):
        self.found.refuse(node, "a label")

    def on_Break(self, node):
        if node.label is not None:
            self.found.refuse(node, "a jump to a label")

    on_Continue = on_Break

    def on_Synchronized(self, node):
        self.found.refuse(node, "`synchronized`")

    def on_ClassDefinition(self, node):
        self.found.refuse(node, f"`{node.word} {node.name}`: write functions, or a map of closures")

    def on_Unreadable(self, node):
        self.found.add("refused", node.fault, "this is no Groovy that can be read")

    def on_Block(self, node):
        """A body without braces gets them where it is more than one simple statement, or may become so."""
        if node.has_braces and isinstance(self.parent(node), (g.Block, type(None))):
            self.found.refuse(node, "a block by itself")
        elif not node.has_braces and node.statements and not is_simple(node.statements[0]):
            self.edits.around(node, "{ ", " }")

    def on_If(self, node):
        otherwise = node.otherwise
        if isinstance(otherwise, g.If):
            between = self.source[node.then.end : otherwise.begin]
            if "\n" in between[between.rindex("else") :] and not between.replace("else", "", 1).strip(" \t\n;"):
                self.edits.replace(node.then.end, otherwise.begin, "\n" * between.count("\n") + " else ")
                self.found.changed(otherwise, "`else` and `if` on one line")

    def on_Switch(self, node):
        """`switch` whose cases do not fall through becomes `if`, `else if`, `else`."""
        wrong = self.falls_through(node)
        if wrong is not None:
            self.found.refuse(wrong, "a `case` that goes on with the next one: write `if`")
            return
        subject, first = self.fresh("subject"), node.cases[0] if node.cases else None
        if first is None:
            self.found.refuse(node, "a `switch` without a case")
            return
        self.edits.replace(node.begin, node.subject.begin, f"def {subject} = ")
        front, tests = "; ", []
        begin = node.subject.end
        for case in node.cases:
            tests.append(case)
            if not case.statements:
                self.edits.replace(begin, self.head_end(case), "")
                begin = self.head_end(case)
                continue
            test = "if (" + " || ".join(self.case_test(subject, it) for it in tests) + ") " if all(it.value is not None for it in tests) else ""
            if not test and front == "; ":
                test = "if (true) "
            self.edits.replace(begin, self.head_end(case), f"{front}{test}{{")
            front, tests = "} else ", []
            begin = self.without_break(case)
        self.found.changed(node, "`switch` becomes `if`, `else if`, `else`")

    def head_end(self, case):
        """The character behind the `:` of a case."""
        begin = case.begin + len("default") if case.value is None else case.value.end
        return self.source.index(":", begin) + 1

    def case_test(self, subject, case):
        """The test in place of `case`: whether the subject is equal, in a list, or matches a pattern."""
        self.skip(case.value)
        written = self.source[case.value.begin : case.value.end]
        if isinstance(case.value, (g.Text, g.Number, g.Constant)):
            return f"{subject} == {literal(case.value.value) if isinstance(case.value, g.Text) else written}"
        if isinstance(case.value, g.Prefix) and case.value.sign == "~" and isinstance(case.value.operand, g.Text):
            pattern = patterns.written(case.value.operand.value)
            if pattern is not None:
                self.need("matchesPattern", case)
                return f"matchesPattern({subject}, {pattern}, true)"
        if isinstance(case.value, (g.Name, g.ListLiteral)) and is_plain(case.value) and not self.is_class(case.value):
            self.need("isIn", case)
            return f"isIn({subject}, {written})"
        self.found.refuse(case, "a `case` with such a value: write `if`")
        return "false"

    def is_class(self, node):
        return isinstance(node, g.Name) and not self.is_variable(node, node.name)

    def falls_through(self, node):
        """A case that may go on with the next one, or that a `break` leaves in the middle; None where none does."""
        for at, case in enumerate(node.cases):
            last = case.statements[-1] if case.statements else None
            is_last = at == len(node.cases) - 1
            if case.value is None and not is_last:
                return case
            if last is not None and not is_last and not (isinstance(last, g.Break) or leaves(last)):
                return case
            for statement in case.statements[:-1] if isinstance(last, g.Break) else case.statements:
                if self.breaks_out(statement):
                    return case
        return None

    def breaks_out(self, node):
        if isinstance(node, g.Break):
            return True
        if isinstance(node, (g.While, g.ForIn, g.ForSteps, g.Switch, g.Closure)):
            return False
        return any(self.breaks_out(it) for it in node.children())

    def without_break(self, case):
        """Takes the `break` at a case's end away, and gives the character behind the case's statements."""
        last = case.statements[-1]
        if isinstance(last, g.Break):
            self.edits.replace(last.begin, last.end, "")
        return last.end

    def on_Assert(self, node):
        told = self.source[node.test.begin : node.test.end].replace("\n", " ")
        self.edits.replace(node.begin, node.test.begin, "if (!(")
        if node.message is None:
            self.edits.behind(node.end, f")) {{ throw new Error({literal('Assertion failed: ' + told)}) }}")
        else:
            self.edits.replace(node.test.end, node.message.begin, ")) { throw new Error(")
            self.edits.behind(node.end, ") }")
        self.found.changed(node, "`assert` becomes a test that throws an Error, which `catch (Exception e)` lets pass as in Groovy; "
                                 "its text is shorter")
