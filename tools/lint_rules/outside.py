"""Definitions and statements of Groovy that are outside the language, each told by what it is; and characters and tokens."""
from groovy_reader import (Annotated, Block, Case, Closure, Constant, Declaration, ForSteps, Identifier, If, Labeled, ListLiteral, Name, Node,
                           Number, Text)

from .expression_forms import Expressions
from .findings import EXCEPTION, REFUSED, WARNING

CAUGHT = ("Exception", "Throwable")
# The classes that the language throws, by the names that a catch may give them, as `toString()` begins with them.
THROWN = """hudson.AbortException org.jenkinsci.plugins.workflow.steps.FlowInterruptedException java.lang.ArithmeticException
    groovy.lang.MissingPropertyException groovy.lang.MissingMethodException java.lang.NullPointerException
    java.lang.IllegalArgumentException java.lang.IndexOutOfBoundsException java.lang.NumberFormatException java.util.NoSuchElementException
    org.jenkinsci.plugins.workflow.steps.MissingContextVariableException java.lang.RuntimeException""".split()
FULL = {**{it: it for it in THROWN}, **{it.rsplit(".", 1)[1]: it for it in THROWN}}
NOTES = {
    "bad escape": ("bad-escape", "this escape is none of the language", REFUSED),
    "dollar": ("dollar", "a `$` that begins no expression", REFUSED),
    "unended text": ("unended-text", "a text without an end", REFUSED),
    "missing separator": ("missing-separator", "a statement begins here, and no new line or `;` stands before it", REFUSED),
    "unended comment": ("unended-comment", "a comment without an end", REFUSED),
    "newline in a text": ("newline-in-a-text", "a new line inside a text of one line", REFUSED),
    "unknown character": ("unknown-character", "nothing of the language begins with this character", REFUSED),
    "form feed": ("form-feed", "a form feed is no blank of the language", REFUSED),
    "joined lines": ("joined-lines", "a backslash at the end of a line, outside of a text", REFUSED),
    "carriage return in a text": ("carriage-return", "a carriage return stays in the text: the file has line ends of Windows", WARNING),
}


class Outside(Expressions):
    """All findings of one script."""

    def run(self):
        for note in self.script.notes:
            self.of_note(note)
        for statement in self.script.statements:
            self.node(statement, None)
        return self.found

    def node(self, node, around):
        look = getattr(self, "of_" + type(node).__name__.lower(), None)
        if look is not None:
            look(node, around)
        for child in node.children():
            self.node(child, node)

    def of_note(self, note):
        if note.kind == "letters of a name":
            written = self.script.source[note.begin : note.end]
            is_key = self.script.source[note.end :].lstrip().startswith(":")
            if "$" in written:
                self.tell(note, "dollar-in-a-name", "a `$` in a name", instead=f"`'{written}'`, as a text" if is_key else None)
            else:
                self.tell(note, "letters-of-a-name", "a letter in a name that is none of ASCII")
            return
        key, what, stage = NOTES[note.kind]
        if key == "carriage-return" and any(it.key == key for it in self.found):
            return
        self.tell(note, key, what, stage=stage)

    # --- definitions

    def of_import(self, node, around):
        is_json = node.path.startswith("groovy.json.")
        instead = None if is_json else f"nothing; no class `{node.path.rsplit('.', 1)[-1]}` is there"
        self.tell(node, "import", "`import` is not in the language", instead=instead)

    def of_package(self, node, around):
        self.tell(node, "package", "`package` is not in the language")

    def of_annotation(self, node, around):
        key = {"Library": "annotation.Library", "Field": "annotation.Field", "groovy.transform.Field": "annotation.Field"}
        instead = None if node.name in key else "nothing"
        if key.get(node.name) == "annotation.Field" and isinstance(around.statement, Declaration):
            first = around.statement.names[0]
            instead = self.put("{} = {}", first.name, first.value or "null")
        self.tell(node, key.get(node.name, "annotation"), f"the annotation `@{node.name}`", instead=instead)

    def of_classdefinition(self, node, around):
        end = node.begin + len(node.word) + 1 + len(node.name)
        self.tell(node, "class", f"`{node.word} {node.name}`: classes are not in the language", end)

    def of_modifier(self, node, around):
        is_parameter = type(around).__name__ == "Parameter"
        if node.word != "def" or is_parameter and not self.is_plain_parameter(around):
            has_more = is_parameter or getattr(around, "keyword", "") or getattr(around, "type", None) is not None
            instead = f"`{self.name_of(around)}` without `{node.word}`" if has_more else f"`def` in place of `{node.word}`"
            self.tell(node, "modifier", f"`{node.word}` is not in the language", instead=instead)

    @staticmethod
    def name_of(node):
        """What a declaration, a function or a parameter declares."""
        return node.names[0].name.name if isinstance(node, Declaration) else getattr(node.name, "name", "it")

    @staticmethod
    def is_plain_parameter(parameter):
        return len(parameter.modifiers) == 1 and parameter.type is None

    def of_function(self, node, around):
        if around is not None and not isinstance(around, Annotated):
            self.tell(node, "function-in-a-block", f"the function `{node.name.name}` inside braces", node.name.end)
        if isinstance(node.name, Identifier) and not node.keyword:
            what = f"a function that begins with the type `{node.type.name}`" if node.type else "a function that begins without `def`"
            self.tell(node, "function-type", what, node.name.end, instead=f"`def {node.name.name}(..)`")
        elif node.type is not None:
            self.tell(node.type, "function-type", "a type behind `def`", instead="`def` alone")
        for parameter in node.parameters:
            self.parameter(parameter, "parameter-default")

    def parameter(self, parameter, key):
        if parameter.default is not None:
            name = parameter.name.name
            value = self.put("{} ?: {}", name, self.operand(parameter.default))
            instead = value and f"`{name}` alone, {value} in the body, and `null` at a call that leaves it out"
            self.tell(parameter, key, f"a default of the parameter `{name}`", instead=instead)
        elif parameter.is_open:
            what = f"the parameter `{parameter.name.name}` takes any number of arguments"
            self.tell(parameter, key, what, instead="a list as one argument")
        elif parameter.type is not None and not parameter.type.name.isidentifier():
            self.type(parameter.type)

    def type(self, kind):
        is_dotted = "<" not in kind.name and "[" not in kind.name
        self.tell(kind, "dotted-type" if is_dotted else "generic-type", f"the type `{kind.name}`", instead="`def`")

    def of_closure(self, node, around):
        parameters = node.parameters or []
        for parameter in parameters:
            if parameter.default is not None or parameter.is_open:
                self.parameter(parameter, "parameter-default")
            elif parameter.type is not None and (len(parameters) > 1 or not parameter.type.name.isidentifier()):
                self.tell(parameter, "closure-parameter", "a type of one of several parameters, or one that is no plain name")
            elif parameter.modifiers and len(parameters) > 1:
                self.tell(parameter, "closure-parameter", "`def` before one of several parameters")

    def of_declaration(self, node, around):
        if node.is_tuple or len(node.names) > 1:
            key = "loop-head" if isinstance(around, ForSteps) else "several-names"
            what = "several names in one declaration" if key == "several-names" else "several variables in the head of `for`"
            self.tell(node, key, what, instead=self.one_by_one(node) if key == "several-names" else "all but one in front of the loop")
        if node.type is None:
            return
        if node.keyword:
            self.tell(node.type, "modifier", "a type behind `def`", instead="`def` alone")
        elif not node.type.name.isidentifier():
            self.type(node.type)
        elif node.names[0].value is None and not node.modifiers and len(node.names) == 1:
            name = node.names[0].name.name
            self.tell(node, "declared-type", f"a declaration without a value by a type: it is read as the call `{node.type.name}({name})`",
                      stage=EXCEPTION, instead=f"`def {name}`")

    def one_by_one(self, node):
        """Several names as declarations of their own."""
        front = "def " if node.keyword or node.type or node.modifiers else ""
        if not node.is_tuple:
            parts = [self.put("def {}", it) if it.value is not None else f"`def {it.name.name}`" for it in node.names]
            return None if None in parts else "; ".join(parts).replace("`; `", "; ")
        if isinstance(node.value, ListLiteral) and len(node.value.items) == len(node.names) and front:
            parts = [self.put("def {} = {}", it.name, item.value) for it, item in zip(node.names, node.value.items)]
            return None if None in parts else "; ".join(parts).replace("`; `", "; ")
        names = "; ".join(f"{front}{it.name.name} = parts[{at}]" for at, it in enumerate(node.names))
        return self.put("def parts = {}; {}", node.value, names) if node.value is not None else None

    # --- statements

    def of_switch(self, node, around):
        first, instead = next((it.value for it in node.cases if it.value is not None), None), None
        if isinstance(first, ListLiteral):
            instead = self.put("if ({}.contains({})) {{ .. }} else ..", first, node.subject)
        elif isinstance(first, (Constant, Name, Number, Text)):
            instead = self.put("if ({} == {}) {{ .. }} else ..", self.operand(node.subject), first)
        self.tell(node, "switch", "`switch` is not in the language", node.begin + len("switch"), instead=instead)

    def of_dowhile(self, node, around):
        instead = self.put("while (true) {{ ..; if (!({})) {{ break }} }}", node.test)
        self.tell(node, "do", "`do` is not in the language", node.begin + len("do"), instead=instead)

    def of_assert(self, node, around):
        instead = self.put("if (!({})) {{ error '..' }}", node.test)
        self.tell(node, "assert", "`assert` is not in the language", node.begin + len("assert"), instead=instead)

    def of_labeled(self, node, around):
        self.tell(node.label, "label", f"the label `{node.label.name}`")

    def of_break(self, node, around):
        if node.label is not None:
            self.tell(node.label, "label", f"the label `{node.label.name}`")

    of_continue = of_break

    def of_block(self, node, around):
        is_statement = around is None or isinstance(around, (Block, Case, Annotated, Labeled))
        if is_statement and node.has_braces and not isinstance(around, Closure):
            self.tell(node, "block", "a statement that begins with `{`", node.begin + 1)
        if not node.has_braces and not node.statements:
            self.tell(node, "block", "an empty body", node.begin + 1)

    def of_evaluate(self, node, around):
        if isinstance(node.expression, Closure):
            self.tell(node, "block", "a statement that begins with `{`", node.begin + 1)

    def of_if(self, node, around):
        if node.otherwise is None:
            return
        between = self.script.source[node.then.end : node.otherwise.begin]
        word = between.rfind("else")
        place = Node(node.then.end + word, node.then.end + word + len("else"))
        if ";" in between[:word]:
            self.tell(place, "semicolon-before-else", "a `;` before `else`")
        if isinstance(node.otherwise, If) and "\n" in between[word:]:
            self.tell(place, "else-if-line", "a new line between `else` and `if`")

    def of_forsteps(self, node, around):
        if len(node.first) > 1 or len(node.following) > 1 or not (node.first and node.test and node.following):
            self.tell(node, "loop-head", "a `for` with other parts than a beginning, a test and a change", node.begin + len("for"))

    def of_forin(self, node, around):
        if node.type is not None and not node.type.name.isidentifier():
            self.type(node.type)
        elif node.type is not None and node.keyword:
            self.tell(node.type, "modifier", "a type behind `def`", instead="`def` alone")
        elif node.sign == ":" and node.type is None and not node.keyword:
            self.tell(node.name, "loop-head", "a `for` with `:` and a name alone")

    def of_try(self, node, around):
        if node.resources:
            self.tell(node, "synchronized", "`try` with what it is to close", node.begin + len("try"))

    def of_catch(self, node, around):
        named = [kind.name for kind in node.types]
        head = self.script.source[node.begin : node.name.begin]
        if len(named) > 1 or named and named[0] not in CAUGHT:
            what = f"a catch of {' | '.join(f'`{it}`' for it in named)}"
            tests = " || ".join(f"{node.name.name}.toString().startsWith('{FULL[it]}')" for it in named if it in FULL)
            instead = f"`catch ({node.name.name})`" + (f", with a test of `{tests}`" if tests else "")
            self.tell(node.types[0], "catch-class", what, node.types[-1].end, instead=instead)
        elif "final" in head or "def" in head:
            self.tell(node, "catch-class", "a catch with more than a class and a name", node.name.end)


def findings(script):
    """What a script has that is outside the language."""
    return Outside(script).run()
