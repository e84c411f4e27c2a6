"""Expressions of Groovy that are outside the language, each told by what it is."""
from groovy_reader import (Assignment, Binary, Call, Cast, Choice, Evaluate, ForSteps, Identifier, Name, New, Node, Number, Prefix,
                           Property, Text)
from groovy_reader.tokens import WORDS

from .findings import EXCEPTION, REFUSED, Finding

CLASSES = ("Exception", "RuntimeException", "Error")
LARGEST = 2147483647
# Characters of a part that is repeated in what to write.
LONGEST_PART = 60
OPERATORS = ("||", "&&", "==", "!=", "<", "<=", ">", ">=", "..", "+", "-", "*", "%")
CHANGES = ("=", "+=", "-=", "*=", "%=")
# The key, and what it is, of each operator that the language does not have.
SIGNS = {
    "/": ("division", "a division"), "**": ("power", "the power `**`"), "<=>": ("three-way", "the comparison `<=>`"),
    "===": ("identity", "the comparison `===`"), "!==": ("identity", "the comparison `!==`"), "in": ("in", "the operator `in`"),
    "!in": ("in", "the operator `!in`"), "instanceof": ("instanceof", "`instanceof`"), "as": ("cast", "the cast `as`"),
    "=~": ("regular-expression", "a regular expression"), "==~": ("regular-expression", "a regular expression"),
    "..<": ("exclusive-range", "the range `..<`"), "<<": ("left-shift", "the operator `<<`"),
}
# Those that are told of their operands too.
WHOLE = ("in", "cast", "left-shift", "division")
# What to write for an operator, of its operands, and which of these is an argument there.
OPERATIONS = {
    "/": ("{0}.intdiv({1})", 1), "in": ("{1}.contains({0})", 0), "!in": ("!{1}.contains({0})", 0), "<<": ("{0}.add({1})", 1),
    "===": ("{0} == {1}", None), "!==": ("{0} != {1}", None), "<=>": ("{0} < {1} ? -1 : {0} > {1} ? 1 : 0", None),
}
# What to write for a cast to a class, of what is cast; else this alone.
CASTS = {
    "String": '"${{{}}}"', "int": "{}.toInteger()", "Integer": "{}.toInteger()", "boolean": "{} ? true : false",
    "Boolean": "{} ? true : false",
}
ASSIGNED = {"/=": "{0} = {0}.intdiv({1})", "?=": "{0} = {0} ?: {1}", "<<=": "{0}.add({1})"}
OTHER_CLASS = "a shell step, or a map for what only holds values: `[:]`"
MATCHING = "`startsWith`, `endsWith` or `contains` of the text, or a shell step with `grep`"
INSTEAD = {
    "form-feed": "a blank", "joined-lines": "a line that ends with an operator, or one line",
    "carriage-return": "the file with line feeds alone: `sed -i 's/\\r$//' Jenkinsfile`",
}


class Expressions:
    """The findings of one script; each method `of_..` looks at the nodes of one class, with the node around it."""

    def __init__(self, script):
        self.script, self.found = script, []

    def tell(self, node, key, what, end=None, stage=REFUSED, instead=None):
        self.found.append(Finding(node.begin, node.end if end is None else end, stage, key, what, instead or INSTEAD.get(key)))

    def put(self, form, *parts):
        """A form with the source of these nodes in its places, in backquotes; None where one is too long for a line."""
        written = [it if isinstance(it, str) else self.script.written(it) for it in parts]
        return None if any("\n" in it or len(it) > LONGEST_PART for it in written) else "`" + form.format(*written) + "`"

    def operand(self, node):
        """The source of what a dot may follow."""
        written = self.script.written(node)
        return f"({written})" if isinstance(node, (Binary, Choice, Prefix, Cast, Assignment, New)) else written

    # --- operators

    def of_binary(self, node, around):
        place = Node(node.sign_at, node.sign_at + len(node.sign))
        is_equality, is_order = node.sign in ("==", "!="), node.sign in ("<", "<=", ">", ">=")
        if node.sign in SIGNS:
            key, what = SIGNS[node.sign]
            self.tell(node if key in WHOLE else place, key, what, instead=self.operation(node))
        elif node.sign not in OPERATORS:
            self.tell(place, "bits", f"the operator `{node.sign}`")
        elif is_equality and self.has_operand(node, ("==", "!=")) or is_order and self.has_operand(node, ("<", "<=", ">", ">=")):
            self.tell(place, "comparison-chain", "a comparison of a comparison")

    def operation(self, node):
        """What to write for an operator that the language does not have, where that is one expression."""
        if node.sign == "as":
            return self.cast(node.right, node.left)
        if node.sign in ("=~", "==~"):
            return MATCHING
        if node.sign not in OPERATIONS:
            return None
        form, argument = OPERATIONS[node.sign]
        operands = [self.script.written(it) if at == argument else self.operand(it) for at, it in enumerate((node.left, node.right))]
        return self.put(form, *operands)

    def cast(self, kind, value):
        """What to write for a cast."""
        form = CASTS.get(kind.name, "{}")
        return self.put(form, value if "$" in form else self.operand(value))

    @staticmethod
    def has_operand(node, signs):
        return isinstance(node.left, Binary) and node.left.sign in signs

    def of_assignment(self, node, around):
        if node.sign not in CHANGES:
            key = {"/=": "divide-and-assign", "?=": "elvis-and-assign"}.get(node.sign, "change")
            instead = self.put(ASSIGNED[node.sign], node.target, node.value) if node.sign in ASSIGNED else None
            self.tell(Node(node.sign_at, node.sign_at + len(node.sign)), key, f"the operator `{node.sign}`", instead=instead)
        if not isinstance(around, (Evaluate, ForSteps)):
            written = self.put("{}", node)
            self.tell(node, "nested-assignment", "an assignment inside an expression",
                      instead=written and f"{written} as a statement in front, and `{self.script.written(node.target)}` here")

    def of_postfix(self, node, around):
        if not isinstance(around, (Evaluate, ForSteps)):
            self.tell(node, "step-in-an-expression", f"`{node.sign}` inside an expression")

    def of_prefix(self, node, around):
        if node.sign in ("++", "--"):
            self.tell(node, "step-in-front", f"`{node.sign}` in front of what it changes", instead=self.put("{}" + node.sign, node.operand))
        elif node.sign == "~":
            self.tell(node, "regular-expression", "a regular expression", instead=MATCHING)

    def of_cast(self, node, around):
        self.tell(node, "cast-in-front", f"a cast to `{node.type.name}`", instead=self.cast(node.type, node.operand))

    def of_choice(self, node, around):
        if isinstance(node.then, Choice):
            self.tell(node.then, "choice-in-a-choice", "a choice between `?` and `:`")
        first = self.script.source[node.test.end : (node.then or node.otherwise).begin]
        second = self.script.source[node.then.end : node.otherwise.begin] if node.then else ""
        if "\n" in first.split("?")[0] or "\n" in second.split(":")[0]:
            self.tell(node, "operator-line", "a new line before `?` or `:`")

    # --- values

    def of_new(self, node, around):
        if node.is_array:
            self.tell(node, "new-array", f"an array of `{node.type.name}`", instead="a list: `[]`")
        elif node.type.name not in CLASSES or node.has_body:
            key = "Date" if node.type.name in ("Date", "java.util.Date") else "new-class"
            simple = node.type.name.rsplit(".", 1)[-1]
            is_thrown = simple.endswith(("Exception", "Error")) and len(node.arguments) == 1
            instead = self.put("new Exception({})", node.arguments[0]) if is_thrown else OTHER_CLASS if key != "Date" else None
            what = f"`new {node.type.name}`: the classes are Exception, RuntimeException and Error"
            self.tell(node, key, what, node.type.end, instead=instead)
        elif len(node.arguments) > 1:
            self.tell(node, "new-class", f"`new {node.type.name}` with more than one argument")

    def of_number(self, node, around):
        written = node.written
        is_plain = written.isdigit() and (written == "0" or written[0] != "0") and int(written) <= LARGEST
        if not is_plain:
            what = "a number that is not whole" if "." in written else f"the number `{written}`"
            digits = written.rstrip("gGlLiI").replace("_", "")
            is_small = digits.isdigit() and (digits == "0" or digits[0] != "0") and int(digits) <= LARGEST
            instead = f"`{digits}`" if is_small else f"a text: `'{written}'`"
            self.tell(node, "number" if "." in written else "number-form", what, instead=instead)

    def of_text(self, node, around):
        is_pattern = isinstance(around, Prefix) or isinstance(around, Binary) and around.sign in ("=~", "==~")
        if node.quote in ("/", "$/") and not is_pattern:
            self.tell(node, "slashy-text", "a text between slashes")

    def of_gstring(self, node, around):
        if node.quote in ("/", "$/"):
            self.tell(node, "slashy-text", "a text between slashes")

    def of_embedded(self, node, around):
        if node.is_lazy:
            self.tell(node, "lazy-expression", "an expression that is evaluated later", instead=self.put("${{{}}}", node.value))

    def of_constant(self, node, around):
        if node.word in ("this", "super"):
            self.tell(node, "this", f"`{node.word}` is not in the language", instead=f"what stands behind `{node.word}.`")
        elif node.word in WORDS and node.word not in ("true", "false", "null"):
            self.tell(node, "word-as-name", f"the word `{node.word}` as a name")

    def of_property(self, node, around):
        if node.dot == "*.":
            self.tell(node, "spread", "the operator `*.`", instead=self.put("{}.collect {{ it.{} }}", self.operand(node.on), node.name))
        elif node.dot == ".&":
            self.tell(node, "method-pointer", "a method as a value")
        elif node.dot not in (".", "?.", " "):
            self.tell(node, "this", f"the operator `{node.dot}`")
        elif not isinstance(node.name, Identifier):
            self.tell(node.name, "word-as-name", "a name behind a dot that is no plain name")
        elif node.name.name in WORDS:
            is_class = node.name.name == "class"
            instead = "nothing; a value has no class" if is_class else self.put("{}['{}']", self.operand(node.on), node.name)
            self.tell(node.name, "word-as-name", f"the word `{node.name.name}` behind a dot", instead=instead)
        between = self.script.source[node.on.end : node.name.begin]
        if "." in between and "\n" in between[between.index(".") :]:
            at = node.on.end + between.index(".")
            self.tell(Node(at, at + 1), "dot-at-the-end", "a new line behind a dot")

    def of_index(self, node, around):
        items = node.items
        if len(items) != 1 or items[0].key is not None or items[0].is_spread:
            self.tell(node, "range-index", "an index that is not one value")
        elif isinstance(items[0].value, Binary) and items[0].value.sign in ("..", "..<"):
            first, last = items[0].value.left, items[0].value.right
            counts = isinstance(first, Number) and isinstance(last, Number) and items[0].value.sign == ".."
            form = self.put("{}.substring({}, {})", self.operand(node.on), first, str(int(last.written) + 1)) if counts else None
            self.tell(node, "range-index", "a range as an index", stage=EXCEPTION, instead=form)

    def of_listliteral(self, node, around):
        self.spread(node.items)

    def spread(self, arguments):
        for argument in arguments:
            if argument.is_spread:
                self.tell(argument, "spread-argument", "a list that is spread")

    def of_mapliteral(self, node, around):
        for entry in node.entries:
            self.key(entry.key)
            if entry.key is None:
                self.tell(entry, "spread-map", "a map that is spread, or a value without a key")

    def key(self, key):
        if isinstance(key, Identifier) and key.name in WORDS:
            self.tell(key, "word-as-name", f"the word `{key.name}` as a key", instead=f"`'{key.name}':`")

    # --- calls

    def of_call(self, node, around):
        self.spread(node.arguments)
        named = [it for it in node.arguments if it.key is not None]
        inside = node.arguments[: len(node.arguments) - node.trailing]
        other = next((it for it in inside if (it.key is None) != (inside[0].key is None)), None)
        for argument in named:
            self.key(argument.key)
        if other is not None:
            self.tell(other, "mixed-arguments", "arguments with names beside others", (other.key or other.value).end)
        elif any(not isinstance(it.key, (Identifier, Text)) for it in named):
            self.tell(named[0], "mixed-arguments", "an argument whose name is no plain name")
        if not isinstance(node.what, (Name, Property)) and node.form != "command":
            self.tell(node, "call-of-a-value", "a call of a value that is no name")
        if node.trailing > 1:
            self.tell(node, "call-of-a-value", "several closures behind one call")
        if node.form == "command":
            self.command(node, around)

    def command(self, node, around):
        if isinstance(node.what, Property) and node.what.dot == " " or isinstance(node.what, Call):
            self.tell(node, "command-chain", "a chain of calls without parentheses")
        elif isinstance(node.what, Property):
            self.tell(node, "command-of-a-method", "a call of a method without parentheses", instead=self.with_parentheses(node))
        first = node.arguments[0]
        if first.key is None and isinstance(first.value, (Prefix, New)):
            self.tell(first, "command-argument", "an argument that needs parentheses around it", instead=self.with_parentheses(node))
        is_whole = isinstance(around, Evaluate) or type(around).__name__ in ("Declarator", "Assignment", "Return", "Declaration")
        is_chain = isinstance(around, Property) and around.dot == " "
        if not is_whole and not is_chain:
            what = "a call without parentheses inside an expression"
            self.tell(node, "command-in-an-expression", what, instead=self.with_parentheses(node))

    def with_parentheses(self, node):
        """A call without parentheses with them."""
        inside = self.script.source[node.arguments[0].begin : node.arguments[-1].end]
        return self.put("{}({})", node.what, inside)
