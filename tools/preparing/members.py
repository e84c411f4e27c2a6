"""What of Groovy stands behind a value and is outside the product's language, written in it: indices, properties, methods."""
from groovy_reader import nodes as g

from . import patterns
from .names import is_plain, word_of
from .words import FILLED, FUNCTIONS, LEFT_OUT, METHODS, WORDS


def names_it(node):
    return any(isinstance(it, g.Name) and it.name == "it" for it in node.walk())


class Members:
    """Rules of a Rewriter on indices, properties and methods."""

    def on_Index(self, node):
        """An index by a range becomes a function."""
        if len(node.items) != 1:
            self.found.refuse(node, "an index with several places")
            return
        inner = node.items[0].value
        if isinstance(inner, g.Binary) and inner.sign in ("..", "..<"):
            if isinstance(self.parent(node), g.Assignment) and self.parent(node).target is node:
                self.found.refuse(node, "an assignment to a range of places")
                return
            self.need("slice", node)
            self.edits.before(node.begin, "slice(")
            self.edits.replace(node.on.end, inner.left.begin, ", ")
            self.edits.replace(inner.left.end, inner.right.begin, ", ")
            self.edits.replace(inner.right.end, node.end, f", {'true' if inner.sign == '..' else 'false'})")
            self.done.add(id(inner))
            self.found.changed(node, "`x[a..b]` becomes `slice(x, a, b, true)` of the library")

    def on_Choice(self, node):
        """`?` and `:` stand at the ends of lines."""
        for front, sign in ((node.test.end, "?:" if node.then is None else "?"), (node.then.end if node.then else None, ":")):
            if front is None:
                continue
            at = self.sign_behind(front, sign)
            if at is not None and "\n" in self.source[front:at]:
                self.edits.behind(front, f" {sign}")
                self.edits.replace(at, at + len(sign), "")
                self.found.changed(node, f"`{sign}` goes to the end of the line before")

    def sign_behind(self, at, sign):
        """The first place of a sign behind a place, over blanks and comments."""
        while at < len(self.source):
            if self.source.startswith("//", at):
                at = self.source.find("\n", at)
            elif self.source.startswith("/*", at):
                at = self.source.find("*/", at) + 2
            elif self.source.startswith(sign, at):
                return at
            elif self.source[at].isspace():
                at += 1
            else:
                return None
        return None

    def on_Property(self, node):
        name = word_of(node.name)
        if node.dot in (".", "?."):
            if name is None:
                self.a_written_property(node)
            elif name in WORDS:
                self.found.refuse(node.name, f"`.{name}`")
            self.dot_at_line_end(node)
        elif node.dot == "*.":
            self.a_spread(node, name)
        else:
            self.found.refuse(node, f"`{node.dot}`")

    def dot_at_line_end(self, node):
        at = self.sign_behind(node.on.end, node.dot)
        if at is not None and "\n" in self.source[at : node.name.begin]:
            self.edits.replace(at, at + len(node.dot), "")
            self.edits.before(node.name.begin, node.dot)
            self.found.changed(node, "a dot goes to the beginning of the next line")

    def a_written_property(self, node):
        """`a."b"` is an index by the text."""
        if isinstance(self.parent(node), g.Call) or node.dot == "?.":
            self.found.refuse(node, "a name of a method that is written as a text")
            return
        self.edits.replace(node.on.end, node.name.begin, "[")
        self.edits.behind(node.end, "]")
        self.found.changed(node, "`a.'b'` becomes `a['b']`")

    def a_spread(self, node, name):
        """`x*.y` and `x*.f(..)` become `collect`."""
        call = self.parent(node)
        is_call = isinstance(call, g.Call) and call.what is node
        if name is None or is_call and any(not is_plain(it.value) or it.key or names_it(it) for it in call.arguments):
            self.found.refuse(node, "`*.` with such arguments: write `collect`")
            return
        whole = call if is_call else node
        self.edits.replace(node.on.end, node.name.begin, "?.collect { it?.")
        self.edits.behind(whole.end, " }")
        self.found.changed(node, "`x*.y` becomes `x?.collect { it?.y }`")

    def a_method(self, node):
        """A method that the language does not have: a function of the library, or refused."""
        what = node.what
        name, number = word_of(what.name), len(node.arguments)
        named = [it for it in node.arguments if it.key is not None]
        number -= max(0, len(named) - 1)
        is_walk = number in METHODS.get(name, ()) and node.trailing and self.names.kind(what.on) == "list"
        if is_walk and len(node.arguments[-1].value.parameters or []) > 1:
            self.found.refuse(node.arguments[-1], "an entry of a list that is spread over several parameters: take one, and "
                                                  "its entries by `[0]`, `[1]`")
        if name is None or name in ("call",) or number in METHODS.get(name, ()):
            return
        if (name, number) in LEFT_OUT:
            self.edits.replace(self.source.index("(", what.end), node.end, f"({LEFT_OUT[name, number]})")
        elif name in ("getKey", "getValue") and number == 0:
            self.edits.replace(what.name.begin, node.end, {"getKey": "key", "getValue": "value"}[name])
        elif name == "get" and number == 2:
            self.method_as_function(node, "getOf")
        elif name in ("replaceAll", "replaceFirst", "matches") and number == (1 if name == "matches" else 2):
            self.a_pattern_method(node, name)
        elif name == "split" and number == 1:
            self.a_split(node)
        elif name == "unique" and isinstance(what.on, (g.Name, g.Property)):
            self.found.refuse(what.name, "`unique` of a list that others may have: write `list + []` in front of it, and keep what it gives")
        elif number in FUNCTIONS.get(name, ()) and what.dot == ".":
            self.method_as_function(node, f"{name}Of", FILLED.get((name, number), ""))
        elif self.names.kind(what.on) == "map" and what.dot == ".":
            self.edits.behind(what.end, ".call")
            self.found.changed(node, f"a closure of a map is called by `.call`: `{name}`")
        else:
            self.found.refuse(what.name, f"the method `{name}` with {number} argument(s): no value has it")

    def a_split(self, node):
        """`text.split(',')`, whose argument is a pattern."""
        first = node.arguments[0].value
        pattern = patterns.written(first.value) if isinstance(first, g.Text) else None
        if pattern is None:
            self.found.refuse(node.what.name, "`split` with such a pattern: see `tokenize`")
            return
        self.skip(first)
        self.edits.replace(first.begin, first.end, pattern)
        self.method_as_function(node, "splitOf")

    def method_as_function(self, node, function, filled=""):
        """`x.name(a) { }` becomes `nameOf(x, a) { }`; what is left out is filled."""
        what = node.what
        self.need(function, node)
        self.edits.before(node.begin, f"{function}(")
        written = [it for it in node.arguments[: len(node.arguments) - node.trailing]]
        begin = written[0].begin if written else None
        if begin is not None:
            self.edits.replace(what.on.end, begin, ", ")
            if filled:
                self.edits.behind(written[-1].end, filled)
            if node.form == "command":
                self.edits.behind(node.end, ")")
                self.as_functions.add(id(node))
        else:
            close = self.source.index(")", what.end) + 1 if node.form == "parentheses" else what.end
            self.edits.replace(what.on.end, close, f"{filled})")
        self.found.changed(what.name, f"`.{what.name.name}` becomes `{function}(..)` of the library")

    def a_pattern_method(self, node, name):
        first = node.arguments[0].value
        pattern = patterns.written(first.value) if isinstance(first, g.Text) else None
        last = node.arguments[-1].value
        function = "matchesPattern" if name == "matches" else "replaceMatches"
        if pattern is None or name == "replaceFirst" or name == "replaceAll" and not (isinstance(last, g.Text) and not set("\\$") & set(last.value)):
            self.found.refuse(node.what.name, f"`{name}` with such a pattern: see `replace`, or `sed` in a shell step")
            return
        self.need(function, node)
        self.edits.before(node.begin, f"{function}(")
        self.edits.replace(node.what.on.end, first.begin, ", ")
        self.skip(first)
        self.edits.replace(first.begin, first.end, pattern)
        if name == "matches":
            self.edits.replace(first.end, node.end, ", true)")
        self.found.changed(node, f"`.{name}` becomes `{function}(..)` of the library")
