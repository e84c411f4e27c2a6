"""What of Groovy's literals and operators is outside the product's language, written in it."""
from groovy_reader import nodes as g

from . import patterns
from .names import is_plain
from .spelling import literal, simple
from .words import AS_TYPE, COERCED, WORDS


class Operators:
    """Rules of a Rewriter on literals, operators and assignments."""

    # --- literals

    def on_Number(self, node):
        """A whole number of 32 bits, written as the language has it."""
        written = node.written.replace("_", "")
        if written.isdigit() and written == node.written and int(written) < 2**31 and (written == "0" or written[0] != "0"):
            return
        plain = written.rstrip("LlIiGg")
        argument = self.parent(node)
        if plain.isdigit() and int(plain) < 2**31 and plain.lstrip("0") == plain:
            self.edits.replace(node.begin, node.end, plain)
        elif isinstance(argument, g.Argument) and argument.key is not None and self.is_ignored(argument):
            self.edits.replace(node.begin, node.end, literal(node.written))
        else:
            self.found.refuse(node, f"the number {node.written}: numbers are whole and of 32 bits")

    def on_Text(self, node):
        if node.quote in ("'", '"', "'''", '"""'):
            return
        self.edits.replace(node.begin, node.end, literal(node.value))
        self.found.changed(node, "a text between slashes becomes one between quotes")

    def on_GString(self, node):
        """A text with expressions between quotes."""
        if node.quote not in ('"', '"""'):
            first = min([it.begin for it in node.parts] or [node.end])
            self.edits.replace(node.begin, first, '"')
            self.edits.replace(max(it.end for it in node.parts), node.end, '"')
            for part in node.parts:
                if isinstance(part, g.TextPart):
                    self.edits.replace(part.begin, part.end, literal(part.value, '"')[1:-1])
        for part in node.parts:
            if isinstance(part, g.Embedded) and part.is_lazy:
                self.found.refuse(part, "an expression that is evaluated when the text is shown: give it a name first")

    def on_Argument(self, node):
        if node.is_spread:
            self.found.refuse(node, "a list spread over arguments")
        self.a_key(node.key)

    def on_Entry(self, node):
        if node.key is None:
            self.found.refuse(node, "a map spread into another: add them, `a + b`")
        self.a_key(node.key)

    def a_key(self, key):
        if isinstance(key, g.Identifier) and (key.name in WORDS or "$" in key.name):
            self.edits.replace(key.begin, key.end, literal(key.name))
            self.found.changed(key, f"the key `{key.name}` is written in quotes")

    # --- operators

    def on_Prefix(self, node):
        if node.sign == "~":
            self.found.refuse(node, "a pattern: see what texts can do")
        elif node.sign in ("++", "--"):
            if isinstance(self.parent(node), g.Evaluate) and isinstance(node.operand, g.Name):
                self.edits.replace(node.begin, node.operand.begin, "")
                self.edits.behind(node.end, node.sign)
                self.found.changed(node, f"`{node.sign}x` becomes `x{node.sign}`")
            else:
                self.found.refuse(node, f"`{node.sign}` within an expression: make it a statement of its own")

    def on_Postfix(self, node):
        parent = self.parent(node)
        if not (isinstance(parent, (g.Evaluate, g.ForSteps))):
            self.found.refuse(node, f"`{node.sign}` within an expression: make it a statement of its own")

    def on_Assignment(self, node):
        """An assignment is a statement; several behind each other become several."""
        parent = self.parent(node)
        if node.sign == "=" and isinstance(node.target, g.Name) and not isinstance(node.value, g.Assignment):
            self.of_variable(node)
        if node.sign not in ("=", "+=", "-=", "*=", "%="):
            self.found.refuse(node, f"`{node.sign}`")
        elif isinstance(parent, (g.Evaluate, g.ForSteps)) or isinstance(parent, g.Block) and isinstance(node.value, g.Assignment):
            if isinstance(node.value, g.Assignment):
                self.chain(node, node.target)
        elif isinstance(parent, g.Declarator) and isinstance(node.target, g.Name):
            self.chain_of_declaration(node, parent)
        elif not (isinstance(parent, g.Assignment) and id(node) in self.done):
            self.found.refuse(node, "an assignment within an expression: make it a statement of its own")
        if node.sign == "-=" and self.names.kind(node.target) in ("text", "list"):
            self.found.refuse(node, "`-=` on a text or a list")

    def of_variable(self, node):
        """What a variable of a type gets becomes a value of that type."""
        kinds = self.names.types.get(node.target.name, [])
        coerced = [it for it in kinds if it is not None and simple(it.name) in COERCED]
        if coerced and len({simple(it.name) if it else "" for it in kinds}) == 1:
            self.as_type(node.value, coerced[0])
        elif coerced and self.names.kind(node.value) != "text":
            self.found.refuse(node, f"`{node.target.name}` is declared with and without the type {coerced[0].name}: use two names")

    def chain(self, node, target):
        """`a = b = e` becomes `b = e; a = b`."""
        inner = node.value
        if not is_plain(target) or not isinstance(inner.target, g.Name) or node.sign != "=":
            self.found.refuse(inner, "an assignment within an assignment: make it a statement of its own")
            return
        written = self.rewritten(target)
        self.edits.replace(node.begin, inner.begin, "")
        self.edits.behind(node.end, f"; {written} = {inner.target.name}")
        self.done.add(id(inner))
        self.found.changed(node, "`a = b = e` becomes `b = e; a = b`")

    def chain_of_declaration(self, node, parent):
        declaration = self.parent(parent)
        if len(declaration.names) > 1:
            self.found.refuse(node, "an assignment within a declaration of several names")
            return
        head = self.source[declaration.begin : parent.name.end]
        self.edits.replace(declaration.begin, node.begin, "")
        self.edits.behind(declaration.end, f"; {head if head.startswith('def ') else 'def ' + parent.name.name} = {node.target.name}")
        self.found.changed(node, "`def a = b = e` becomes `b = e; def a = b`")

    def on_Binary(self, node):
        """An operator that the language has, or a function for it."""
        rule = {"in": self.an_in, "!in": self.an_in, "as": self.an_as, "instanceof": self.an_instanceof, "..<": self.a_range}.get(node.sign)
        if rule is not None:
            rule(node)
        elif node.sign in ("<<", "-", "*") and self.wants_function(node):
            name = {"<<": "leftShift", "-": "minus", "*": "multiply"}[node.sign]
            self.as_function(node, f"{name}Of")
            self.found.changed(node, f"`{node.sign}` becomes `{name}Of(a, b)` of the library")
        elif node.sign in ("=~", "==~"):
            self.a_pattern(node)
        elif node.sign == "<=>":
            self.as_function(node, "compareOf")
            self.found.changed(node, "`<=>` becomes `compareOf(a, b)` of the library")
        elif node.sign not in ("||", "&&", "==", "!=", "<", "<=", ">", ">=", "..", "+", "-", "*", "%"):
            self.found.refuse(node, f"`{node.sign}`" + (": `a.intdiv(b)` of whole numbers" if node.sign == "/" else ""))

    def wants_function(self, node):
        kinds = {self.names.kind(node.left), self.names.kind(node.right)}
        return node.sign == "<<" or bool(kinds & {"text", "list"})

    def as_function(self, node, name, back=")"):
        """`a SIGN b` becomes `name(a, b)`."""
        self.need(name, node)
        self.edits.before(node.begin, f"{name}(")
        self.edits.replace(node.left.end, node.right.begin, ", ")
        self.edits.behind(node.end, back)

    def an_in(self, node):
        front = "!" if node.sign == "!in" else ""
        if isinstance(node.right, g.ListLiteral) and is_plain(node.left) and is_plain(node.right):
            left = self.rewritten(node.left)
            self.edits.replace(node.begin, node.right.begin, front)
            self.edits.behind(node.end, f".contains({left})")
            self.found.changed(node, f"`a {node.sign} [..]` becomes `{front}[..].contains(a)`")
        else:
            self.edits.before(node.begin, front)
            self.as_function(node, "isIn")
            self.found.changed(node, f"`a {node.sign} b` becomes `{front}isIn(a, b)` of the library")

    def an_as(self, node):
        name = simple(node.right.name)
        function = AS_TYPE.get(name)
        if function is None and name in ("List", "Set", "Map", "ArrayList") and self.names.kind(node.left) in ("list", "map") and name != "Set":
            self.edits.replace(node.left.end, node.end, "")
        elif function is None and name.endswith("[]"):
            self.edits.replace(node.left.end, node.end, "")
        elif function is None:
            self.found.refuse(node, f"`as {name}`")
            return
        else:
            self.need(function, node)
            self.edits.before(node.begin, f"{function}(")
            self.edits.replace(node.left.end, node.end, ")")
        self.found.changed(node, f"`as {name}` becomes " + (f"`{function}(..)` of the library" if function else "nothing: it is one"))

    def on_Cast(self, node):
        name = simple(node.type.name)
        function = AS_TYPE.get(name)
        if function is None:
            self.found.refuse(node, f"a cast to {name}")
            return
        self.need(function, node)
        self.edits.replace(node.begin, node.operand.begin, f"{function}(")
        self.edits.behind(node.end, ")")
        self.found.changed(node, f"`({name})` becomes `{function}(..)` of the library")

    def an_instanceof(self, node):
        kinds = {"String": "text", "GString": "text", "CharSequence": "text", "Map": "map", "List": "list", "Collection": "list",
                 "Closure": "closure", "Integer": "number", "Number": "number", "Boolean": "boolean"}
        kind = kinds.get(simple(node.right.name).split("<")[0])
        if kind is None:
            self.found.refuse(node, f"`instanceof {node.right.name}`")
            return
        self.need("kindOf", node)
        self.edits.before(node.begin, "(kindOf(")
        self.edits.replace(node.left.end, node.end, f") == '{kind}')")
        self.found.changed(node, "`instanceof` becomes a test of the kind")

    def a_range(self, node):
        if not isinstance(self.parent(node), g.Argument) or not isinstance(self.parent(self.parent(node)), g.Index):
            self.as_function(node, "rangeBelow")
            self.found.changed(node, "`a..<b` becomes `rangeBelow(a, b)` of the library")

    def a_pattern(self, node):
        """A pattern that is written out becomes a function of the library that matches it."""
        right = node.right
        inner = right.operand if isinstance(right, g.Prefix) and right.sign == "~" else right
        is_truth = node.sign == "==~" or self.is_condition(node)
        self.done.add(id(right))
        pattern = patterns.written(inner.value) if isinstance(inner, g.Text) and is_truth else None
        if pattern is None:
            self.found.refuse(node, f"`{node.sign}` with what it matches: see `contains`, `startsWith`, `endsWith`, or `grep` in a shell step")
            return
        self.as_function(node, "matchesPattern", f", {'true' if node.sign == '==~' else 'false'})")
        self.skip(right)
        self.edits.replace(right.begin, right.end, pattern)
        self.found.changed(node, f"`{node.sign}` becomes `matchesPattern(..)` of the library")

    def is_condition(self, node):
        """Whether only the truth of a value counts."""
        inner, parent = node, self.parent(node)
        while isinstance(parent, g.Group):
            inner, parent = parent, self.parent(parent)
        return isinstance(parent, (g.If, g.While, g.Choice)) and inner is parent.test \
            or isinstance(parent, g.Binary) and parent.sign in ("&&", "||") or isinstance(parent, g.Prefix) and parent.sign == "!"
