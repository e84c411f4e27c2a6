"""Random scripts of the whole language but for its limits, and events for their builds. The same seed gives the same ones."""
from script import source

TEXTS = ["ab", "", "A b", "a,b,,c", " 42 ", "x", "l1\nl2\r\n\nl3", "k 1", "-7", "\u00e9a\u00e9", "2147483648"]
NUMBERS = [0, 1, 2, 3, 4, 7, 2147483647, 65536]
NAMES = ["a", "b", "c", "x", "y", "m", "l", "t"]
# The methods of each kind of value, with the kinds of their arguments.
METHODS = {
    "text": [
        ("size",), ("length",), ("isEmpty",), ("trim",), ("toUpperCase",), ("toLowerCase",), ("contains", "text"),
        ("startsWith", "text"), ("endsWith", "text"), ("indexOf", "text"), ("replace", "text", "text"),
        ("substring", "number"), ("substring", "number", "number"), ("tokenize",), ("tokenize", "text"), ("readLines",),
        ("toInteger",), ("toString",), ("equals", "text"),
    ],
    "list": [
        ("size",), ("isEmpty",), ("add", "any"), ("get", "number"), ("contains", "any"), ("indexOf", "any"), ("first",),
        ("last",), ("join", "text"), ("reverse",), ("equals", "list"),
    ],
    "map": [
        ("size",), ("isEmpty",), ("containsKey", "any"), ("get", "any"), ("put", "any", "any"), ("remove", "any"),
        ("keySet",), ("values",), ("equals", "map"),
    ],
    "number": [("intdiv", "number"), ("toInteger",), ("toString",), ("equals", "number")],
    "any": [("getMessage",), ("call", "any"), ("unknown", "any"), ("toString",)],
}
WALKS = ["each", "collect", "find", "findAll", "any", "every", "times"]


def step(name, *others, named=()):
    return ("call", name, (list(named), list(others)))


def of(value):
    return ("literal", value)


class Scripts:
    def __init__(self, random):
        self.random, self.declared = random, 0

    def pick(self, *choices):
        """One of these; what is a function is called then."""
        chosen = self.random.choice(choices)
        return chosen() if callable(chosen) else chosen

    def some(self, make, least, most):
        return [make() for _ in range(self.random.randint(least, most))]

    def name(self):
        return self.random.choice(NAMES)

    def new_name(self):
        self.declared += 1
        return f"v{self.declared}"

    # --- expressions, as deep as `depth` says at most

    def leaf(self):
        return self.pick(lambda: of(self.random.choice(NUMBERS)), lambda: of(self.random.choice(TEXTS)), of(None), of(True), of(False),
                         ("list", []), ("map", []), ("name", "it"), *(3 * [lambda: ("name", self.name())]))

    def primary(self, depth):
        if depth <= 0:
            return self.leaf()
        below = lambda: self.expression(depth - 1)  # noqa: E731
        return self.pick(
            *(4 * [self.leaf]),
            lambda: ("group", below()),
            lambda: ("list", self.some(below, 0, 3)),
            lambda: ("map", self.some(lambda: (self.key(depth), below()), 1, 3)),
            lambda: ("text", self.some(lambda: self.pick("a", "b ", "\n", below, below), 0, 3) + [below()]),
            lambda: self.closure(depth),
            lambda: ("new", self.pick("Exception", "RuntimeException", "Error"), self.pick(None, below)),
            *(2 * [lambda: ("call", self.pick("f", "g", "h", "unknown", self.name), self.arguments(depth))]),
            lambda: ("group", ("joined", "..", of(self.random.randint(0, 3)), of(self.random.randint(0, 4)))),
            lambda: self.step(depth),
            *(4 * [lambda: self.suffixed(depth)]),
            *(4 * [lambda: self.typed(depth)]),
        )

    def key(self, depth):
        return self.pick(
            lambda: ("name", self.name()),
            lambda: ("literal", self.random.choice(TEXTS)),
            lambda: ("literal", self.random.randint(0, 3)),
            lambda: ("computed", ("text", ["k", self.expression(depth - 1)])),
            lambda: ("computed", ("group", self.expression(depth - 1))),
        )

    def closure(self, depth):
        parameters = self.pick(None, None, [], lambda: [self.name()], ["p", "q"])
        return ("closure", parameters, self.body(depth - 1))

    def body_of_step(self, depth):
        form, parameters, body = self.closure(depth)
        return (form, parameters if parameters is None or len(parameters) < 2 else None, body)

    def arguments(self, depth):
        below = lambda: self.expression(depth - 1)  # noqa: E731
        named = [(name, below()) for name in self.random.sample(["a", "b", "x"], self.pick(0, 0, 0, 0, 1, 2))]
        others = [] if named else self.some(below, 0, 2)
        return (named, others + ([self.closure(depth)] if self.random.random() < 0.2 else []))

    def suffixed(self, depth):
        on = self.primary(depth - 1)
        if on[0] in ("closure", "suffixed"):
            on = ("group", on)
        return ("suffixed", on, self.some(lambda: self.suffix(depth), 1, 2))

    def of_kind(self, kind, depth):
        """An expression whose value is of this kind, but for some."""
        below = lambda: self.expression(depth - 1)  # noqa: E731
        some = {
            "text": lambda: of(self.random.choice(TEXTS)),
            "number": lambda: self.pick(lambda: of(self.random.choice(NUMBERS)), lambda: ("group", ("signed", ["-"], of(self.random.randint(1, 9))))),
            "list": lambda: ("list", self.some(below, 0, 3)),
            "map": lambda: ("map", self.some(lambda: (self.key(depth), below()), 1, 3)),
            "any": below,
        }
        return below() if self.random.random() < 0.1 else some[kind]()

    def typed(self, depth):
        """A method, an operator or an index on values of the kinds that it takes."""
        kind = self.pick("text", "list", "map", "number")
        method, *kinds = self.random.choice(METHODS[kind])
        sign, left, right = self.pick(("+", "any", "text"), ("+", "text", "any"), ("+", "list", "any"), ("+", "map", "map"), ("%", "number", "number"),
                                      ("*", "number", "number"), ("-", "number", "number"), ("<", "text", "text"), (">=", "number", "number"),
                                      ("==", "any", "any"), ("==", "list", "list"), ("!=", "map", "map"))
        index = self.pick(lambda: of(self.random.randint(0, 3)), lambda: ("signed", ["-"], of(self.random.randint(1, 4))))
        return self.pick(
            *(3 * [lambda: ("suffixed", self.bare(self.of_kind(kind, depth)), [("method", method, False, ([], [self.of_kind(k, depth) for k in kinds]))])]),
            lambda: ("group", ("joined", sign, self.bare(self.of_kind(left, depth)), self.bare(self.of_kind(right, depth)))),
            lambda: ("suffixed", self.bare(self.of_kind(self.pick("text", "list"), depth)), [("index", index)]),
        )

    def bare(self, expression):
        """An operand that holds together."""
        return expression if expression[0] in ("literal", "name", "list", "map", "group", "text") else ("group", expression)

    def suffix(self, depth):
        is_safe = self.pick(False, False, True)
        method, *kinds = self.random.choice(METHODS[self.pick(*METHODS)])
        count = len(kinds) + (self.random.random() < 0.05)
        return self.pick(
            lambda: ("index", self.expression(depth - 1)),
            lambda: ("property", self.pick(self.name, "message"), is_safe),
            *(2 * [lambda: ("method", method, is_safe, ([], [self.expression(depth - 2) for _ in range(count)]))]),
            *(3 * [lambda: ("method", self.random.choice(WALKS), is_safe, ([], [self.closure(depth)]))]),
            lambda: ("method", "call", is_safe, self.arguments(depth - 1)),
        )

    def expression(self, depth):
        if depth <= 0:
            return self.leaf()
        below = lambda: self.primary(depth - 1)  # noqa: E731
        return self.pick(
            *(5 * [lambda: self.primary(depth)]),
            lambda: ("joined", self.pick("+", "+", "-", "*", "%"), below(), below()),
            lambda: ("joined", self.pick("==", "!=", "<", "<=", ">", ">="), below(), below()),
            lambda: (self.pick("and", "or"), self.some(below, 2, 3)),
            lambda: ("chosen", below(), below(), below()),
            lambda: ("default", below(), below()),
            lambda: ("signed", self.pick(["!"], ["-"], ["+"], ["!", "!"], ["-", "+"], ["!", "-"]), below()),
        )

    def step(self, depth):
        small = lambda: self.expression(min(1, depth - 1))  # noqa: E731
        any_value = lambda: self.expression(depth - 1)  # noqa: E731
        body = self.body_of_step(depth)
        overrides = self.pick(("list", [of("A=b")]), ("list", [of("A=1"), of("B=2")]), ("list", []), ("list", [of("A")]), of(5))
        branches = self.random.sample(["a", "b", "c"], self.random.randint(1, 3))
        closures = [(name, self.pick(*(5 * [lambda: self.body_of_step(depth)]), small)) for name in branches]
        return self.pick(
            lambda: step(self.pick("echo", "println", "error", "unstable"), any_value()),
            lambda: step(self.pick("echo", "println"), any_value()),
            lambda: step("stage", small(), body),
            lambda: step("catchError", body),
            lambda: step("catchError", body, named=[("message", small()), ("buildResult", self.pick(of("UNSTABLE"), of("ABORTED"), small))]),
            lambda: step("retry", self.pick(of(1), of(2), of(3), small), body),
            *(2 * [lambda: step("node", *self.pick([], [of("m")], [of("m && !x")], [of(" ")]), body)]),
            lambda: step("dir", self.pick(of("d"), of("/e"), small), body),
            lambda: step("withEnv", overrides, body),
            lambda: step("sh", small()),
            lambda: step("sh", named=[("script", of("s")), (self.pick("returnStatus", "returnStdout"), self.pick(of(True), self.leaf))]),
            lambda: step("input", self.pick(of("go?"), small)),
            lambda: step("input", named=[("message", small()), ("id", of("i")), ("ok", small())]),
            lambda: step("parallel", named=closures),
            lambda: ("call", self.pick("echo", "stage", "retry", "sh", "input"), self.arguments(depth)),
        )

    # --- statements

    def body(self, depth):
        return [part for parts in self.some(lambda: self.statement(depth), 0, 2) for part in parts]

    def body_of_loop(self, depth):
        inner = self.statement(depth - 1)
        leave = self.pick(("break",), ("continue",))
        return inner + self.pick(
            [], [], lambda: [leave], lambda: [("if", [(self.expression(1), [leave])], None)] + self.statement(depth - 1),
            lambda: [("try", [self.pick(leave, ("return", of(1)))], [], self.statement(depth - 1))],
            lambda: [("try", self.statement(depth - 1), [(False, "e", [leave])], self.pick(None, lambda: [leave]))],
        )

    def target(self, depth):
        return self.pick(
            *(3 * [lambda: ("name", self.name())]),
            lambda: ("property", ("name", self.name()), self.name()),
            lambda: ("index", ("name", self.name()), self.expression(min(1, depth - 1))),
            lambda: ("index", ("suffixed", ("name", "m"), [("property", "m", False)]), self.leaf()),
        )

    def evaluated(self, expression):
        """A statement does not begin with a closure."""
        return [("evaluate", ("group", expression) if source(expression).startswith("{") else expression)]

    def printed(self, expression):
        """A closure would be the body of the step."""
        return [("evaluate", step("println", ("text", [expression]) if expression[0] == "closure" else expression))]

    def loop(self, depth):
        name = self.new_name()
        test = ("joined", "<", ("name", name), of(self.random.randint(0, 3)))
        more = ("step", ("name", name), 1)
        return self.pick(
            lambda: [("declare", name, of(0)), ("while", test, [more] + self.body_of_loop(depth))],
            lambda: [("each", self.name(), self.expression(depth - 1), self.body_of_loop(depth))],
            lambda: [("steps", self.pick(("declare", name, of(0)), ("assign", ("name", name), "=", of(0))), test,
                      self.pick(more, ("assign", ("name", name), "+=", of(1))), self.body_of_loop(depth))],
        )

    def tried(self, depth):
        below = lambda: self.body(depth - 1)  # noqa: E731
        catches = self.pick([], lambda: [(False, "e", below())], lambda: [(False, "e", below()), (True, "t", below())],
                            lambda: [(True, "t", below())])
        return [("try", below(), catches, below() if not catches else self.pick(None, below))]

    def statement(self, depth):
        """A statement, or two that belong together."""
        value = lambda: self.expression(max(depth, 1))  # noqa: E731
        ends = lambda: [self.pick(("return", None), lambda: ("return", value()), lambda: ("throw", value()))]  # noqa: E731
        if depth <= 0:
            return self.pick(lambda: [("declare", self.new_name(), value())], lambda: [("assign", ("name", self.name()), "=", value())],
                             lambda: self.printed(self.leaf()), ends)
        return self.pick(
            *(3 * [lambda: [("assign", self.target(depth), self.pick("=", "=", "+=", "-=", "*=", "%="), value())]]),
            lambda: [("step", self.target(depth), self.pick(1, -1))],
            lambda: [("declare", self.new_name(), self.pick(None, value))],
            lambda: [("if", self.some(lambda: (self.expression(depth - 1), self.body(depth - 1)), 1, 2),
                      self.pick(None, lambda: self.body(depth - 1)))],
            *(3 * [lambda: self.loop(depth)]),
            *(4 * [lambda: self.tried(depth)]),
            ends,
            *(6 * [lambda: self.evaluated(self.step(depth))]),
            *(3 * [lambda: self.printed(value())]),
            lambda: self.evaluated(value()),
        )

    def caught(self, statements):
        return ("try", statements, [(True, "thrown", self.printed(("name", "thrown")))], None)

    def script(self):
        pairs = ("map", [(("name", "a"), of(1)), (("name", "m"), ("list", [of(5), of(6)])),
                         (("name", "b"), ("closure", ["p"], [("evaluate", ("name", "p"))]))])
        parts = [
            ("declare", "a", of(1)),
            ("assign", ("name", "b"), "=", of("text b")),
            ("declare", "c", ("closure", None, [("evaluate", ("name", "it"))])),
            ("assign", ("name", "x"), "=", ("list", [of(1), ("list", [of(2), of("z")]), of(None)])),
            ("declare", "l", ("list", [of(3), of(1), of(2)])),
            ("assign", ("name", "m"), "=", pairs),
            ("function", "f", ["p"], self.statement(2)),
            ("function", "g", ["p", "q"], [("return", self.expression(2))]),
            ("function", "h", [], self.statement(2)),
        ]
        for _ in range(self.random.randint(3, 12)):
            statements = self.statement(self.pick(1, 2, 3, 3))
            parts += [self.caught(statements)] if self.random.random() < 0.85 else statements
        return parts + [self.caught(self.printed(("text", [("name", name)]))) for name in NAMES if name != "c"]

    def events(self):
        lines = []
        for number in range(1, 13):
            lines += self.random.sample([
                f"granted {number} 0", f"exited {number} 0", f"exited {number} 3", f"proceed {number} ann", f"abort {number} bob",
                f"lost {number} gone", f"out {number} 0 o\\n", f"log {number} 0 + s", f"log {number} 3 q\\n",
            ], 9)
            lines.append(f"granted {max(1, number - 1)} 0")
        return lines
