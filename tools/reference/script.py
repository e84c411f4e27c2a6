"""The source of a script that is given as a tree of tuples, as `build.py` runs it."""


def literal(value):
    if isinstance(value, str):
        for character, escape in (("\\", "\\\\"), ("\n", "\\n"), ("\r", "\\r"), ("'", "\\'")):
            value = value.replace(character, escape)
        return f"'{value}'"
    return {None: "null", True: "true", False: "false"}[value] if value is None or isinstance(value, bool) else str(value)


def row(expressions):
    return ", ".join(source(expression) for expression in expressions)


def call(given):
    """The arguments of a call; a closure that stands last is written behind the parentheses."""
    named, others = given
    body = others[-1] if others and others[-1][0] == "closure" else None
    inside = [f"{name}: {source(value)}" for name, value in named]
    inside += [source(value) for value in (others if body is None else others[:-1])]
    return "(" + ", ".join(inside) + ")" + ("" if body is None else " " + source(body))


def entry(pair):
    (form, key), value = pair
    if form == "computed":
        key = source(key) if key[0] == "text" else f"({source(key)})"
    elif form == "literal":
        key = literal(key)
    return f"{key}: {source(value)}"


def suffix(form, what, *rest):
    if form == "index":
        return f"[{source(what)}]"
    dot = "?." if rest[0] else "."
    return dot + what + ("" if form == "property" else call(rest[1]))


def closure(parameters, body):
    heads = "" if parameters is None else ", ".join(parameters) + " -> "
    return "{ " + heads + "; ".join(statement(part) for part in body) + " }"


def text(parts):
    return '"' + "".join(part.replace("\n", "\\n") if isinstance(part, str) else f"${{{source(part)}}}" for part in parts) + '"'


EXPRESSIONS = {
    "literal": literal,
    "name": lambda name: name,
    "group": lambda expression: f"({source(expression)})",
    "list": lambda items: f"[{row(items)}]",
    "map": lambda entries: "[" + ", ".join(map(entry, entries)) + "]" if entries else "[:]",
    "text": text,
    "closure": closure,
    "new": lambda kind, message: f"new {kind}({source(message) if message else ''})",
    "signed": lambda signs, expression: "".join(signs) + source(expression),
    "joined": lambda sign, left, right: f"{source(left)} {sign} {source(right)}",
    "and": lambda operands: " && ".join(map(source, operands)),
    "or": lambda operands: " || ".join(map(source, operands)),
    "chosen": lambda test, then, otherwise: f"{source(test)} ? {source(then)} : {source(otherwise)}",
    "default": lambda expression, otherwise: f"{source(expression)} ?: {source(otherwise)}",
    "suffixed": lambda expression, suffixes: source(expression) + "".join(suffix(*part) for part in suffixes),
    "call": lambda name, given: name + call(given),
}


def source(expression):
    return EXPRESSIONS[expression[0]](*expression[1:])


def target(form, on, what=None):
    return on if form == "name" else source(on) + (f".{what}" if form == "property" else f"[{source(what)}]")


def block(statements):
    return "{ " + "; ".join(statement(part) for part in statements) + " }"


def if_else(arms, otherwise):
    parts = [f"if ({source(test)}) {block(body)}" for test, body in arms]
    return " else ".join(parts + ([] if otherwise is None else [block(otherwise)]))


def try_catch(body, catches, last):
    handlers = (f" catch ({'Throwable ' if catches_all else ''}{name}) {block(handler)}" for catches_all, name, handler in catches)
    return f"try {block(body)}" + "".join(handlers) + ("" if last is None else f" finally {block(last)}")


STATEMENTS = {
    "evaluate": source,
    "declare": lambda name, value: f"def {name}" + (f" = {source(value)}" if value else ""),
    "assign": lambda to, sign, value: f"{target(*to)} {sign} {source(value)}",
    "step": lambda to, change: target(*to) + ("++" if change > 0 else "--"),
    "if": if_else,
    "while": lambda test, body: f"while ({source(test)}) {block(body)}",
    "steps": lambda first, test, following, body:
        f"for ({statement(first)}; {source(test)}; {statement(following)}) {block(body)}",
    "each": lambda name, over, body: f"for ({name} in {source(over)}) {block(body)}",
    "try": try_catch,
    "return": lambda value: "return" + (f" {source(value)}" if value else ""),
    "throw": lambda value: f"throw {source(value)}",
    "break": lambda: "break",
    "continue": lambda: "continue",
    "function": lambda name, parameters, body: f"def {name}({', '.join(parameters)}) {block(body)}",
}


def statement(part):
    return STATEMENTS[part[0]](*part[1:])


def script(parts):
    return "".join(statement(part) + "\n" for part in parts)
