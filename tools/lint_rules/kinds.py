"""The kinds of values, and what each has: methods, properties, operators, indexes, as docs/LANGUAGE.md says.

A kind is one of the names below, or None where a script does not tell it plainly.
"""
import os
import sys

sys.path.append(f"{os.path.dirname(os.path.dirname(os.path.realpath(__file__)))}/reference")
import methods as reference  # noqa: E402

NULL, TRUTH, NUMBER, TEXT, LIST, MAP, CLOSURE, THROWABLE = "null", "truth value", "number", "text", "list", "map", "closure", "throwable"
KINDS = (NULL, TRUTH, NUMBER, TEXT, LIST, MAP, CLOSURE, THROWABLE)
WALKS = ("each", "collect", "find", "findAll", "any", "every")
TABLES = {
    NUMBER: reference.OF_NUMBERS, TEXT: reference.OF_TEXTS, LIST: reference.OF_LISTS, MAP: reference.OF_MAPS,
    THROWABLE: reference.OF_THROWABLES,
}
# The kinds of what methods give, where it is one and the same for all receivers that have the method.
GIVEN = {
    "size": NUMBER, "length": NUMBER, "isEmpty": TRUTH, "trim": TEXT, "toUpperCase": TEXT, "toLowerCase": TEXT, "contains": TRUTH,
    "startsWith": TRUTH, "endsWith": TRUTH, "indexOf": NUMBER, "replace": TEXT, "substring": TEXT, "tokenize": LIST, "readLines": LIST,
    "toInteger": NUMBER, "add": TRUTH, "join": TEXT, "reverse": LIST, "containsKey": TRUTH, "keySet": LIST, "values": LIST,
    "collect": LIST, "any": TRUTH, "every": TRUTH, "times": NULL, "intdiv": NUMBER, "toString": TEXT, "equals": TRUTH,
}
# The kinds that each argument of a method has to have.
WANTED = {
    "contains": {TEXT: (TEXT,)}, "startsWith": {TEXT: (TEXT,)}, "endsWith": {TEXT: (TEXT,)}, "indexOf": {TEXT: (TEXT,)},
    "replace": {TEXT: (TEXT, TEXT)}, "substring": {TEXT: (NUMBER, NUMBER)}, "tokenize": {TEXT: (TEXT,)}, "get": {LIST: (NUMBER,)},
    "join": {LIST: (TEXT,)}, "intdiv": {NUMBER: (NUMBER,)},
}
METHOD_OF_SIGN = {"+": "plus", "-": "minus", "*": "multiply", "%": "mod", "..": "rangeTo", "<": "compareTo", "<=": "compareTo",
                  ">": "compareTo", ">=": "compareTo"}


def counts_of(kind, name):
    """With how many arguments a kind has a method; None where any number will do, and no count where it has none."""
    if kind == CLOSURE and name == "call":
        return None
    made = {count for (it, count) in [*reference.OF_ALL, *TABLES.get(kind, {})] if it == name}
    walks = kind in (LIST, MAP) and name in WALKS or kind == NUMBER and name == "times"
    return made | {1} if walks else made


def is_a_method(name, count):
    """Whether any kind has a method of this name with so many arguments."""
    return any((found := counts_of(kind, name)) is None or count in found for kind in KINDS)


def is_a_name(name):
    """Whether any kind has a method of this name."""
    return any(counts_of(kind, name) is None or counts_of(kind, name) for kind in KINDS)


def given_by(kind, name):
    """The kind of what a method gives."""
    if name in ("each", "findAll") and kind in (LIST, MAP):
        return kind
    return GIVEN.get(name)


def joined(sign, left, right):
    """Whether an operator takes these operands (None where that is not plain), and the kind of what it gives."""
    if sign in ("==", "!=", "&&", "||"):
        return True, TRUTH
    if sign in ("<", "<=", ">", ">="):
        return compared(left, right), TRUTH
    if sign == "+":
        return added(left, right)
    if None in (left, right) and all(it in (None, NUMBER) for it in (left, right)):
        return None, LIST if sign == ".." else NUMBER
    return left == right == NUMBER, LIST if sign == ".." else NUMBER


def compared(left, right):
    if left in (None, NUMBER, TEXT) and right in (None, NUMBER, TEXT):
        return None if None in (left, right) else left == right
    return False


def added(left, right):
    if left in (TEXT, LIST):
        return True, left
    if right == TEXT and left in (NUMBER, NULL):
        return True, TEXT
    if left is None or right is None:
        can_be = left in (None, NUMBER, MAP, NULL)
        return (None if can_be else False), (TEXT if left == TEXT else None)
    return left == right and left in (NUMBER, MAP), left


def has_property(kind, name):
    """Whether a kind has a property; None where the kind is not plain."""
    if kind is None:
        return None
    return kind == MAP or kind == THROWABLE and name == "message"
