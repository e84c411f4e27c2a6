"""The methods of values that take no closure, as the table of docs/LANGUAGE.md says."""
from values import (List, Map, Throwable, are_equal, bad_argument, is_number, key_of, no_method, outside, quotient, text_of,
                    throws)


def text(value):
    if not isinstance(value, str):
        raise bad_argument()
    return value


def trimmed(value):
    return value.strip("".join(chr(code) for code in range(33)))


def ascii_case(value, first, last, shift):
    return "".join(chr(ord(c) + shift) if first <= c <= last else c for c in value)


def replaced(value, old, new):
    if text(old) == "" and isinstance(new, str):
        raise bad_argument()
    return value.replace(old, text(new))


def substring(value, *bounds):
    if not all(is_number(bound) for bound in bounds):
        raise bad_argument()
    size = len(value)
    first, last = bounds if len(bounds) == 2 else (bounds[0], size)
    if not 0 <= first <= size:
        raise outside(first, size)
    if not first <= last <= size:
        raise outside(last, size)
    return value[first:last]


def tokens(value, cuts=" \t\n\r\f"):
    parts = [""]
    for character in value:
        if character in text(cuts):
            parts.append("")
        else:
            parts[-1] += character
    return List([part for part in parts if part])


def lines(value):
    rows = value.replace("\r\n", "\n").replace("\r", "\n").split("\n")
    return List(rows[:-1] if rows[-1] == "" else rows)


def number(value):
    digits = trimmed(value)
    plain = digits[1:] if digits[:1] in ("+", "-") else digits
    if plain and all("0" <= c <= "9" for c in plain) and -2**31 <= int(digits) < 2**31:
        return int(digits)
    raise throws("NumberFormat", f'For input string: "{digits}"')


def entry(value, index):
    if not is_number(index):
        raise bad_argument()
    if not 0 <= index < len(value.items):
        raise outside(index, len(value.items))
    return value.items[index]


def end_of(value, at):
    if not value.items:
        raise throws("NoSuchElement", "empty list")
    return value.items[at]


def position(value, wanted):
    return next((at for at, item in enumerate(value.items) if are_equal(item, wanted)), -1)


def add(value, item):
    value.items.append(item)
    return True


def put(value, key, item):
    old = value.entries.get(key_of(key))
    value.entries[key] = item
    return old


OF_TEXTS = {
    ("size", 0): len,
    ("length", 0): len,
    ("isEmpty", 0): lambda s: s == "",
    ("trim", 0): trimmed,
    ("toUpperCase", 0): lambda s: ascii_case(s, "a", "z", -32),
    ("toLowerCase", 0): lambda s: ascii_case(s, "A", "Z", 32),
    ("contains", 1): lambda s, t: text(t) in s,
    ("startsWith", 1): lambda s, t: s.startswith(text(t)),
    ("endsWith", 1): lambda s, t: s.endswith(text(t)),
    ("indexOf", 1): lambda s, t: s.find(text(t)),
    ("replace", 2): replaced,
    ("substring", 1): substring,
    ("substring", 2): substring,
    ("tokenize", 0): tokens,
    ("tokenize", 1): lambda s, cuts: tokens(s, text(cuts)),
    ("readLines", 0): lines,
    ("toInteger", 0): number,
}
OF_LISTS = {
    ("size", 0): lambda l: len(l.items),
    ("isEmpty", 0): lambda l: not l.items,
    ("add", 1): add,
    ("get", 1): entry,
    ("contains", 1): lambda l, v: position(l, v) >= 0,
    ("indexOf", 1): position,
    ("first", 0): lambda l: end_of(l, 0),
    ("last", 0): lambda l: end_of(l, -1),
    ("join", 1): lambda l, t: text(t).join(text_of(item) for item in l.items),
    ("reverse", 0): lambda l: List(l.items[::-1]),
}
OF_MAPS = {
    ("size", 0): lambda m: len(m.entries),
    ("isEmpty", 0): lambda m: not m.entries,
    ("containsKey", 1): lambda m, k: key_of(k) in m.entries,
    ("get", 1): lambda m, k: m.entries.get(key_of(k)),
    ("put", 2): put,
    ("remove", 1): lambda m, k: m.entries.pop(key_of(k), None),
    ("keySet", 0): lambda m: List(list(m.entries)),
    ("values", 0): lambda m: List(list(m.entries.values())),
}
OF_NUMBERS = {("intdiv", 1): quotient, ("toInteger", 0): lambda n: n}
OF_THROWABLES = {("getMessage", 0): lambda t: t.message}
OF_ALL = {("toString", 0): text_of, ("equals", 1): are_equal}


def table_of(value):
    if is_number(value):
        return OF_NUMBERS
    tables = ((str, OF_TEXTS), (List, OF_LISTS), (Map, OF_MAPS), (Throwable, OF_THROWABLES))
    return next((table for kind, table in tables if isinstance(value, kind)), {})


def call_method(value, name, arguments):
    key = (name, len(arguments))
    method = OF_ALL.get(key) or table_of(value).get(key)
    if method is None:
        raise no_method(value, name)
    return method(value, *arguments)
