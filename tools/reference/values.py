"""Values of a script, and what operators, indexes, properties and methods do with them, as docs/LANGUAGE.md says.

Null, truth values, whole numbers and texts are Python's None, bool, int and str. Lists, maps, closures and throwables are the
classes below: two of them are the same value only where they are the same object.
"""

CLASSES = {
    "Abort": "hudson.AbortException",
    "FlowInterrupted": "org.jenkinsci.plugins.workflow.steps.FlowInterruptedException",
    "Arithmetic": "java.lang.ArithmeticException",
    "MissingProperty": "groovy.lang.MissingPropertyException",
    "MissingMethod": "groovy.lang.MissingMethodException",
    "NullPointer": "java.lang.NullPointerException",
    "IllegalArgument": "java.lang.IllegalArgumentException",
    "IndexOutOfBounds": "java.lang.IndexOutOfBoundsException",
    "NumberFormat": "java.lang.NumberFormatException",
    "NoSuchElement": "java.util.NoSuchElementException",
    "MissingContext": "org.jenkinsci.plugins.workflow.steps.MissingContextVariableException",
    "Exception": "java.lang.Exception",
    "RuntimeException": "java.lang.RuntimeException",
    "NoSuchMethod": "java.lang.NoSuchMethodError",
    "Error": "java.lang.Error",
}
ERRORS = ("NoSuchMethod", "Error")
METHOD_OF = {"+": "plus", "-": "minus", "*": "multiply", "%": "mod", "..": "rangeTo"}
MOST_DEPTH = 64


class List:
    def __init__(self, items):
        self.items = items


class Map:
    """Its keys are texts and whole numbers, in the order in which they first came."""

    def __init__(self, entries):
        self.entries = entries


class Closure:
    """Its parameters are None where it has no heads, and so has the parameter `it`."""

    def __init__(self, parameters, body, names):
        self.parameters, self.body, self.names = parameters, body, names


class Throwable:
    def __init__(self, kind, message):
        self.kind, self.message = kind, message


class Thrown(Exception):
    def __init__(self, throwable):
        super().__init__()
        self.throwable = throwable


class LimitReached(Exception):
    pass


def throws(kind, message):
    return Thrown(Throwable(kind, message))


def bad_argument():
    return throws("IllegalArgument", "bad argument")


def no_method(value, name):
    if value is None:
        return throws("NullPointer", f"Cannot invoke method {name}() on null object")
    return throws("MissingMethod", f"No signature of method: {kind_of(value)}.{name}()")


def outside(index, size):
    return throws("IndexOutOfBounds", f"index {index} of {size}")


def is_number(value):
    return isinstance(value, int) and not isinstance(value, bool)


def kind_of(value):
    if isinstance(value, Throwable):
        return CLASSES[value.kind]
    kinds = (
        (bool, "java.lang.Boolean"),
        (int, "java.lang.Integer"),
        (str, "java.lang.String"),
        (List, "java.util.ArrayList"),
        (Map, "java.util.LinkedHashMap"),
        (Closure, "groovy.lang.Closure"),
    )
    return next(name for kind, name in kinds if isinstance(value, kind))


def wrap(number):
    return (number + 2**31) % 2**32 - 2**31


def text_of(value, depth=0):
    if isinstance(value, (List, Map)) and depth == MOST_DEPTH:
        raise LimitReached("value depth")
    if isinstance(value, List):
        return "[" + ", ".join(text_of(item, depth + 1) for item in value.items) + "]"
    if isinstance(value, Map):
        entries = (f"{key}:{text_of(item, depth + 1)}" for key, item in value.entries.items())
        return "[" + ", ".join(entries) + "]" if value.entries else "[:]"
    if isinstance(value, Throwable):
        return CLASSES[value.kind] + ("" if value.message is None else f": {value.message}")
    if isinstance(value, Closure):
        return "closure"
    return {None: "null", True: "true", False: "false"}[value] if value is None or isinstance(value, bool) else str(value)


def is_true(value):
    if isinstance(value, List):
        return bool(value.items)
    if isinstance(value, Map):
        return bool(value.entries)
    return bool(value) if value is None or isinstance(value, (bool, int, str)) else True


def are_equal(left, right, depth=0):
    if type(left) is not type(right):
        return False
    if left is None or isinstance(left, (bool, int, str)):
        return left == right
    if isinstance(left, List):
        pairs = zip(left.items, right.items) if len(left.items) == len(right.items) else None
    elif isinstance(left, Map):
        same = left.entries.keys() == right.entries.keys()
        pairs = [(item, right.entries[key]) for key, item in left.entries.items()] if same else None
    else:
        return left is right
    if pairs is None:
        return False
    if depth == MOST_DEPTH:
        raise LimitReached("value depth")
    return all(are_equal(one, other, depth + 1) for one, other in pairs)


def remainder(left, right):
    if right == 0:
        raise throws("Arithmetic", "/ by zero")
    rest = abs(left) % abs(right)
    return wrap(-rest if left < 0 else rest)


def quotient(left, right):
    if not is_number(right):
        raise bad_argument()
    if right == 0:
        raise throws("Arithmetic", "/ by zero")
    whole = abs(left) // abs(right)
    return wrap(whole if (left < 0) == (right < 0) else -whole)


def range_of(first, last):
    return List(list(range(first, last + 1) if first <= last else range(first, last - 1, -1)))


ON_NUMBERS = {
    "+": lambda a, b: wrap(a + b),
    "-": lambda a, b: wrap(a - b),
    "*": lambda a, b: wrap(a * b),
    "%": remainder,
    "..": range_of,
}
COMPARED = {
    "<": lambda a, b: a < b,
    "<=": lambda a, b: a <= b,
    ">": lambda a, b: a > b,
    ">=": lambda a, b: a >= b,
}


def operate(sign, left, right):
    """An operator between two operands; but `&&` and `||`, which do not always evaluate both."""
    if sign in ("==", "!="):
        return are_equal(left, right) == (sign == "==")
    numbers = is_number(left) and is_number(right)
    if numbers and sign in ON_NUMBERS:
        return ON_NUMBERS[sign](left, right)
    if sign in COMPARED:
        if numbers or isinstance(left, str) and isinstance(right, str):
            return COMPARED[sign](left, right)
        raise no_method(left, "compareTo")
    if sign == "+":
        if isinstance(left, str) or isinstance(right, str) and (left is None or is_number(left)):
            return text_of(left) + text_of(right)
        if isinstance(left, List):
            return List(left.items + (right.items if isinstance(right, List) else [right]))
        if isinstance(left, Map) and isinstance(right, Map):
            return Map({**left.entries, **right.entries})
    raise no_method(left, METHOD_OF[sign])


def signed(sign, value):
    if sign == "!":
        return not is_true(value)
    if is_number(value):
        return wrap(-value) if sign == "-" else value
    raise no_method(value, "negative" if sign == "-" else "positive")


def key_of(value):
    if isinstance(value, str) or is_number(value):
        return value
    raise throws("IllegalArgument", "bad map key")


def place(index, size):
    """The place that an index means, which may be outside."""
    if not is_number(index):
        raise bad_argument()
    return index + size if index < 0 else index


def read_index(value, index):
    if isinstance(value, Map):
        return value.entries.get(key_of(index))
    if not isinstance(value, (List, str)):
        raise no_method(value, "getAt")
    items = value.items if isinstance(value, List) else value
    at = place(index, len(items))
    if isinstance(value, List) and at >= len(items):
        return None
    if not 0 <= at < len(items):
        raise outside(index, len(items))
    return items[at]


def write_index(value, index, new):
    if isinstance(value, Map):
        value.entries[key_of(index)] = new
        return
    if not isinstance(value, List):
        raise no_method(value, "putAt")
    at = place(index, len(value.items))
    if not 0 <= at < len(value.items):
        raise outside(index, len(value.items))
    value.items[at] = new


def no_property(value, name):
    return throws("MissingProperty", f"No such property: {name} for class: {kind_of(value)}")


def read_property(value, name):
    if value is None:
        raise throws("NullPointer", f"Cannot get property '{name}' on null object")
    if isinstance(value, Map):
        return value.entries.get(name)
    if isinstance(value, Throwable) and name == "message":
        return value.message
    raise no_property(value, name)


def write_property(value, name, new):
    if value is None:
        raise throws("NullPointer", f"Cannot set property '{name}' on null object")
    if not isinstance(value, Map):
        raise no_property(value, name)
    value.entries[name] = new
