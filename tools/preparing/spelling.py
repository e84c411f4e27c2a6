"""How texts and names are written in the product's language."""

ESCAPES = {"\\": "\\\\", "\n": "\\n", "\r": "\\r", "\t": "\\t", "\b": "\\b", "\f": "\\f"}


def literal(value, quote="'"):
    """The characters of a text as a literal of the language."""
    escapes = {**ESCAPES, quote: "\\" + quote, "$": "\\$"} if quote == '"' else {**ESCAPES, quote: "\\" + quote}
    return quote + "".join(escapes.get(sign, sign) for sign in value) + quote


def simple(name):
    """The last part of a class name with dots."""
    return name.split(".")[-1]
