"""Regular expressions that are written out, as lists that `matchesPattern` and `replaceMatches` of the library read.

A pattern is a list of parts, each a list: ['set', CHARACTERS, IS_WITHOUT], ['begin'], ['end'], ['any', PATTERN..] for one of several
patterns, ['repeat', PATTERN, LEAST, MOST]. What has no such form, as a group that is named again, is not known.
"""
import re

try:
    from re import _constants as signs, _parser as reader
except ImportError:  # before Python 3.11
    import sre_constants as signs
    import sre_parse as reader

DIGITS = "0123456789"
LETTERS = "abcdefghijklmnopqrstuvwxyzABCDEFGHIJKLMNOPQRSTUVWXYZ"
CLASSES = {
    signs.CATEGORY_DIGIT: (DIGITS, False), signs.CATEGORY_NOT_DIGIT: (DIGITS, True),
    signs.CATEGORY_SPACE: (" \t\n\r\f\v", False), signs.CATEGORY_NOT_SPACE: (" \t\n\r\f\v", True),
    signs.CATEGORY_WORD: (LETTERS + DIGITS + "_", False), signs.CATEGORY_NOT_WORD: (LETTERS + DIGITS + "_", True),
}
MOST = 65535


class Unknown(Exception):
    """A pattern with something that the library does not match."""


def quoted(value):
    escapes = {"\\": "\\\\", "'": "\\'", "\n": "\\n", "\r": "\\r", "\t": "\\t", "\f": "\\f", "\v": "\\u000b"}
    return "'" + "".join(escapes.get(sign, sign) for sign in value) + "'"


def a_set(characters, is_without):
    return f"['set', {quoted(characters)}, {'true' if is_without else 'false'}]"


def members(items):
    """The characters of a bracket and whether it is for all others."""
    told, is_without = "", False
    for kind, value in items:
        if kind is signs.NEGATE:
            is_without = True
        elif kind is signs.LITERAL:
            told += chr(value)
        elif kind is signs.RANGE and value[1] - value[0] < 256:
            told += "".join(map(chr, range(value[0], value[1] + 1)))
        elif kind is signs.CATEGORY and not CLASSES[value][1]:
            told += CLASSES[value][0]
        else:
            raise Unknown
    return told, is_without


def part(kind, value):
    """One part of a pattern."""
    if kind is signs.LITERAL:
        return a_set(chr(value), False)
    if kind is signs.NOT_LITERAL:
        return a_set(chr(value), True)
    if kind is signs.ANY:
        return a_set("\n\r", True)
    if kind is signs.IN:
        if len(value) == 1 and value[0][0] is signs.CATEGORY:
            return a_set(*CLASSES[value[0][1]])
        return a_set(*members(value))
    if kind is signs.AT and value in (signs.AT_BEGINNING, signs.AT_BEGINNING_STRING):
        return "['begin']"
    if kind is signs.AT and value is signs.AT_END:
        return "['end']"
    if kind is signs.MAX_REPEAT:
        least, most, inner = value
        return f"['repeat', {row(inner)}, {min(least, MOST)}, {min(int(most), MOST)}]"
    if kind is signs.SUBPATTERN and not value[1] and not value[2]:
        return f"['any', {row(value[-1])}]"
    if kind is signs.BRANCH:
        return f"['any', {', '.join(row(it) for it in value[1])}]"
    raise Unknown


def row(parts):
    return "[" + ", ".join(part(*it) for it in parts) + "]"


def written(pattern):
    """A pattern as the library reads it; None where it has something that is not known."""
    # Java has more in brackets than Python.
    if "&&" in pattern or re.search(r"\[[^\]]*\[", pattern) or "{," in pattern:
        return None
    try:
        read = reader.parse(pattern)
        return None if read.state.flags & ~re.UNICODE else row(read)
    except (Unknown, reader.error if hasattr(reader, "error") else ValueError, KeyError, OverflowError, RecursionError):
        return None
