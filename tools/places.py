"""Places in files, for people: the line of a place with a mark under its column, and the place of a member of an agents file."""
import json
import re
import unicodedata

# How much of a line is shown, in characters, and how much of that stands in front of the mark.
WIDEST, IN_FRONT = 100, 60
WHITE = re.compile(r"[ \t\n\r]*")
DECODER = json.JSONDecoder()


class Unmarked(Exception):
    """There is no place to show, for this reason."""


def read(path, most=1 << 21):
    """The text of a file: what is no UTF-8 is replaced, a byte order mark left out."""
    with open(path, "rb") as file:
        return file.read(most).decode("utf-8-sig", errors="replace")


def marked(text, line, column):
    """The line with a mark under its column, both counted from 1, as two lines; the column in characters, the line by LF."""
    lines = text.split("\n")
    if not 1 <= line <= len(lines):
        raise Unmarked
    shown, mark = with_mark(lines[line - 1].removesuffix("\r"), column - 1, column)
    head = f"{line:5} | "
    return f"{head}{shown}\n{' ' * (len(head) - 2)}| {mark}"


def with_mark(line, begin, end):
    """A line as it is shown, cut where it is long, and a mark under its characters from `begin` up to `end`, but under one at least."""
    start = max(0, begin - IN_FRONT) if len(line) > WIDEST else 0
    front, cut = ("\u2026" if start else ""), line[start : start + WIDEST]
    back = "\u2026" if start + WIDEST < len(line) else ""
    gap = "".join(blank(sign) for sign in front + cut[: begin - start])
    rest = "".join(blank(sign) for sign in cut[begin - start + 1 : max(0, end - start)])
    return f"{front}{printable(cut)}{back}", f"{gap}^{'~' * len(rest)}"


def printable(line):
    return "".join(sign if sign == "\t" or sign.isprintable() else "\ufffd" for sign in line)


def blank(sign):
    """What is as wide as the sign on a terminal."""
    if sign == "\t":
        return sign
    if unicodedata.combining(sign):
        return ""
    return "  " if unicodedata.east_asian_width(sign) in "WF" else " "


def line_and_column(text, at):
    """The line and the column of a character, counted from 1."""
    return text.count("\n", 0, at) + 1, at - text.rfind("\n", 0, at)


# --- agents files


def of_bytes_that_are_no_json(content):
    """The line, the column and what is wrong there, of bytes that are no JSON."""
    try:
        json.loads(content.decode())
    except json.JSONDecodeError as why:
        return why.lineno, why.colno, why.msg[:1].lower() + why.msg[1:]
    except UnicodeDecodeError as why:
        front = content[: why.start].decode()
        return (*line_and_column(front, len(front)), "not UTF-8")
    except RecursionError:
        pass
    raise Unmarked


def of_member(text, path, kind):
    """The line and the column of the member with this path, as `agents[1].name`; of one that is missing, that of what lacks it."""
    at = place(text, WHITE.match(text).end(), "" if path == "." else path, kind == "unknown key")
    return line_and_column(text, at)


def place(text, at, path, is_key):
    if path == "":
        return at
    if text[at] == "[":
        number, rest = re.match(r"\[(\d+)\]\.?(.*)", path, re.S).groups()
        return place(text, [*items(text, at)][int(number)], rest, is_key)
    named = [(len(key), own, value) for key, own, value in members(text, at) if re.match(re.escape(key) + r"(?![^.\[])", path)]
    if not named:
        return at
    # The longest key is the whole of the path's, and of two with one name the last one counts.
    length, own, value = max(named)
    return own if is_key and length == len(path) else place(text, value, path[length:].removeprefix("."), is_key)


def members(text, at):
    """Each key of the object that begins here, with its place and that of its value."""
    at = WHITE.match(text, at + 1).end()
    while text[at] == '"':
        key, behind = DECODER.raw_decode(text, at)
        value = WHITE.match(text, WHITE.match(text, behind).end() + 1).end()
        yield key, at, value
        at = behind_item(text, value)


def items(text, at):
    """The place of each item of the list that begins here."""
    at = WHITE.match(text, at + 1).end()
    while text[at] not in "],}":
        yield at
        at = behind_item(text, at)


def behind_item(text, at):
    """The place of what follows the value that stands here, behind its comma; else that of the closing bracket."""
    at = WHITE.match(text, DECODER.raw_decode(text, at)[1]).end()
    return WHITE.match(text, at + 1).end() if text[at] == "," else at
