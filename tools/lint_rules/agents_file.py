"""The agents file: its faults, as docs/FORMATS.md lists them, and its executors."""
import json
import re

NAME = re.compile(r"[A-Za-z0-9_.-]{1,255}")
LONGEST, MOST_EXECUTORS, MOST_LABELS, LONGEST_ROOT, MOST_LOOKS = 65536, 64, 64, 1024, 1_000_000
CONTROL = re.compile(r"[\x00-\x1f\x7f-\x9f]")


class BadFile(Exception):
    """The first fault of an agents file: the path of a member, and the kind."""

    def __init__(self, path, kind):
        super().__init__(f"{path}: {kind}")
        self.path, self.kind = path, kind


class Executor:
    """One executor: the agent that it is of, and its labels."""

    def __init__(self, agent, labels):
        self.agent, self.labels = agent, [agent, *labels]


def is_whole(value):
    return isinstance(value, int) and not isinstance(value, bool) and -2**63 <= value < 2**64


def is_name(value):
    return NAME.fullmatch(value) is not None


def is_root(value):
    return value.startswith("/") and not value.endswith("/") and len(value.encode()) <= LONGEST_ROOT and not CONTROL.search(value)


# Of each member: its name, its type, which values are right, and whether it may be left out.
OF_FILE = (
    ("job", lambda it: isinstance(it, str), is_name, False),
    ("looks", is_whole, lambda it: 1 <= it <= MOST_LOOKS, True),
    ("agents", lambda it: isinstance(it, list), lambda it: True, False),
)
OF_AGENT = (
    ("name", lambda it: isinstance(it, str), is_name, False),
    ("root", lambda it: isinstance(it, str), is_root, False),
    ("labels", lambda it: isinstance(it, list), lambda it: len(it) <= MOST_LABELS, True),
    ("executors", is_whole, lambda it: 1 <= it <= MOST_EXECUTORS, False),
)


def member(holder, path, name, is_type, is_right, may_be_left_out):
    where = f"{path}{name}"
    if name not in holder:
        if not may_be_left_out:
            raise BadFile(where, "missing")
        return
    if not is_type(holder[name]):
        raise BadFile(where, "wrong type")
    if not is_right(holder[name]):
        raise BadFile(where, "wrong value")


def labels(agent, path):
    for at, label in enumerate(agent.get("labels", [])):
        if not isinstance(label, str):
            raise BadFile(f"{path}labels[{at}]", "wrong type")
        if not is_name(label):
            raise BadFile(f"{path}labels[{at}]", "wrong value")


def unknown_keys(holder, path, known):
    for key in sorted(holder, key=str.encode):
        if key not in [name for name, *_ in known]:
            raise BadFile(f"{path}{key}", "unknown key")


def members(file):
    """The members of the file and of each agent, in the order in which they are looked at."""
    for rule in OF_FILE:
        member(file, "", *rule)
    for at, agent in enumerate(file["agents"]):
        path = f"agents[{at}]."
        if not isinstance(agent, dict):
            raise BadFile(f"agents[{at}]", "wrong type")
        for rule in OF_AGENT:
            member(agent, path, *rule)
            if rule[0] == "labels":
                labels(agent, path)


def executors_of(content):
    """The executors of an agents file, in their order; raises its first fault."""
    if len(content) > LONGEST:
        raise BadFile(".", "too long")
    try:
        file = json.loads(content.decode("utf-8"), parse_constant=not_a_number)
    except (ValueError, RecursionError):
        raise BadFile(".", "not JSON") from None
    if not isinstance(file, dict):
        raise BadFile(".", "wrong type")
    members(file)
    unknown_keys(file, "", OF_FILE)
    for at, agent in enumerate(file["agents"]):
        unknown_keys(agent, f"agents[{at}].", OF_AGENT)
    names = [agent["name"] for agent in file["agents"]]
    for at, name in enumerate(names):
        if name in names[:at]:
            raise BadFile(f"agents[{at}].name", "duplicate name")
    if sum(agent["executors"] for agent in file["agents"]) > MOST_EXECUTORS:
        raise BadFile("agents", "too many executors")
    return [Executor(it["name"], it.get("labels", [])) for it in file["agents"] for _ in range(it["executors"])]


def not_a_number(word):
    raise ValueError(word)


def place_of(text, path):
    """The characters of the member that a path names, as far as its key and its place among others tell; else the first one."""
    at = 0
    for key, index in re.findall(r"([^.\[\]]+)|\[(\d+)\]", path):
        found = re.compile(rf'"{re.escape(key)}"\s*:').search(text, at) if key else item_of(text, at, int(index))
        if found is None:
            break
        at = found.start() if key else found
    end = text.find("\n", at)
    return at, len(text) if end < 0 else end


def item_of(text, at, index):
    """The place of an item of the list that begins behind a place."""
    at = text.find("[", at)
    depth, left = 0, index
    for found in re.finditer(r'"(?:[^"\\]|\\.)*"|[\[\]{},]', text[at:]) if at >= 0 else ():
        sign = found[0]
        if depth == 1 and left == 0 and sign not in ("]", ","):
            return at + found.start()
        depth += (sign in "[{") - (sign in "]}") if len(sign) == 1 else 0
        left -= depth == 1 and sign == ","
        if depth == 0:
            return None
    return None
