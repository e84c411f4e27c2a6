"""What failed of a build, for people: `tools/reasons.py` tells it on standard error behind the log."""
import re

import build_view
import original_places
from build_tree import boxes_around, is_stage_or_branch
from plain_words import first_line, meaning_of_code, one_line, printable

# How many causes are told; how many lines of a step's output are shown, and how much of the end of it is looked at.
MOST_TOLD, LAST_LINES, LOOKED_AT = 3, 10, 1 << 14
LIMIT = re.compile(r"^Limit reached: (.*)$", re.M)
ERROR = re.compile(r"^ERROR: (.*)$", re.M)
WARNING = re.compile(r"^WARNING: (.*)$", re.M)
# What a build is by its result.
WORDS = {"UNSTABLE": "unstable", "FAILURE": "failed", "NOT_BUILT": "not built", "ABORTED": "aborted"}
# Messages that name something of the script, and where that stands there.
NAMING = (
    (re.compile(r"No such property: (\w+) for class"), r"(?<![\w.$'\"]){}\b(?!\s*\()"),
    (re.compile(r"No such DSL method '(\w+)'"), r"(?<![\w.$'\"]){}\b(?!\s*:)"),
    (re.compile(r"No signature of method: [\w.]+\.(\w+)\(\)"), r"\.\s*{}\b"),
    (re.compile(r"Cannot invoke method (\w+)\(\) on null object"), r"\.\s*{}\b"),
    (re.compile(r"Cannot get property '(\w+)' on null object"), r"\.\s*{}\b"),
)


def lines_of(view):
    """Of each cause of the build's result the chain from outside; its exit code or message; its line in the script; the last lines of
    its output."""
    limit = LIMIT.search(view.text(view.tree.script.pieces))
    if limit:
        return [f"controller: the build met a limit: {limit[1]}"]
    causes = causes_of(view)
    lines = [line for cause in causes[:MOST_TOLD] for line in lines_of_cause(view, cause)]
    more = len(causes) - MOST_TOLD
    return lines + ([f"controller: and {more} more: `report` marks all of them"] if more > 0 else [])


def causes_of(view):
    """What made the result of a build: what it was left by, else what it caught, and the warnings of a build that is unstable."""
    faults = build_view.faults_of(view, build_view.Marks(view).mark())
    thrown = [it for it in faults if not it.is_caught]
    if thrown:
        return thrown
    warnings = [warning_of(step) for step in view.tree.steps() if step.name == "unstable"] if view.result() == "UNSTABLE" else []
    return sorted([*faults, *warnings], key=lambda it: it.step.number if it.step is not None else 0)


def warning_of(step):
    return build_view.Fault([it for it in boxes_around(step) if is_stage_or_branch(it)], step, "", True)


def lines_of_cause(view, fault):
    lines = [f"controller: {WORDS.get(view.result(), 'failed')}: {chain(fault)}{told(view, fault)}"]
    script = view.script.decode("utf-8-sig", errors="replace")
    place = place_in_script(view, script, fault)
    if place is not None:
        line, column = place
        lines.append(f"{line:5} | {printable(script.split(chr(10))[line - 1].rstrip(chr(13)))}")
        lines += original_places.told(script, line, column)
    output = last_lines(view, fault.step)
    return lines + (["controller: the last lines of its output:", *(f"      | {line}" for line in output)] if output else [])


def chain(fault):
    """The stages and branches around what failed, from outside, and the step."""
    names = [f"{'branch' if it.is_branch() else 'stage'} {one_line(it.title())}" for it in fault.boxes]
    return " > ".join([*names, *([fault.step.name] if fault.step else [])]) or "the script"


def told(view, fault):
    code = getattr(fault.step, "code", None)
    if code is not None:
        return f", exit code {code}{meaning_of_code(code)}"
    message = message_of(view, fault)
    return f": {one_line(message)}" if message else ""


def message_of(view, fault):
    """What was thrown, or the warning, in one line."""
    if fault.step is not None and fault.step.name == "unstable":
        found = WARNING.search(view.text(fault.step.pieces))
        return found[1] if found else ""
    found = ERROR.search(fault.message)
    return found[1] if found else fault.message.split("\n")[0]


def last_lines(view, step):
    """The last lines of what a shell step wrote."""
    if step is None or step.name != "sh":
        return []
    text = view.text(step.pieces)[-LOOKED_AT:]
    return [printable(line) for line in text.rstrip("\n").split("\n") if line][-LAST_LINES:]


def place_in_script(view, script, fault):
    """The line and the column of the script where that stands which a fault names, where it stands on one line alone: of the whole
    script, or of what is behind the name of its stage."""
    begin = 0
    for box in fault.boxes:
        found = re.search(rf"""(['"]){re.escape(box.title())}\1""", script[begin:])
        begin += found.end() if found else 0
    for form in forms_of(view, fault):
        for start in (begin, 0):
            places = [it.start() for it in re.compile(form).finditer(script, start)]
            lines = {script.count("\n", 0, at) + 1 for at in places}
            if len(lines) == 1:
                return lines.pop(), places[0] - script.rfind("\n", 0, places[0])
    return None


def forms_of(view, fault):
    """How that may be written in the script which a fault names, the surest form first: the front of what `sh` was given, the question
    of an input, a message that was thrown, or a name in it."""
    message, step = message_of(view, fault), fault.step
    for names, form in NAMING:
        found = names.search(message)
        if found and step is None:
            yield form.format(re.escape(found[1]))
    if step is not None and step.name == "sh" and getattr(step, "request", None):
        wanted = first_line(step.request.text)
    elif step is not None and step.name == "input":
        wanted = first_line(view.text(step.pieces))
    elif step is None and ERROR.search(fault.message) is None:
        # Behind the name of a class stands what the script gave it.
        wanted = message.partition(": ")[2]
    else:
        wanted = message
    if wanted:
        yield rf"""(['"]){re.escape(wanted)}\1"""
        yield re.escape(wanted)
