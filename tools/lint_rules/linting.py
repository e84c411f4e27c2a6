"""All findings of one script."""
from groovy_reader import read

from . import exact, executors, names, outside
from .agents_file import BadFile, executors_of, place_of
from .differences import instead_of
from .findings import REFUSED, Finding

LONGEST = 1_048_576
KINDS = {
    "unexpected token": "this is not expected here", "unexpected end": "the script ends here",
    "unexpected character": "nothing of the language begins with this character", "bad number": "no number of the language",
    "bad escape": "no escape of the language", "unended text": "a text without an end", "unended comment": "a comment without an end",
    "nesting over 128": "more than 128 brackets are open here",
}
# A Declarative Pipeline, and the faults of a script that is no Groovy either.
NOT_PREPARED = {"pipeline", *(kind.replace(" ", "-") for kind in KINDS)}
INSTEAD = {"unexpected token": None, "nesting over 128": "names of their own for inner parts", "unexpected end": "what closes it"}


def from_fault(script, kind, at):
    """A fault of the exact grammar as a finding."""
    source, end, what = script.source, at + 1, KINDS.get(kind, kind)
    while end < len(source) and source[at : end + 1].isidentifier():
        end += 1
    if at >= len(source.rstrip()) and kind in ("unexpected token", "unexpected end"):
        kind = "unexpected end"
        what = KINDS[kind]
    if kind in ("unexpected token", "unexpected end"):
        what += opened(script, at)
    return Finding(at, min(end, len(source)), REFUSED, kind.replace(" ", "-"), what, INSTEAD.get(kind))


def opened(script, at):
    """Which bracket is open at a place: at the end of the script the innermost one, before it a `(` or `[` of another line."""
    begin = script.bracket_around(at)
    is_end = at >= len(script.source.rstrip())
    if begin is None or not is_end and (script.source[begin] not in "([" or "\n" not in script.source[begin:at]):
        return ""
    line, column = script.place(begin)
    return f"; the `{script.source[begin]}` at {line}:{column} is open"


def of_grammar(script, found):
    """The faults of the exact grammar that none of the findings tells."""
    refused = sorted((it.begin, it.end) for it in found if it.stage == REFUSED)
    told = []
    for piece in exact.pieces(script):
        fault = piece.fault()
        if fault is None:
            continue
        explained = any(piece.has(begin) and begin <= fault[1] for begin, _ in refused)
        if not explained:
            told.append(from_fault(script, *fault))
    places = {it.begin for it in found + told}
    return told + [from_fault(script, "unexpected token", it.fault) for it in script.faults if it.fault not in places]


def of_whole(script, found):
    """What `check` tells of the whole script, where no finding says why it refuses it."""
    fault = exact.first_fault(script.source)
    if fault is None or any(it.stage == REFUSED and it.begin <= fault[1] for it in found):
        return []
    return [from_fault(script, *fault)]


def agents_found(content):
    """The executors of an agents file, or None, and its first fault as a finding."""
    try:
        return executors_of(content), []
    except BadFile as bad:
        begin, end = place_of(content.decode(errors="replace"), bad.path)
        return None, [Finding(begin, end, REFUSED, "agents-file", f"{bad.path}: {bad.kind}", "it as docs/FORMATS.md says")]


def decoded(content):
    """The source of a script, and None or the finding that says why it is none."""
    if len(content) > LONGEST:
        return "", [Finding(0, 0, REFUSED, "too-long", f"the script is longer than {LONGEST} bytes", "a shorter one")]
    try:
        return content.decode("utf-8"), None
    except UnicodeDecodeError as bad:
        at = len(content[: bad.start].decode("utf-8"))
        told = Finding(at, at + 1, REFUSED, "not-UTF-8", "this byte is no UTF-8", "the file as UTF-8")
        return content.decode("utf-8", errors="replace"), [told]


def findings_of(source, agents=None):
    """The findings of a script in the order of their places, each place and key once; `agents` are the executors, where they are known."""
    script = read(source)
    found = outside.findings(script) + names.findings(script) + executors.findings(script, agents)
    found += of_grammar(script, found)
    found += of_whole(script, found)
    once = {}
    for finding in sorted(found, key=lambda it: (it.begin, not it.stops(), it.end)):
        once.setdefault((finding.begin, finding.key), finding)
    return list(once.values())


def is_prepared(finding):
    """Whether `prepare` may write in the language what a finding tells: a difference to Jenkins, not what no Groovy has."""
    return finding.stops() and finding.key not in NOT_PREPARED and instead_of(finding.key) is not None


def may_prepare(found):
    """Whether `prepare` may write some of a script with these findings; it refuses a Declarative Pipeline."""
    return any(map(is_prepared, found)) and not any(it.key == "pipeline" for it in found)
