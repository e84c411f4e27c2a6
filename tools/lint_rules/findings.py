"""Findings: what was found, where, and what to write in its place; and how they are printed."""
import bisect
import json
import re
from dataclasses import dataclass
from typing import Optional

import places

from .differences import instead_of

# How a finding ends a build: `check` refuses the script; an exception or an error is thrown; the build waits for ever; or it does
# not end it, and the finding is a warning.
REFUSED, EXCEPTION, ERROR, WAITS, WARNING = "refused", "exception", "error", "waits", "warning"
# The numbers of the language servers' DiagnosticSeverity.
SEVERITY_ERROR, SEVERITY_WARNING = 1, 2


@dataclass
class Finding:
    """`begin` and `end` are characters of the source; `key` names a row of differences.py where one tells what to write. What that row
    has in backquotes is an example, and not made of the script."""

    begin: int
    end: int
    stage: str
    key: str
    what: str
    instead: Optional[str] = None
    is_example: bool = False

    def __post_init__(self):
        if self.instead is None:
            self.instead = instead_of(self.key)
            self.is_example = "`" in (self.instead or "")

    def stops(self):
        """Whether it would stop the build."""
        return self.stage != WARNING

    def advice(self):
        """What to write; nothing where that is not known."""
        return f"{'for example' if self.is_example else 'in its place'}: {self.instead}" if self.instead else ""

    def sentence(self):
        return f"{self.what}; {self.advice()}" if self.instead else self.what


class File:
    """A source with its name, for places and marks."""

    def __init__(self, name, source):
        self.name, self.source = name, source
        self.lines = [0] + [found.end() for found in re.finditer("\n", source)]

    def place(self, at):
        """The line and the column of a character, counted from 1; a byte order mark is no character of the first line."""
        line = bisect.bisect_right(self.lines, at)
        mark = line == 1 and self.source.startswith("\ufeff")
        return line, at - self.lines[line - 1] + 1 - mark

    def line_of(self, at):
        """The line in which a character stands, and the number of characters before it there."""
        begin = self.source.rfind("\n", 0, at) + 1
        end = self.source.find("\n", at)
        line = self.source[begin : len(self.source) if end < 0 else end].rstrip("\r")
        return (line[1:], at - begin - 1) if line.startswith("\ufeff") else (line, at - begin)

    def told(self, finding):
        """The lines for a reader: place, severity, what it is, what to write, and the line with its mark."""
        line, column = self.place(finding.begin)
        severity = "error" if finding.stops() else "warning"
        head = f"{self.name}:{line}:{column}: {severity}: {finding.what} [{finding.key}]"
        text, before = self.line_of(finding.begin)
        rows = [head] + [f"    {row}" for row in places.with_mark(text, before, before + finding.end - finding.begin)]
        return "\n".join(rows + ([f"    {finding.advice()}"] if finding.instead else []))

    # --- for editors

    def position(self, at):
        """A Position of the Language Server Protocol: line and character from 0, in units of UTF-16."""
        line = bisect.bisect_right(self.lines, at)
        begin = self.lines[line - 1]
        return {"line": line - 1, "character": len(self.source[begin:at].encode("utf-16-le")) // 2}

    def diagnostic(self, finding):
        """A Diagnostic of the Language Server Protocol."""
        return {
            "range": {"start": self.position(finding.begin), "end": self.position(max(finding.end, finding.begin))},
            "severity": SEVERITY_ERROR if finding.stops() else SEVERITY_WARNING,
            "code": finding.key,
            "source": "controller lint",
            "message": finding.sentence(),
        }


def as_json(files):
    """For each file its findings: the parameters of the protocol's `textDocument/publishDiagnostics`, as one list."""
    return json.dumps([{"uri": uri, "diagnostics": [file.diagnostic(it) for it in found]} for uri, file, found in files], indent=2)
