"""What `tools/prepare` tells of a script: what it changed, and what it could not."""
from dataclasses import dataclass

import places

# What stands as it was, since it cannot be written in the language, or not without a change of what it means.
REFUSED = "refused"
# What was written in another way, with the same meaning; and what the one who builds should know.
CHANGED, NOTE = "changed", "note"


@dataclass(order=True, frozen=True)
class Finding:
    file: str
    line: int
    column: int
    kind: str
    text: str

    def told(self, lines):
        """As `lint` tells it: the place and the text; of what was refused also the line, of those of its file, with a mark under it."""
        head = f"{self.file}:{self.line}:{self.column}: {self.kind}: {self.text}"
        if self.kind != REFUSED or self.line > len(lines):
            return head
        line, mark = places.with_mark(lines[self.line - 1].removesuffix("\r"), self.column - 1, self.column)
        return f"{head}\n    {line}\n    {mark}"


class Findings:
    """The findings of one file."""

    def __init__(self, script, file):
        self.script, self.file, self.all, self.known = script, file, [], set()

    def add(self, kind, at, text):
        line, column = self.script.place(at)
        made = Finding(self.file, line, column, kind, text)
        if made not in self.known:
            self.known.add(made)
            self.all.append(made)

    def refuse(self, node, text):
        self.add(REFUSED, node.begin, text)

    def changed(self, node, text):
        self.add(CHANGED, node.begin, text)

    def note(self, node, text):
        self.add(NOTE, node.begin, text)
