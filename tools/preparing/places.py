"""The map of a prepared script: a comment at its end that says where each piece of it stood."""
import re

HEAD = "// Places: "


def told(lines, functions):
    """The comment, for the changed lines and for what was added.

    `lines` has for each changed line the list of its pieces: the column, the line and column in the original, and whether the piece was
    there or is text in the place of something. `functions` has the first line of each file's lines behind the script, with the number
    of the file's line there.
    """
    out = []
    for number in sorted(lines):
        pieces = " ".join(f"{column}{'=' if is_own else '!'}{line}:{at}" for column, line, at, is_own in lines[number])
        out.append(f"{HEAD}{number} {pieces}")
    out += [f"{HEAD}from {first} {line} {file}" for first, line, file in functions]
    return "".join(it + "\n" for it in out)


class Places:
    """The map that a prepared script has; without one each place is its own."""

    def __init__(self, text, file="Jenkinsfile"):
        self.lines, self.functions, self.file = {}, [], file
        for line in text.splitlines():
            if line.startswith(HEAD):
                self.read(line[len(HEAD):])

    def read(self, told):
        first, rest = told.split(" ", 1)
        if first == "from":
            begin, line, file = rest.split(" ", 2)
            self.functions.append((int(begin), int(line), file))
        elif first == "of":
            self.file = rest
        else:
            pieces = re.findall(r"(\d+)([=!])(\d+):(\d+)", rest)
            self.lines[int(first)] = [(int(column), int(line), int(at), sign == "=") for column, sign, line, at in pieces]

    def of(self, line, column):
        """The file, line and column at which a place of the prepared script stood."""
        behind = [it for it in self.functions if it[0] <= line]
        if behind:
            begin, first, file = behind[-1]
            return file, first + line - begin, column
        pieces = [it for it in self.lines.get(line, [(1, line, 1, True)]) if it[0] <= column]
        if not pieces:
            return self.file, self.lines[line][0][1], self.lines[line][0][2]
        begin, at_line, at_column, is_own = pieces[-1]
        return self.file, at_line, at_column + (column - begin if is_own else 0)


def pieces_of(text, pieces, place_of):
    """For each line of a text that is not as it was the pieces of it; `pieces` are those of Edits, `place_of` gives a place in the original."""
    starts = [0] + [at + 1 for at, sign in enumerate(text) if sign == "\n"]
    marks, end = [], 0
    for begin, at, length in pieces:
        if begin > end:
            marks.append((end, at, False))
        for offset in [0] + [i + 1 for i in range(length) if text[begin + i] == "\n"]:
            if offset <= length:
                marks.append((begin + offset, at + offset, True))
        end = begin + length
    lines, number = {}, 0
    for where, at, is_own in marks:
        while number + 1 < len(starts) and starts[number + 1] <= where:
            number += 1
        lines.setdefault(number + 1, []).append((where - starts[number] + 1, *place_of(at), is_own))
    return {number: told for number, told in lines.items() if [it for it in told if it != (it[0], number, it[0], True)]}
