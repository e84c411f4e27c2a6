"""A terminal as tools write to it: lines that stay, above lines at the bottom that are rewritten; and what is typed there."""
import codecs
import contextlib
import os
import re
import shutil
import termios
import tty
import unicodedata

RESET = "\x1b[0m"
# Signs that the editing of a line knows.
ENTER, ERASE, CLEAR, WORD, END = "\r\n", "\x08\x7f", "\x15", "\x17", "\x04"
ESCAPED = re.compile("\x1b(?:\\[[0-?]*[ -/]*[@-~]|O.|[^\\[O])?")


def is_capable(stream):
    """Whether a stream is a terminal that can write a line anew."""
    return stream is not None and stream.isatty() and os.environ.get("TERM", "dumb") != "dumb"


def may_have_colors(stream):
    """Whether colors are wanted there: https://no-color.org has the rule of NO_COLOR."""
    return is_capable(stream) and not os.environ.get("NO_COLOR")


def width_of_sign(sign):
    if unicodedata.combining(sign):
        return 0
    return 2 if unicodedata.east_asian_width(sign) in "WF" else 1


def width_of(text):
    return sum(map(width_of_sign, text))


def fitted(text, width):
    """A text without colors in at most so many columns."""
    if width_of(text) <= width:
        return text
    kept, left = [], width - 1
    for sign in text:
        left -= width_of_sign(sign)
        if left < 0:
            break
        kept.append(sign)
    return "".join(kept) + "\u2026" if width > 0 else ""


class Screen:
    """Lines on standard output, and on a terminal the ones at its bottom."""

    def __init__(self, out, said):
        self.out, self.said, self.is_terminal = out, said, is_capable(out)
        self.bottom = []

    def width(self):
        return shutil.get_terminal_size().columns - 1

    def put(self, content):
        """Writes bytes that stay."""
        self.written(content, self.out)

    def say(self, content):
        """Writes bytes that stay to standard error."""
        self.written(content, self.said)

    def written(self, content, stream):
        bottom = self.bottom
        self.rewrite([])
        stream.buffer.write(content)
        stream.buffer.flush()
        self.rewrite(bottom)

    def rewrite(self, lines):
        """Puts these lines at the bottom in place of those that are there; the cursor stands behind the last one."""
        if not self.is_terminal or lines == self.bottom:
            return
        up = f"\x1b[{len(self.bottom) - 1}A" if len(self.bottom) > 1 else ""
        clear = f"\r{up}\x1b[J" if self.bottom else ""
        self.out.write(clear + "\r\n".join(lines))
        self.out.flush()
        self.bottom = lines


class Typed:
    """What is typed: the line so far."""

    def __init__(self):
        self.line, self.decoder, self.has_ended = "", codecs.getincrementaldecoder("utf-8")("replace"), False

    def feed(self, content):
        """Takes what came, and answers the lines that it ends."""
        lines = []
        for sign in ESCAPED.sub("", self.decoder.decode(content)):
            if sign in ENTER:
                lines.append(self.line)
                self.line = ""
            elif sign == END and self.line == "":
                self.has_ended = True
            else:
                self.edit(sign)
        return lines

    def edit(self, sign):
        if sign in ERASE:
            self.line = self.line[:-1]
        elif sign == CLEAR:
            self.line = ""
        elif sign == WORD:
            self.line = re.sub(r"\S*\s*\Z", "", self.line)
        elif sign.isprintable():
            self.line += sign


@contextlib.contextmanager
def unbuffered(descriptor):
    """Has what is typed come sign by sign, and shown by nobody else; Ctrl-C still interrupts."""
    before = termios.tcgetattr(descriptor)
    tty.setcbreak(descriptor, termios.TCSADRAIN)
    try:
        yield
    finally:
        termios.tcsetattr(descriptor, termios.TCSADRAIN, before)


def is_in_front(descriptor):
    """Whether this is a terminal, and this process is the one that it talks to."""
    try:
        return os.isatty(descriptor) and os.tcgetpgrp(descriptor) == os.getpgrp()
    except OSError:
        return False
