"""Why a call of the program ended as it did, for people: `tools/explained.py` tells it on standard error.

The program says one line on standard output, or a log. Here is found what that leaves open: the line of a file with a mark under the
place of a fault, why a file, the store or the output failed, what a build waits for, and which answers it passed over. All of it is
looked up after the call has ended, and so is what was there then.
"""
import errno
import os
import re
import select
import shlex
import stat
import subprocess

import builds
import failures
import original_places
import output
import places
from given_answers import MOST_TOLD, told, told_of_more
from locks import holders
from own_program import NAME
from plain_words import one_line
from store_changes import INPUT, NODE
from store_records import NoRecord, NotARecord

USAGE, WAITS, BAD_SCRIPT, DISK, READ, OUTPUT, STORE, BAD_AGENTS = 2, 3, 4, 5, 6, 7, 9, 13
# FAILURE, UNSTABLE, NOT_BUILT, ABORTED.
ENDED_BADLY = (1, 10, 11, 12)
OVER_A_FOLDER = ("run", "resume", "log", "graph", "check")
ANSWER = re.compile(r"(proceed|abort) ([^ \t]+) by (.+)")
TRIED = 1 << 16


class Call:
    """A call of the program with these words that has ended. `answers` are those that it was given, and how many records the store
    had before. `printed` is what it printed, where that is known, and `name` how the launcher was called."""

    def __init__(self, program, words, answers, printed=None, name=NAME):
        self.program, self.words, self.answers, self.printed, self.name = program, words, answers, printed, shlex.quote(name)
        self.command, self.folder = words if len(words) == 2 else ("", "")

    def lines(self, status):
        """What there is to tell of the call, which ended with this status."""
        if status == USAGE:
            return self.of_usage()
        if self.command not in OVER_A_FOLDER:
            return []
        if status == OUTPUT:
            return of_output()
        found = {
            BAD_SCRIPT: self.of_script,
            BAD_AGENTS: self.of_agents,
            READ: self.of_reading,
            DISK: self.of_disk,
            STORE: self.of_store,
            **dict.fromkeys(ENDED_BADLY, self.of_failure),
            WAITS: self.of_waiting,
        }
        lines = found[status]() if status in found else []
        return [*self.of_answers(), *lines]

    def told(self):
        """The line that the call printed of the folder's files, where that is known, else what `check` prints of them now."""
        if self.printed is not None:
            return self.printed.removesuffix("\n")
        call = [self.program, "check", self.folder]
        told = subprocess.run(call, stdin=subprocess.DEVNULL, stdout=subprocess.PIPE, stderr=subprocess.DEVNULL, check=False)
        return told.stdout.decode(errors="replace").removesuffix("\n")

    def of_script(self):
        found = re.fullmatch(r"Jenkinsfile:(\d+):(\d+): (.*)", self.told())
        if found is None:
            return []
        path, (line, column) = f"{self.folder}/Jenkinsfile", map(int, found.groups()[:2])
        text = places.read(path)
        return [*shown(path, text, line, column, found[3]), *original_places.told(text, line, column)]

    def of_agents(self):
        path, found = f"{self.folder}/agents.json", re.fullmatch(r"agents\.json: (.*): ([a-zA-Z ]+)", self.told(), re.S)
        if found is None or found[2] == "too long":
            return []
        if found[2] == "not JSON":
            with open(path, "rb") as file:
                line, column, what = places.of_bytes_that_are_no_json(file.read())
            return shown(path, places.read(path), line, column, f"not JSON: {what}")
        text = places.read(path)
        at = "the whole file" if found[1] == "." else found[1]
        return shown(path, text, *places.of_member(text, *found.groups()), f"{at}: {found[2]}")

    def of_reading(self):
        """Which file could not be read. Where both can be, it was standard input."""
        if not os.path.isdir(self.folder):
            return [f"controller: {output.no_folder(self.folder)}"]
        if self.command in ("run", "check"):
            for name in ("agents.json", "Jenkinsfile"):
                why = why_unreadable(f"{self.folder}/{name}")
                if why:
                    return [f"controller: {self.folder}/{name} cannot be read: {why}"]
        why = why_fails(lambda: os.read(0, 0))
        return [f"controller: the answers on standard input could not be read{': ' + why if why else ''}"]

    def of_disk(self):
        """Why the store failed, where the program has not told it: it tells of files that it cannot open or lock."""
        if not os.path.isdir(self.folder):
            return [f"controller: {output.no_folder(self.folder)}"]
        if self.command not in ("run", "resume") or holders(f"{self.folder}/{builds.LOCK}"):
            return []
        path = f"{self.folder}/{builds.STORE}"
        why = why_unwritable(self.folder, path)
        return [f"controller: {path} cannot be written: {why}"] if why else []

    def of_store(self):
        path = f"{self.folder}/program.dat"
        if self.command == "run":
            return [f"controller: {path} has a build: 'resume' goes on with it, 'archive' puts it away, so that 'run' begins the next one"]
        if not os.path.isdir(self.folder):
            return [f"controller: {output.no_folder(self.folder)}"]
        if size_of(path) < 6:
            return [f"controller: 'run' begins the build of {self.folder}"]
        return []

    def of_usage(self):
        return [f"controller: {of_words(self.words)}; '{self.name} help' tells all commands"]

    def view(self):
        return builds.view_of(f"{self.folder}/{builds.STORE}")

    def of_failure(self):
        """What failed of the build, and where."""
        return failures.lines_of(self.view())

    def of_waiting(self):
        """What the build waits for, and how to give it."""
        view = self.view()
        ids = [one_line(it.text) for it in builds.open_requests(view, INPUT)]
        labels = [one_line(it.text) for it in builds.open_requests(view, NODE)]
        lines = [f"controller: it waits for an answer to the input {own}: 'proceed {own} by NAME' or 'abort {own} by NAME'" for own in ids]
        lines += [f"controller: it waits for an executor: no free one fits {f'the label {label}' if label else 'it'}" for label in labels]
        if ids:
            answer, folder = (shlex.quote(it) for it in (f"proceed {ids[0]} by NAME", self.folder))
            lines.append(f"controller: to answer: echo {answer} | {self.name} resume {folder}")
        return lines

    def of_answers(self):
        """The lines of standard input that the call read and that fitted no open input, as far as they are known."""
        if self.answers is None:
            return []
        given, records = self.answers
        try:
            steps = [it for it in self.view().tree.steps() if it.answer is not None and it.ended >= records]
        except (NoRecord, NotARecord, OSError):
            return []
        steps.sort(key=lambda it: it.ended)
        decisions = [(it.answer.proceeds, it.request.text, it.answer.name) for it in steps]
        passed = passed_over(given.lines(), decisions)
        lines = [told(at, line) for at, line in passed[:MOST_TOLD]]
        return lines + told_of_more(len(passed) - MOST_TOLD)


def passed_over(lines, decisions):
    """Which of the lines, with their numbers from 1, made none of these decisions, which come in the order of the lines."""
    left, passed = list(decisions), []
    for at, line in enumerate(lines, 1):
        line = line.removesuffix(b"\r").decode(errors="replace")
        form = ANSWER.fullmatch(line)
        if form and left and (form[1] == "proceed", form[2], form[3]) == left[0]:
            del left[0]
        elif line:
            passed.append((at, line))
    return passed


def shown(path, text, line, column, what):
    """A fault at its place, with the line and a mark."""
    return [f"controller: {path}:{line}:{column}: {what}", places.marked(text, line, column)]


def is_utf8(word):
    try:
        os.fsencode(word).decode("utf-8")
    except UnicodeDecodeError:
        return False
    return True


def of_folder_name(folder):
    """Why the program takes no such folder."""
    if folder == "":
        return "the folder's name is empty"
    return f"write ./{folder} for a folder of this name" if is_utf8(folder) else "the folder's name is no UTF-8"


def of_words(words):
    """Why words are no command."""
    if len(words) == 2 and words[0] in OVER_A_FOLDER:
        return of_folder_name(words[1])
    if len(words) == 2 and words[0] == "gen":
        return "the number of stages is from 1 to 2000"
    return f"'{words[0]}' is no command" if words and words[0] not in (*OVER_A_FOLDER, "gen") else "a command and one word are wanted"


# --- reasons of the system


def why_fails(call):
    """The system's reason where a call fails, else None."""
    try:
        call()
    except OSError as why:
        return why.strerror
    return None


def why_unreadable(path):
    def read():
        with open(path, "rb") as file:
            file.read(1)

    return why_fails(read)


def size_of(path):
    try:
        return os.stat(path).st_size
    except OSError:
        return 0


def why_unwritable(folder, path):
    """Why nothing can be written behind the store. It is tried in a file without a name, which goes when it is closed. Where no file
    can be opened there, the program has told it."""
    try:
        file = os.open(folder, os.O_TMPFILE | os.O_WRONLY, 0o600)
    except OSError:
        return None

    def write():
        os.pwrite(file, bytes(TRIED), size_of(path))
        os.fsync(file)

    try:
        return why_fails(write)
    finally:
        os.close(file)


def of_output():
    try:
        os.write(1, b"")
        why = why_output_fails()
    except OSError as fault:
        why = output.why_unwritable(fault)
    return [f"controller: standard output could not be written: {why}"] if why else []


def why_output_fails():
    """Why standard output takes no more, by what it is."""
    mode = os.fstat(1).st_mode
    if stat.S_ISFIFO(mode) or stat.S_ISSOCK(mode):
        poll = select.poll()
        poll.register(1, select.POLLOUT)
        gone = any(event & (select.POLLERR | select.POLLHUP) for _, event in poll.poll(0))
        return "whoever read it has ended" if gone else None
    if stat.S_ISREG(mode):
        return os.strerror(errno.ENOSPC) if os.fstatvfs(1).f_bavail == 0 else None
    return None
