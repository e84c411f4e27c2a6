#!/usr/bin/env python3
"""Runs the examples, and compares what is printed and the exit status with what their pages say: `python3 tools/examples.py [WORD..]`.

With words it runs only those whose names have one of them. The examples are

- each folder below examples/ with a `log`: what is printed is the log, the status is that of the line `Exit status: N` of its
  README.md, and `answers`, where it is there, is standard input;
- each row of the tables in examples/faults/README.md and examples/shell/README.md;
- in docs/USING.md each row of a table whose first column is `in Jenkins` or `met by`, and the `"looks"` of an agents file;
- in docs/USING.md and docs/STEPS.md each script with a log behind it.

Where branches have shell steps their lines may come in any order among each other: then the lines of a log are compared in any order,
and the flow graph without its numbers, so that each branch has to have its own steps in their order.

Shell steps really run. The folder /tmp/controller of the pages, in which their agents stand, is a new one for each run, and what is
printed has the name of the pages again. Of the scripts to write in place of one of Jenkins the commands `git`, `make`, `jq`, `cp`,
`flock` and `docker` are stand-ins that do nothing, `timeout` runs its command, and `sleep` makes the file `f` that a loop waits for.

Where the program is built it runs them, and then tries the other commands on each: `check`; `resume` with one answer at a time,
behind a `run` without answers, which must give the same log; `log` and `graph`, which must write nothing; and each of them where
there is no build. The records of the store, as `tools/follow` reads them, have to give that log too. Else the kit runs all of them
without a proof, and compiles the sources once. With `--reference` the interpreter in tools/reference runs those that it can run. The
status is 0 where all are as their pages say, and 1 where one is not, or no name has one of the words.
"""
import argparse
import difflib
import functools
import importlib.machinery
import importlib.util
import os
import re
import shutil
import subprocess
import sys
import tempfile
from concurrent.futures import ThreadPoolExecutor

from build import PROGRAM, TOP
from build_tree import tree_of
from store_records import Store

BUILT = f"{TOP}/crates/{PROGRAM}/out/{PROGRAM}"
NO_AGENTS = b'{"job": "using", "agents": []}'
ONE_AGENT = b'{"job": "using", "agents": [{"name": "m", "root": "/tmp/controller/m", "executors": 1}]}'
# The folder of the agents, as the pages name it; the commands that stand in for others, and where.
AGENTS = b"/tmp/controller"
STAND_INS = {name: "" for name in ("git", "make", "jq", "cp", "flock", "docker")}
STAND_INS |= {"timeout": 'shift; exec "$@"', "sleep": "touch f"}
FILES = {"VERSION": "1.4\n", "list": "2\n1\n"}
WITH_STAND_INS = "withEnv(['PATH=/tmp/controller/bin:/usr/bin:/bin']) { %s }"
# The limits that the reference does not count, as patterns.
UNCOUNTED = ("nodes\\ evaluated", "text\\ length", "collection\\ size")
# Seconds until a command has to have ended.
PATIENCE = 120
START, END = "[Pipeline] Start of Pipeline\n", "[Pipeline] End of Pipeline\nFinished: SUCCESS\n"


class Example:
    """A script with its agents file and answers, what is to be printed, and the statuses that are right."""

    def __init__(self, name, script, wanted, statuses, agents=NO_AGENTS, answers=b""):
        self.name, self.script, self.agents, self.answers = name, script, agents, answers
        # A text is all that is printed; a pattern stands for what it matches.
        self.wanted, self.statuses = wanted, statuses

    def varies(self):
        """Whether branches have shell steps, whose order among each other is open."""
        return b"parallel" in self.script and re.search(rb"\bsh\b", self.script) is not None

    def is_same(self, ended, other):
        """Whether two runs ended alike."""
        return ended == other or self.varies() and ended[1] == other[1] and in_any_order(ended[0]) == in_any_order(other[0])

    def write(self, folder):
        """Writes the files into a new folder, with the agents beside it."""
        os.makedirs(folder)
        for name, content in (("Jenkinsfile", self.script), ("agents.json", self.agents), ("answers", self.answers)):
            with open(f"{folder}/{name}", "wb") as file:
                file.write(content.replace(AGENTS, agents_of(folder)))
        if b"PATH=" + AGENTS in self.script:
            write_stand_ins(agents_of(folder).decode())

    def is_right(self, printed, status):
        if isinstance(self.wanted, re.Pattern):
            return bool(self.wanted.search(printed)) and status in self.statuses
        return self.is_same((printed, status), (self.wanted, status)) and status in self.statuses

    def complaint(self, printed, status):
        lines = [f"{self.name}: status {status}, wanted {' or '.join(map(str, self.statuses))}"]
        if isinstance(self.wanted, re.Pattern):
            return "\n".join([*lines, f"wanted a line with {self.wanted.pattern!r}, printed:", printed])
        given = (self.wanted.splitlines(), printed.splitlines(), "wanted", "printed")
        return "\n".join([*lines, *difflib.unified_diff(*given, lineterm="")])


def in_any_order(log):
    return sorted(log.split("\n"))


def steps_of(graph):
    """The bodies and steps of a graph's text, without their numbers."""

    def inside(body):
        return [body.label, *((it.name, [inside(inner) for inner in getattr(it, "bodies", [])]) for it in body.items)]

    return inside(tree_of(graph).script)


def loaded(path):
    loader = importlib.machinery.SourceFileLoader("script", path)
    module = importlib.util.module_from_spec(importlib.util.spec_from_loader("script", loader))
    loader.exec_module(module)
    return module


def agents_of(folder):
    return f"{folder}.agents".encode()


def write_stand_ins(agents):
    """The commands of a script that stands in place of one of Jenkins, and the files that it reads in the workspace."""
    os.makedirs(f"{agents}/bin")
    for name, body in STAND_INS.items():
        with open(f"{agents}/bin/{name}", "w", encoding="utf-8") as file:
            file.write(f"#!/bin/sh\n{body}\n")
        os.chmod(file.name, 0o755)
    os.makedirs(f"{agents}/m/workspace/using")
    for name, content in FILES.items():
        with open(f"{agents}/m/workspace/using/{name}", "w", encoding="utf-8") as file:
            file.write(content)


# --- the examples


def read(path):
    with open(f"{TOP}/{path}", "rb") as file:
        return file.read()


def of_folders():
    for at, _, files in sorted(os.walk(f"{TOP}/examples")):
        if "log" in files:
            name = os.path.relpath(at, TOP)
            status = re.search(r"^Exit status: (\d+)$", read(f"{name}/README.md").decode(), re.M)
            answers = read(f"{name}/answers") if "answers" in files else b""
            wanted = read(f"{name}/log").decode()
            yield Example(name, read(f"{name}/Jenkinsfile"), wanted, [int(status[1])], read(f"{name}/agents.json"), answers)


def rows(text, head):
    """The rows of the tables whose first column has this head, each as the list of its cells."""
    inside = False
    for line in text.splitlines():
        cells = [cell.strip().replace("\\|", "|") for cell in re.split(r"(?<!\\)\|", line)[1:-1]]
        if not cells:
            inside = False
        elif inside and not set(cells[0]) <= set("-"):
            yield cells
        inside = inside or cells[:1] == [head]


def codes(cell):
    return [code.replace(" ↵ ", "\n") for code in re.findall(r"`([^`]*)`", cell)]


def spelled(cell):
    """The bytes that a cell tells: as they are, as many times, or as the number of a byte."""
    code = codes(cell)[0]
    if cell.startswith("the byte"):
        return bytes.fromhex(code)
    times = re.match(r"(\d+) times", cell)
    return code.encode() * (int(times[1]) if times else 1)


def of_faults():
    page = read("examples/faults/README.md").decode()
    short = dict(re.findall(r"\b([A-Z]) is `([^`]*)`", page))
    for head, status in (("Jenkinsfile", 4), ("agents.json", 13)):
        for cell, printed, _ in rows(page, head):
            name, content = f"examples/faults: {cell}", spelled(cell)
            if status == 4:
                yield Example(name, content, codes(printed)[0] + "\n", [status])
            else:
                content = re.sub(r"\b[AB]\b", lambda it: short[it[0]], content.decode()).encode()
                yield Example(name, b"", codes(printed)[0] + "\n", [status], content)


def of_shell_steps():
    for script, printed, status in rows(read("examples/shell/README.md").decode(), "Jenkinsfile"):
        line = re.compile("^" + re.escape(codes(printed)[0]) + "$", re.M)
        yield Example(f"examples/shell: {script}", codes(script)[0].encode(), line, [int(status)], ONE_AGENT)


def agents_for(script):
    return ONE_AGENT if "node" in script else NO_AGENTS


def of_tables(page):
    """What is refused or meets a limit tells so; what is written in its place runs, up to its first question."""
    for first, told, *_ in [*rows(page, "in Jenkins"), *rows(page, "met by")]:
        for script in codes(first):
            line = re.compile(re.escape(codes(told)[0]))
            yield Example(f"docs/USING.md: {script!r}", script.encode(), line, [1, 4], agents_for(script))
    for *_, instead in rows(page, "in Jenkins"):
        for script in codes(instead):
            runs = re.compile(r"^Finished: |or Abort\n\Z", re.M)
            run = WITH_STAND_INS % script if "sh " in script or "sh(" in script else script
            yield Example(f"docs/USING.md: {script!r} in its place", run.encode(), runs, [0, 3, 10, 11], agents_for(script))


def of_blocks(path):
    """Scripts in blocks, each with what is behind it: answers, and its log.

    A block `json` is the agents file of the scripts behind it. A log leaves out the first line of a build, and the last two of
    one that ends with SUCCESS; `log N` is all but the first line, with the exit status N. A script without a log ends with SUCCESS,
    with stand-ins for commands.
    """
    agents, script, answers, page = NO_AGENTS, None, b"", read(path).decode()
    for kind, rest, content in re.findall(r"^```(\w+) ?(\d*)\n(.*?)^```$", page, re.M | re.S):
        if script is not None and kind not in ("answers", "log"):
            run = WITH_STAND_INS % script
            yield Example(f"{path}: {script!r}", run.encode(), re.compile("^Finished: SUCCESS$", re.M), [0], ONE_AGENT)
            script = None
        if kind == "json":
            agents = content.encode()
        elif kind == "groovy":
            script, answers = content, b""
        elif kind == "answers":
            answers = content.encode()
        elif kind == "log":
            wanted = START + content + ("" if rest else END)
            yield Example(f"{path}: {script!r}", script.encode(), wanted, [int(rest or 0)], agents, answers)
            script = None


def of_looks(page):
    for words in re.findall(r'`("looks": \d+)`', page):
        agents = NO_AGENTS.replace(b"}", f", {words}}}".encode())
        yield Example(f"docs/USING.md: {words}", b"echo 'x'", f"{START}[Pipeline] echo\nx\n{END}", [0], agents)


def examples():
    page = read("docs/USING.md").decode()
    blocks = [it for path in ("docs/USING.md", "docs/STEPS.md") for it in of_blocks(path)]
    return [*of_folders(), *of_faults(), *of_shell_steps(), *of_tables(page), *of_looks(page), *blocks]


# --- ways to run them: each gives what was printed and the status


def run_program(program, command, folder, answers=b""):
    words = [program, command, folder]
    try:
        ran = subprocess.run(words, input=answers, stdout=subprocess.PIPE, timeout=PATIENCE, check=False)
    except subprocess.TimeoutExpired:
        return "", f"of no end in {PATIENCE} seconds"
    return as_on_pages(ran.stdout, folder), ran.returncode


def as_on_pages(printed, folder):
    return printed.replace(agents_of(folder), AGENTS).decode(errors="replace")


def by_program(program, example):
    with tempfile.TemporaryDirectory(prefix="controller-example-") as room:
        example.write(f"{room}/folder")
        return run_program(program, "run", f"{room}/folder", example.answers)


def by_kit(given):
    """All in one run of the kit without a proof: it compiles the sources once, and says of each case how it ended."""
    with tempfile.TemporaryDirectory(prefix="controller-examples-") as room:
        cases, files = f"{room}/cases", []
        os.mkdir(cases)
        for at, example in enumerate(given):
            name = f"example-{at:04}"
            example.write(f"{room}/{name}")
            shutil.copy(f"{room}/{name}/answers", f"{cases}/{name}")
            with open(f"{cases}/{name}.args", "w", encoding="utf-8") as words:
                words.write(f"run\n{name}\n")
            for file in ("Jenkinsfile", "agents.json"):
                files += ["--data", f"{name}/{file}={room}/{name}/{file}"]
        command = ["rt", "try", "--seconds", "600", "--cases", cases, *files]
        ran = subprocess.run(command, cwd=f"{TOP}/crates/{PROGRAM}", stdout=subprocess.PIPE, stderr=subprocess.PIPE, check=False)
    yield from told(ran.stdout, ran.stderr.decode(), [f"{room}/example-{at:04}" for at in range(len(given))])


def told(printed, said, folders):
    """What the kit printed under the name of each example, and the status that it says of each."""
    parts = dict(part.split(b"\n", 1) for part in re.split(rb"^== (?=example-\d{4}$)", printed, flags=re.M)[1:])
    for folder in folders:
        name = os.path.basename(folder)
        status = re.search(rf"^case={name}\b.*\bstatus=(\d+)", said, re.M)
        yield as_on_pages(parts.get(name.encode(), b""), folder), int(status[1]) if status else said[-2000:]


def reference(example, *words):
    """What the interpreter prints, and its status; nothing for an example with something that it does not know."""
    if example.statuses == [13] or isinstance(example.wanted, re.Pattern) and example.wanted.pattern in UNCOUNTED:
        return None
    with tempfile.TemporaryDirectory(prefix="controller-example-") as room:
        example.write(f"{room}/folder")
        command = [sys.executable, f"{TOP}/tools/reference/run.py", *words, f"{room}/folder"]
        ran = subprocess.run(command, input=example.answers, stdout=subprocess.PIPE, stderr=subprocess.DEVNULL, check=False)
    return None if ran.returncode == 125 else (as_on_pages(ran.stdout, f"{room}/folder"), ran.returncode)


# --- the other commands, each with what it printed and its status, and what is right


NO_BUILD, HAS_BUILD = ("program.dat: no build\n", 9), ("program.dat: already has a build\n", 9)
SHOWING = ("log", "graph", "check")


def refused(program, folder, ended):
    """A script or an agents file with a fault leaves no store."""
    yield "check", run_program(program, "check", folder), ended
    for command in ("resume", "log", "graph"):
        yield command, run_program(program, command, folder), NO_BUILD
    yield "the folder's files", sorted(set(os.listdir(folder)) - {"program.lock"}), ["Jenkinsfile", "agents.json", "answers"]


def stored(program, folder, ended, graph, varies):
    """A build that can go no further is shown, and is not begun again."""
    before = state_of(folder)
    yield "log", run_program(program, "log", folder), (ended[0], 0)
    yield "the records that tools/follow reads", as_followed(folder), ended
    if graph is not None:
        found, status = run_program(program, "graph", folder)
        shown = steps_of if varies else str
        yield "graph", (shown(found), status), (shown(graph[0]), 0)
    yield "check", run_program(program, "check", folder), ("ok\n", 0)
    yield "the store behind log, graph and check", state_of(folder), before
    yield "run once more", run_program(program, "run", folder), HAS_BUILD
    yield "resume", run_program(program, "resume", folder), ended


def as_followed(folder):
    """The log of the records, and the status of a build that they end, else that of one that waits."""
    log, status = b"", None
    with Store(f"{folder}/program.dat") as store:
        for record in store.records():
            log, status = log[: record.place] + record.piece, record.status
    return as_on_pages(log, folder), 3 if status is None else status


def state_of(folder):
    with open(f"{folder}/program.dat", "rb") as store:
        return store.read(), os.stat(store.fileno()).st_mtime_ns, sorted(os.listdir(folder))


def resumed(program, folder, example, ended):
    """A build that is stopped at each of its questions, and goes on with one answer, ends as one that was never stopped."""
    printed, _ = now = run_program(program, "run", folder)
    for line in example.answers.splitlines(keepends=True):
        now = run_program(program, "resume", folder, line)
        yield "resume begins with the log so far", now[0].startswith(without_end(printed)), True
        printed = now[0]
    yield "resume with one answer at a time", now, now if example.is_same(now, ended) else ended


def without_end(log):
    """A line of a log that is not ended by a newline may go on."""
    return log[: log.rfind("\n") + 1]


def other_commands(example, ended, program):
    with tempfile.TemporaryDirectory(prefix="controller-example-") as room:
        for name in ("once", "twice"):
            example.write(f"{room}/{name}")
        again = run_program(program, "run", f"{room}/once", example.answers)
        yield "a second run", again, again if example.is_same(again, ended) else ended
        if ended[1] in (4, 13):
            yield from refused(program, f"{room}/once", ended)
        else:
            yield from stored(program, f"{room}/once", again, reference(example, "--graph"), example.varies())
            yield from resumed(program, f"{room}/twice", example, ended)


def wrong_commands(example, ended, program):
    tried = other_commands(example, ended, program)
    return [f"{example.name}: {name}: {found!r}, wanted {wanted!r}" for name, found, wanted in tried if found != wanted]


def is_built():
    if not os.access(BUILT, os.X_OK):
        return False
    built = os.path.getmtime(BUILT)
    for at, folders, files in os.walk(f"{TOP}/crates"):
        folders[:] = [it for it in folders if it != "out"]
        if any(file.endswith((".rt", ".antt")) and os.path.getmtime(f"{at}/{file}") > built for file in files):
            return False
    return True


def asked():
    parser = argparse.ArgumentParser(description=__doc__.splitlines()[0])
    parser.add_argument("--reference", action="store_true", help="run them by the interpreter in tools/reference")
    parser.add_argument("--program", help="run them by this program")
    parser.add_argument("words", nargs="*", help="run only those whose names have one of these words")
    return parser.parse_args()


def chosen(words):
    """The examples whose names have one of the words, or all; a word that no name has is a mistake."""
    given = examples()
    for word in words:
        if not any(word in it.name for it in given):
            sys.exit(f"examples: no name has the word {word!r}")
    return [it for it in given if not words or any(word in it.name for word in words)]


def complaints(example, ended, program):
    """What is wrong with an example that ended so; None where nothing is known of it."""
    if ended is None:
        return None
    if not example.is_right(*ended):
        return [example.complaint(*ended)]
    return wrong_commands(example, ended, program) if program else []


def all_complaints(tried, program, is_by_reference):
    """Those of each example in order. As many as there are processors are run at a time."""
    if not program and not is_by_reference:
        return [complaints(example, ended, None) for example, ended in zip(tried, by_kit(tried))]
    way = functools.partial(by_program, program) if program else reference
    with ThreadPoolExecutor(os.cpu_count()) as pool:
        return [*pool.map(lambda it: complaints(it, way(it), program), tried)]


def main():
    given = asked()
    if given.program and not os.access(given.program, os.X_OK):
        sys.exit(f"examples: {given.program} is no program")
    tried = chosen(given.words)
    program = None if given.reference else given.program or (BUILT if is_built() else None)
    if not program and not given.reference:
        print("examples: unproved and slow; ./controller build proves and builds the program", file=sys.stderr, flush=True)
    found = all_complaints(tried, program, given.reference)
    wrong, unknown = [it for it in found if it], found.count(None)
    for lines in wrong:
        print(*lines, sep="\n", end="\n\n")
    left_out = f", {unknown} left out" if unknown else ""
    print(f"{len(tried) - len(wrong) - unknown} examples as their pages say, {len(wrong)} others{left_out}")
    return 1 if wrong else 0


if __name__ == "__main__":
    sys.exit(main())
