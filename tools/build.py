#!/usr/bin/env python3
"""Proves and builds the controller: `./controller build`.

What an `rt ci` or an earlier build of these sources proved on this machine is taken and not proved again. Every other crate of the
program is proved before it is built, in as many lanes as there are processors and memory: the kit locks a crate's folder and those of
the crates below it, so each lane works in a copy of its own, and the kit hands what one has built to the others. The crate with the
longest way up to the program goes first. What is at work is told on standard error: one line that is written anew on a terminal, and
elsewhere a line per crate. Of two builds at once the second waits for the first.
"""
import concurrent.futures
import contextlib
import fcntl
import hashlib
import os
import re
import shutil
import signal
import subprocess
import sys
import tempfile
import threading
import time

import kit_store

TOP = os.path.dirname(os.path.dirname(os.path.realpath(__file__)))
PROGRAM = "jenkinsd"
# How much memory a check may take, in KiB.
MEMORY_OF_A_CHECK = 4_000_000


def listed():
    """The crates of crates.txt, each with those that it names."""
    named = {}
    with open(f"{TOP}/crates.txt", encoding="utf-8") as lines:
        for line in lines:
            head, colon, deps = line.partition("#")[0].partition(":")
            if colon:
                named[head.split()[0]] = deps.split()
    return named


def crates_below(program):
    """The program's crates with the crates that each names, lowest first, as crates.txt has them."""
    named = listed()
    order = {}

    def visit(name):
        for dep in named[name]:
            if dep in named and dep not in order:
                visit(dep)
        order[name] = [dep for dep in named[name] if dep in named]

    visit(program)
    return order


def crates_above(names):
    """These crates and all that stand on them."""
    named, above = listed(), {*names}
    while more := {it for it, deps in named.items() if it not in above and above.intersection(deps)}:
        above |= more
    return [it for it in named if it in above]


def free_memory():
    """In KiB; where the system does not tell it, enough for one check."""
    try:
        with open("/proc/meminfo", encoding="utf-8") as lines:
            return int(re.search(r"MemAvailable:\s+(\d+)", lines.read())[1])
    except OSError:
        return MEMORY_OF_A_CHECK


def sources(name):
    """The files of a crate that its proof reads."""
    for at, folders, files in os.walk(f"{TOP}/crates/{name}"):
        folders[:] = sorted(it for it in folders if it not in ("out", "must-fail"))
        yield from (f"{at}/{file}" for file in sorted(files) if file.endswith((".rt", ".antt")))


def ways_up(crates):
    """How much stands on each crate, along the longest way up to the program, its own sources among it: in bytes of sources."""
    above = {name: [it for it, deps in crates.items() if name in deps] for name in crates}
    way = {}
    for name in reversed(list(crates)):
        size = sum(os.path.getsize(file) for file in sources(name))
        way[name] = size + max((way[it] for it in above[name]), default=0)
    return way


def sum_of_sources(crates):
    """A sum of what the program is made from: the kit, the list of crates, what they may do, and their sources."""
    kit = os.path.dirname(os.path.dirname(os.path.realpath(shutil.which("rt"))))
    files = [f"{kit}/KIT-ID", f"{TOP}/crates.txt", f"{TOP}/HANDLES", *(file for it in crates for file in sources(it))]
    whole = hashlib.sha256()
    for file in filter(os.path.isfile, files):
        with open(file, "rb") as it:
            text = it.read()
        whole.update(f"{os.path.relpath(file, TOP)} {len(text)}\n".encode() + text)
    return whole.hexdigest()


class Progress:
    """What the build is at, for people."""

    def __init__(self, count):
        self.count, self.began, self.lock = count, time.monotonic(), threading.Lock()
        self.ended, self.at_work, self.functions = 0, {}, {}
        self.on_terminal = sys.stderr.isatty()

    def seconds(self):
        return f"{time.monotonic() - self.began:.0f} s"

    def proved(self):
        return sum(self.functions.values())

    def show(self):
        if self.on_terminal:
            at_work = ", ".join(f"{name} {what}" for name, what in self.at_work.items())
            line = f"controller: {self.ended} of {self.count} crates, {self.proved()} functions proved, {self.seconds()}: {at_work}"
            width = os.get_terminal_size(2).columns or 80
            print(f"\r\033[K{line[: width - 1]}", end="", file=sys.stderr, flush=True)

    def at(self, name, what):
        with self.lock:
            self.at_work[name] = what
            self.show()

    def function(self, name, number, of):
        with self.lock:
            self.functions[name] = number
            self.at_work[name] = f"{number}/{of}"
            self.show()

    def taken(self, count):
        """So many crates were proved here before."""
        self.ended += count
        if count:
            self.say(f"{count} of {self.count} crates were proved on this machine before ({self.seconds()})")

    def end(self, name):
        with self.lock:
            self.at_work.pop(name, None)
            self.ended += 1
            if not self.on_terminal:
                functions = self.functions.get(name, 0)
                what = f"{functions} functions proved" if functions else "built"
                self.say(f"{self.ended} of {self.count}: {name}: {what} ({self.seconds()})")
            self.show()

    def say(self, text):
        print(f"{chr(13) + chr(27) + '[K' if self.on_terminal else ''}controller: {text}", file=sys.stderr, flush=True)


class Failed(Exception):
    """A crate that was not proved or not built, and why."""


class Lanes:
    """Copies of the sources, each with an out/ of its own, that stay until the work that they are made for is done."""

    def __init__(self, work, count):
        # Where git keeps its own, since a copy anywhere else in the checkout would be taken for a part of it.
        has_git = os.path.isdir(f"{TOP}/.git")
        self.folder = f"{TOP}/.git/{work}" if has_git else f"{tempfile.gettempdir()}/{work}{TOP.replace('/', '-')}"
        self.free, self.lock = [f"{self.folder}/{it}" for it in range(count)], threading.Lock()
        self.builder = {}
        for lane in self.free:
            self.copy(lane)

    @staticmethod
    def copy(lane):
        """Gives the lane today's sources; what it has built stays."""
        for name in listed():
            folder = f"{lane}/crates/{name}"
            for part in (it for it in ("src", "specs", "proofs") if os.path.isdir(f"{folder}/{it}")):
                shutil.rmtree(f"{folder}/{part}")
            shutil.copytree(f"{TOP}/crates/{name}", folder, ignore=shutil.ignore_patterns("out", "must-fail"), dirs_exist_ok=True)
        for file in filter(os.path.isfile, (f"{TOP}/crates.txt", f"{TOP}/HANDLES")):
            shutil.copy2(file, lane)

    @contextlib.contextmanager
    def one(self, name):
        """A lane that nobody else works in, for this crate."""
        with self.lock:
            lane = self.free.pop()
        try:
            self.builder[name] = lane
            yield lane
        finally:
            with self.lock:
                self.free.append(lane)

    def drop(self):
        shutil.rmtree(self.folder, ignore_errors=True)

    def end(self):
        """Removes the lanes. The libraries, and what the kit keeps of a crate for its next check, go to the checkout first."""
        for name, lane in self.builder.items():
            for part in ("incremental", "rlib"):
                work, to = (f"{it}/crates/{name}/out/{part}" for it in (lane, TOP))
                if os.path.isdir(work):
                    shutil.rmtree(to, ignore_errors=True)
                    shutil.move(work, to)
        self.drop()


class Build:
    def __init__(self, crates, log):
        self.crates, self.log, self.progress = crates, log, Progress(len(crates))
        self.children, self.lock, self.is_stopped = set(), threading.Lock(), False
        self.most = max(1, min(len(os.sched_getaffinity(0)), free_memory() // MEMORY_OF_A_CHECK))

    def begin(self, folder, name, words):
        """The kit at work in a crate's folder, unless the build is stopped."""
        with self.lock:
            if self.is_stopped:
                raise Failed(f"{name}: stopped")
            streams = {"stdin": subprocess.DEVNULL, "stdout": subprocess.PIPE, "stderr": subprocess.STDOUT}
            how = {"cwd": folder, "text": True, "errors": "replace", "start_new_session": True}
            child = subprocess.Popen(["rt", *words], **streams, **how)
            self.children.add(child)
        return child

    def kit(self, top, name, *words):
        """Has the kit work on a crate of the checkout at `top`. All its words go to the log, and its count of functions to the
        progress. Failed has the first error that it tells, or its last word."""
        child, why = self.begin(f"{top}/crates/{name}", name, words), ""
        for line in child.stdout:
            with self.lock:
                self.log.write(f"{name}: {line}")
                self.log.flush()
            counted = re.match(r"checked .*, (\d+) of (\d+)$", line)
            if counted:
                self.progress.function(name, int(counted[1]), counted[2])
            if re.match(r"(error|rattle|rt:)", line) and not why.startswith("error"):
                why = line.strip()
        status = child.wait()
        with self.lock:
            self.children.discard(child)
        if status:
            raise Failed(f"{name}: {why or f'the kit ended with status {status}'}")

    def library(self, lanes, name):
        """Proves and builds a library in a lane."""
        self.progress.at(name, "begins")
        with lanes.one(name) as lane:
            self.kit(lane, name, "lib", "--jobs", "1")
        self.progress.end(name)

    def libraries(self, lanes, there):
        """Proves and builds those that are not there, each once all that it names are, the one with the longest way up first."""
        way = ways_up(self.crates)
        left = {it: deps for it, deps in self.crates.items() if it not in there and it != PROGRAM}
        running, done = {}, set(there)
        with concurrent.futures.ThreadPoolExecutor(self.most) as pool:
            try:
                while left or running:
                    ready = sorted((it for it, deps in left.items() if done.issuperset(deps)), key=lambda it: -way[it])
                    for name in ready[: self.most - len(running)]:
                        del left[name]
                        running[pool.submit(self.library, lanes, name)] = name
                    for it in concurrent.futures.wait(running, return_when=concurrent.futures.FIRST_COMPLETED).done:
                        it.result()
                        done.add(running.pop(it))
            except BaseException:
                pool.shutdown(wait=False, cancel_futures=True)
                self.stop()
                raise

    def program(self, lanes):
        """Proves and links the program in a lane, and puts it in the place of an older one once it is there."""
        self.progress.at(PROGRAM, "is proved and linked")
        with lanes.one(PROGRAM) as lane:
            made, to = (f"{it}/crates/{PROGRAM}/out/{PROGRAM}" for it in (lane, TOP))
            with contextlib.suppress(FileNotFoundError):
                os.remove(made)
            try:
                # Without words it tells its usage, with a status of its own.
                self.kit(lane, PROGRAM, "run", "--")
            except Failed:
                if not os.access(made, os.X_OK):
                    raise
            shutil.copy2(made, f"{to}.new")
        os.replace(f"{to}.new", to)
        self.progress.end(PROGRAM)

    def whole(self):
        there = kit_store.taken(TOP, PROGRAM) & {*self.crates}
        self.progress.taken(len(there))
        if PROGRAM in there:
            return
        lanes = Lanes("build", self.most)
        self.libraries(lanes, there)
        self.program(lanes)
        lanes.end()

    def stop(self):
        with self.lock:
            self.is_stopped = True
            for child in self.children:
                with contextlib.suppress(ProcessLookupError):
                    os.killpg(child.pid, signal.SIGTERM)


def hold(out):
    """The lock that one build at a time holds."""
    lock = open(f"{out}/build.lock", "w", encoding="utf-8")
    try:
        fcntl.flock(lock, fcntl.LOCK_EX | fcntl.LOCK_NB)
    except BlockingIOError:
        print("controller: another build is at work here; waiting for it", file=sys.stderr, flush=True)
        fcntl.flock(lock, fcntl.LOCK_EX)
    return lock


def is_of(out, sum):
    """Whether the program was built of the sources with this sum."""
    try:
        with open(f"{out}/built", encoding="utf-8") as it:
            return it.read() == sum and os.access(f"{out}/{PROGRAM}", os.X_OK)
    except FileNotFoundError:
        return False


def built():
    """Builds the program, and gives the exit status."""
    out, crates = f"{TOP}/crates/{PROGRAM}/out", crates_below(PROGRAM)
    os.makedirs(out, exist_ok=True)
    with hold(out), open(f"{out}/build.log", "w", encoding="utf-8") as log:
        build, sum = Build(crates, log), sum_of_sources(crates)
        if is_of(out, sum):
            os.utime(f"{out}/{PROGRAM}")
            build.progress.say("the program is built, and nothing has changed since")
            return 0
        try:
            build.whole()
        except Failed as why:
            build.progress.say(f"not built: {why}; the whole log is in {os.path.relpath(log.name)}")
            return 1
        with open(f"{out}/built", "w", encoding="utf-8") as it:
            it.write(sum)
        os.utime(f"{out}/{PROGRAM}")
        build.progress.say(f"proved and built: {build.progress.proved()} functions proved now, {build.progress.seconds()}")
    return 0


def end_by(number, _):
    sys.exit(128 + number)


def main():
    if shutil.which("rt") is None:
        print("controller: Rattle's kit is not here: 'rt' is not on the PATH", file=sys.stderr)
        return 1
    for number in (signal.SIGINT, signal.SIGTERM, signal.SIGHUP):
        # What is ignored from outside, as nohup does, stays so.
        if signal.getsignal(number) != signal.SIG_IGN:
            signal.signal(number, end_by)
    try:
        return built()
    except SystemExit as stopped:
        # A terminal that is gone takes no line.
        with contextlib.suppress(OSError):
            new_line = "\n" if sys.stderr.isatty() else ""
            print(f"{new_line}controller: stopped; the crates that are built are kept", file=sys.stderr)
        return stopped.code
    except OSError as why:
        print(f"controller: {why.filename or TOP}: {why.strerror}", file=sys.stderr)
        return 1


if __name__ == "__main__":
    sys.exit(main())
