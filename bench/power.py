#!/usr/bin/env python3
"""Cuts the power, as near as a process can come to that: `bench/power.py [--program PROGRAM] [--every N]`.

The usual build runs once, with a library that stops the controller behind each sync (bench/calls.c, which `cc` has to compile). At each
of these moments two copies are kept of its folder and of the control folders of its agents: one with only what was synced, as the worst
disk leaves it, and one with all that was written, as the best does. Behind the run each copy is put in the place of the folders, as it
were after the machine was started again: no task runs, and what the folders say of the boot is of another one. Then the build is resumed,
or begun where the copy has none.

The log of a copy has to begin the log of the whole run, and to have all lines that were in it at the sync before; and over both lives no
task may be launched twice. Copies whose build then failed are counted: a power cut loses a task that ran, and what steps wrote
and nobody synced. The status is 0 where all is so.
"""
import argparse
import collections
import os
import re
import shutil
import subprocess
import sys
import tempfile
import threading

TOP = os.path.dirname(os.path.dirname(os.path.realpath(__file__)))
PROGRAM = f"{TOP}/crates/jenkinsd/out/jenkinsd"
LOST = re.compile(r"exit code -[12]$", re.M)


class Shadow:
    """What was synced of a folder: the bytes of files at their last sync, and the names in folders at theirs."""

    def __init__(self):
        self.bytes, self.names = {}, {}

    def sync(self, path):
        """A file or a folder was synced."""
        try:
            if os.path.isdir(path):
                self.names[os.stat(path).st_ino] = {it.name: (it.inode(), it.is_dir()) for it in os.scandir(path)}
            else:
                with open(path, "rb") as file:
                    self.bytes[os.fstat(file.fileno()).st_ino] = file.read()
        except FileNotFoundError:
            pass

    def write(self, inode, target):
        """Makes a folder with what was synced of the one of this number."""
        os.makedirs(target, exist_ok=True)
        for name, (number, is_folder) in self.names.get(inode, {}).items():
            if is_folder:
                self.write(number, f"{target}/{name}")
            else:
                with open(f"{target}/{name}", "wb") as file:
                    file.write(self.bytes.get(number, b""))


class Run:
    """The usual build in a room, whose copies are kept at each sync."""

    def __init__(self, program, room):
        self.program, self.room, self.live, self.count = program, room, f"{room}/live", 0
        os.makedirs(f"{self.live}/build")
        for name in ("Jenkinsfile", "agents.json"):
            with open(f"{TOP}/examples/usual/{name}", encoding="utf-8") as file:
                text = file.read().replace("/tmp/controller/usual", self.live)
            text = re.sub(r"sh '(?!'')", f"sh 'echo $0 >> {room}/launches; ", text)
            text = text.replace('sh "', f'sh "echo \\$0 >> {room}/launches; ')
            with open(f"{self.live}/build/{name}", "w", encoding="utf-8") as file:
                file.write(text.replace("#!/bin/sh -e\n", f"#!/bin/sh -e\necho $0 >> {room}/launches\n"))
        self.shadow = Shadow()
        for folder in (self.live, f"{self.live}/build"):
            self.shadow.sync(folder)
        for name in ("Jenkinsfile", "agents.json"):
            self.shadow.sync(f"{self.live}/build/{name}")

    def command(self, word, **how):
        words = [self.program, word, f"{self.live}/build"]
        ran = subprocess.run(words, stdin=subprocess.DEVNULL, capture_output=True, timeout=120, check=False, **how)
        return ran.stdout.decode(errors="replace"), ran.returncode

    def launches(self):
        try:
            with open(f"{self.room}/launches", encoding="utf-8") as file:
                return file.read()
        except FileNotFoundError:
            return ""

    def keep(self, path):
        """Keeps both copies at this moment."""
        self.shadow.sync(path)
        self.count += 1
        at = f"{self.room}/at-{self.count}"
        self.shadow.write(os.stat(self.live).st_ino, f"{at}/synced")
        try:
            shutil.copytree(self.live, f"{at}/written", symlinks=True)
        except shutil.Error:
            pass  # What a task renames or removes meanwhile is in the copy or not.
        with open(f"{at}/launches", "w", encoding="utf-8") as file:
            file.write(self.launches())

    def whole(self, library):
        """Runs it, and keeps copies at each sync; answers its log and status."""
        fifos = f"{self.room}/synced", f"{self.room}/go-on"
        for fifo in fifos:
            os.mkfifo(fifo)
        env = {**os.environ, "LD_PRELOAD": library, "CALLS_SYNCED": fifos[0], "CALLS_GO_ON": fifos[1]}
        ended = []
        thread = threading.Thread(target=lambda: ended.append(self.command("run", env=env)))
        thread.start()
        with open(fifos[0], encoding="utf-8") as synced, open(fifos[1], "wb", buffering=0) as go_on:
            for line in synced:
                self.keep(line.rstrip("\n"))
                go_on.write(b"x")
        thread.join()
        return ended[0]

    def restore(self, number, kind):
        """Puts a copy in the place of the folders, as after a restart of the machine."""
        shutil.rmtree(self.live)
        shutil.copytree(f"{self.room}/at-{number}/{kind}", self.live, symlinks=True)
        for folder, _, names in os.walk(self.live):
            for name in {"permit", "started", "revoked"} & set(names):
                with open(f"{folder}/{name}", "r+", encoding="utf-8") as file:
                    if file.read():
                        file.seek(0)
                        file.truncate()
                        file.write("another-boot -\n")
        shutil.copy(f"{self.room}/at-{number}/launches", f"{self.room}/launches")


def tried(run, number, kind, log, before):
    """What is wrong of one copy; its log; and whether the build then failed."""
    run.restore(number, kind)
    found, status = run.command("log")
    begun = status == 0
    found = found if begun else ""
    if not log.startswith(found):
        return f"another log: {found!r}", found, False
    if len(found) < before:
        return f"lines of the log are gone: {found!r}", found, False
    try:
        ended, status = run.command("resume" if begun else "run")
    except subprocess.TimeoutExpired:
        return "a controller had not ended after 120 seconds", found, False
    twice = [name for name, count in collections.Counter(run.launches().split()).items() if count > 1]
    if twice:
        return f"launched twice: {twice}", found, False
    lost = bool(LOST.search(ended))
    if not ended.startswith(found):
        return f"another log behind it, status {status}: {ended!r}", found, lost
    return None, found, lost or status != 0


def main():
    parser = argparse.ArgumentParser(description=__doc__.splitlines()[0])
    parser.add_argument("--program", default=PROGRAM)
    parser.add_argument("--every", type=int, default=1, help="tries each so many-th moment")
    asked = parser.parse_args()
    room = tempfile.mkdtemp(prefix="controller-power-")
    try:
        library = f"{room}/calls.so"
        subprocess.run(["cc", "-O1", "-shared", "-fPIC", "-o", library, f"{TOP}/bench/calls.c"], check=True)
        run = Run(os.path.abspath(asked.program), room)
        log, status = run.whole(library)
        if status != 0:
            raise SystemExit(f"the whole run: {log}")
        wrong, lost, count = [], 0, 0
        for kind in ("synced", "written"):
            before = 0
            for number in range(1, run.count + 1, asked.every):
                why, found, is_lost = tried(run, number, kind, log, before)
                before, lost, count = len(found), lost + is_lost, count + 1
                if why:
                    wrong.append(f"{kind}, behind sync {number}: {why}")
        print(*wrong, sep="\n")
        print("| moments | copies | launched one twice | another log | then failed |")
        twice = sum("twice" in why for why in wrong)
        print(f"| {run.count} | {count} | {twice} | {len(wrong) - twice} | {lost} |")
        return 1 if wrong else 0
    finally:
        shutil.rmtree(room, ignore_errors=True)


if __name__ == "__main__":
    sys.exit(main())
