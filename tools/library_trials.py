#!/usr/bin/env python3
"""Runs the tests of `library/` and the Groovy of `tools/corpus/groovy.txt` by a program: `tools/library_trials.py [PROGRAM] [WORD..]`.

A file of trials has blocks: `### NAME`, a script, `--- prints`, and what is printed. The script is prepared, and run by the program
(by default the built one). What is printed is the log without the lines of `[Pipeline]` and the last one of a build that succeeded.
`--- prints N` is for the exit status N, `--- prints sorted` for lines in any order, `--- refused` for what `tools/prepare` refuses.

The folder /tmp/controller of the trials is a new one for each, with a repository, credentials and a file of functions in it.
"""
import os
import re
import subprocess
import sys
import tempfile
from concurrent.futures import ThreadPoolExecutor

from build import PROGRAM, TOP
from preparing import library
from preparing.assemble import Options, Prepared

PAGE = "/tmp/controller"
HELPERS = "def named(name, version = '1') {\n    return \"${name} ${version}\".toString()\n}\nreturn this\n"
CREDENTIALS = {"shop/username": "ann", "shop/password": "se cr'et", "token/secret": "t0ken", "settings/file": "settings of ann\n",
               "lines/secret": "one $(id) \"\ntwo '"}


class Trial:
    """A script, and what it should print with which status."""

    def __init__(self, name, script, kind, wanted):
        self.name, self.script, self.wanted = name, script, wanted
        words = kind.split()
        self.is_refused, self.is_sorted = words[0] == "refused", "sorted" in words
        self.status = next((int(word) for word in words if word.isdigit()), 0)


def trials_of(path):
    with open(path, encoding="utf-8") as file:
        for name, script, kind, wanted in re.findall(r"^### ([^\n]*)\n(.*?)^--- ([^\n]*)\n(.*?)(?=^### |\Z)", file.read(), re.M | re.S):
            yield Trial(f"{os.path.basename(path)[:-4]}: {name}", script, kind, wanted.rstrip("\n"))


def write(path, text, mode=0o600):
    os.makedirs(os.path.dirname(path), exist_ok=True)
    with open(path, "w", encoding="utf-8") as file:
        file.write(text)
    os.chmod(path, mode)


def git(folder, *words):
    subprocess.run(["git", "-C", folder, "-c", "user.name=a", "-c", "user.email=a@example.com", *words], check=True, stdout=subprocess.DEVNULL)


def furnish(room):
    """The repository, the credentials and the file of functions."""
    repository = f"{room}/shop.git"
    os.makedirs(repository)
    git(repository, "init", "-q", "-b", "old")
    for branch, version in (("old", "1.3"), ("main", "1.4"), ("master", "1.4")):
        if branch != "old":
            git(repository, "checkout", "-q", "-b", branch)
        write(f"{repository}/VERSION", version + "\n", 0o644)
        git(repository, "add", "-A")
        git(repository, "commit", "-q", "--allow-empty", "-m", branch)
    for path, text in CREDENTIALS.items():
        write(f"{room}/credentials/{path}", text)
    os.chmod(f"{room}/credentials", 0o700)
    write(f"{room}/build/helpers.groovy", HELPERS)
    write(f"{room}/build/agents.json", f'{{"job": "job", "agents": [{{"name": "m", "root": "{room}/m", "executors": 2}}]}}')


def shown(log, room):
    """The lines of a log that a trial tells."""
    lines = log.replace(room, PAGE).splitlines()
    return "\n".join(it for it in lines if not it.startswith("[Pipeline]") and not it.startswith("Finished: ")).strip("\n")


def outcome(trial, program, is_prepared=False, look=lambda room: None):
    """What a trial prints, and its status; of what is refused the findings. `look` is given the folder when the build has ended."""
    with tempfile.TemporaryDirectory(prefix="controller-trial-") as room:
        furnish(room)
        script = trial.script.replace(PAGE, room)
        if not is_prepared:
            prepared = Prepared(script, f"{room}/build/Jenkinsfile", Options(folder=f"{room}/build", scm=f"{room}/shop.git#main"))
            if prepared.refused() or trial.is_refused:
                return "\n".join(it.text for it in prepared.refused()), "refused"
            script = prepared.text
        write(f"{room}/build/Jenkinsfile", script)
        env = {"PATH": "/usr/bin:/bin", "HOME": room, "LANG": "C.UTF-8", "CONTROLLER_CREDENTIALS": f"{room}/credentials",
               "CONTROLLER_LOCKS": f"{room}/locks"}
        ran = subprocess.run([program, "run", f"{room}/build"], env=env, stdin=subprocess.DEVNULL, capture_output=True, timeout=120, check=False)
        look(room)
        return shown(ran.stdout.decode(errors="replace"), room), ran.returncode


def complaint(trial, program):
    """What is wrong with a trial; None where it is as it should be."""
    printed, status = outcome(trial, program)
    wanted = trial.wanted.strip("\n")
    if trial.is_sorted:
        printed, wanted = "\n".join(sorted(printed.splitlines())), "\n".join(sorted(wanted.splitlines()))
    if printed == wanted and status == ("refused" if trial.is_refused else trial.status):
        return None
    return f"{trial.name}: status {status}, printed:\n{printed}\n-- wanted {trial.status}:\n{wanted}\n"


def all_trials():
    for name in sorted(os.listdir(f"{library.FOLDER}/tests")):
        yield from trials_of(f"{library.FOLDER}/tests/{name}")
    yield from trials_of(f"{TOP}/tools/corpus/groovy.txt")


def complaints(trials, program):
    """What is wrong with each of the trials, in order; as many as there are processors are run at a time."""
    with ThreadPoolExecutor(os.cpu_count()) as pool:
        return [*pool.map(lambda it: complaint(it, program), trials)]


def main(words):
    program = words.pop(0) if words and os.path.isfile(words[0]) else f"{TOP}/crates/{PROGRAM}/out/{PROGRAM}"
    chosen = [it for it in all_trials() if not words or any(word in it.name for word in words)]
    wrong = [it for it in complaints(chosen, program) if it]
    print(*wrong, sep="\n")
    print(f"{len(chosen) - len(wrong)} trials as they should be, {len(wrong)} others")
    return 1 if wrong or not chosen else 0


if __name__ == "__main__":
    sys.exit(main(sys.argv[1:]))
