#!/usr/bin/env python3
"""Jenkinsfiles as they are: fetches them, prepares each, and runs it to its end: `tools/corpus.py fetch|run FOLDER [PROGRAM]`.

`fetch` gets the source packages of Debian that are listed below by `apt-get source --download-only`, with lists of its own, and takes
their Jenkinsfiles out into FOLDER. What cannot be had is told, and left out.

`run` prepares each file of FOLDER and each folder of tools/corpus/handbook, and runs what was prepared by PROGRAM (by default the built
one) with stand-ins on the PATH for the commands that it calls: they print their words, make the files that a step behind them wants, and
succeed or fail as the tables say. It prints a table of what was refused, prepared, and run to the end that it should have.
"""
import json
import os
import re
import shutil
import subprocess
import sys
import tarfile
import tempfile

from build import PROGRAM, TOP
from preparing.assemble import Options, Prepared, read_file

# Source packages of Debian 12 that have Jenkinsfiles. Later versions may have others, or none.
PACKAGES = [
    ("maven", "3.8.7-1"), ("surefire", "2.22.3-2"), ("maven-resolver", "1.6.3-1"), ("jetty9", "9.4.57-1.1~deb12u1"),
    ("zookeeper", "3.8.0-11+deb12u2"), ("docker.io", "20.10.24+dfsg1-1+deb12u1"), ("docker-compose", "1.29.2-3"),
    ("apache-directory-server", "2.0.0~M26-1"), ("maven-compiler-plugin", "3.10.1-2"),
    ("maven-assembly-plugin", "3.4.2-1"),
]
SOURCES = "deb-src [signed-by=/usr/share/keyrings/debian-archive-keyring.gpg] http://deb.debian.org/debian bookworm main\n"
NAMED_SO = re.compile(r"(^|/)([\w.-]*jenkinsfile[\w.-]*)$", re.I)


def apt(room, *words, folder=None):
    """Runs apt-get with lists and a cache of its own; whether it succeeded."""
    settings = f'Dir::Etc::sourcelist "{room}/sources.list";\nDir::Etc::sourceparts "/dev/null";\n' \
        f'Dir::State::lists "{room}/lists";\nDir::Cache "{room}/cache";\nAPT::Update::Error-Mode "any";\n'
    for name in ("lists/partial", "cache/archives/partial"):
        os.makedirs(f"{room}/{name}", exist_ok=True)
    for name, content in (("apt.conf", settings), ("sources.list", SOURCES)):
        with open(f"{room}/{name}", "w", encoding="utf-8") as file:
            file.write(content)
    env = {**os.environ, "APT_CONFIG": f"{room}/apt.conf"}
    ran = subprocess.run(["apt-get", "-q=2", *words], cwd=folder, env=env, stdout=subprocess.DEVNULL, stderr=subprocess.PIPE, check=False)
    return ran.returncode == 0


def take_out(folder, package, into):
    """The Jenkinsfiles of the archives in a folder, written as PACKAGE-NAME; how many."""
    number = 0
    for name in sorted(os.listdir(folder)):
        if ".tar." not in name or name.endswith(".asc"):
            continue
        part = re.search(r"\.orig-(\w+)\.tar", name)
        with tarfile.open(f"{folder}/{name}") as archive:
            for member in archive:
                found = NAMED_SO.search(member.name)
                if found and member.isfile():
                    with open(f"{into}/{package}{'-' + part[1] if part else ''}-{found[2]}", "wb") as file:
                        shutil.copyfileobj(archive.extractfile(member), file)
                    number += 1
    return number


def fetch(into):
    """Gets the packages; the status is 0 where at least one file is there."""
    os.makedirs(into, exist_ok=True)
    total = 0
    with tempfile.TemporaryDirectory(prefix="controller-corpus-") as room:
        os.chmod(room, 0o755)
        if not apt(room, "update"):
            print("corpus: no lists of packages could be had: is there a network?", file=sys.stderr)
            return 1
        for package, version in PACKAGES:
            folder = f"{room}/{package}"
            os.mkdir(folder)
            # An archive that came is taken also where another one of the package did not.
            whole = apt(room, "source", "--download-only", f"{package}={version}", folder=folder)
            number = take_out(folder, package, into)
            total += number
            print(f"{package} {version}: {number} Jenkinsfiles" + ("" if whole else "; not all of its archives could be had"))
            shutil.rmtree(folder)
    print(f"{total} Jenkinsfiles in {into}")
    return 0 if total else 1


# --- what is run


# The words of `tools/prepare` for a file; the labels of the agents beside a first one without; what a command makes in its folder, by
# the command's name; the status of the build, and lines that its log has to have, in this order.
FILES = {
    "maven-Jenkinsfile": {
        "words": [], "labels": ["ubuntu"], "makes": {"mvn": ["apache-maven/target/apache-maven-bin.zip", "a/target/surefire-reports/TEST-a.xml"]},
        "status": 0, "lines": ["mvn clean verify", "Stashed 1 file(s)", "Run ITs Linux Java 17", "notified of SUCCESS"],
    },
    "surefire-Jenkinsfile": {
        "words": ["--drop", "timeout", "--drop", "openTasks", "--drop", "jacoco"], "labels": ["ubuntu", "Windows"],
        "makes": {"mvn": ["surefire-its/target/surefire-reports/TEST-a.xml"]},
        "status": 0, "lines": ["linux-jdk7-maven3.5.x  ==>  Label: ubuntu && !H24, JDK: jdk_7_latest, Maven: maven_3.5.x_latest.",
                               "Finished: SUCCESS"],
    },
    "maven-resolver-Jenkinsfile": {
        "words": [], "labels": ["ubuntu"], "makes": {"mvn": ["a/target/surefire-reports/TEST-a.xml"]},
        "status": 0, "lines": ["mvn clean verify", "notified of SUCCESS"],
    },
    **dict.fromkeys(("maven-compiler-plugin-Jenkinsfile", "maven-assembly-plugin-Jenkinsfile"), {
        "words": [], "labels": ["ubuntu"], "makes": {"mvn": ["target/surefire-reports/TEST-a.xml"]},
        "status": 0, "lines": ["mvn clean verify", "notified of SUCCESS"],
    }),
    "jetty9-Jmh_Jenkinsfile": {
        "words": ["--drop", "timeout", "--drop", "jmhReport"], "labels": ["linux", "jmh-build-node"],
        "makes": {"mvn": ["jetty-jmh/target/benchmarks.jar"]},
        "status": 0, "lines": ["mvn -V -B clean install -DskipTests -T6 -e -pl :jetty-jmh -am", "java -jar jetty-jmh/target/benchmarks.jar"],
    },
}
COMMANDS = ("mvn", "make", "docker", "zip", "npm", "gradle", "ant", "curl", "mail")
# The repositories of which clones are asked for, each with its branches.
REPOSITORIES = {"apache/maven-integration-testing": "master", "eclipse/jetty.project": "jetty-9.4.x", "example/amazing-project": "master"}
REPORT = '<testsuite><testcase name="a"/><testcase name="b"/></testsuite>'
FAILED = '<testsuite><testcase name="a"><failure/></testcase><testcase name="b"/></testsuite>'
# Seconds until a build has to have ended.
PATIENCE = 300


def write(path, content, mode=0o644):
    os.makedirs(os.path.dirname(path), exist_ok=True)
    with open(path, "w", encoding="utf-8") as file:
        file.write(content)
    os.chmod(path, mode)


def repository(path, branch):
    """A repository with one commit."""
    os.makedirs(path)
    for words in (["init", "-q", "-b", branch], ["-c", "user.name=a", "-c", "user.email=a@example.com", "commit", "-q", "--allow-empty", "-m", "a"]):
        subprocess.run(["git", "-C", path, *words], check=True)


class Room:
    """A folder with the stand-ins and repositories of one build."""

    def __init__(self, room, case):
        self.room, self.case = room, case
        self.env = {"PATH": f"{room}/bin:/usr/bin:/bin", "HOME": room, "LANG": "C.UTF-8", "GIT_CONFIG_GLOBAL": f"{room}/gitconfig",
                    "CONTROLLER_LOCKS": f"{room}/locks"}
        write(f"{room}/gitconfig", f'[url "{room}/git/"]\n\tinsteadOf = https://github.com/\n')
        for name, branch in REPOSITORIES.items():
            repository(f"{room}/git/{name}.git", branch)
        for command in COMMANDS:
            self.stand_in(command)
        for tool in ("jdk8", "jdk_8_latest"):
            write(f"{room}/tools/{tool}/bin/java", "#!/bin/sh\necho \"java $*\"\n", 0o755)
        agents = [{"name": "any", "root": f"{room}/agents/any", "executors": 2}]
        agents += [{"name": f"a{at}", "labels": [label], "root": f"{room}/agents/{at}", "executors": 4} for at, label in enumerate(case["labels"])]
        write(f"{room}/folder/agents.json", json.dumps({"job": "corpus", "agents": agents}))

    def stand_in(self, command):
        """A command that prints its words, and makes what the case says; it fails where the case says so of its words."""
        lines = ["#!/bin/sh", f'echo "{command} $*"']
        for path in self.case.get("makes", {}).get(command, []):
            content = FAILED if path.endswith("failed.xml") else REPORT if path.endswith(".xml") else ""
            lines.append(f"mkdir -p '{os.path.dirname(path) or '.'}'; printf '%s' '{content}' > '{path}'")
        if command == "zip":
            lines.append('touch "$3"')
        lines += [f"case \"{command} $*\" in '{words}') exit 1;; esac" for words in self.case.get("fails", []) if words.split()[0] == command]
        write(f"{self.room}/bin/{command}", "\n".join(lines) + "\n", 0o755)

    def run(self, program, answers=""):
        """The log and the status of the build."""
        how = {"env": self.env, "input": answers.encode(), "stdout": subprocess.PIPE, "stderr": subprocess.STDOUT}
        try:
            ran = subprocess.run([program, "run", f"{self.room}/folder"], timeout=PATIENCE, check=False, **how)
        except subprocess.TimeoutExpired:
            return "", f"of no end in {PATIENCE} seconds"
        return ran.stdout.decode(errors="replace"), ran.returncode


def options_of(words, room):
    """The options that the words of `tools/prepare` say."""
    options = Options(environment={"TOOLS": f"{room}/tools"}, vars_folder=f"{TOP}/tools/corpus/vars", folder=f"{room}/folder",
                      scm=f"{room}/git/example/amazing-project.git#master")
    for word, value in zip(words[::2], words[1::2]):
        if word == "--drop":
            options.dropped.append(value)
        else:
            name, _, given = value.partition("=")
            {"-p": options.parameters, "-e": options.environment}[word][name] = given
    return options


def refusals(prepared):
    return [f"{it.file}:{it.line}:{it.column}: {it.text}" for it in prepared.refused()]


def missing(lines, log):
    """The first of the lines that the log has not behind the one before; None where it has all."""
    at = 0
    for line in lines:
        found = log.find(line, at)
        if found < 0:
            return line
        at = found + len(line)
    return None


def tried(name, path, case, program):
    """How far a script came: 'refused', 'prepared' or 'right', with what is to be told of it."""
    with tempfile.TemporaryDirectory(prefix="controller-corpus-") as folder:
        room = Room(folder, case)
        prepared = Prepared(read_file(path), path, options_of(case["words"], folder))
        told = refusals(prepared)
        if told:
            return "refused", told
        write(f"{folder}/folder/Jenkinsfile", prepared.text)
        log, status = room.run(program, case.get("answers", ""))
        line = missing(case["lines"], log)
        if status != case["status"] or line is not None:
            return "prepared", [f"status {status} for {case['status']}; no line {line!r}", *log.splitlines()[-15:]]
    return "right", []


def runs_as_it_is(path, case, program):
    """Whether a script comes to the end it should have without a change."""
    with tempfile.TemporaryDirectory(prefix="controller-corpus-") as folder:
        room = Room(folder, case)
        write(f"{folder}/folder/Jenkinsfile", read_file(path))
        log, status = room.run(program, case.get("answers", ""))
    return status == case["status"] and missing(case["lines"], log) is None


def is_declarative(path):
    return re.search(r"^\s*pipeline\s*\{", read_file(path), re.M) is not None


def of_handbook():
    """The scripts of our own making: each folder has the script, and a file of what is said of it."""
    top = f"{TOP}/tools/corpus/handbook"
    for name in sorted(os.listdir(top)):
        with open(f"{top}/{name}/case.json", encoding="utf-8") as file:
            yield name, f"{top}/{name}/Jenkinsfile", {"words": [], "labels": [], **json.load(file)}


def run(folder, program):
    """Runs all, and prints a table; the status is 0 where each but the refused ones came to its end."""
    groups = {"scripted": [], "declarative": [], "handbook": []}
    for name in sorted(os.listdir(folder)) if folder and os.path.isdir(folder) else []:
        kind = "declarative" if is_declarative(f"{folder}/{name}") else "scripted"
        groups[kind].append((name, f"{folder}/{name}", FILES.get(name, {"words": [], "labels": [], "lines": [], "status": 0})))
    groups["handbook"] = list(of_handbook())
    wrong = 0
    for kind, cases in groups.items():
        counts, as_it_is = {"refused": 0, "prepared": 0, "right": 0}, 0
        for name, path, case in cases:
            as_it_is += kind != "declarative" and runs_as_it_is(path, case, program)
            end, told = tried(name, path, case, program)
            counts[end] += 1
            wrong += end == "prepared"
            print(f"{kind} {name}: {end}", *told, sep="\n    ", flush=True)
        print(f"{kind}: {len(cases)} scripts, {as_it_is} run as they are, {counts['refused']} refused, {len(cases) - counts['refused']} prepared, "
              f"{counts['right']} run to the end they should have", flush=True)
    return 1 if wrong else 0


def main(words):
    if len(words) >= 2 and words[0] == "fetch" and len(words) == 2:
        return fetch(words[1])
    if len(words) in (2, 3) and words[0] == "run":
        return run(words[1], words[2] if len(words) == 3 else f"{TOP}/crates/{PROGRAM}/out/{PROGRAM}")
    print("usage: tools/corpus.py fetch FOLDER | run FOLDER [PROGRAM]", file=sys.stderr)
    return 2


if __name__ == "__main__":
    sys.exit(main(sys.argv[1:]))
