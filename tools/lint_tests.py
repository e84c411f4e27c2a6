"""Tests of tools/lint and of the reader below it; tools/test.py runs them with its own."""
import json
import os
import random
import re
import shutil
import subprocess
import sys
import tempfile
import time
import unittest
from concurrent.futures import ThreadPoolExecutor

from examples import BUILT, Example, codes, examples, of_faults, read, reference, rows, run_program
from groovy_reader import Call, Closure, Declaration, read as read_groovy
from lint_rules.agents_file import BadFile, executors_of
from lint_rules.differences import ROWS
from lint_rules.exact import first_fault
from lint_rules.findings import REFUSED, File
from lint_rules.linting import findings_of

# The reference's scripts, from its folder, which lint_rules puts behind all others.
from random_scripts import Scripts
from script import script as written
from tokens import Fault

TOOLS = os.path.dirname(os.path.realpath(__file__))
TOP = os.path.dirname(TOOLS)
ENDED_WELL = {0, 10, 11, 12}
# What the random cuts put into a script.
CUTS = ["", "", "(", ")", "{", "}", "[", "]", '"', "'", "/", "$", "\n", ";", ",", ".", " in ", " as ", "def ", "final ", "~", "**", "<<",
        "@A ", "==~", "..", "->", ":", "import a\n", "1.5", '"""', "else", "switch", "\\", "for (", "def T ", "$_", "x ", "1", "++", "? "]
ONE_EXECUTOR = b'{"job": "a", "agents": [{"name": "m", "root": "/w", "labels": ["linux"], "executors": 1}]}'
TWO_AGENTS = b"""{"job": "a", "agents": [{"name": "m", "root": "/w", "labels": ["linux"], "executors": 1},
 {"name": "n", "root": "/v", "labels": ["mac"], "executors": 2}]}"""


def lines_of(cell):
    return cell.replace(" ↵ ", "\n")


def stopping(source, agents=None):
    return [it for it in findings_of(source, agents and executors_of(agents)) if it.stops()]


def keys(source, agents=None):
    return [it.key for it in findings_of(source, agents and executors_of(agents))]


def trials():
    """The sources of crates/script_trials, each with its name and what the program must print."""
    parts = []
    for file in ("stdin", "stdout"):
        with open(f"{TOP}/crates/script_trials/{file}", encoding="utf-8", newline="") as text:
            parts.append([it.split("\n", 1) for it in text.read().split("=== ")[1:]])
    for (name, trial), (_, printed) in zip(*parts):
        yield name, "\n".join(line for line in trial.split("\n") if not line.startswith("> ")), printed


def cut_scripts(seed, count):
    """Random scripts, most of them cut in some places."""
    chance = random.Random(seed)
    for _ in range(count):
        source = written(Scripts(chance).script())[:6000]
        for _ in range(chance.randint(0, 3)):
            begin = chance.randrange(len(source) + 1)
            source = source[:begin] + chance.choice(CUTS) + source[begin + chance.choice([0, 0, 1, 2, 6, 30]) :]
        yield source


class LintDifferences(unittest.TestCase):
    def test_each_row_of_the_page_is_in_the_data(self):
        data, before = [(lines_of(it.jenkins), it.told, it.instead) for it in ROWS], None
        for first, told, instead in rows(read("docs/USING.md").decode(), "in Jenkins"):
            before = before if instead == "the same" else instead
            with self.subTest(first):
                self.assertIn((codes(first)[0], codes(told)[0], before), data)

    def test_each_row_is_told_by_its_key_and_nothing_of_what_stands_in_its_place(self):
        for row in ROWS:
            with self.subTest(row.key):
                self.assertIn(row.key, [it.key for it in stopping(lines_of(row.jenkins))])
                for script in codes(row.instead):
                    self.assertEqual([], stopping(lines_of(script)), script)

    def test_rows_that_are_on_no_page_are_told_so_and_run_in_their_place(self):
        page = [codes(first)[0] for first, *_ in rows(read("docs/USING.md").decode(), "in Jenkins")]
        others = [it for it in ROWS if lines_of(it.jenkins) not in page]
        scripts = {script for it in others for script in (it.jenkins, *codes(it.instead))}
        with ThreadPoolExecutor(os.cpu_count()) as pool:
            ended = dict(zip(scripts, pool.map(self.ran, scripts)))
        for row in others:
            with self.subTest(row.key):
                self.assertIn(row.told, ended[row.jenkins][0])
                for script in codes(row.instead):
                    self.assertRegex(ended[script][0], r"(?m)^Finished: |^\+ |\[Pipeline\] sh$", script)

    @staticmethod
    def ran(script):
        agents = b'{"job": "using", "agents": [{"name": "m", "root": "/tmp/controller/m", "executors": 1}]}'
        script = f"withEnv(['PATH=/tmp/controller/bin:/usr/bin:/bin']) {{ {script} }}" if "sh " in script or "sh(" in script else script
        return reference(Example("", lines_of(script).encode(), "", [0], agents))


class LintRepository(unittest.TestCase):
    def test_examples_that_run_have_no_finding_that_stops_and_those_refused_have_one(self):
        for example in examples():
            if example.statuses == [13] or len(example.script) > 100_000:
                continue
            source = example.script.decode(errors="replace")
            found = [it for it in findings_of(source, executors_of(example.agents)) if it.stops()]
            with self.subTest(example.name):
                if set(example.statuses) <= ENDED_WELL:
                    self.assertEqual([], found)
                elif example.statuses == [4] and b"\xff" not in example.script:
                    self.assertIn(REFUSED, [it.stage for it in found])

    def test_trials_that_end_well_have_no_finding_that_stops(self):
        ended = 0
        for name, source, printed in trials():
            results = re.findall(r"^Finished: (.*)$", printed, re.M)
            found = findings_of(source)
            with self.subTest(name):
                if results:
                    self.assertNotIn(REFUSED, [it.stage for it in found])
                if results and results[-1] != "FAILURE":
                    ended += 1
                    self.assertEqual([], [it for it in found if it.stops()])
        self.assertGreater(ended, 150)

    def test_a_cut_script_is_refused_exactly_where_a_finding_says_so(self):
        for source in cut_scripts(51, 80):
            with self.subTest(source):
                refused = [it for it in findings_of(source) if it.stage == REFUSED]
                self.assertEqual(first_fault(source) is not None, bool(refused))

    @unittest.skipUnless(os.access(BUILT, os.X_OK), "the program is not built")
    def test_the_grammar_below_tells_the_first_fault_that_the_program_tells(self):
        with tempfile.TemporaryDirectory(prefix="controller-lint-") as room:
            for source in cut_scripts(52, 300):
                Example("", source.encode(), "", [0]).write(f"{room}/folder")
                told = run_program(BUILT, "check", f"{room}/folder")
                shutil.rmtree(f"{room}/folder")
                fault = first_fault(source)
                with self.subTest(source):
                    self.assertEqual(told, ("ok\n", 0) if fault is None else (Fault(*fault).told(source) + "\n", 4))


class LintTellsAll(unittest.TestCase):
    def test_it_goes_on_behind_each_construct(self):
        source = """import a.B
@NonCPS def f(x = 1) { x as int }
switch (1) { case 1: echo 'x' }
do { echo 'x' } while (false)
def (a, b) = [1, 2]
if (a in [1]) { echo 'a' =~ /b/ }
try { echo 'x' } catch (IOException e) { }
def l = []; l << 1.5
node { sh 'x'; undo() }
"""
        self.assertEqual(
            ["import", "annotation", "parameter-default", "cast", "switch", "do", "several-names", "in", "regular-expression",
             "catch-class", "left-shift", "number", "step-unknown"], keys(source))

    def test_a_second_fault_that_no_rule_knows_is_told_too(self):
        found = findings_of("if (a b) { echo 'x' }\nnode { sh 'x' 'y'\n echo 'z' }\necho('a',)\n")
        self.assertEqual([1, 2, 4], [File("", "if (a b) { echo 'x' }\nnode { sh 'x' 'y'\n echo 'z' }\necho('a',)\n").place(it.begin)[0]
                                     for it in found if it.stage == REFUSED])

    def test_what_is_open_at_the_end_is_told(self):
        [finding] = findings_of("node {\n    sh(script: 'a'\n    echo 'x'\n}\n")
        self.assertEqual("this is not expected here; the `(` at 2:7 is open", finding.what)
        [finding] = findings_of("node {\n    stage('a') {\n        echo 'x'\n    }\n")
        self.assertEqual("the script ends here; the `{` at 1:6 is open", finding.what)

    def test_unknown_names_of_each_sort(self):
        self.assertEqual(["another-scope"], keys("def v = 1\ndef f() { v }\nf()"))
        self.assertEqual(["another-scope"], keys("if (1) { def v = 1 }\necho \"${v}\""))
        self.assertEqual(["another-scope"], keys("echo v\ndef v = 1"))
        self.assertEqual(["name"], keys("echo nothing"))
        self.assertEqual(["class-name"], keys("println(java.io.File.separator)"))
        self.assertEqual([], keys("v = 1\ndef f() { v }\nf()"))

    def test_arguments_of_steps(self):
        for source, key in (
            ("echo()", "echo.arguments"), ("echo('a', 'b')", "echo.arguments"), ("stage('a')", "stage.arguments"),
            ("retry(0) { }", "retry.arguments"), ("catchError(buildResult: 'BAD') { }", "catchError.arguments"),
            ("withEnv(['A']) { }", "withEnv.overrides"), ("input message: 'a', id: 'b c'", "input.arguments"),
            ("node('a &&') { }", "node.arguments"), ("node { sh(script: 'a', returnStdout: 1) }", "sh.arguments"),
            ("echo(message: 'a', label: 'b')", "echo.label"), ("sh 'a'", "outside-a-node"), ("parallel([a: 1])", "parallel.arguments"),
        ):
            with self.subTest(source):
                self.assertEqual([key], keys(source))
                self.assertEqual(["error"], [File("", source).told(it).split(": ")[1] for it in findings_of(source)])

    def test_a_step_in_a_function_that_is_called_outside_of_a_node(self):
        self.assertEqual(["outside-a-node"], keys("def build() { sh 'make' }\nstage('a') { build() }"))
        self.assertEqual([], keys("def build() { sh 'make' }\nnode { stage('a') { build() } }"))

    def test_methods_and_operators_of_plain_kinds(self):
        for source, key in (
            ("'a'.nothing()", "method"), ("def x = [1]\nx.trim()", "method"), ("'a'.trim(1)", "arguments"),
            ("'a'.contains(1)", "arguments"), ("[1].each(2)", "arguments"), ("[1].each { a, b -> }", "arguments"),
            ("'a' < 1", "operator"), ("'a'.b", "property"),
            ("try { } catch (e) { e.cause }", "property"), ("def f(a, b) { }\nf(1)", "arguments"), ("def c = { -> }\nc(1)", "arguments"),
        ):
            with self.subTest(source):
                self.assertEqual([key], [it.key for it in stopping(source)])

    def test_what_a_catch_takes_is_a_warning(self):
        self.assertEqual([], stopping("try { 'a'.nothing() } catch (e) { echo 'x' }"))
        self.assertEqual(["method"], keys("try { 'a'.nothing() } catch (e) { echo 'x' }"))
        self.assertEqual(["undo"], [written_at for written_at in stopped_words("try { undo() } catch (e) { echo 'x' }")])
        self.assertEqual([], stopping("try { undo() } catch (Throwable e) { echo 'x' }"))
        self.assertEqual(["undo"], stopped_words("try { undo() } catch (Throwable e) { throw e }"))
        self.assertEqual([], stopping("catchError { undo() }"))
        self.assertEqual([], stopping("def never() { undo() }"))

    def test_a_name_that_is_nearly_one_is_proposed(self):
        self.assertEqual(["`println`"], [it.instead for it in findings_of("printn('a')")])
        self.assertEqual(["`readLines`"], [it.instead for it in findings_of("'a'.readLine()")])

    def test_line_ends_of_windows_in_a_text_of_several_lines(self):
        self.assertEqual(["carriage-return"], keys("node {\r\n  sh '''a\r\nb\r\nc'''\r\n}\r\n"))
        self.assertEqual([], keys("node {\r\n  sh 'a'\r\n}\r\n"))


def stopped_words(source):
    return [source[it.begin : it.end] for it in stopping(source)]


class LintAgents(unittest.TestCase):
    def test_labels_that_no_agent_fits_and_agents_that_no_label_names(self):
        self.assertEqual(["label-without-an-agent"], [it.key for it in stopping("node('mac') { }", ONE_EXECUTOR)])
        self.assertEqual([], keys("node('linux && !mac') { }", ONE_EXECUTOR))
        self.assertEqual(["agent-without-a-label"], keys("node('mac') { }", TWO_AGENTS))
        self.assertEqual([], keys("node { }", TWO_AGENTS))
        self.assertEqual([], keys("def l = 'mac'\nnode(l) { }", ONE_EXECUTOR))

    def test_a_node_inside_a_node(self):
        self.assertEqual(["node-in-a-node"], [it.key for it in stopping("node { node { } }", ONE_EXECUTOR)])
        self.assertEqual(["node-in-a-node"], [it.key for it in stopping("def f() { node { } }\nnode { f() }", ONE_EXECUTOR)])
        self.assertEqual([], stopping("node { node { } }", TWO_AGENTS))
        self.assertEqual(["node-in-a-node"], keys("node { node('linux') { } }", TWO_AGENTS))
        self.assertEqual([], keys("node('linux') { node('mac') { } }", TWO_AGENTS))

    def test_branches_that_share_an_executor_are_a_warning(self):
        source = "node { parallel(a: { sh 'x' }, b: { sh 'y' }) }"
        self.assertEqual(["branches-share-an-executor"], keys(source, ONE_EXECUTOR))
        self.assertEqual([], stopping(source, ONE_EXECUTOR))
        self.assertEqual([], keys("parallel(a: { node { sh 'x' } }, b: { node { sh 'y' } })", ONE_EXECUTOR))

    def test_faults_of_an_agents_file_are_those_of_its_page(self):
        tried = 0
        for example in of_faults():
            if example.statuses == [13]:
                tried += 1
                with self.assertRaises(BadFile, msg=example.name) as bad:
                    executors_of(example.agents)
                self.assertEqual(example.wanted, f"agents.json: {bad.exception}\n")
        self.assertGreater(tried, 7)

    def test_fault_rows_of_the_formats_page(self):
        for cell, told in re.findall(r"^\| `([{\[].*)` \| `agents\.json: (.*)` \|$", read("docs/FORMATS.md").decode(), re.M):
            with self.assertRaises(BadFile, msg=cell) as bad:
                executors_of(cell.encode())
            self.assertEqual(told, str(bad.exception))


class LintPrinted(unittest.TestCase):
    def setUp(self):
        room = tempfile.TemporaryDirectory(prefix="controller-lint-")
        self.addCleanup(room.cleanup)
        self.room = room.name

    def lint(self, source, *words, agents=None):
        for name, content in (("Jenkinsfile", source.encode()), ("agents.json", agents)):
            if content is not None:
                with open(f"{self.room}/{name}", "wb") as file:
                    file.write(content)
        command = [sys.executable, f"{TOOLS}/lint", *words, self.room]
        ran = subprocess.run(command, stdout=subprocess.PIPE, stderr=subprocess.DEVNULL, check=False)
        return ran.stdout.decode(), ran.returncode

    def test_place_line_and_mark(self):
        told, status = self.lint("def x = 1\n\tif (x in [1]) { echo 'ü' }\n", agents=ONE_EXECUTOR)
        self.assertEqual(4, status)
        self.assertEqual(
            f"{self.room}/Jenkinsfile:2:6: error: the operator `in` [in]\n"
            "    \tif (x in [1]) { echo 'ü' }\n"
            "    \t    ^~~~~~~~\n"
            "    in its place: `[1].contains(x)`\n", told)

    def test_the_example_of_the_page_is_what_is_printed(self):
        page = read("docs/LINT.md").decode()
        [example] = re.findall(r"^    shop/Jenkinsfile:7:9: .*\n(?:    .*\n)+", page, re.M)
        told, _ = self.lint("\n" * 5 + "def deploy(env) {\n    if (env in ['qa', 'prod']) {\n        echo env\n    }\n}\ndeploy('qa')\n", agents=ONE_EXECUTOR)
        self.assertEqual(re.sub("^    ", "", example, flags=re.M), told.replace(self.room, "shop"))

    def test_what_is_not_made_of_the_script_is_an_example(self):
        told, _ = self.lint("node { deleteDir(); timestamps { echo 'x' } }\nproperties([])\n", agents=ONE_EXECUTOR)
        self.assertEqual(["for example: `node { sh 'rm -rf -- *' }`", "in its place: the statements of its body alone", "in its place: leave it out"],
                         [line.strip() for line in told.splitlines() if ": " in line and "error" not in line])

    def test_a_long_line_is_cut_and_wide_signs_have_two_columns(self):
        told, _ = self.lint("def x = '漢字' in ['a']; " + "echo 'y'; " * 20 + "\n", agents=ONE_EXECUTOR)
        _, line, mark, _ = told.splitlines()
        self.assertEqual(("…", 4 + len("def x = "), "~" * (len("'漢漢字字' in ['a']") - 1)), (line[-1], mark.index("^"), mark.split("^")[1]))

    def test_statuses(self):
        self.assertEqual(1, self.lint("echo 'a'\n")[1])
        self.assertEqual(("", 0), self.lint("echo 'a'\n", agents=b'{"job": "a", "agents": []}'))
        self.assertEqual(1, self.lint("try { undo() } catch (Throwable e) { }\n")[1])
        self.assertEqual(4, self.lint("echo 'a\n")[1])
        self.assertEqual(4, self.lint("echo 'a'\n", agents=b"[]")[1])
        self.assertEqual(2, self.lint("echo 'a'\n", "--nothing")[1])
        os.remove(f"{self.room}/Jenkinsfile")
        ran = subprocess.run([sys.executable, f"{TOOLS}/lint", self.room], stderr=subprocess.PIPE, check=False)
        self.assertEqual((6, f"controller: {self.room}/Jenkinsfile: No such file or directory\n"), (ran.returncode, ran.stderr.decode()))

    def test_an_output_that_takes_nothing_is_told_and_has_its_status(self):
        self.lint("echo 'a\n")
        for closing, why in ((">&-", "it is closed"), ("> /dev/full", "No space left on device")):
            command = f"'{sys.executable}' -ES '{TOOLS}/lint' '{self.room}' {closing}"
            ran = subprocess.run(command, shell=True, stderr=subprocess.PIPE, check=False)
            self.assertEqual((7, f"controller: standard output could not be written: {why}\n"), (ran.returncode, ran.stderr.decode()))

    def test_a_script_that_prepare_may_write_names_it(self):
        differences = ["x = 1 in [1]\n"]
        others = ["echo 'a\n", "pipeline { agent any }\n", "pipeline { agent any; stages { stage('a') { steps { deleteDir() } } } }\n", "echo 'a'\n"]
        for source, is_named in [(it, True) for it in differences] + [(it, False) for it in others]:
            self.lint(source)
            ran = subprocess.run([sys.executable, f"{TOOLS}/lint", self.room], capture_output=True, text=True, check=False)
            self.assertEqual((source, is_named), (source, f" prepare {self.room}/Jenkinsfile`" in ran.stderr))

    def test_thousands_of_unknown_names_take_seconds(self):
        began = time.process_time()
        findings_of("".join(f"def x{at} = [1] in y{at}\n" for at in range(1500)))
        self.assertLess(time.process_time() - began, 10)

    def test_what_stands_for_a_switch_is_made_of_its_first_case_where_it_can_be(self):
        for case, instead in (("'a'", "`if (x == 'a') { .. } else ..`"), ("['a', 'b']", "`if (['a', 'b'].contains(x)) { .. } else ..`"),
                              ("~/a.*/", "`if (1 == 1) { echo 'x' }`")):
            found = findings_of(f"def x = 'a'\nswitch (x) {{\n case {case}: echo 'x'\n}}\n")
            self.assertEqual([instead], [it.instead for it in found if it.key == "switch"])

    def test_a_break_of_a_switch_is_no_fault_of_its_own(self):
        source = "switch (1) {\n case 1: if (true) { break }\n default: break\n}\n"
        self.assertEqual(["switch"], keys(source))

    def test_bytes_that_are_no_script(self):
        with open(f"{self.room}/Jenkinsfile", "wb") as file:
            file.write(b"echo '\xc3\xa4'\necho '\xff'\n")
        ran = subprocess.run([sys.executable, f"{TOOLS}/lint", f"{self.room}/Jenkinsfile"], stdout=subprocess.PIPE, check=False)
        self.assertEqual(4, ran.returncode)
        self.assertIn(b"/Jenkinsfile:2:7: error: this byte is no UTF-8 [not-UTF-8]", ran.stdout)

    def test_diagnostics_of_the_language_servers(self):
        told, status = self.lint("echo '\U0001d11e', 1 as int\n", "--json", agents=ONE_EXECUTOR)
        self.assertEqual(4, status)
        _, file = json.loads(told)
        self.assertEqual(f"file://{self.room}/Jenkinsfile", file["uri"])
        self.assertEqual({"code", "message", "range", "severity", "source"}, set(file["diagnostics"][0]))
        cast = next(it for it in file["diagnostics"] if it["code"] == "cast")
        # The clef is two units of UTF-16.
        self.assertEqual({"start": {"line": 0, "character": 11}, "end": {"line": 0, "character": 19}}, cast["range"])
        self.assertEqual(1, cast["severity"])

    def test_lines_of_the_page_for_editors(self):
        page = read("docs/LINT.md").decode()
        [pattern] = re.findall(r'"regexp": "(.*)"', page)
        line = self.lint("def x = 1 as int\n", agents=ONE_EXECUTOR)[0].splitlines()[0]
        found = re.fullmatch(json.loads(f'"{pattern}"'), line)
        self.assertEqual((f"{self.room}/Jenkinsfile", "1", "9", "error"), found.groups()[:4])


    def test_the_example_of_the_page(self):
        [example] = re.findall(r"(?m)^    shop/Jenkinsfile:(?:.*\n)(?:    .*\n)+", read("docs/LINT.md").decode())
        told, _ = self.lint("def env = 'qa'\nnode {\n\n\n\n\n    if (env in ['qa', 'prod']) {\n    }\n}\n", agents=ONE_EXECUTOR)
        self.assertEqual(re.sub("(?m)^    ", "", example), told.replace(self.room, "shop"))

    def test_the_hook_of_the_page(self):
        [hook] = re.findall(r"^```sh\n(#!/bin/sh\n.*?)^```$", read("docs/LINT.md").decode(), re.M | re.S)
        subprocess.run(["git", "init", "-q", self.room], check=True)
        with open(f"{self.room}/hook", "w", encoding="utf-8") as file:
            file.write(hook.replace("/srv/controller/controller lint", f"{sys.executable} {TOOLS}/lint"))
        for source, status in (("echo 'a'\n", 0), ("try { undo() } catch (Throwable e) { }\n", 0), ("echo 'a\n", 1)):
            with open(f"{self.room}/Jenkinsfile", "w", encoding="utf-8") as file:
                file.write(source)
            subprocess.run(["git", "-C", self.room, "add", "Jenkinsfile"], check=True)
            ran = subprocess.run(["sh", "hook"], cwd=self.room, stdout=subprocess.DEVNULL, check=False)
            self.assertEqual(status, ran.returncode, source)


class GroovyReader(unittest.TestCase):
    def test_each_node_has_its_place(self):
        source = "def a = sh(script: 'x') { y -> z }.trim()\n"
        script = read_groovy(source)
        self.assertEqual([source.strip()], [script.written(it) for it in script.statements])
        [declaration] = script.statements
        self.assertIsInstance(declaration, Declaration)
        self.assertEqual(["sh(script: 'x') { y -> z }.trim()", "sh(script: 'x') { y -> z }"],
                         [script.written(it) for it in script.walk() if isinstance(it, Call)])
        self.assertEqual(["{ y -> z }"], [script.written(it) for it in script.walk() if isinstance(it, Closure)])

    def test_nothing_makes_it_stop(self):
        chance = random.Random(7)
        source = read("examples/usual/Jenkinsfile").decode()
        for _ in range(150):
            begin = chance.randrange(len(source))
            cut = source[:begin] + chance.choice(CUTS) + source[begin + chance.choice([0, 1, 5, 40]) :]
            for node in read_groovy(cut).walk():
                self.assertTrue(0 <= node.begin <= node.end <= len(cut), cut)

    def test_texts_between_slashes(self):
        for source in ("x = /a b/", "x =~ /a/", "f(/a/)", "echo /a/", "x = $/a/$"):
            with self.subTest(source):
                self.assertIn("/", [getattr(it, "quote", "")[-1:] for it in read_groovy(source).walk()])
        for source in ("x = a / b / c", "x = f() / 2", "x = l[0] / 2 / 3"):
            with self.subTest(source):
                self.assertEqual([], [it for it in read_groovy(source).walk() if hasattr(it, "quote")])


if __name__ == "__main__":
    unittest.main()
