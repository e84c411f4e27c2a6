"""Tests of tools/prepare, of library/ and of tools/corpus.py; tools/test.py runs them with its own."""
import json
import os
import random
import re
import subprocess
import sys
import tempfile
import unittest
from concurrent.futures import ThreadPoolExecutor

import corpus
import library_trials
from groovy_reader import Call, Name, read
from lint_rules.exact import first_fault
from preparing import library, patterns
from preparing.arguments import READ
from preparing.assemble import Options, Prepared
from preparing.places import Places
from preparing.words import FUNCTIONS

TOOLS = os.path.dirname(os.path.realpath(__file__))
TOP = os.path.dirname(TOOLS)
BUILT = f"{TOP}/crates/jenkinsd/out/jenkinsd"
# Files that the network gives are tried where this names a folder that has them.
CORPUS = os.environ.get("CONTROLLER_CORPUS")


def prepared(source, **words):
    return Prepared(source, "Jenkinsfile", Options(**words))


def refused(source, **words):
    return [(it.line, it.column, it.text) for it in prepared(source, **words).refused()]


class Prepare(unittest.TestCase):
    """What is changed, and what is refused."""

    def test_a_script_of_the_language_stays_as_it_is(self):
        for name in ("usual", "helpers", "release", "input", "parallel"):
            with open(f"{TOP}/examples/{name}/Jenkinsfile", encoding="utf-8") as file:
                source = file.read()
            self.assertEqual((name, prepared(source).text), (name, source))

    def test_each_line_stays_at_its_number(self):
        source = "import a.B\n\nswitch (x) {\n  case 1:\n  case 2:\n    echo 'a'\n    break\n  default:\n    echo 'b'\n}\necho 'last'\n"
        lines = prepared("x = 1\n" + source).text.split("\n")
        self.assertEqual(lines[11], "echo 'last'")
        self.assertIsNone(first_fault(prepared("x = 1\n" + source).text))

    def test_what_could_mean_something_else_is_refused_at_its_place(self):
        for source, line, column, word in (
            ("x = 1.5", 1, 5, "1.5"), ("x = 1\n x = x / 2", 2, 6, "`/`"), ("x = []\necho \"${x.unique()}\"", 2, 11, "unique"),
            ("while ((x = next()) != null) { }", 1, 9, "assignment"), ("def f() { new Date() }", 1, 11, "new Date"),
            ("switch (1) {\n case 1: echo 'a'\n case 2: echo 'b'\n}", 2, 2, "case"), ("class A { }", 1, 1, "class A"),
            ("try { } catch (MyException e) { }", 1, 9, "MyException"), ("parallel(a: { }, failFast: true)", 1, 18, "failFast"),
            ("def c = { a = 1 -> a }", 1, 11, "default"), ("x = y.any { it }.&z", 1, 5, ".&"), ("slack 'a'", 1, 1, "slack"),
            ("'x'.replaceAll(/(a)/, '$1')", 1, 5, "replaceAll"), ("timeout(5) { }", 1, 1, "timeout"), ("pipeline { agent any }", 1, 1, "Declarative"),
            ("[[1, 2]].each { a, b -> }", 1, 15, "spread"), ("checkout scm", 1, 10, "--scm"), ("x = [1]\nx.each { x*.foo(it) }", 2, 10, "*."),
            ("env.A = '1'\nwithEnv(['A=2']) { echo env.A }", 1, 1, "two names"), ("echo 1\n@groovy.transform.Field def x = 2", 2, 25, "in front"),
            ("withCredentials([string(credentialsId: 'a', variable: 'T')]) { echo \"$T\" }", 1, 71, "single quotes"),
            ("x = 1; x.sort { it <=> 1L * 4294967296 }", 1, 29, "4294967296"), ("'ab' =~ /(?i)A/ ? 1 : 2", 1, 1, "=~"),
        ):
            found = refused(source)
            self.assertTrue(any(it[:2] == (line, column) and word in it[2] for it in found), (source, found))

    def test_the_words_of_a_parameter_are_looked_at(self):
        source = "properties([parameters([booleanParam(name: 'A', defaultValue: true), choice(name: 'B', choices: ['x', 'y'])])])\necho params.B\n"
        self.assertIn("params = ['A': false, 'B': 'y']", prepared(source, given={"A": "false", "B": "y"}).text)
        for given in ({"A": "maybe"}, {"B": "z"}, {"C": "1"}):
            with self.assertRaises(Exception):
                prepared(source, given=given)

    def test_parameters_that_are_not_written_out_are_refused(self):
        for given in ("parameters(all())", "parameters([gitParameter(name: 'A')])", "parameters([string(name: 'A', defaultValue: b())])"):
            self.assertTrue(refused(f"properties([{given}])\necho params.A"), given)

    def test_a_variable_of_the_environment_is_a_text(self):
        self.assertIn("env.A = textOf(5)", prepared("env.A = 5\necho env.A").text)
        told = "env['B'] = textOf(withEnv(environmentSet(['B'])) { sh(script: 'x', returnStdout: true) })"
        self.assertIn(told, prepared("node { env['B'] = sh script: 'x', returnStdout: true }").text)
        self.assertTrue(refused("env.A = null"))

    def test_a_name_of_the_library_that_the_script_has_is_its_own(self):
        self.assertNotIn("git fetch", prepared("def checkout(x) { echo x }\ncheckout 'a'").text)
        self.assertTrue(refused("def slice = 1\necho 'abc'[0..1]"))

    def test_line_ends_of_windows_become_those_of_unix(self):
        script = prepared("echo \'\'\'a\r\nb\'\'\'\r\n")
        self.assertEqual((script.text.split("// Places")[0], [it.kind for it in script.findings]), ("echo \'\'\'a\nb\'\'\'\n", ["changed"]))

    def test_places_are_translated_back(self):
        source = "final a = 1, b = 2; echo 'x'[0..0] + nothing\nimport x.Y\necho 'é'; def (c, d) = [1, 2]; echo \"${c in [1]}\"\n"
        script = prepared(source)
        map_ = Places(script.text)
        for word in ("+ nothing", "'é'", 'echo "$'):
            at = script.text.index(word)
            line = script.text.count("\n", 0, at) + 1
            _, *there = map_.of(line, at - script.text.rfind("\n", 0, at))
            at = source.index(word)
            self.assertEqual(there, [source.count("\n", 0, at) + 1, at - source.rfind("\n", 0, at)], word)

    def test_the_map_names_the_files_of_what_was_added(self):
        script = prepared("node { echo readFile('a') }")
        line = next(at for at, it in enumerate(script.text.split("\n"), 1) if it.startswith("def readFile"))
        with open(f"{TOP}/library/readFile.groovy", encoding="utf-8") as file:
            there = next(at for at, it in enumerate(file, 1) if it.startswith("def readFile"))
        self.assertEqual(Places(script.text).of(line, 1), ("library/readFile.groovy", there, 1))

    def test_an_argument_that_a_function_of_the_library_does_not_have_is_refused(self):
        for call, told in (
            ("archiveArtifacts artifacts: 'a', onlyIfSuccessful: true", "`onlyIfSuccessful` of `archiveArtifacts` that is not false"),
            ("cleanWs cleanWhenFailure: false", "`cleanWhenFailure` of `cleanWs` that is not true"), ("lock(label: 'x') { }", "`label` of `lock`"),
            ("junit testResults: 'a', testDataPublishers: []", "`testDataPublishers` of `junit`"), ("sleep(time: 1, untl: 2)", "`untl` of `sleep`"),
            ("checkout([$class: 'SubversionSCM'])", "a `checkout` of SubversionSCM"),
            ("checkout([$class: 'GitSCM', extensions: [[$class: 'UserExclusion']]])", "the extension UserExclusion of `checkout`"),
        ):
            self.assertEqual([it.text.startswith(told) for it in prepared(f"node {{ {call} }}").refused()], [True], call)
        for call in ("archiveArtifacts artifacts: 'a', fingerprint: true, onlyIfSuccessful: false", "cleanWs()", "waitUntil(quiet: true) { true }",
                     "checkout changelog: false, scm: [$class: 'GitSCM', url: 'a', gitTool: 'b', extensions: [[$class: 'CloneOption', depth: 1]]]"):
            self.assertEqual([it.text for it in prepared(f"node {{ {call} }}").refused()], [], call)

    def test_a_step_has_the_variables_of_env_and_no_trace_of_credentials(self):
        for script in ("sh 'a'", "sh(script: 'a')", "sh script: 'a', returnStdout: true", "def x = sh(returnStdout: true, script: 'a').trim()"):
            made = prepared(f"node {{ env.A = '1'; withCredentials([]) {{ {script} }} }}")
            self.assertEqual(([it.text for it in made.refused()], first_fault(made.text)), ([], None), script)
            self.assertRegex(made.text, r"withEnv\(environmentSet\(\['A'\]\)\) \{ sh.*withoutTrace\('a'\)")

    def test_a_refused_name_is_told_once_in_a_chain(self):
        self.assertEqual(len(prepared("node { docker.image('a').inside { sh 'b' } }").refused()), 1)
        self.assertEqual(len(prepared("pipeline { parameters { booleanParam(name: 'A') } }").refused()), 1)

    def test_of_what_a_function_does_in_another_way_a_note_tells(self):
        notes = [it.text for it in prepared("timestamps { }; withCredentials([]) { }; withCredentials([]) { }").findings if it.kind == "note"]
        self.assertEqual([it.split(":")[0] for it in notes], ["`timestamps`", "`withCredentials`"])

    def test_each_step_of_the_library_has_the_names_of_its_arguments(self):
        self.assertEqual(set(library.PUBLIC) - {"load"}, set(READ))
        for name, arguments in READ.items():
            comment = library.items()[name].source.split("def ")[0]
            self.assertEqual([it for it in arguments - {"$class", "colorMapName", "branches", "userRemoteConfigs"} if it not in comment], [], name)

    def test_any_cut_of_a_file_is_read_without_a_crash(self):
        chosen = random.Random(1)
        with open(f"{TOOLS}/corpus/groovy.txt", encoding="utf-8") as file:
            source = file.read()
        for _ in range(60):
            begin = chosen.randrange(len(source) - 400)
            piece = source[begin : begin + chosen.randrange(20, 400)]
            script = prepared(piece)
            self.assertTrue(script.refused() or first_fault(script.text) is None, piece)



class Commands(unittest.TestCase):
    """What the command writes, tells and ends with."""

    def setUp(self):
        room = tempfile.TemporaryDirectory(prefix="controller-prepare-")
        self.addCleanup(room.cleanup)
        self.room, self.made = room.name, f"{room.name}/made"

    def prepare(self, source, *words, closing=None):
        with open(f"{self.room}/Jenkinsfile", "wb") as file:
            file.write(source)
        command = [sys.executable, "-ES", f"{TOOLS}/prepare", self.room, *words]
        if closing:
            command = ["sh", "-c", f'"$@" {closing}', "sh", *command]
        ran = subprocess.run(command, capture_output=True, text=True, check=False)
        return ran.returncode, ran.stdout, ran.stderr

    def written(self):
        with open(self.made, encoding="utf-8") as file:
            return file.read()

    def test_a_file_is_written_only_where_nothing_was_refused(self):
        self.assertEqual((0, "", ""), self.prepare(b"echo 'a'\n", "-o", self.made))
        self.assertEqual("echo 'a'\n", self.written())
        self.assertEqual((4, ""), self.prepare(b"x = new Date()\n", "-o", self.made)[:2])
        self.assertEqual("echo 'a'\n", self.written())
        self.assertEqual(4, self.prepare(b"x = new Date()\n", "--anyway", "-o", self.made)[0])
        self.assertIn("new Date()", self.written())
        self.assertEqual(["Jenkinsfile", "made"], sorted(os.listdir(self.room)))

    def test_what_cannot_be_read_or_written_is_told_with_its_place(self):
        self.assertEqual((6, "", f"controller: {self.made}/a: No such file or directory\n"), self.prepare(b"echo 'a'\n", "-o", f"{self.made}/a"))
        status, out, told = self.prepare(b"echo '\xff'\n")
        self.assertEqual((4, ""), (status, out))
        self.assertIn(f"{self.room}/Jenkinsfile:1:7: error: this byte is no UTF-8", told)
        for closing, why in ((">&-", "it is closed"), ("> /dev/full", "No space left on device")):
            told = f"controller: standard output could not be written: {why}\n"
            self.assertEqual((7, "", told), self.prepare(b"echo 'a'\n", closing=closing))

    def test_the_example_of_the_page_is_what_is_told(self):
        with open(f"{TOP}/docs/PREPARE.md", encoding="utf-8") as file:
            [example] = re.findall(r"^    shop/Jenkinsfile:7:9: .*\n(?:    .*\n)+", file.read(), re.M)
        lines = {6: "def a = 'x'", 7: "    if (a in ['x']) { }", 12: "    env.BRANCH_NAME", 20: "    def d = new Date()"}
        _, _, told = self.prepare("".join(f"{lines.get(at, '')}\n" for at in range(1, 21)).encode())
        self.assertEqual(re.sub("^    ", "", example, flags=re.M), told.replace(self.room, "shop").partition("controller: ")[0])

    def test_help_is_printed_whole(self):
        status, out, told = self.prepare(b"", "--help")
        self.assertEqual((0, ""), (status, told))
        self.assertIn("    -o FILE ", out)
        self.assertEqual(2, self.prepare(b"", "--nothing")[0])


class PrepareCommand(unittest.TestCase):
    """The words and statuses of the command."""

    def run_words(self, *words, source="echo 'a'\n"):
        with tempfile.TemporaryDirectory(prefix="controller-prepare-") as room:
            with open(f"{room}/Jenkinsfile", "w", encoding="utf-8") as file:
                file.write(source)
            command = [sys.executable, f"{TOOLS}/prepare", *(word.replace("ROOM", room) for word in words)]
            return subprocess.run(command, capture_output=True, text=True, check=False)

    def test_statuses(self):
        for words, source, status in (
            (["ROOM/Jenkinsfile"], "echo 'a'\n", 0), (["ROOM/Jenkinsfile"], "x = 1.5\n", 4), ([], "", 2), (["--what", "ROOM/Jenkinsfile"], "", 2),
            (["ROOM/none"], "", 6), (["ROOM/Jenkinsfile", "-p", "A=1"], "properties([parameters([string(name: 'B')])])\n", 2),
        ):
            self.assertEqual(self.run_words(*words, source=source).returncode, status, words)

    def test_nothing_is_printed_where_something_was_refused_but_where_that_is_asked_for(self):
        ran = self.run_words("ROOM/Jenkinsfile", source="x = 1.5\n")
        self.assertEqual(ran.stdout, "")
        self.assertRegex(ran.stderr, r"Jenkinsfile:1:5: refused: .*\n    x = 1\.5\n        \^\ncontroller: nothing is written, since 1 of it was refused")
        self.assertEqual(self.run_words("ROOM/Jenkinsfile", "--anyway", source="x = 1.5\n").stdout, "x = 1.5\n")

    def test_places_of_a_text_are_translated(self):
        script = prepared("def (a, b) = [1, 2]; echo a")
        with tempfile.NamedTemporaryFile("w", suffix="Jenkinsfile") as file:
            file.write(script.text)
            file.flush()
            at = script.text.index("echo a") + 1
            words = [sys.executable, f"{TOOLS}/original_places.py", file.name]
            ran = subprocess.run(words, input=f"Jenkinsfile:1:{at}: unknown\n", capture_output=True, text=True, check=False)
        self.assertRegex(ran.stdout, r"/Jenkinsfile:1:22: unknown\n")


class Library(unittest.TestCase):
    """The functions of library/."""

    def test_each_file_has_one_function_of_its_name_a_comment_and_an_example(self):
        for item in library.items().values():
            self.assertEqual(re.findall(r"^def (\w+)\(", item.source, re.M), [item.name])
            self.assertTrue(item.example().strip(), item.name)
            self.assertIsNone(first_fault(item.code), item.name)
            self.assertIsNone(first_fault(item.example()), item.name)

    def test_each_step_has_a_test(self):
        tested = {name[:-4] for name in os.listdir(f"{library.FOLDER}/tests")}
        self.assertEqual(tested, {it.name for it in library.items().values() if "/" not in it.path})

    def test_each_helper_is_needed_by_a_step_or_a_rule(self):
        rules = ""
        for name in os.listdir(f"{TOOLS}/preparing"):
            if name.endswith(".py"):
                with open(f"{TOOLS}/preparing/{name}", encoding="utf-8") as file:
                    rules += file.read()
        called = {it for name in library.items() for it in library.called(name)} | {f"{name}Of" for name in FUNCTIONS}
        for name in library.items():
            self.assertTrue(name in called or f'"{name}"' in rules or name in library.PUBLIC or name == "load" or f"{name[:-2]}Of" in called, name)

    def test_patterns_are_read_as_java_does(self):
        for pattern in ("(?i)a", "a*?", "[a&&b]", "\\bx", "(a)\\1", "(?=a)", "[[a]b]", "a{,2}", "(?s).", "\\Z"):
            self.assertIsNone(patterns.written(pattern), pattern)
        self.assertEqual(patterns.written("a[0-2]$"), "[['set', 'a', false], ['set', '012', false], ['end']]")


@unittest.skipUnless(os.access(BUILT, os.X_OK), "the program is not built")
class LibraryRuns(unittest.TestCase):
    """The trials of library/tests and of tools/corpus, by the built program."""

    def test_trials(self):
        trials = [*library_trials.all_trials()]
        for trial, complaint in zip(trials, library_trials.complaints(trials, BUILT)):
            with self.subTest(trial.name):
                self.assertIsNone(complaint)

    def test_examples_run_to_their_ends(self):
        for item in library.items().values():
            script = item.example()
            trial = library_trials.Trial(item.name, script, "prints", "")
            trial.script = script.replace("https://example.com/shop.git", "/tmp/controller/shop.git") + "\n" + "".join(
                it.code for it in library.needed(called_in(script)))
            with self.subTest(item.name):
                _, status = library_trials.outcome(trial, BUILT, is_prepared=True)
                self.assertEqual(status, 0)

    def test_json_goes_through_both_ways(self):
        chosen = random.Random(2)
        values = [json_value(chosen, 3) for _ in range(6)]
        rows = "\n".join(f"println writeJSON(json: readJSON(text: {groovy_text(json.dumps(it))}), returnText: true)" for it in values)
        trial = library_trials.Trial("json", f"node {{\n{rows}\n}}\n", "prints", "")
        printed, status = library_trials.outcome(trial, BUILT)
        self.assertEqual((status, [json.loads(it) for it in printed.splitlines()[1:]]), (0, values))

    def test_the_values_of_credentials_are_in_no_file_of_the_build(self):
        script = next(it for it in library_trials.trials_of(f"{library.FOLDER}/tests/withCredentials.txt"))
        seen = []

        def look(room):
            for at, _, names in os.walk(room):
                for name in names:
                    if not at.startswith(f"{room}/credentials"):
                        with open(f"{at}/{name}", "rb") as file:
                            seen.append((name, file.read()))

        library_trials.outcome(script, BUILT, look=look)
        stores = [content for name, content in seen if name == "program.dat"]
        self.assertEqual(len(stores), 1)
        # The script of the trial itself has the values to compare with.
        self.assertEqual(stores[0].count(b"t0ken"), stores[0].count(b't0ken" && echo') + stores[0].count(b'== "t0ken"'))

    def test_the_handbooks_scripts_run_to_the_end_that_they_should_have(self):
        cases = [*corpus.of_handbook()]
        with ThreadPoolExecutor(os.cpu_count()) as pool:
            ended = pool.map(lambda it: corpus.tried(*it, BUILT), cases)
        for (name, _, _), (end, told) in zip(cases, ended):
            with self.subTest(name):
                self.assertEqual(end, "refused" if name == "20-docker" else "right", told)


@unittest.skipUnless(CORPUS and os.access(BUILT, os.X_OK), "CONTROLLER_CORPUS names no folder of fetched files, or the program is not built")
class Corpus(unittest.TestCase):
    """The files that tools/corpus.py fetches."""

    def test_each_scripted_file_runs_to_its_end(self):
        for name, case in corpus.FILES.items():
            with self.subTest(name):
                self.assertEqual(corpus.tried(name, f"{CORPUS}/{name}", case, BUILT), ("right", []))


def called_in(script):
    return [it.what.name for it in read(script).walk() if isinstance(it, Call) and isinstance(it.what, Name) and it.what.name in library.items()]


def json_value(chosen, depth):
    kinds = ["null", "truth", "number", "text"] + (["list", "map"] if depth else [])
    kind = chosen.choice(kinds)
    if kind == "list":
        return [json_value(chosen, depth - 1) for _ in range(chosen.randrange(4))]
    if kind == "map":
        return {json_text(chosen): json_value(chosen, depth - 1) for _ in range(chosen.randrange(4))}
    return {"null": None, "truth": chosen.random() < 0.5, "number": chosen.randrange(-2**31, 2**31), "text": json_text(chosen)}[kind]


def json_text(chosen):
    return "".join(chosen.choice("ab\"\\/\n\té😀' $") for _ in range(chosen.randrange(6)))


def groovy_text(value):
    return "'" + value.replace("\\", "\\\\").replace("'", "\\'").replace("\n", "\\n") + "'"

