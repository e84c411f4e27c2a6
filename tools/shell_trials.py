#!/usr/bin/env python3
"""Tries shell steps on real folders with real processes: `tools/shell_trials.py [--program PROGRAM] [TRIAL..]`.

It takes the built program, or the one that it is given, and some two minutes. Each trial stands in a folder of its own; a task that
was launched leaves its name, which is unique in its build, in the file `launches` there. Nothing of this is proved.
"""
import argparse
import json
import os
import re
import shlex
import signal
import subprocess
import sys
import tempfile
import time
import unittest

TOP = os.path.dirname(os.path.dirname(os.path.realpath(__file__)))
PROGRAM = f"{TOP}/crates/jenkinsd/out/jenkinsd"
# By it the commands of pages are typed: it runs the program of this clone.
LAUNCHER = f"{TOP}/controller"
# Seconds until something has to have come.
PATIENCE = 60


class Shell(unittest.TestCase):
    """A folder with a build, its agents, and what its tasks leave."""

    def setUp(self):
        room = tempfile.TemporaryDirectory(prefix="controller-shell-", ignore_cleanup_errors=True)
        self.addCleanup(room.cleanup)
        self.room, self.folder, self.agent = room.name, f"{room.name}/build", f"{room.name}/agent"
        self.workspace = f"{self.agent}/workspace/trial"

    def build(self, script, looks=100_000, agents=("m",), executors=1):
        """Writes the build's two files. In the script ROOM is this trial's folder."""
        sites = [{"name": name, "root": self.agent + name.removeprefix("m"), "executors": executors} for name in agents]
        self.put("build/Jenkinsfile", script.replace("ROOM", self.room))
        self.put("build/agents.json", json.dumps({"job": "trial", "looks": looks, "agents": sites}))

    def put(self, name, text):
        os.makedirs(os.path.dirname(f"{self.room}/{name}"), exist_ok=True)
        with open(f"{self.room}/{name}", "w", encoding="utf-8") as file:
            file.write(text)

    def launches(self):
        try:
            with open(f"{self.room}/launches", encoding="utf-8") as file:
                return file.read().split()
        except FileNotFoundError:
            return []

    def start(self, command, **how):
        """A controller at work, without answers."""
        how = {"stdin": subprocess.DEVNULL, "stdout": subprocess.PIPE, "stderr": subprocess.PIPE, **how}
        child = subprocess.Popen([PROGRAM, command, self.folder], **how)
        self.addCleanup(child.communicate)
        self.addCleanup(child.kill)
        return child

    def ran(self, command):
        """What a command printed, and its status."""
        words, streams = [PROGRAM, command, self.folder], {"stdin": subprocess.DEVNULL, "capture_output": True}
        ran = subprocess.run(words, **streams, timeout=PATIENCE, check=False)
        return ran.stdout, ran.returncode

    def ends(self, command, status, *lines):
        """The command's log has these lines in this order, perhaps with others between them, and it ends with the status."""
        log, ended = self.ran(command)
        rest = iter(log.split(b"\n"))
        for line in lines:
            self.assertIn(line.replace("ROOM", self.room).encode() if isinstance(line, str) else line, rest, log.decode(errors="replace"))
        self.assertEqual(ended, status, log.decode(errors="replace"))
        return log

    def wait_until(self, came, what):
        until = time.monotonic() + PATIENCE
        while not came():
            self.assertLess(time.monotonic(), until, what)
            time.sleep(0.02)

    def kill(self, controller):
        controller.kill()
        controller.communicate()

    def killed_at_launch(self, count, command="run"):
        """A controller that is killed when so many tasks were launched."""
        controller = self.start(command)
        self.wait_until(lambda: len(self.launches()) == count, f"{count} launches")
        self.kill(controller)

    def has_result(self, task):
        return os.path.exists(f"{self.workspace}@tmp/durable-{task:08x}/jenkins-result.txt")


LAUNCHED = 'echo "$(basename "$(dirname "$0")")" >> ROOM/launches'


def script(*lines):
    """A shell step that leaves its name and is not traced."""
    return "'''" + "\n".join(["#!/bin/sh", LAUNCHED, *lines]) + "\n'''"


class Stops(Shell):
    """Controllers that stop while tasks run, and come back."""

    def test_a_task_that_ended_while_no_controller_ran_is_taken_as_it_ended(self):
        self.build(f"node {{ sh {script('sleep 1', 'echo slept', 'exit 3')}; echo 'never' }}")
        self.killed_at_launch(1)
        self.wait_until(lambda: self.has_result(2), "the task's result")
        self.ends("resume", 1, "[Pipeline] sh", "slept", "ERROR: script returned exit code 3")
        self.assertEqual(len(self.launches()), 1)

    def test_a_task_that_still_runs_is_waited_for(self):
        self.build(f"node {{ sh {script('echo one', 'sleep 3', 'echo two')}; echo 'behind it' }}")
        self.killed_at_launch(1)
        self.assertFalse(self.has_result(2))
        self.ends("resume", 0, "[Pipeline] sh", "one", "two", "[Pipeline] echo", "behind it", "Finished: SUCCESS")
        self.assertEqual(len(self.launches()), 1)

    def test_output_before_a_stop_stands_once_in_the_log(self):
        steps = "; ".join("sh " + script(f"echo step {i}", "sleep 0.3", f"echo end {i}") for i in range(6))
        self.build(f"node {{ {steps} }}")
        self.killed_at_launch(1)
        for count in range(2, 7):
            self.killed_at_launch(count, "resume")
        log = self.ends("resume", 0, *[line for i in range(6) for line in ("[Pipeline] sh", f"step {i}", f"end {i}")], "Finished: SUCCESS")
        self.assertEqual((log.count(b"step "), log.count(b"end ")), (6, 6))
        self.assertEqual(len(set(self.launches())), 6)
        self.assertEqual(len(self.launches()), 6)

    def test_an_interrupt_of_the_controllers_group_leaves_the_task(self):
        self.build(f"node {{ sh {script('sleep 1', 'echo slept')} }}")
        controller = self.start("run", start_new_session=True)
        self.wait_until(lambda: self.launches(), "a launch")
        os.killpg(controller.pid, signal.SIGINT)
        controller.communicate()
        self.assertNotEqual(controller.returncode, 0)
        self.ends("resume", 0, "slept", "Finished: SUCCESS")
        self.assertEqual(len(self.launches()), 1)

    def test_a_task_that_was_killed_with_the_controller_ends_with_minus_1_after_its_looks(self):
        self.build(f"node {{ sh {script('echo $$ > ROOM/pid', 'echo before', 'sleep 60')} }}", looks=12)
        self.killed_at_launch(1)
        self.wait_until(lambda: os.path.exists(f"{self.room}/pid") and os.path.getsize(f"{self.room}/pid"), "the task's number")
        with open(f"{self.room}/pid", encoding="utf-8") as pid:
            os.killpg(os.getpgid(int(pid.read())), signal.SIGKILL)
        began = time.monotonic()
        self.ends("resume", 1, "before", "ERROR: script returned exit code -1")
        self.assertGreater(time.monotonic() - began, 1)
        self.assertEqual(len(self.launches()), 1)

    def test_a_result_that_was_written_by_hand_ends_the_step(self):
        self.build(f"node {{ sh {script('sleep 60')} }}")
        controller = self.start("run")
        self.wait_until(lambda: self.launches(), "a launch")
        control = f"{self.workspace}@tmp/durable-00000002"
        subprocess.run("echo 7 > jenkins-result.tmp; mv jenkins-result.tmp jenkins-result.txt", shell=True, cwd=control, check=True)
        log, _ = controller.communicate()
        self.assertIn(b"ERROR: script returned exit code 7\n", log)
        self.assertEqual(controller.returncode, 1)

    def test_a_second_controller_is_refused_while_a_task_runs(self):
        self.build(f"node {{ sh {script('sleep 2', 'echo slept')} }}")
        first = self.start("run")
        self.wait_until(lambda: self.launches(), "a launch")
        for command, told in (("run", b"disk failed"), ("resume", b"disk failed")):
            self.assertEqual(self.ran(command), (b"controller: " + told + b"\n", 5))
        log, _ = first.communicate()
        self.assertEqual((first.returncode, log.count(b"slept\n")), (0, 1))
        self.assertEqual(len(self.launches()), 1)


class Output(Shell):
    """What tasks write."""

    def test_bytes_that_are_not_utf_8_stand_in_the_log_as_they_are(self):
        self.put("print", "printf 'a\\377b\\303(\\n'\n")
        self.build("node { sh '. ROOM/print' }")
        log = self.ends("run", 0, b"a\xffb\xc3(", "Finished: SUCCESS")
        self.assertEqual(self.ran("log"), (log, 0))

    def test_output_that_is_no_utf_8_is_a_text_with_replacements(self):
        self.put("print", "printf 'a\\377b\\303(\\n'\n")
        self.build("node { echo sh(script: '. ROOM/print', returnStdout: true) }")
        self.ends("run", 0, "[Pipeline] echo", "a\ufffdb\ufffd(")

    def test_output_without_a_newline_does_not_join_the_next_line(self):
        self.build("node { sh '#!/bin/sh\\nprintf abc'; echo 'def' }")
        self.ends("run", 0, "abc", "[Pipeline] echo", "def")

    def test_a_log_of_8_mebibytes_comes_whole(self):
        self.build("node { sh '#!/bin/sh\\nyes 0123456789abcdef | head -c 8388608' }")
        log = self.ends("run", 0, "0123456789abcdef", "Finished: SUCCESS")
        self.assertEqual(log.count(b"0123456789abcdef\n"), 8_388_608 // 17)

    def test_a_log_of_100_mebibytes_ends_the_build_at_the_limit_of_a_log(self):
        self.build("node { echo 'before'; sh '#!/bin/sh\\nyes 0123456789abcdef | head -c 104857600' }")
        log = self.ends("run", 1, "before", "[Pipeline] sh", "0123456789abcdef", "Limit reached: log size", "Finished: FAILURE")
        self.assertGreater(len(log), 16_000_000)

    def test_output_of_100_mebibytes_for_the_script_passes_the_longest_text(self):
        self.build("node { def text = sh(script: '#!/bin/sh\\nyes | head -c 104857600', returnStdout: true); echo 'never' }")
        self.ends("run", 1, "[Pipeline] sh", "Limit reached: text length", "Finished: FAILURE")

    def test_100_mebibytes_into_a_file_are_no_matter(self):
        self.build("node { sh 'head -c 104857600 /dev/zero > big'; sh 'wc -c < big' }")
        self.ends("run", 0, "104857600", "Finished: SUCCESS")


class Tasks(Shell):
    """What tasks do."""

    def test_a_child_that_outlives_its_task_is_not_waited_for(self):
        self.build("node { sh '#!/bin/sh\\nsleep 20 & echo $! > ROOM/child; echo started'; echo 'on' }")
        began = time.monotonic()
        self.ends("run", 0, "started", "[Pipeline] echo", "on")
        self.assertLess(time.monotonic() - began, 15)
        with open(f"{self.room}/child", encoding="utf-8") as child:
            os.kill(int(child.read()), signal.SIGKILL)

    def test_a_task_that_reads_its_standard_input_finds_its_end(self):
        self.build("node { sh 'cat; echo end of input' }")
        self.ends("run", 0, "+ cat", "end of input", "Finished: SUCCESS")

    def test_a_task_may_clear_its_workspace(self):
        self.build("node { sh 'touch a b; rm -rf -- *; ls'; sh 'rm -rf -- \"$WORKSPACE\"; echo cleared'; sh 'pwd' }")
        self.ends("run", 0, "+ ls", "[Pipeline] sh", "cleared", "[Pipeline] sh", "ROOM/agent/workspace/trial", "Finished: SUCCESS")

    def test_a_task_that_removes_its_control_folder_is_lost(self):
        self.build("node { sh 'rm -rf -- \"$WORKSPACE@tmp\"; sleep 1' }")
        self.ends("run", 1, "ERROR: script returned exit code -2")

    def test_two_nodes_on_one_agent_have_a_workspace_each(self):
        self.build("parallel(a: { node { sh 'echo a > f; pwd; cat f' } }, b: { node { sh 'echo b > f; pwd; cat f' } })", executors=2)
        log = self.ends("run", 0, "Finished: SUCCESS").decode().split("\n")
        for line in (self.workspace, f"{self.workspace}@2", "a", "b"):
            self.assertEqual(log.count(line), 1)

    def test_the_script_of_a_step_can_be_killed(self):
        self.build(f"node {{ sh {script('sleep 60')} }}")
        controller = self.start("run")
        self.wait_until(lambda: self.launches(), "a launch")
        with open(f"{TOP}/docs/USING.md", encoding="utf-8") as page:
            names, kill = re.findall(r"`((?:ps|kill) [^`]*)`", page.read().split("**To end a step**")[1])[:2]
        named = subprocess.run(names, shell=True, capture_output=True, text=True, check=True).stdout
        [pid] = [line.split()[0] for line in named.splitlines() if self.room in line]
        subprocess.run(kill.replace("PID", pid), shell=True, check=True)
        log, _ = controller.communicate(timeout=PATIENCE)
        self.assertIn(b"ERROR: script returned exit code 143\n", log)

    def test_answers_are_read_while_a_task_runs(self):
        self.build(f"parallel(a: {{ node {{ sh {script('sleep 5', 'touch ROOM/ended')} }} }}, b: {{ input 'on?' }})")
        controller = self.start("run", stdin=subprocess.PIPE)
        controller.stdin.write(b"proceed 2 by ann\n")
        controller.stdin.flush()
        self.wait_until(lambda: b"Approved by ann\n" in self.ran("log")[0], "the answer in the log")
        self.assertFalse(os.path.exists(f"{self.room}/ended"))
        controller.communicate()
        self.assertEqual(controller.returncode, 0)

    def test_shell_steps_of_branches_run_at_the_same_time(self):
        wait = "i=0; until test -e ROOM/{}; do i=$((i+1)); test $i -lt 200 || exit 9; sleep 0.1; done"
        step_a, step_b = (f"sh {script('touch ROOM/' + own, wait.format(other))}" for own, other in (("a", "b"), ("b", "a")))
        self.build(f"parallel(a: {{ node('m') {{ {step_a} }} }}, b: {{ node('m2') {{ {step_b} }} }})", agents=("m", "m2"))
        self.ends("run", 0, "Finished: SUCCESS")

    def test_shell_steps_of_branches_behind_other_steps_run_at_the_same_time(self):
        wait = "i=0; until test -e ROOM/{}; do i=$((i+1)); test $i -lt 200 || exit 9; sleep 0.1; done"
        step_a, step_b = (f"sh {script('touch ROOM/' + own, wait.format(other))}" for own, other in (("a", "b"), ("b", "a")))
        branches = f"parallel(a: {{ node('m') {{ {step_a} }} }}, b: {{ node('m2') {{ {step_b} }} }})"
        self.build(f"node('m') {{ sh 'true' }}\nnode('m') {{ sh 'sleep 0.3'; sh 'true' }}\n{branches}", agents=("m", "m2"))
        self.ends("run", 0, "Finished: SUCCESS")

    def test_two_builds_that_share_an_agent_run_at_the_same_time(self):
        controllers = []
        for own, other in (("a", "b"), ("b", "a")):
            wait = f"i=0; until test -e ROOM/{other}; do i=$((i+1)); test $i -lt 200 || exit 9; sleep 0.1; done"
            self.build(f"node {{ sh {script('touch ROOM/' + own, wait, 'pwd')} }}")
            os.rename(self.folder, f"{self.room}/build-{own}")
            self.put(f"build-{own}/agents.json", json.dumps({"job": own, "agents": [{"name": "m", "root": self.agent, "executors": 1}]}))
            words = [PROGRAM, "run", f"{self.room}/build-{own}"]
            controllers.append(subprocess.Popen(words, stdin=subprocess.DEVNULL, stdout=subprocess.PIPE))
        for own, controller in zip("ab", controllers):
            log, _ = controller.communicate(timeout=PATIENCE)
            self.assertEqual((controller.returncode, log.count(f"{self.agent}/workspace/{own}\n".encode())), (0, 2), log)

    def test_control_folders_go_when_their_steps_have_ended(self):
        self.build("node { sh 'true'; sh script: 'false', returnStatus: true }")
        self.ends("run", 0, "Finished: SUCCESS")
        self.assertEqual(os.listdir(f"{self.workspace}@tmp"), [])

    def test_a_build_that_is_begun_anew_takes_no_result_of_the_earlier_one(self):
        self.build(f"node {{ sh {script('sleep 0.5', 'exit 3')} }}")
        self.killed_at_launch(1)
        self.wait_until(lambda: self.has_result(2), "the task's result")
        os.remove(f"{self.folder}/program.dat")
        self.build(f"node {{ sh {script('echo anew')} }}")
        self.ends("run", 0, "anew", "Finished: SUCCESS")
        self.assertEqual(len(self.launches()), 2)

    def test_an_agent_whose_root_cannot_be_made_ends_the_step_with_minus_2_and_says_why(self):
        self.put("agent", "a file in the place of a folder")
        self.build(f"node {{ sh {script('echo never')} }}")
        ran = subprocess.run([PROGRAM, "run", self.folder], stdin=subprocess.DEVNULL, capture_output=True, check=False)
        self.assertEqual(ran.returncode, 1)
        self.assertIn(b"ERROR: script returned exit code -2\n", ran.stdout)
        self.assertIn(f"controller: task 2 in {self.workspace} was not launched: ".encode(), ran.stderr)
        self.assertEqual(self.launches(), [])


class Page(Shell):
    """The commands of docs/USING.md for a shell."""

    def block(self, word):
        """The block for a shell that has this word, with the names of this trial."""
        with open(f"{TOP}/docs/USING.md", encoding="utf-8") as page:
            [found] = [block for block in re.findall(r"^```sh\n(.*?)^```$", page.read(), re.M | re.S) if word in block]
        for name, value in (("./controller", LAUNCHER), ("DIR", self.folder), ("ROOT", self.agent), ("JOB", "trial")):
            found = found.replace(name, value)
        return found

    def sh(self, commands):
        return subprocess.run(["sh", "-c", commands], cwd=TOP, stdin=subprocess.DEVNULL, capture_output=True, text=True, check=False)

    def test_a_nightly_job_goes_on_with_a_build_and_the_next_night_begins_another(self):
        self.build(f"node {{ sh {script('sleep 1')}; sh {script('exit 3')} }}")
        self.killed_at_launch(1)
        for night in (1, 2):
            ran = self.sh(self.block("resume"))
            self.assertEqual(ran.returncode, 1, ran.stderr)
            with open(f"{self.folder}/log", encoding="utf-8") as log:
                self.assertIn("\nERROR: script returned exit code 3\nFinished: FAILURE\n", log.read())
            self.assertEqual(len(self.launches()), 2 * night)
        self.assertEqual(sorted(os.listdir(self.folder)), ["Jenkinsfile", "agents.json", "builds", "log", "program.lock"])
        self.assertEqual(sorted(os.listdir(f"{self.folder}/builds")), ["1", "2"])

    def test_a_nightly_job_that_gets_no_log_keeps_the_earlier_one_and_says_why(self):
        self.build(f"node {{ sh {script('true')} }}; input 'on?'")
        self.assertEqual(self.sh(self.block("resume")).returncode, 3)
        with open(f"{self.folder}/log", encoding="utf-8") as file:
            log = file.read()
        os.truncate(f"{self.folder}/program.dat", os.path.getsize(f"{self.folder}/program.dat") - 1)
        for launcher, status, told in ((LAUNCHER, 9, "program.dat: damaged at "), ("/none", 127, "")):
            ran = self.sh(self.block("resume").replace(LAUNCHER, launcher))
            self.assertEqual((ran.returncode, told in ran.stderr), (status, True), ran.stderr)
            with open(f"{self.folder}/log", encoding="utf-8") as file:
                self.assertEqual(file.read(), log)

    def test_the_lines_of_the_page_for_cron_run_the_script_of_the_job(self):
        with open(f"{TOP}/docs/USING.md", encoding="utf-8") as page:
            [table] = re.findall(r"^```crontab\n(.*?)^```$", page.read(), re.M | re.S)
        self.build("echo 'on'")
        self.put("nightly.sh", self.block("resume"))
        for night, line in enumerate(table.splitlines(), 1):
            command = re.fullmatch(r"(?:@reboot|\S+ \S+ \* \* \*) (.*)", line)[1]
            self.assertEqual(self.sh(command.replace("/srv/controller", self.room)).returncode, 0)
            self.assertTrue(os.path.exists(f"{self.folder}/builds/{night}/log"))

    def unit(self):
        """The lines of the page's unit, with the names of this trial."""
        with open(f"{TOP}/docs/USING.md", encoding="utf-8") as page:
            [lines] = re.findall(r"^```ini\n\[Service\]\n(.*?)^```$", page.read(), re.M | re.S)
        for name, value in (("./controller", LAUNCHER), ("DIR", "build"), ("/srv/controller", self.room), ("/srv", self.room)):
            lines = lines.replace(name, value)
        return dict(line.split("=", 1) for line in lines.splitlines())

    def start_unit(self, unit):
        """The main process of the unit, as systemd starts it, but for `Type=` and `User=`."""
        kind, log = unit["StandardOutput"].split(":")
        files = {"null": os.devnull}
        with open(files[unit["StandardInput"]], "rb") as stdin, open(log, {"truncate": "wb", "append": "ab"}[kind]) as stdout:
            words = shlex.split(unit["ExecStart"])
            return subprocess.Popen(words, cwd=unit["WorkingDirectory"], stdin=stdin, stdout=stdout, start_new_session=True)

    def test_a_unit_is_stopped_without_its_tasks_and_goes_on_with_them_at_the_next_start(self):
        unit = self.unit()
        self.build(f"node {{ sh {script('sleep 2', 'echo slept')} }}; input 'on?'")
        process = self.start_unit(unit)
        self.wait_until(lambda: self.launches(), "a launch")
        self.assertEqual(unit["KillMode"], "process")
        process.terminate()
        self.assertEqual(process.wait(), -signal.SIGTERM)
        # What the log of the stopped controller had is not kept.
        self.put("shop.log", "an older log\n" * 100)
        self.assertIn(self.start_unit(unit).wait(), map(int, unit["SuccessExitStatus"].split()))
        log = self.ends("log", 0, "slept", "on?", "Proceed or Abort")
        with open(f"{self.room}/shop.log", "rb") as kept:
            self.assertEqual(kept.read(), log)
        self.assertEqual(len(self.launches()), 1)
        tried = {"WorkingDirectory", "ExecStart", "StandardInput", "StandardOutput", "KillMode", "SuccessExitStatus"}
        self.assertEqual({*unit} - {"Type", "User"}, tried)

    def test_a_nightly_job_beside_another_controller_leaves_that_alone(self):
        self.build(f"node {{ sh {script('sleep 2', 'echo slept')} }}")
        first = self.start("run")
        self.wait_until(lambda: self.launches(), "a launch")
        self.assertEqual(self.sh(self.block("resume")).returncode, 5)
        self.assertFalse(os.path.exists(f"{self.folder}/log"))
        self.assertIn(b"slept\n", first.communicate()[0])

    def test_what_is_begun_anew_finds_nothing_of_the_earlier_build(self):
        self.build(f"node {{ sh {script('exit 3')}; }}")
        self.assertEqual(self.ran("run")[1], 1)
        os.makedirs(f"{self.workspace}@tmp/durable-00000002")
        self.assertEqual(self.sh(self.block("rm -rf")).returncode, 0)
        self.assertFalse(os.path.exists(f"{self.workspace}@tmp"))
        self.assertEqual(self.ran("run")[1], 1)
        self.assertEqual(len(self.launches()), 2)


class Demo(unittest.TestCase):
    """The demonstration of kills in examples/crash."""

    def test_it_ends_as_its_page_says(self):
        words = [f"{TOP}/examples/crash/demo", "--seed", "1", "--kills", "4", "--program", PROGRAM]
        ran = subprocess.run(words, capture_output=True, text=True, check=False)
        self.assertEqual(ran.returncode, 0, ran.stdout + ran.stderr)
        self.assertIn("each of the 9 shell steps was launched once\n", ran.stdout)


class Readers(Shell):
    """Whoever reads beside a controller that is at work."""

    def test_each_log_beside_it_begins_the_next_one(self):
        lines = "; ".join(f"echo line {i}; sleep 0.05" for i in range(40))
        self.build(f"node {{ sh '#!/bin/sh\\n{lines}'; sh 'echo next' }}")
        controller = self.start("run")
        logs = []
        while controller.poll() is None:
            log, status = self.ran("log")
            self.assertIn((status, log if status else b""), ((0, b""), (9, b"program.dat: no build\n"), (9, log)))
            if status == 9 and logs:
                self.assertRegex(log, rb"^program.dat: damaged at \d+\n$")
            if status == 0:
                logs.append(log)
        whole, _ = controller.communicate()
        self.assertEqual(controller.returncode, 0)
        for earlier, later in zip(logs, [*logs[1:], whole]):
            self.assertTrue(later.startswith(earlier))
        self.assertGreater(len(set(logs)), 5)

    def test_follow_prints_the_log_while_tasks_run_and_ends_with_the_build(self):
        lines = "; ".join(f"echo line {i}; sleep 0.1" for i in range(20))
        self.build(f"node {{ sh '#!/bin/sh\\n{lines}'; sh 'exit 3' }}")
        controller = self.start("run")
        # By the records only: the program is not there.
        words = [f"{TOP}/tools/follow", "--program", f"{self.room}/none", self.folder]
        following = subprocess.Popen(words, stdout=subprocess.PIPE, bufsize=0)
        before_the_end = following.stdout.readline()
        self.assertIsNone(controller.poll())
        rest, _ = following.communicate(timeout=PATIENCE)
        log, _ = controller.communicate()
        self.assertEqual((before_the_end + rest, following.returncode), (log, 1))

    def test_the_picture_of_a_build_marks_the_shell_step_that_failed(self):
        self.build("node { stage('Build') { sh 'true' }; stage('Test') { sh 'exit 3' } }")
        log = self.ends("run", 1, "ERROR: script returned exit code 3")
        self.put("log", log.decode())
        graph, _ = self.ran("graph")
        drawn = subprocess.run([f"{TOP}/tools/graph", "--log", f"{self.room}/log"], input=graph, capture_output=True, check=True)
        self.assertIn("\u2717 Test", drawn.stdout.decode())
        self.assertIn("\u2717 sh", drawn.stdout.decode())
        self.assertNotIn("\u2717 Build", drawn.stdout.decode())


if __name__ == "__main__":
    parser = argparse.ArgumentParser(description=__doc__.splitlines()[0])
    parser.add_argument("--program", default=PROGRAM)
    given, words = parser.parse_known_args()
    PROGRAM = os.path.abspath(given.program)
    if not os.access(PROGRAM, os.X_OK):
        print(f"shell_trials: {PROGRAM} is not there: './controller build' makes it", file=sys.stderr)
        sys.exit(125)
    unittest.main(argv=[sys.argv[0], *words])
