#!/usr/bin/env python3
"""Tries steps on other machines and in containers: `tools/elsewhere_trials.py [--program PROGRAM] [--kills N] [TRIAL..]`.

It takes the built program, or the one that it is given, and the files of `library/launch` with the real thing on this machine: Slurm
with two nodes, `sshd` on the loopback, `podman`, `bwrap`. As root it installs what it needs of Debian's packages; what is not to be had
is skipped, with the reason. A task that was launched leaves its name, which is unique in its build, in its workspace. Nothing of this
is proved.
"""
import argparse
import glob
import json
import os
import random
import re
import shutil
import signal
import subprocess
import sys
import tempfile
import time
import unittest

import engines
import shell_trials
from shell_trials import PROGRAM, Shell

TOP = os.path.dirname(os.path.dirname(os.path.realpath(__file__)))
# How often a controller is killed.
KILLS = 100
# Seconds until something has to have come on a busy machine.
PATIENCE = 150
# Seconds within which a lost task is told, by what the pages say, on a machine that is not busy.
SOON = 10
LAUNCHED = 'folder=${0%/*}; echo "${folder##*/}" >> "$WORKSPACE/launches"'


def script(*lines):
    """A shell step that leaves its name and is not traced."""
    return "'''" + "\n".join(["#!/bin/sh", LAUNCHED, *lines]) + "\n'''"


# Until somebody puts a file `go` into the workspace.
HELD = 'until test -e "$WORKSPACE/go"; do sleep 0.1; done'


class Elsewhere(Shell):
    """A folder with a build, and two agents `linux` and `big` whose roots have a program `launch`."""

    # The file of library/launch, the engine, and what a step calls to tell where it is.
    way = engine_of = tells_place = None

    @classmethod
    def setUpClass(cls):
        room = tempfile.TemporaryDirectory(prefix="controller-elsewhere-", ignore_cleanup_errors=True)
        cls.addClassCleanup(room.cleanup)
        try:
            cls.engine = cls.engine_of(room.name)
        except engines.Missing as reason:
            raise unittest.SkipTest(str(reason)) from reason
        cls.addClassCleanup(cls.engine.close)

    def setUp(self):
        super().setUp()
        os.chmod(self.room, 0o755)
        for agent in ("linux", "big"):
            os.makedirs(self.root(agent))
            shutil.copy(f"{TOP}/library/launch/{self.way}", f"{self.root(agent)}/launch")
            self.put(f"{agent}/launch.options", "\n".join(self.options(agent)) + "\n")

    def root(self, agent="linux"):
        return f"{self.room}/{agent}"

    def options(self, agent):
        """The words of the agent's file `launch.options`."""
        raise NotImplementedError

    def place(self, agent):
        """What `tells_place` prints of a step on this agent."""
        raise NotImplementedError

    def prepare(self, text, executors=1):
        sites = [{"name": name, "root": self.root(name), "executors": executors} for name in ("linux", "big")]
        self.put("build/Jenkinsfile", text)
        self.put("build/agents.json", json.dumps({"job": "trial", "agents": sites}))

    def environment(self):
        return engines.environment(self.engine.variables)

    def start(self, command, **how):
        return super().start(command, env=self.environment(), **how)

    def ran(self, command, **variables):
        words, environment = [shell_trials.PROGRAM, command, self.folder], {**self.environment(), **variables}
        run = subprocess.run(words, stdin=subprocess.DEVNULL, capture_output=True, env=environment, timeout=PATIENCE, check=False)
        self.said = run.stderr.decode()
        return run.stdout, run.returncode

    def ends(self, command, status, *lines):
        try:
            return super().ends(command, status, *lines)
        except AssertionError as reason:
            raise AssertionError(f"{reason}\nstandard error:\n{self.said}") from reason

    def wait_until(self, came, what):
        until = time.monotonic() + PATIENCE
        while not came():
            self.assertLess(time.monotonic(), until, what)
            time.sleep(0.02)

    def launches(self):
        """The names that tasks left, in all workspaces."""
        names = []
        for path in glob.glob(f"{self.room}/*/workspace/*/launches"):
            with open(path, encoding="utf-8") as file:
                names += file.read().split()
        return names

    def control(self, task=2, agent="linux"):
        return f"{self.root(agent)}/workspace/trial@tmp/durable-{task:08x}"

    def has_result(self, task=2):
        return os.path.exists(f"{self.control(task)}/jenkins-result.txt")

    def release(self, agent="linux"):
        """Lets a held task go on."""
        self.put(f"{agent}/workspace/trial/go", "")

    def launch(self, order, folder, **variables):
        """The status of a call of the agent's program."""
        words, environment = [f"{self.root()}/launch", order, folder], {**self.environment(), **variables}
        run = subprocess.run(words, stdin=subprocess.DEVNULL, capture_output=True, env=environment, timeout=PATIENCE, check=False)
        return run.returncode

    def hand_made(self, commands, task=2):
        """A control folder whose task takes the permit and does this."""
        place = f"linux/workspace/trial@tmp/durable-{task:08x}"
        folder = f"{self.room}/{place}"
        for name in ("build-0123456789abcdef0123456789abcdef", "permit", "script.sh"):
            self.put(f"{place}/{name}", "")
        self.put(f"{place}/task", f"#!/bin/sh\nmv '{folder}/permit' '{folder}/started' || exit\n{commands}\n")
        os.chmod(f"{folder}/task", 0o755)
        return folder

    def held_build(self, *lines, behind=""):
        """A controller at work on a build whose first step waits for a file; it runs, and what it wrote first was read."""
        self.prepare(f"node('linux') {{ sh {script('echo before', HELD, *lines)}{behind} }}")
        controller = self.start("run")
        self.wait_until(lambda: b"before\n" in self.ran("log")[0], "what the step wrote first")
        self.assertTrue(os.path.exists(f"{self.control()}/task"), "the step was not handed over")
        return controller

    def processes(self, folder):
        """The processes of this machine with the task's folder among their words, but for the controller's own."""
        found = []
        for path in glob.glob("/proc/[0-9]*/cmdline"):
            try:
                with open(path, "rb") as file:
                    words = file.read().decode(errors="replace").split("\0")
            except OSError:
                continue
            if any(word.startswith(folder) for word in words) and not any(word.endswith("/launch") for word in words):
                found.append(int(path.split("/")[2]))
        return found


class Page:
    """The section of docs/USING.md, typed word by word, with this trial's folder in place of its own."""

    # Which block of the section makes the roots, and the agent of its own that is named there.
    block = own_agent = None

    def typed(self, commands):
        names = {"/srv/ci": f"{self.room}/ci", "./controller": shell_trials.PROGRAM, "DIR": self.folder}
        for name, own in names.items():
            commands = commands.replace(name, own)
        run = subprocess.run(["sh", "-ec", commands], cwd=TOP, stdin=subprocess.DEVNULL, capture_output=True, text=True,
                             env=self.environment(), timeout=PATIENCE, check=False)
        self.assertEqual(run.returncode, 0, run.stdout + run.stderr)
        return run.stdout

    def section(self):
        with open(f"{TOP}/docs/USING.md", encoding="utf-8") as page:
            return page.read().split("### Run on other machines\n")[1].split("\n### ")[0]

    def blocks(self, kind="sh"):
        return re.findall(rf"^```{kind}\n(.*?)^```$", self.section(), re.M | re.S)

    def agents_of_the_page(self):
        """The text of an agents file for the roots that the block makes."""
        sites = [{"name": self.own_agent, "root": "/srv/ci/" + self.own_agent, "executors": 2}]
        return json.dumps({"job": "shop", "agents": sites})

    def test_the_page_can_be_followed_word_by_word(self):
        self.typed(self.blocks()[self.block])
        self.name_the_machine()
        self.put("build/agents.json", self.agents_of_the_page().replace("/srv/ci", f"{self.room}/ci"))
        self.put("build/Jenkinsfile", f"node('{self.own_agent}') {{ sh 'set +x; {self.tells_place}' }}")
        self.assertIn(self.place(self.own_agent), self.typed(self.blocks()[1].splitlines()[0]).splitlines())

    def name_the_machine(self):
        """Puts the words of the trial's engine in place of those of the page, where it has another machine."""


class Clauses:
    """What each engine shows."""

    def test_the_usual_pipeline_runs_with_two_agents_elsewhere(self):
        tells = self.tells_place
        self.prepare(f"""
node('linux') {{
    stage('Build') {{
        sh 'echo 1.4 > VERSION; {tells}'
        def version = sh(script: 'cat VERSION', returnStdout: true).trim()
        echo "built ${{version}}"
    }}
}}
stage('Test') {{
    parallel(
        unit: {{ node('linux') {{ withEnv(['MODE=it is "a" test']) {{ sh 'set +x; echo "$MODE" of $JOB_NAME' }} }} }},
        web: {{ node('big') {{ dir('sub') {{ sh 'set +x; pwd; {tells}' }} }} }}
    )
}}
node('big') {{
    echo "status ${{sh(script: 'exit 3', returnStatus: true)}}"
    sh 'exit 7'
}}
""")
        log = self.ends("run", 1, self.place("linux"), "built 1.4", "status 3", "ERROR: script returned exit code 7", "Finished: FAILURE")
        for line in ('it is "a" test of trial', f"{self.root('big')}/workspace/trial/sub", self.place("big")):
            self.assertIn(line, log.decode().splitlines())
        self.assertEqual(self.left_behind(), [])

    def left_behind(self):
        """The control folders that stand when their build has ended."""
        return glob.glob(f"{self.room}/*/workspace/*@tmp/*")

    def test_output_comes_while_the_step_runs(self):
        controller = self.held_build("echo behind")
        self.assertFalse(self.has_result())
        self.release()
        log, _ = controller.communicate(timeout=PATIENCE)
        self.assertEqual((controller.returncode, log.count(b"before\n"), log.count(b"behind\n")), (0, 1, 1))

    def test_a_controller_that_is_killed_in_a_step_goes_on_with_it(self):
        self.kill(self.held_build("echo behind", "exit 5"))
        self.assertFalse(self.has_result())
        self.release()
        log = self.ends("resume", 1, "before", "behind", "ERROR: script returned exit code 5")
        self.assertEqual((log.count(b"before\n"), self.launches()), (1, ["durable-00000002"]))

    def test_a_step_that_ended_while_no_controller_ran_is_taken_as_it_ended(self):
        self.kill(self.held_build("echo behind", "exit 5", behind="; echo 'never'"))
        self.release()
        self.wait_until(self.has_result, "the result")
        self.ends("resume", 1, "before", "behind", "ERROR: script returned exit code 5")
        self.assertEqual(self.launches(), ["durable-00000002"])

    def test_a_task_that_is_lost_is_told_within_seconds(self):
        controller = self.held_build()
        self.assertEqual(self.launch("alive", self.control()), 0)
        self.lose()
        began = time.monotonic()
        said = controller.stderr.readline().decode()
        took = time.monotonic() - began
        self.assertIn(f"task 2 in {self.root()}/workspace/trial is lost", said)
        log, _ = controller.communicate(timeout=PATIENCE)
        self.assertEqual((controller.returncode, b"exit code -1\n" in log), (1, True), log)
        print(f"{type(self).__name__}: told as lost after {took:.1f} s", file=sys.stderr)
        if os.getloadavg()[0] < os.cpu_count():
            self.assertLess(took, SOON)

    def lose(self):
        """Ends all of the first task's processes at once, as a machine does that fails."""
        for process in self.processes(self.control()):
            try:
                os.kill(process, signal.SIGKILL)
            except ProcessLookupError:
                pass

    def test_stop_ends_what_runs(self):
        """It is called as a user would: no command of the controller calls it yet."""
        controller = self.held_build()
        self.assertEqual(self.launch("stop", self.control()), 0)
        log, _ = controller.communicate(timeout=PATIENCE)
        self.assertRegex(log.decode(), r"ERROR: script returned exit code (-1|143)\n")
        self.assertEqual((controller.returncode, self.processes(self.control()), self.launches()), (1, [], ["durable-00000002"]))

    def test_two_starts_for_a_folder_are_one_task_of_which_both_are_known(self):
        folder = self.hand_made("sleep 300")
        self.assertEqual((self.launch("start", folder), self.launch("start", folder)), (0, 0))
        self.wait_until(lambda: os.path.exists(f"{folder}/started"), "the task")
        self.assertEqual((self.launch("alive", folder), self.launch("stop", folder)), (0, 0))
        self.wait_until(lambda: self.launch("alive", folder) == 1, "the end of both")

    def test_a_start_that_fails_is_told_with_its_reason(self):
        words, reason = self.wrong_options()
        self.put("linux/launch.options", "\n".join(words) + "\n")
        self.prepare(f"node('linux') {{ sh {script('echo never')} }}")
        self.ends("run", 1, "ERROR: script returned exit code -2")
        self.assertIn(reason, self.said)
        self.assertEqual(self.launches(), [])

    def tells_of_the_environment(self):
        """What a step finds of a secret in the controller's environment, and of a variable of its own."""
        self.prepare("node('linux') { withEnv(['MODE=its own']) { sh 'set +x; echo ${TOKEN-no secret}, $MODE' } }")
        log, status = self.ran("run", TOKEN="a1b2")
        self.assertEqual(status, 0, self.said)
        return [line for line in log.decode().splitlines() if line.endswith(", its own")]

    def test_what_a_step_has_of_the_controllers_environment_is_what_the_page_says(self):
        self.assertEqual(self.tells_of_the_environment(), ["no secret, its own"])

    def test_32_steps_at_once_run_on_eight_executors_once_each(self):
        step = script('echo "step $N"', 'sleep 0.2')
        branches = ", ".join(f"b{n}: {{ node('linux || big') {{ withEnv(['N={n}']) {{ sh {step} }} }} }}" for n in range(32))
        self.prepare(f"parallel({branches})", executors=4)
        log = self.ends("run", 0, "Finished: SUCCESS").decode().splitlines()
        self.assertEqual(sorted(line for line in log if line.startswith("step ")), sorted(f"step {n}" for n in range(32)))
        self.assertEqual((len(self.launches()), len(set(self.launches()))), (32, 32))
        self.assertEqual(len(glob.glob(f"{self.room}/*/workspace/*/launches")), 8)


class Slurm(Clauses, Page, Elsewhere):
    """Jobs of a cluster with two nodes, one for each agent."""

    way, engine_of, tells_place = "slurm", engines.Cluster, "echo at $SLURMD_NODENAME"
    block, own_agent = 0, "linux"

    def test_an_answer_of_slurm_that_took_seconds_counts(self):
        folder = self.hand_made("exit")
        checksum = subprocess.run(["cksum"], input=folder.encode(), capture_output=True, check=True).stdout.decode().strip()
        self.put("slow/squeue", f"#!/bin/sh\nsleep 3\necho trial-00000002.{checksum.replace(' ', '-')}\n")
        os.chmod(f"{self.room}/slow/squeue", 0o755)
        self.assertEqual(self.launch("alive", folder, PATH=f"{self.room}/slow:{os.environ['PATH']}"), 0)

    def agents_of_the_page(self):
        [text] = self.blocks("jsonc")
        return text

    def test_the_page_names_a_way_to_see_the_jobs_and_one_to_end_a_step(self):
        self.typed(self.blocks()[0])
        self.put("build/agents.json", self.agents_of_the_page().replace("/srv/ci", f"{self.room}/ci"))
        self.put("build/Jenkinsfile", "node('linux') { sh 'sleep 1000' }")
        controller = self.start("run")
        self.wait_until(lambda: self.jobs("R"), "a job that runs")
        run, look = self.blocks()[1].splitlines()
        self.assertRegex(self.typed(look), r"shop-00000002\.[0-9]+-[0-9]+ RUNNING linux\n")
        [end] = re.findall(r"`(/srv/ci/\S+ stop [^`]*)`", self.section())
        self.typed(end)
        log, _ = controller.communicate(timeout=PATIENCE)
        self.assertEqual((run, controller.returncode, b"exit code -1\n" in log), ("./controller run DIR", 1, True))

    def options(self, agent):
        return ["# The node of this agent", f"--constraint={'bigmem' if agent == 'big' else agent}"]

    def place(self, agent):
        return f"at {agent}"

    def wrong_options(self):
        return ["--partition=none"], "invalid partition specified: none"

    def test_what_a_step_has_of_the_controllers_environment_is_what_the_page_says(self):
        self.assertEqual(self.tells_of_the_environment(), ["a1b2, its own"])
        self.begin_anew()
        with open(f"{TOP}/docs/USING.md", encoding="utf-8") as page:
            [words] = re.findall(r"`(--export=[^`]*)` among its words", page.read())
        self.put("linux/launch.options", f"{words}\n")
        self.assertEqual(self.tells_of_the_environment(), ["no secret, its own"])

    def jobs(self, *states):
        """The jobs in these states."""
        return self.engine.says("squeue", "--noheader", f"--states={','.join(states)}", "--format=%i").split()

    def lose(self):
        with open(f"{self.control()}/process", encoding="utf-8") as file:
            task = int(file.read().split()[0])
        self.addCleanup(self.engine.start_node, "linux")
        self.engine.lose("linux", task)

    def closed(self):
        """No job begins any more, until the end of the trial or `open`."""
        self.addCleanup(self.open)
        self.engine.says("scontrol", "update", "PartitionName=build", "State=DOWN")

    def open(self):
        self.engine.says("scontrol", "update", "PartitionName=build", "State=UP")

    def queued(self):
        """A build whose first step waits in the queue, and its controller."""
        self.closed()
        self.prepare(f"node('linux') {{ sh {script('echo ran')} }}")
        controller = self.start("run")
        self.wait_until(lambda: self.jobs("PD"), "a job in the queue")
        return controller

    def of_another_boot(self, name):
        """Has the task's permit tell of another boot than this, as where the controller's machine was started again."""
        with open(f"{self.control()}/{name}", "r+", encoding="utf-8") as file:
            _, processes = file.read().split()
            file.seek(0)
            file.truncate()
            file.write(f"01234567-89ab-cdef-0123-456789abcdef {processes}\n")

    def test_a_job_that_runs_while_the_controllers_machine_comes_back_is_waited_for(self):
        self.kill(self.held_build("echo behind"))
        self.of_another_boot("started")
        controller = self.start("resume")
        time.sleep(8)
        self.assertIsNone(controller.poll())
        self.release()
        log, said = controller.communicate(timeout=PATIENCE)
        self.assertEqual((controller.returncode, log.count(b"behind\n"), said), (0, 1, b""), log)
        self.assertEqual(self.launches(), ["durable-00000002"])

    def test_a_job_in_the_queue_while_the_controllers_machine_comes_back_is_waited_for(self):
        self.kill(self.queued())
        self.of_another_boot("permit")
        controller = self.start("resume")
        time.sleep(8)
        self.assertEqual((controller.poll(), len(self.jobs("PD"))), (None, 1))
        self.open()
        log, said = controller.communicate(timeout=PATIENCE)
        self.assertEqual((controller.returncode, log.count(b"ran\n"), said), (0, 1, b""), log)
        self.assertEqual(self.launches(), ["durable-00000002"])

    def test_a_job_in_the_queue_of_a_controller_that_was_killed_runs_once(self):
        self.kill(self.queued())
        controller = self.start("resume")
        self.wait_until(lambda: len(self.jobs("PD")) == 2, "the job of the second life")
        self.open()
        log, said = controller.communicate(timeout=PATIENCE)
        self.assertEqual((controller.returncode, log.count(b"ran\n"), self.launches()), (0, 1, ["durable-00000002"]), said)
        self.wait_until(lambda: not self.jobs("PD", "R", "CG"), "the end of the other job")
        self.assertEqual(len(self.launches()), 1)

    def test_a_job_of_a_build_that_was_given_up_runs_no_step_of_the_next_one(self):
        self.kill(self.queued())
        for path in glob.glob(f"{self.folder}/program.*"):
            os.remove(path)
        self.prepare(f"node('linux') {{ sh {script('echo ran of the second')} }}")
        controller = self.start("run")
        self.wait_until(lambda: len(self.jobs("PD")) == 2, "the job of the next build")
        self.open()
        log, said = controller.communicate(timeout=PATIENCE)
        self.assertEqual((controller.returncode, log.count(b"ran of the second\n"), said), (0, 1, b""), log)
        self.wait_until(lambda: not self.jobs("PD", "R", "CG"), "the end of the other job")
        self.assertEqual(self.launches(), ["durable-00000002"])

    def test_stop_ends_a_job_in_the_queue(self):
        controller = self.queued()
        self.assertEqual((self.launch("alive", self.control()), self.launch("stop", self.control())), (0, 0))
        log, said = controller.communicate(timeout=PATIENCE)
        self.assertEqual((controller.returncode, self.jobs("PD", "R"), self.launches()), (1, [], []), said)
        self.assertIn(b"exit code -1\n", log)

    def stand_in(self, name, text):
        """A program that is found in place of one of Slurm's, which it may call by its path."""
        self.put(f"bin/{name}", f"#!/bin/sh\n{text}\n")
        os.chmod(f"{self.room}/bin/{name}", 0o755)
        return {"PATH": f"{self.room}/bin:{engines.PATH}"}

    def test_a_start_whose_answer_was_lost_went_well(self):
        folder = self.hand_made("sleep 1")
        lost = self.stand_in("sbatch", f'{engines.found("sbatch")} "$@"; echo "Socket timed out" >&2; exit 1')
        self.assertEqual((self.launch("start", folder, **lost), self.launch("alive", folder)), (0, 0))
        self.wait_until(lambda: self.launch("alive", folder) == 1, "the end of the job")

    def test_a_slurm_that_does_not_answer_is_no_word_that_a_job_is_gone(self):
        folder = self.hand_made("sleep 1")
        for text in ("exit 1", "sleep 60"):
            self.assertNotIn(self.launch("alive", folder, **self.stand_in("squeue", text)), (0, 1))

    def test_a_slurm_that_is_away_for_a_while_costs_no_step(self):
        controller = self.held_build("echo behind")
        self.engine.daemons.end("slurmctld")
        time.sleep(12)
        self.assertIsNone(controller.poll())
        self.engine.start_scheduler()
        self.release()
        log, said = controller.communicate(timeout=PATIENCE)
        self.assertEqual((controller.returncode, log.count(b"behind\n"), said), (0, 1, b""), log)
        self.assertEqual(self.launches(), ["durable-00000002"])

    def test_a_choice_of_the_user_what_lists_show_hides_no_job(self):
        folder = self.hand_made("sleep 5")
        self.assertEqual(self.launch("start", folder), 0)
        hides = {"SQUEUE_STATES": "FAILED", "SQUEUE_PARTITION": "none", "SQUEUE_NAMES": "none", "SQUEUE_FORMAT": "%i"}
        self.assertEqual(self.launch("alive", folder, **hides), 0)

    def test_slurm_is_asked_once_for_all_who_want_to_know(self):
        folders = [self.hand_made("sleep 20", task) for task in range(2, 10)]
        self.assertEqual([self.launch("start", folder) for folder in folders], [0] * 8)
        counting = self.stand_in("squeue", f'echo asked >> {self.room}/asked; exec {engines.found("squeue")} "$@"')
        environment = {**self.environment(), **counting}
        asking = [subprocess.Popen([f"{self.root()}/launch", "alive", folder], env=environment) for folder in folders * 4]
        self.assertEqual({one.wait() for one in asking}, {0})
        with open(f"{self.room}/asked", encoding="utf-8") as file:
            self.assertLess(len(file.readlines()), 8)
        self.assertEqual([self.launch("stop", folder) for folder in folders], [0] * 8)

    def test_nothing_is_launched_twice_in_many_kills(self):
        dice, kills = random.Random(1), 0
        while kills < KILLS:
            kills += self.kill_often(dice, KILLS - kills)
        print(f"Slurm: {kills} kills", file=sys.stderr)

    def kill_often(self, dice, limit):
        """Kills the controllers of one build until it has ended, or so often; each step was launched once. How often it was."""
        steps = "; ".join(f"sh {script('sleep 0.1')}" for _ in range(15))
        self.prepare(f"parallel({', '.join(f'b{n}: {{ node {{ {steps} }} }}' for n in range(4))})", executors=2)
        for kills in range(limit):
            controller = self.start(self.goes_on())
            try:
                controller.wait(dice.choice((0.05, 0.3, 1.0)) + dice.random() * 0.5)
            except subprocess.TimeoutExpired:
                self.kill(controller)
                continue
            break
        else:
            kills = limit
        self.ends(self.goes_on(), 0, "Finished: SUCCESS")
        self.assertEqual((len(self.launches()), len(set(self.launches()))), (60, 60))
        self.begin_anew()
        return kills

    def goes_on(self):
        """The command by which the build goes on: a kill may have come before its first event."""
        return "resume" if self.ran("log")[1] == 0 else "run"

    def begin_anew(self):
        for path in (self.folder, f"{self.root('linux')}/workspace", f"{self.root('big')}/workspace"):
            shutil.rmtree(path, ignore_errors=True)


class Ssh(Clauses, Page, Elsewhere):
    """A machine that is reached by ssh, with an account that is another one than the controller's where the trial may do so."""

    way, engine_of, tells_place = "ssh", engines.Sshd, "id -u"
    block, own_agent = 2, "build7"

    def name_the_machine(self):
        self.put("ci/build7/launch.options", "\n".join(self.engine.options()))
        if self.engine.is_other:
            self.put("ci/build7/launch.group", f"{self.engine.NUMBER}\n")

    def setUp(self):
        super().setUp()
        if self.engine.is_other:
            for agent in ("linux", "big"):
                self.put(f"{agent}/launch.group", f"{self.engine.NUMBER}\n")

    def options(self, agent):
        return self.engine.options()

    def place(self, agent):
        return str(self.engine.NUMBER if self.engine.is_other else os.geteuid())

    def wrong_options(self):
        [port] = engines.free_ports(1)
        return [f"-p{port}", "127.0.0.1"], "Connection refused"


class Containers(Clauses):
    """What containers of each engine show."""

    way, tells_place = "container", "cat /etc/image"

    def options(self, agent):
        return ["# The image of this agent", self.engine.image]

    def place(self, agent):
        return engines.IN_IMAGE

    def wrong_options(self):
        return self.engine.wrong()


class Bwrap(Containers, Elsewhere):
    """Containers by `bwrap`, where neither podman nor docker is to be had."""

    engine_of = engines.Sandbox

    def test_where_nothing_can_be_looked_for_nothing_is_known(self):
        self.assertEqual(self.launch("alive", self.hand_made("exit"), PATH="/nowhere"), 2)

    def test_the_root_of_an_agent_may_lie_below_a_folder_of_the_image(self):
        os.makedirs(f"{self.engine.image}/var/tmp/other", exist_ok=True)
        with tempfile.TemporaryDirectory(prefix="controller-", dir="/var/tmp") as below:
            shutil.move(self.root(), f"{below}/agent")
            self.prepare(f"node('linux') {{ sh '{self.tells_place}; ls /var/tmp' }}")
            self.put("build/agents.json", json.dumps({"job": "trial", "agents": [{"name": "linux", "root": f"{below}/agent", "executors": 1}]}))
            self.ends("run", 0, engines.IN_IMAGE, os.path.basename(below), "other", "Finished: SUCCESS")


class Podman(Containers, Page, Elsewhere):
    """Containers by `podman`."""

    engine_of = engines.Podman
    block, own_agent = 3, "debian"

    def name_the_machine(self):
        self.engine.says("tag", self.engine.image, "debian:12")


if __name__ == "__main__":
    parser = argparse.ArgumentParser(description=__doc__.splitlines()[0])
    parser.add_argument("--program", default=PROGRAM)
    parser.add_argument("--kills", type=int, default=KILLS)
    given, words = parser.parse_known_args()
    shell_trials.PROGRAM, KILLS = os.path.abspath(given.program), given.kills
    if not os.access(shell_trials.PROGRAM, os.X_OK):
        print(f"elsewhere_trials: {shell_trials.PROGRAM} is not there: './controller build' makes it", file=sys.stderr)
        sys.exit(125)
    unittest.main(argv=[sys.argv[0], *words])
