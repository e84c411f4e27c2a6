#!/usr/bin/env python3
"""Tries shell steps in the real world: `tools/edge_trials.py [--program PROGRAM] [--flips N] [TRIAL..]`.

It takes the built program, or the one that it is given. Builds that share a root, tasks that are lost, files that are no store, and
bytes that change in one: each trial stands in a folder of its own. `FullDisk` mounts a small file system and needs root; where it
cannot it says so. `Campaign` runs the tools of bench/ that need a C compiler, and only where it is named. Nothing of this is proved.
"""
import argparse
import os
import random
import signal
import subprocess
import sys
import time
import unittest

import shell_trials
from shell_trials import PROGRAM, Shell, script

TOP = os.path.dirname(os.path.dirname(os.path.realpath(__file__)))
NO_STORE = "program.dat is not a store of this program; it was left alone\n"
# How many bits are flipped, one at a time.
FLIPS = 300
# Seconds in which a lost task has to be told.
SOON = 20


class Edge(Shell):
    """A folder with a build, of which what the controller says on standard error is looked at."""

    def told(self, command, answers=b""):
        """What a command printed, its status, and what it said on standard error."""
        words = [shell_trials.PROGRAM, command, self.folder]
        ran = subprocess.run(words, input=answers, capture_output=True, timeout=60, check=False)
        return ran.stdout, ran.returncode, ran.stderr.decode()

    def control(self, task):
        return f"{self.workspace}@tmp/durable-{task:08x}"

    def read(self, path):
        with open(path, encoding="utf-8") as file:
            return file.read()


class Identity(Edge):
    """Builds that share a root, and the folders of their tasks."""

    def another_build(self, *steps):
        """A second build of the same job on the same root, in a folder of its own."""
        os.rename(self.folder, f"{self.room}/first")
        self.build("node { " + "; ".join(steps) + " }")

    def test_a_build_does_not_take_the_result_of_another_one(self):
        self.build(f"node {{ sh {script('echo one of the first')}; sh {script('sleep 1; echo two of the first')} }}")
        self.killed_at_launch(2)
        self.wait_until(lambda: self.has_result(3), "the first build's second result")
        self.another_build(f"sh {script('sleep 1; echo one of the second')}", f"sh {script('echo two of the second')}")
        self.killed_at_launch(3)
        log = self.ends("resume", 0, "one of the second", "two of the second", "Finished: SUCCESS")
        self.assertNotIn(b"of the first", log)
        self.assertEqual(len(self.launches()), 4)

    def test_a_task_of_another_build_that_runs_is_left_alone(self):
        self.build(f"node {{ sh {script('sleep 3; echo theirs')} }}")
        self.killed_at_launch(1)
        self.another_build(f"sh {script('echo never')}")
        log, status, told = self.told("run")
        self.assertEqual((status, b"exit code -2\n" in log), (1, True), log)
        self.assertIn("another build left a control folder", told)
        os.rename(self.folder, f"{self.room}/second")
        os.rename(f"{self.room}/first", self.folder)
        self.ends("resume", 0, "theirs")
        self.assertEqual(len(self.launches()), 1)

    def test_a_build_keeps_its_identity_and_one_begun_anew_has_another(self):
        self.build("input 'on?'")
        self.assertEqual(self.ran("run")[1], 3)
        identity = self.read(f"{self.folder}/program.lock")
        self.assertRegex(identity, r"\A[0-9a-f]{32}\n\Z")
        self.assertEqual(self.ran("resume")[1], 3)
        self.assertEqual(self.ran("run")[1], 9)
        self.assertEqual(self.read(f"{self.folder}/program.lock"), identity)
        os.remove(f"{self.folder}/program.dat")
        self.assertEqual(self.ran("run")[1], 3)
        self.assertNotEqual(self.read(f"{self.folder}/program.lock"), identity)

    def test_a_store_from_before_there_were_identities_goes_on_with_its_folders(self):
        self.build(f"node {{ sh {script('sleep 1; echo slept')} }}; input 'on?'")
        self.killed_at_launch(1)
        self.wait_until(lambda: self.has_result(2), "the task's result")
        for name in ("program.lock", "program.sum"):
            os.remove(f"{self.folder}/{name}")
        for name in os.listdir(self.control(2)):
            if not name.startswith("jenkins") and name != "script.sh":
                os.remove(f"{self.control(2)}/{name}")
        log, status, _ = self.told("resume")
        self.assertEqual((status, log.count(b"slept\n")), (3, 1), log)
        self.assertEqual(len(self.launches()), 1)
        self.assertRegex(self.read(f"{self.folder}/program.lock"), r"\A[0-9a-f]{32} older\n\Z")

    def test_only_their_owner_may_read_a_store_and_a_control_folder(self):
        self.build(f"node {{ sh {script('sleep 1')} }}")
        self.killed_at_launch(1)
        files = [f"{self.folder}/program.{end}" for end in ("dat", "sum", "lock")]
        modes = [os.stat(path).st_mode & 0o777 for path in [*files, self.control(2), f"{self.control(2)}/script.sh"]]
        self.assertEqual(modes[:4], [0o600, 0o600, 0o600, 0o700])
        self.assertEqual(modes[4] & 0o077, 0)


class Permits(Edge):
    """Control folders as a controller leaves them that is stopped between the making of one and the start of its task."""

    def stopped(self, *permits):
        """A build that waits, behind which its first task's folder stands, with these files; resumed with the answer."""
        self.build(f"input 'on?'; node {{ sh {script('echo on')} }}")
        self.assertEqual(self.ran("run")[1], 3)
        os.makedirs(self.control(3), mode=0o700)
        identity = self.read(f"{self.folder}/program.lock").strip() if os.path.getsize(f"{self.folder}/program.lock") else ""
        for name, text in permits:
            self.put(f"agent/workspace/trial@tmp/durable-00000003/{name.replace('IDENTITY', identity)}", text)
        return self.told("resume", b"proceed 1 by ann\n")

    def boot(self):
        return self.read("/proc/sys/kernel/random/boot_id").strip()

    def assert_ran_once(self, ended):
        log, status, _ = ended
        self.assertEqual((status, log.count(b"\non\n")), (0, 1), log)
        self.assertEqual(len(self.launches()), 1)

    def test_a_folder_that_was_made_and_not_filled(self):
        self.assert_ran_once(self.stopped())

    def test_a_folder_that_names_its_build_and_has_no_permit_yet(self):
        self.assert_ran_once(self.stopped(("build-IDENTITY", ""), ("permit.tmp", "")))

    def test_a_folder_whose_permit_nobody_took(self):
        self.assert_ran_once(self.stopped(("build-IDENTITY", ""), ("permit", f"{self.boot()} -\n")))

    def test_a_folder_with_a_log_whose_permit_nobody_took(self):
        files = ("build-IDENTITY", ""), ("permit", f"{self.boot()} -\n"), ("jenkins-log.txt", "")
        self.assert_ran_once(self.stopped(*files))

    def test_a_folder_whose_permit_was_withdrawn(self):
        self.assert_ran_once(self.stopped(("build-IDENTITY", ""), ("revoked", f"{self.boot()} -\n"), ("jenkins-log.txt", "")))

    def test_a_permit_of_another_boot_is_not_used_again(self):
        log, status, _ = self.stopped(("build-IDENTITY", ""), ("permit", "another-boot -\n"))
        self.assertEqual((status, b"exit code -2\n" in log), (1, True), log)
        self.assertEqual(self.launches(), [])

    def test_a_process_that_comes_late_runs_nothing(self):
        self.build(f"node {{ sh {script('sleep 2; echo slept')} }}")
        self.killed_at_launch(1)
        self.wait_until(lambda: os.path.exists(f"{self.control(2)}/process"), "the task's number")
        number = self.read(f"{self.control(2)}/process").split()[0]
        words = self.read(f"/proc/{number}/cmdline").split("\0")[:-1]
        late = subprocess.run(words, check=False)
        self.assertNotEqual(late.returncode, 0)
        self.ends("resume", 0, "slept")
        self.assertEqual(len(self.launches()), 1)

    def test_a_step_whose_path_leads_nowhere_has_a_result(self):
        self.build("node { withEnv(['PATH=/none']) { sh 'echo on; exit 4' } }")
        self.ends("run", 1, "+ echo on", "on", "ERROR: script returned exit code 4")


class Lost(Edge):
    """Tasks that cannot come back."""

    def assert_told_soon(self, command, why):
        began = time.monotonic()
        log, status, told = self.told(command)
        self.assertLess(time.monotonic() - began, SOON)
        self.assertEqual((status, b"ERROR: script returned exit code -1\n" in log), (1, True), log)
        self.assertIn(why, told)
        self.assertEqual(len(self.launches()), 1)

    def killed_with_its_task(self):
        """A controller and all processes of its task, killed."""
        self.build(f"node {{ sh {script('sleep 600')} }}")
        self.killed_at_launch(1)
        self.wait_until(lambda: os.path.exists(f"{self.control(2)}/process"), "the task's number")
        os.killpg(int(self.read(f"{self.control(2)}/process").split()[0]), signal.SIGKILL)

    def test_a_task_that_was_killed_between_two_lives(self):
        self.killed_with_its_task()
        self.assert_told_soon("resume", "is lost: its shell is not there any more")

    def test_a_task_that_was_killed_while_its_controller_worked(self):
        self.build(f"node {{ sh {script('kill -9 $PPID; kill -9 $$')} }}")
        self.assert_told_soon("run", "is lost: its shell is not there any more")

    def test_a_machine_that_was_started_again(self):
        self.killed_with_its_task()
        _, processes = self.read(f"{self.control(2)}/started").split()
        self.put("agent/workspace/trial@tmp/durable-00000002/started", f"another-boot {processes}\n")
        self.put("agent/workspace/trial@tmp/durable-00000002/jenkins-result.txt", "")
        self.assert_told_soon("resume", "is lost: it was started before this machine was")

    def test_a_shell_that_left_no_number(self):
        forget = 'rm -f "$(dirname "$0")/process"'
        self.build(f"node {{ sh {script(forget, 'kill -9 $PPID', 'kill -9 $$')} }}")
        self.assert_told_soon("run", "is lost: its shell has ended")

    def test_a_silent_task_that_lives_is_waited_for(self):
        self.build(f"node {{ sh {script('sleep 8; echo slept')} }}")
        log, status, told = self.told("run")
        self.assertEqual((status, b"slept\n" in log, told), (0, True, ""))


class FullDisk(Edge):
    """An agent whose disk is full."""

    def test_a_task_whose_result_has_no_room(self):
        os.makedirs(self.agent)
        mounted = subprocess.run(["mount", "-t", "tmpfs", "-o", "size=64k", "tmpfs", self.agent], capture_output=True, check=False)
        if mounted.returncode != 0:
            self.skipTest("no file system can be mounted here")
        self.addCleanup(subprocess.run, ["umount", self.agent], check=True)
        self.build(f"node {{ sh {script('cat /dev/zero > fill; true')} }}")
        began = time.monotonic()
        log, status, told = self.told("run")
        self.assertLess(time.monotonic() - began, SOON)
        self.assertEqual((status, b"exit code -1\n" in log), (1, True), log)
        self.assertIn("is lost: its shell", told)


class NoStore(Edge):
    """Files at the place of a store."""

    def assert_refused(self, content, *commands):
        with open(f"{self.folder}/program.dat", "wb") as file:
            file.write(content)
        for command in commands:
            log, status, told = self.told(command)
            self.assertEqual((log, status), (b"controller: disk failed\n", 5), command)
            self.assertTrue(told.endswith(NO_STORE), told)
        with open(f"{self.folder}/program.dat", "rb") as file:
            self.assertEqual(file.read(), content)

    def test_what_is_no_store_is_left_alone(self):
        self.build("echo 'on'")
        for content in (b"a text\n", b"\1\0\0", b"\0\0\0\0\0\0\0\0\0x", bytes(range(2, 256)) * 40):
            self.assert_refused(content, "run", "resume", "log")

    def test_a_store_that_is_gone_is_no_build_whatever_its_sums_say(self):
        self.build("echo 'on'")
        self.assertEqual(self.ran("run")[1], 0)
        os.remove(f"{self.folder}/program.dat")
        for command in ("log", "resume"):
            self.assertEqual(self.told(command), (b"program.dat: no build\n", 9, ""))
        self.assertEqual(self.told("run")[1:], (0, ""))

    def test_a_store_whose_first_byte_changed_is_left_alone(self):
        self.build(f"node {{ sh {script('echo once')} }}")
        self.assertEqual(self.ran("run")[1], 0)
        with open(f"{self.folder}/program.dat", "rb") as file:
            store = file.read()
        for first in (0, 3, 0x81):
            self.assert_refused(bytes([first]) + store[1:], "run")
        self.assertEqual(len(self.launches()), 1)

    def test_a_first_write_that_was_cut_short_is_no_build(self):
        self.build("echo 'on'")
        self.assertEqual(self.ran("run")[1], 0)
        with open(f"{self.folder}/program.dat", "rb") as file:
            store = file.read()
        record = 6 + int.from_bytes(store[1:5], "big")
        for left in (b"\0", b"\1", b"\0" + store[1:3], b"\0" + store[1 : record - 7], b"\0" + store[1:record], bytes(5000)):
            for name in ("program.dat", "program.sum", "program.lock"):
                if os.path.exists(f"{self.folder}/{name}"):
                    os.remove(f"{self.folder}/{name}")
            with open(f"{self.folder}/program.dat", "wb") as file:
                file.write(left)
            self.assertEqual(self.ran("log"), (b"program.dat: no build\n", 9), left[:9])
            self.assertEqual(self.ran("run")[1], 0)


class Rot(Edge):
    """Bytes of a store that change."""

    def usual(self):
        """The usual build, ended, with its log; its agents and what it ships stand in the trial's folder."""
        for name in ("Jenkinsfile", "agents.json"):
            text = self.read(f"{TOP}/examples/usual/{name}")
            self.put(f"build/{name}", text.replace("/tmp/controller/usual", self.room))
        log, status = self.ran("run")
        self.assertEqual(status, 0, log)
        return log

    def test_no_flipped_bit_gives_another_log(self):
        log = self.usual()
        with open(f"{self.folder}/program.dat", "rb") as file:
            store = file.read()
        choose = random.Random(1)
        for _ in range(FLIPS):
            at, bit = choose.randrange(len(store)), choose.randrange(8)
            with open(f"{self.folder}/program.dat", "wb") as file:
                file.write(store[:at] + bytes([store[at] ^ 1 << bit]) + store[at + 1 :])
            given, status = self.ran("log")
            self.assertTrue(status != 0 or given == log, f"byte {at}, bit {bit}: {given!r}")

    def test_a_record_that_changed_is_named(self):
        self.usual()
        with open(f"{self.folder}/program.dat", "r+b") as file:
            first = 5 + int.from_bytes(file.read(5)[1:], "big")
            file.seek(first + 9)
            byte = file.read(1)[0]
            file.seek(first + 9)
            file.write(bytes([byte ^ 4]))
        for command in ("log", "graph", "resume"):
            _, status, told = self.told(command)
            self.assertEqual(status, 5)
            self.assertIn(f"the bytes of the record at {first} have changed since they were written\n", told)

    def test_sums_that_are_missing_or_short_are_made_anew(self):
        self.build("input 'on?'; input 'and on?'")
        self.assertEqual(self.told("run", b"proceed 1 by ann\n")[1], 3)
        with open(f"{self.folder}/program.sum", "rb") as file:
            sums = file.read()
        self.assertEqual(len(sums) % 32, 0)
        zeros = sums[:64] + bytes(len(sums) - 64)
        for left, lacking in ((None, len(sums) // 32 - 1), (sums[:50], len(sums) // 32 - 1), (sums[:-1], 1), (zeros, len(sums) // 32 - 2)):
            os.remove(f"{self.folder}/program.sum")
            if left is not None:
                with open(f"{self.folder}/program.sum", "wb") as file:
                    file.write(left)
            self.assertEqual(self.told("log")[1:], (0, ""))
            log, status, told = self.told("resume")
            self.assertEqual(status, 3, log)
            self.assertIn(f"records that had no sum: {lacking}; their sums were made anew\n", told)
            with open(f"{self.folder}/program.sum", "rb") as file:
                self.assertEqual(file.read(), sums)


@unittest.skipUnless(any(word.startswith("Campaign") for word in sys.argv), "it takes minutes, and is asked for by its name")
class Campaign(unittest.TestCase):
    """The tools of bench/ that need a C compiler."""

    def ends_well(self, *words):
        ran = subprocess.run([*words, "--program", shell_trials.PROGRAM], capture_output=True, text=True, check=False)
        self.assertEqual(ran.returncode, 0, ran.stdout + ran.stderr)

    def test_no_kill_right_before_a_call_costs_a_step(self):
        self.ends_well(f"{TOP}/bench/kills.py", "--calls")

    def test_no_power_cut_behind_a_sync_launches_a_task_twice(self):
        self.ends_well(f"{TOP}/bench/power.py")


if __name__ == "__main__":
    parser = argparse.ArgumentParser(description=__doc__.splitlines()[0])
    parser.add_argument("--program", default=PROGRAM)
    parser.add_argument("--flips", type=int, default=FLIPS)
    given, words = parser.parse_known_args()
    shell_trials.PROGRAM, FLIPS = os.path.abspath(given.program), given.flips
    if not os.access(shell_trials.PROGRAM, os.X_OK):
        print(f"edge_trials: {shell_trials.PROGRAM} is not there: './controller build' makes it", file=sys.stderr)
        sys.exit(125)
    unittest.main(argv=[sys.argv[0], *words])
