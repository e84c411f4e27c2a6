#!/usr/bin/env python3
"""How fast a chatty step fills the store: `bench/filling.py [--hour] [--lines N] [--seconds N] [--program PROGRAM]`.

It runs a build of one step that prints so many lines over so many seconds, and tells the size of the store ten times meanwhile,
and at the end the status, the bytes of the log, and those of the store for each of them.
"""
import argparse
import os
import subprocess
import tempfile
import time

TOP = os.path.dirname(os.path.dirname(os.path.realpath(__file__)))
PROGRAM = f"{TOP}/crates/jenkinsd/out/jenkinsd"
MOST = 1 << 30
# Each line has 60 bytes with its newline; behind some of them it pauses.
STEP = """#!/bin/sh
i=0
while [ $i -lt %d ]; do
  printf 'line %%09d of a step that tells of all that it has done\\\\n' $i
  i=$((i + 1))
  [ $((i %% %d)) -eq 0 ] && sleep %s
done
true"""


def script(lines, seconds):
    """A build of a step that prints so many lines over so many seconds, in some ten pieces a second at most."""
    at_once = max(1, round(lines / seconds / 10))
    return f"node {{ sh '''{STEP % (lines, at_once, at_once * seconds / lines)}''' }}\n"


def fill(program, at, lines, seconds):
    os.makedirs(f"{at}/build")
    with open(f"{at}/build/Jenkinsfile", "w", encoding="utf-8") as file:
        file.write(script(lines, seconds))
    with open(f"{at}/build/agents.json", "w", encoding="utf-8") as file:
        file.write('{"job": "fill", "agents": [{"name": "m", "root": "%s/agent", "executors": 1}]}' % at)
    began, told = time.monotonic(), 0
    child = subprocess.Popen([program, "run", f"{at}/build"], stdin=subprocess.DEVNULL, stdout=subprocess.DEVNULL)
    while child.poll() is None:
        if time.monotonic() - began >= told * seconds / 10:
            tell(began, at)
            told += 1
        time.sleep(0.1)
    tell(began, at)
    log = subprocess.run([program, "log", f"{at}/build"], stdout=subprocess.PIPE, check=False).stdout
    size = os.path.getsize(f"{at}/build/program.dat")
    print(f"status {child.returncode}; {len(log):,} bytes of the log; {size / max(1, len(log)):.1f} bytes of the store for each")


def tell(began, at):
    path = f"{at}/build/program.dat"
    size = os.path.getsize(path) if os.path.exists(path) else 0
    print(f"{time.monotonic() - began:7.1f} s  {size:13,} bytes, {size / MOST:6.1%} of the store", flush=True)


def main():
    parser = argparse.ArgumentParser(description=__doc__.splitlines()[0])
    parser.add_argument("--program", default=PROGRAM)
    parser.add_argument("--lines", type=int, default=20_000)
    parser.add_argument("--seconds", type=int, default=90)
    parser.add_argument("--hour", action="store_true", help="a line a second, for an hour")
    asked = parser.parse_args()
    if not os.access(asked.program, os.X_OK):
        raise SystemExit(f"{asked.program} is not there: './controller build' makes it")
    lines, seconds = (3600, 3600) if asked.hour else (asked.lines, asked.seconds)
    with tempfile.TemporaryDirectory(prefix="controller-filling-") as at:
        print(f"{lines:,} lines over {seconds:,} seconds")
        fill(os.path.abspath(asked.program), at, lines, seconds)


if __name__ == "__main__":
    main()
