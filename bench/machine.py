#!/usr/bin/env python3
"""Time and memory of running scripts. README.md beside this file says what is measured."""
import argparse
import os
import sys
import time

from process import KIB, measure

TOP = os.path.dirname(os.path.dirname(os.path.realpath(__file__)))
PROGRAM = f"{TOP}/crates/script_trials/out/script_trials"


def functions(n):
    """So many functions, and 10,000 calls of the last."""
    return "".join(f"def f{i}(x) {{ x + {i} }}\n" for i in range(n)) + f"for (i in 1..10000) {{ f{n - 1}(i) }}\n"


def doubled(n):
    """Makes a text of so many bytes; a power of two."""
    return f"def t = 'x'\nfor (i in 1..{n.bit_length() - 1}) {{ t = t + t }}\n"


# What is done, its script at a size, the same in Python where it can be said there, and the two sizes.
WORKS = [
    ("while, counted nodes", lambda n: f"def i = 0\nwhile (i < {n // 6}) {{ i++ }}\n", lambda n: count_up(n // 6), (96_000, 960_000)),
    ("each", lambda n: f"def n = 0\n(1..{n}).each {{ n += it }}\n", lambda n: each(n), (4_096, 65_536)),
    ("collect", lambda n: f"(1..{n}).collect {{ it + 1 }}\n", lambda n: list(map(lambda it: it + 1, range(1, n + 1))), (4_096, 65_536)),
    ("findAll", lambda n: f"(1..{n}).findAll {{ it > 1 }}\n", lambda n: list(filter(lambda it: it > 1, range(1, n + 1))), (4_096, 65_536)),
    ("for over a list", lambda n: f"def n = 0\nfor (x in 1..{n}) {{ n++ }}\n", lambda n: count_each(range(1, n + 1)), (4_096, 65_536)),
    ("for over a text", lambda n: f"{doubled(n)}def n = 0\nfor (c in t) {{ n++ }}\n", lambda n: count_each("x" * n), (4_096, 65_536)),
    ("recursion, calls", lambda n: f"def f(n) {{ n == 1 ? 1 : f(n - 1) + 1 }}\n{n // 1024}.times {{ f(1023) }}\n", lambda n: recur(n // 1024), (5_120, 51_200)),
    ("text with an expression", lambda n: f"for (i in 1..{n}) {{ \"a${{i}}b\" }}\n", lambda n: [f"a{i}b" for i in range(1, n + 1)], (4_096, 65_536)),
    ("text and text", lambda n: f"def t = ''\nfor (i in 1..{n}) {{ t = t + 'x' }}\n", lambda n: lengthen(n), (2_000, 20_000)),
    ("functions at the top", functions, None, (1_000, 10_000)),
    ("steps at the top", lambda n: "".join(f"println {i}\n" for i in range(n)), None, (1_000, 10_000)),
    ("names in scope", lambda n: "".join(f"def x{i} = {i}\n" for i in range(n)) + "for (i in 1..10000) { x0 }\n", None, (1_000, 10_000)),
    ("map.remove", lambda n: f"def m = [:]\nfor (i in 1..{n}) {{ m[i] = i }}\nfor (i in 1..{n}) {{ m.remove(i) }}\n", None, (4_096, 32_768)),
]


def count_up(n):
    i = 0
    while i < n:
        i += 1


def count_each(values):
    n = 0
    for _ in values:
        n += 1


def each(n):
    total = [0]

    def add(it):
        total[0] += it

    for x in range(1, n + 1):
        add(x)


def lengthen(n):
    text = ""
    for _ in range(n):
        text = text + "x"


def recur(times):
    def f(n):
        return 1 if n == 1 else f(n - 1) + 1

    sys.setrecursionlimit(5_000)
    for _ in range(times):
        f(1_023)


def best_of(program, script, runs):
    """The shortest time and the largest peak of some runs of the script."""
    results = [measure([program], f"=== bench\n{script}".encode()) for _ in range(runs)]
    for _, _, status, said in results:
        if status != 0 or not said.endswith(b"Finished: SUCCESS\n"):
            sys.exit(f"bench: ended with status {status}: {said[-200:].decode(errors='replace').strip()}")
    return min(r[0] for r in results), max(r[1] for r in results)


def best_of_python(work, size, runs):
    """The shortest processor time of the same work in Python."""
    times = []
    for _ in range(runs):
        start = time.process_time()
        work(size)
        times.append(time.process_time() - start)
    return min(times)


def main():
    parser = argparse.ArgumentParser(description=__doc__)
    parser.add_argument("--runs", type=int, default=5, help="how often each script is run (default: 5)")
    parser.add_argument("--only", default="", help="the works whose names begin so")
    parser.add_argument("--program", default=PROGRAM, help="the program, as `rt run script_trials` leaves it")
    given = parser.parse_args()
    if not os.path.exists(given.program):
        sys.exit("bench: build it first, with: rt run script_trials < crates/script_trials/stdin")
    base, _ = best_of(given.program, "", given.runs)
    print(f"{'':>24} {'size':>8} {'seconds':>8} {'ns each':>8} {'peak MiB':>9} {'Python':>8}")
    for what, script, python, sizes in WORKS:
        if not what.startswith(given.only):
            continue
        for size in sizes:
            seconds, peak = best_of(given.program, script(size), given.runs)
            beside = f"{best_of_python(python, size, given.runs):8.4f}" if python else ""
            print(f"{what:>24} {size:8} {seconds - base:8.3f} {(seconds - base) / size * 1e9:8.0f} {peak / KIB:9.1f} {beside}", flush=True)


if __name__ == "__main__":
    main()
