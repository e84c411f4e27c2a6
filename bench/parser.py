#!/usr/bin/env python3
"""Time and peak memory of reading scripts of 64 KiB and of 1 MiB. README.md beside this file says what is measured."""
import argparse
import os
import sys
import tempfile

from process import KIB, measure

SMALL = 64 * KIB
LARGE = 1024 * KIB
MOST_TIMES_SLOWER = 20
MOST_PEAK_KIB = 400 * KIB
SUCCESS, WAITS = 0, 3  # how the builds of both kinds of scripts end

# Statements as they stand in a Jenkinsfile; {n} is a number that no other piece has, so that no name is declared twice. A build of
# them waits at the first `node`, since there is no executor.
PIECES = [
    "def count{n} = {n} % 97 + 1\n",
    "def names{n} = ['linux', 'windows', \"mac${{1 + {n}}}\", 'bsd{n}']\n",
    "def options{n} = [name: 'job{n}', retries: 3, labels: ['a', 'b'], nested: [deep: [{n}, {n} + 1]]]\n",
    "def step{n}(target, times) {{\n    def done = 0\n    while (done < times) {{\n        done += 1\n"
    "        if (done == 2) {{ continue }}\n        echo \"step $target: ${{done}} of ${{times}}\"\n    }}\n    return done\n}}\n",
    "for (def i{n} = 0; i{n} < 3; i{n}++) {{\n    total = total + i{n} * 2\n}}\n",
    "for (name in ['x{n}', 'y{n}']) {{\n    if (name == 'x{n}') {{\n        echo name\n    }} else {{\n"
    "        echo \"other: $name\"\n    }}\n}}\n",
    "try {{\n    sh 'make target{n}'\n}} catch (e) {{\n    echo \"failed: ${{e.message}}\"\n}} finally {{\n"
    "    echo 'cleaned {n}'\n}}\n",
    "stage('build {n}') {{\n    node('linux') {{\n        def image = 'registry/app:{n}'\n"
    "        sh \"docker build -t ${{image}} .\"\n        ['unit', 'lint'].each {{ kind -> sh \"./ci ${{kind}}\" }}\n    }}\n}}\n",
    "total = (total + {n}) * 3 - (7 - total % 5)\n",
    "if (total > {n} && !(total == 4 || total < 0)) {{\n    total -= 1\n}} else if (total == 1) {{\n    total++\n}}\n",
    "value = total > {n} ? 'many' : total ?: 'none'\n",
    "/* block {n}\n   of comment */ // and a line\n",
    "def long{n} = '''first line {n}\n  second \\'line\\'\n'''\n",
]

# Steps that a build runs to its end.
ECHO_PIECES = ["echo 'line {n} of a script'\n"]


def script(size, pieces):
    """A script of just `size` bytes: the pieces in turn, and blank lines behind them."""
    parts = ["total = 0\n"] if pieces is PIECES else []  # what the pieces count in
    length = sum(map(len, parts))
    number = 0
    while True:
        piece = pieces[number % len(pieces)].format(n=number)
        if length + len(piece) > size:
            break
        parts.append(piece)
        length += len(piece)
        number += 1
    return "".join(parts) + "\n" * (size - length)


def best_of(program, text, runs):
    """The shortest time and the largest peak of some runs on this script."""
    with tempfile.TemporaryDirectory() as folder:
        with open(os.path.join(folder, "Jenkinsfile"), "w", newline="") as file:
            file.write(text)
        with open(os.path.join(folder, "agents.json"), "w", newline="") as file:
            file.write('{"job": "bench", "agents": []}')
        results = [measure([program, "run", folder]) for _ in range(runs)]
    for _, _, status, said in results:
        if status not in (SUCCESS, WAITS):
            sys.exit(f"bench: 'run' ended with status {status}, and said: {said[:200].decode(errors='replace').strip()}")
    return min(r[0] for r in results), max(r[1] for r in results)


def main():
    top = os.path.dirname(os.path.dirname(os.path.abspath(__file__)))
    parser = argparse.ArgumentParser(description=__doc__)
    parser.add_argument("--program", default=os.path.join(top, "crates/jenkinsd/out/jenkinsd"), help="the built controller")
    parser.add_argument("--echo", action="store_true", help="scripts of `echo` steps alone, which run to their end")
    parser.add_argument("--runs", type=int, default=10, help="how often each script is read (default: 10)")
    parser.add_argument("--write", metavar="FOLDER", help="write the two scripts into this folder, and measure nothing")
    given = parser.parse_args()
    pieces = ECHO_PIECES if given.echo else PIECES
    if given.write:
        for name, size in (("small", SMALL), ("large", LARGE)):
            with open(os.path.join(given.write, name + ".groovy"), "w", newline="") as file:
                file.write(script(size, pieces))
        return 0
    if not os.access(given.program, os.X_OK):
        sys.exit(f"bench: {given.program} is not built yet; './controller build' builds it")
    start, start_peak = best_of(given.program, "\n", given.runs)
    small, small_peak = best_of(given.program, script(SMALL, pieces), given.runs)
    large, large_peak = best_of(given.program, script(LARGE, pieces), given.runs)
    # Less than a millisecond above the program's start is noise: then the start is left in.
    base = start if small - start >= 0.001 else 0
    times = (large - base) / max(small - base, 1e-6)
    print(f"{'script':>10} {'seconds':>9} {'peak MiB':>9}")
    for name, seconds, peak in (("one line", start, start_peak), ("64 KiB", small, small_peak), ("1 MiB", large, large_peak)):
        print(f"{name:>10} {seconds:9.4f} {peak / KIB:9.1f}")
    less = "both less that of one line" if base else "the program's start included"
    print(f"1 MiB takes {times:.1f} times the time of 64 KiB, {less} (at most {MOST_TIMES_SLOWER})")
    print(f"1 MiB takes {large_peak / KIB:.1f} MiB at its peak (at most {MOST_PEAK_KIB // KIB})")
    return 0 if times <= MOST_TIMES_SLOWER and large_peak <= MOST_PEAK_KIB else 1


if __name__ == "__main__":
    sys.exit(main())
