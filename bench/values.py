#!/usr/bin/env python3
"""Time and memory of making cells and of the text of a list. README.md beside this file says what is measured."""
import argparse
import os
import shutil
import subprocess
import sys
import tempfile

from process import KIB, measure

TOP = os.path.dirname(os.path.dirname(os.path.realpath(__file__)))
sys.path.append(f"{TOP}/tools")
from build import crates_below  # noqa: E402
# The program is a crate in a repository of its own, over the crates of this one; outside it, since the gate takes no source there.
BUILT = f"{tempfile.gettempdir()}/controller-bench-values"
DEPS = ["cell_heap", "value_view", "model_values", "model_text", "itoa"]
# What is done, the smaller size and the larger. The larger is done so many times, and the smaller so often that the
# number of cells, entries or texts is the same.
ROWS = [("new_cell", 65536, 1048576), ("list_push", 4096, 65536), ("map_put", 4096, 65536), ("map_put_rising", 4096, 65536),
        ("map_put_falling", 4096, 65536), ("map_put_mixed", 4096, 65536), ("map_get", 4096, 65536), ("text_of", 3750, 60000)]
TIMES = 16
# What takes the square of the size would take 16 times as long for each.
MOST_TIMES_SLOWER = 4
# As many maps of as many small entries as the limit of heap bytes allows, in one heap, and the most memory for them.
FULL = ("maps", 65536, 111)
MOST_MIB = 1024


def copy_source(source, to):
    """Copies a file of `values/`, where sources end in `.txt`: the gate takes no source outside `crates/`."""
    return shutil.copy2(source, to.removesuffix(".txt"))


def build():
    """Proves and builds the program, over copies of the crates as they are here, with what is proved of them."""
    shutil.rmtree(BUILT, ignore_errors=True)
    below = {name for dep in DEPS if os.path.isdir(f"{TOP}/crates/{dep}") for name in crates_below(dep)}
    for name in below:
        shutil.copytree(f"{TOP}/crates/{name}", f"{BUILT}/crates/{name}", ignore=shutil.ignore_patterns("out"))
        if os.path.isdir(f"{TOP}/crates/{name}/out/rlib"):
            shutil.copytree(f"{TOP}/crates/{name}/out/rlib", f"{BUILT}/crates/{name}/out/rlib")
    shutil.copytree(f"{TOP}/bench/values", f"{BUILT}/crates/values", copy_function=copy_source)
    with open(f"{TOP}/crates.txt", encoding="utf-8") as crates, open(f"{BUILT}/crates.txt", "w", encoding="utf-8") as copy:
        copy.writelines(line for line in crates if line.partition(":")[0] in below)
        copy.write(f"values: {' '.join(DEPS)}\n")
    # It does nothing so often: whoever builds it runs it, too.
    words = ["rt", "run", "--jobs", "1", "--", "new_cell", "1", "0"]
    if subprocess.run(words, cwd=f"{BUILT}/crates/values").returncode != 0:
        sys.exit("bench: the program was not proved and built")


def best_of(program, what, size, times, runs):
    """The shortest time and the largest peak of some runs."""
    results = [measure([program, what, str(size), str(times)]) for _ in range(runs)]
    for _, _, status, said in results:
        if status != 0:
            sys.exit(f"bench: '{what} {size} {times}' ended with status {status}: {said[:200].decode(errors='replace').strip()}")
    return min(r[0] for r in results), max(r[1] for r in results)


def main():
    parser = argparse.ArgumentParser(description=__doc__)
    parser.add_argument("--runs", type=int, default=10, help="how often each is done (default: 10)")
    parser.add_argument("--program", help="the program as an earlier run has built it")
    given = parser.parse_args()
    if not given.program:
        build()
    program = given.program or f"{BUILT}/crates/values/out/values"
    print(f"{'':>15} {'size':>8} {'times':>6} {'seconds':>8} {'ns each':>8} {'peak MiB':>9}")
    fits = True
    for what, small, large in ROWS:
        each = []
        for size in (small, large):
            times = TIMES * large // size
            base, _ = best_of(program, what, size, 0, given.runs)
            seconds, peak = best_of(program, what, size, times, given.runs)
            each.append((seconds - base) / (size * times) * 1e9)
            print(f"{what:>15} {size:8} {times:6} {seconds:8.3f} {each[-1]:8.1f} {peak / KIB:9.1f}")
        fits = fits and each[1] <= MOST_TIMES_SLOWER * each[0]
        print(f"{'':>15} at the larger size {each[1] / each[0]:.2f} times as long for each (at most {MOST_TIMES_SLOWER})")
    what, size, times = FULL
    seconds, peak = best_of(program, what, size, times, 1)
    print(f"{what:>15} {size:8} {times:6} {seconds:8.3f} {'':>8} {peak / KIB:9.1f} (at most {MOST_MIB})")
    return 0 if fits and peak / KIB <= MOST_MIB else 1


if __name__ == "__main__":
    sys.exit(main())
