#!/usr/bin/env python3
"""Time and memory of an image that is read, written and checked. README.md beside this file says what is measured."""
import argparse
import os
import shutil
import struct
import subprocess
import sys
import tempfile

from process import KIB, measure

TOP = os.path.dirname(os.path.dirname(os.path.realpath(__file__)))
sys.dont_write_bytecode = True
sys.path += [f"{TOP}/tools", f"{TOP}/crates/form_trials/data"]
from build import crates_below  # noqa: E402
from images import NONE, NULL, TRUE, context, frame, image, in_cell, name, rows, some, text, thread, u8, u32, whole  # noqa: E402

# The program is a crate in a repository of its own, over the crates of this one, as that of values.py.
BUILT = f"{tempfile.gettempdir()}/controller-bench-image"
DEPS = ["image_check", "image_form", "groovy_parse", "cps_code", "model_run", "model_text"]
# Cells of the smaller image and of the larger; an image has a fifth as many flow nodes, and half as many threads as those.
SIZES = (6_250, 100_000)
TIMES = 10
# What takes the square of the size would take 16 times as long for each.
MOST_TIMES_SLOWER = 4


def cells(count):
    """Two variables, which the script declares, and then cells of the other kinds in turn."""
    kinds = [u8(0) + in_cell(1), u8(1) + text(b"12345678"), u8(2) + rows(NULL, TRUE, in_cell(0)),
             u8(3) + rows(u8(0) + struct.pack(">i", 7) + TRUE, u8(1) + text(b"key") + NULL), u8(5) + u8(0) + some(text(b"no"))]
    return [u8(0) + whole(1), u8(0) + whole(2)] + [kinds[i % len(kinds)] for i in range(count - 2)]


def node(kind, word, parent):
    return u8(kind) + text(word) + u32(0) + (rows(u32(parent)) if parent else rows())


def build_of(count):
    """A build of the program's script, each of whose branches waits for a person. The nodes of the script: 0 all of it, 1 to 4
    the declarations, 5 the statement, 6 the call of `parallel`, 7 its entry, 8 the closure, 9 its statements, 10 the one
    statement, 11 the call of `input`, 12 its argument."""
    branches = count // 10 - 1
    env = [name(b"b", 1), name(b"a", 0)]
    nodes = [node(0, b"", 0), node(2, b"parallel", 2)]
    for i in range(branches):
        nodes += [node(3, b"x", 3), node(1, b"input", 4 + 2 * i)]
    joins = [text(b"x") + u32(i) + u8(0, 0) for i in range(1, branches + 1)]
    nothing = context([], [], [])
    threads = [thread(0, NONE, 3, u8(1) + rows(*joins), nothing,
                      [frame(0, 0, 2, env, []), frame(44, 6, 1, env, [whole(3)])])]
    for i in range(1, branches + 1):
        threads.append(thread(i, some(u32(0)), 3 + 2 * i, u8(0) + u32(i), nothing,
                              [frame(45, 8, 0, env, [whole(2 + 2 * i)]), frame(33, 8, 0, env, []), frame(0, 9, 0, env, []),
                               frame(43, 11, 1, env, [])]))
    requests = [u32(i, i) + u8(2) + text(b"%d" % i) for i in range(1, branches + 1)]
    return image(branches + 1, branches + 1, 0, 0, [], cells(count), nodes, b"[Pipeline] Start of Pipeline\n", requests, [], threads)


def copy_source(source, to):
    """Copies a file of `image/`, where sources end in `.txt`: the gate takes no source outside `crates/`."""
    return shutil.copy2(source, to.removesuffix(".txt"))


def build():
    """Proves and builds the program, over copies of the crates as they are here, with what is proved of them."""
    shutil.rmtree(BUILT, ignore_errors=True)
    below = {name for dep in DEPS for name in crates_below(dep)}
    for crate in below:
        shutil.copytree(f"{TOP}/crates/{crate}", f"{BUILT}/crates/{crate}", ignore=shutil.ignore_patterns("out"))
        if os.path.isdir(f"{TOP}/crates/{crate}/out/rlib"):
            shutil.copytree(f"{TOP}/crates/{crate}/out/rlib", f"{BUILT}/crates/{crate}/out/rlib")
    shutil.copytree(f"{TOP}/bench/image", f"{BUILT}/crates/image", copy_function=copy_source)
    with open(f"{TOP}/crates.txt", encoding="utf-8") as crates, open(f"{BUILT}/crates.txt", "w", encoding="utf-8") as copy:
        copy.writelines(line for line in crates if line.partition(":")[0] in below)
        copy.write(f"image: {' '.join(sorted(below | {'indexmap', 'sqlite_items'}))}\n")
    # Without an image it ends with 1: whoever builds it runs it, too.
    subprocess.run(["rt", "run", "--jobs", "1"], cwd=f"{BUILT}/crates/image", stdin=subprocess.DEVNULL)
    if not os.path.exists(f"{BUILT}/crates/image/out/image"):
        sys.exit("bench: the program was not proved and built")


def best_of(program, what, times, given, runs):
    """The shortest time and the largest peak of some runs."""
    results = [measure([program, what, str(times)], given) for _ in range(runs)]
    for _, _, status, said in results:
        if status != 0:
            sys.exit(f"bench: '{what} {times}' ended with status {status}: {said[:200].decode(errors='replace').strip()}")
    return min(r[0] for r in results), max(r[1] for r in results)


def main():
    parser = argparse.ArgumentParser(description=__doc__)
    parser.add_argument("--runs", type=int, default=10, help="how often each is done (default: 10)")
    parser.add_argument("--program", help="the program as an earlier run has built it")
    parser.add_argument("--write", metavar="FOLDER", help="write the two images there, and measure nothing")
    given = parser.parse_args()
    made = [build_of(size) for size in SIZES]
    if given.write:
        for size, spelled in zip(SIZES, made):
            with open(f"{given.write}/image-{size}", "wb") as file:
                file.write(spelled)
        return 0
    if not given.program:
        build()
    program = given.program or f"{BUILT}/crates/image/out/image"
    print(f"{'':>6} {'cells':>7} {'bytes':>8} {'times':>5} {'seconds':>8} {'ns a cell':>9} {'peak MiB':>9}")
    fits = True
    for what in ("read", "write", "check"):
        each = []
        for size, spelled in zip(SIZES, made):
            times = TIMES * SIZES[1] // size
            base, _ = best_of(program, what, 0, spelled, given.runs)
            seconds, peak = best_of(program, what, times, spelled, given.runs)
            each.append((seconds - base) / (size * times) * 1e9)
            print(f"{what:>6} {size:7} {len(spelled):8} {times:5} {seconds:8.3f} {each[-1]:9.1f} {peak / KIB:9.1f}")
        fits = fits and each[1] <= MOST_TIMES_SLOWER * each[0]
        print(f"{'':>6} at the larger size {each[1] / each[0]:.2f} times as long for each (at most {MOST_TIMES_SLOWER})")
    return 0 if fits else 1


if __name__ == "__main__":
    sys.exit(main())
