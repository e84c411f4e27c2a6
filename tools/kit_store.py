#!/usr/bin/env python3
"""What `rt ci` has proved on this machine, taken over: `kit_store.py TOP PROGRAM` puts it into the checkout at TOP.

The kit keeps what each `rt ci` proved, by a sum of all that the proof read: the sources, the crates below as they were built, and the
kit itself. So what is taken is of exactly these sources. It prints the names of the crates below PROGRAM that stand built in TOP
afterwards, and PROGRAM's where the program itself does. It goes by functions of the kit's own `rt`; where a later kit has others,
nothing is taken, and a build proves all anew.
"""
import importlib.machinery
import importlib.util
import os
import shutil
import subprocess
import sys


def loaded():
    """The kit's `rt` as a module, whose main program is not run."""
    sys.dont_write_bytecode = True
    loader = importlib.machinery.SourceFileLoader("kit_rt", os.path.realpath(shutil.which("rt")))
    rt = importlib.util.module_from_spec(importlib.util.spec_from_loader("kit_rt", loader))
    loader.exec_module(rt)
    return rt


def remember_stamps(library):
    """A crate's stamp, which asks for those of all crates below it, is worked out once."""
    made, known = library.Crate.stamp, {}

    def stamp(crate):
        if crate.folder not in known:
            known[crate.folder] = made(crate)
        return known[crate.folder]

    library.Crate.stamp = stamp


def crates_of(rt, top, program):
    """The program's crates, lowest first, as the kit sees them."""
    library = rt.rtlib
    library.stop, library.Crate = rt.stop, rt.Crate
    remember_stamps(library)
    rt.Crate.allowed = rt.handles_of(top)
    every = sorted(library.crates_below(top), key=lambda it: len(it.below()))
    last = next(it for it in every if it.name == program)
    wanted = {it.name for it in last.below()} | {program}
    return [it for it in every if it.name in wanted]


def is_given(rt, kept, crate):
    """Whether the crate stands built in its out/, now that what is kept of it was put there."""
    if crate.is_program:
        return kept.give(crate, False, kept.key(crate))
    if not crate.is_built():
        if not kept.give(crate, False, kept.key(crate)):
            return False
        with open(f"{crate.folder}/out/rlib/stamp", "w", encoding="utf-8") as stamp:
            stamp.write(crate.stamp())
    # The kit's commands in the lanes find it by this.
    rt.offer(crate, crate.stamp())
    return True


def put(top, program):
    """Gives the names of the crates that stand built in the checkout."""
    rt = loaded()
    os.chdir(top)
    crates = crates_of(rt, top, program)
    kept, there = rt.Kept(crates), []
    for crate in crates:
        os.makedirs(f"{crate.folder}/out", exist_ok=True)
        if is_given(rt, kept, crate):
            kept.is_built(crate)
            there.append(crate.name)
    return there


def taken(top, program):
    """As `put`, in a process of its own: what fails there takes nothing."""
    words = [sys.executable, "-B", os.path.realpath(__file__), top, program]
    try:
        said = subprocess.run(words, stdin=subprocess.DEVNULL, stdout=subprocess.PIPE, stderr=subprocess.DEVNULL, text=True, check=True)
    except (OSError, subprocess.CalledProcessError):
        return set()
    return {*said.stdout.split()}


if __name__ == "__main__":
    print(*put(*sys.argv[1:]))
