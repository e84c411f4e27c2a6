#!/usr/bin/env python3
"""Tries the must-fail edits that the gate leaves out: `python3 tools/more_edits.py [--dry] [CRATE..]`; without a name, of all crates.

tools/more_edits/CRATE/NAME.edit is a wrong version of a crate, in the form of those in its must-fail/. The crates are copied to
a temporary folder, with these edits in the place of those of must-fail/ and with the libraries that are proved here, and
`rt must-fail` tries them there: it says of each what came of it. The status is 0 where the prover refused every one.

With `--dry` nothing is proved: it names each edit that can no longer be applied, here and in must-fail/, and why.
"""
import argparse
import glob
import os
import shutil
import subprocess
import sys
import tempfile

from build import TOP

EDITS = f"{TOP}/tools/more_edits"


def edits_of(name):
    """The edits of a crate that the gate leaves out, and behind them those that it tries."""
    return [*sorted(glob.glob(f"{EDITS}/{name}/*.edit")), *sorted(glob.glob(f"{TOP}/crates/{name}/must-fail/*.edit"))]


def why_not(edit, crate):
    """Why an edit cannot be applied, or None: each `old:` has to stand once in the file that the line `file:` before it names."""
    path, old, texts = None, None, {}
    with open(edit, encoding="utf-8") as lines:
        for head, _, rest in (line.rstrip("\n").partition(":") for line in lines):
            rest = rest.removeprefix(" ")
            if head == "file":
                path = rest
                if not os.path.isfile(f"{crate}/{path}"):
                    return f"there is no file {path}"
                with open(f"{crate}/{path}", encoding="utf-8") as source:
                    texts.setdefault(path, source.read())
            elif head == "old":
                old = rest
            elif head == "new":
                if not path or not old:
                    return "a line `new:` has no `file:` and `old:` before it"
                if texts[path].count(old) != 1:
                    return f"its `old:` stands {texts[path].count(old)} times in {path}: {old.strip()}"
                texts[path], old = texts[path].replace(old, rest), None
    return None if texts else "it has no line `file:`"


def dry(names):
    """Names what cannot be applied, and returns how many edits that are."""
    found = [(edit, why_not(edit, f"{TOP}/crates/{name}")) for name in names for edit in edits_of(name)]
    lost = [(edit, why) for edit, why in found if why]
    for edit, why in lost:
        print(f"{os.path.relpath(edit, TOP)}: {why}")
    print(f"{len(found) - len(lost)} edits can be applied, {len(lost)} cannot")
    return len(lost)


def link_or_copy(one, other):
    """A second name for a file of a library: the kit removes such a file before it makes it anew, and never writes into it."""
    try:
        os.link(one, other)
    except OSError:
        shutil.copyfile(one, other)


def copy(names, room):
    """Copies the crates with the libraries that stand in their out/, and puts the edits of the named ones in place."""
    for file in ("crates.txt", "HANDLES"):
        shutil.copy(f"{TOP}/{file}", room)
    shutil.copytree(f"{TOP}/crates", f"{room}/crates", ignore=shutil.ignore_patterns("out", "must-fail"))
    for library in glob.glob(f"{TOP}/crates/*/out/rlib"):
        shutil.copytree(library, f"{room}/{os.path.relpath(library, TOP)}", copy_function=link_or_copy)
    for name in names:
        shutil.copytree(f"{EDITS}/{name}", f"{room}/crates/{name}/must-fail")


def main():
    parser = argparse.ArgumentParser(description=__doc__.splitlines()[0])
    parser.add_argument("--dry", action="store_true", help="prove nothing: name the edits that can no longer be applied")
    parser.add_argument("crates", nargs="*", help="try the edits of these crates alone")
    asked = parser.parse_args()
    with_edits = [it for it in os.listdir(EDITS) if os.path.isdir(f"{EDITS}/{it}")]
    known = sorted({*with_edits, *(os.listdir(f"{TOP}/crates") if asked.dry else [])})
    unknown = [name for name in asked.crates if name not in known]
    if unknown:
        parser.error(f"there is nothing to try of {' '.join(unknown)}")
    names = asked.crates or known
    if asked.dry:
        return 1 if dry(names) else 0
    with tempfile.TemporaryDirectory(prefix="controller-more-edits-") as room:
        copy(names, room)
        return subprocess.run(["rt", "must-fail", *names], cwd=room, check=False).returncode


if __name__ == "__main__":
    sys.exit(main())
