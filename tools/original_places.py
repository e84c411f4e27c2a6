#!/usr/bin/env python3
"""Translates places of a script that tools/prepare made into those of its Jenkinsfile: `tools/original_places.py SCRIPT [LINE COLUMN]`.

With a line and a column it prints the place, as `FILE:LINE:COLUMN`. Without them it prints what comes on standard input, with each
place `Jenkinsfile:LINE:COLUMN` in it translated. A script without a map, as one that was written for this product, stays as it is.
"""
import re
import sys

from preparing.places import Places

PLACE = re.compile(r"\bJenkinsfile:(\d+):(\d+)\b")


def translated(text, script):
    """A text with its places translated."""
    places = Places(script)
    return PLACE.sub(lambda it: "{}:{}:{}".format(*places.of(int(it[1]), int(it[2]))), text)


def told(script, line, column):
    """Of a script that `prepare` wrote, where it was another place: the line that tells where this stood before."""
    file, *place = Places(script).of(line, column)
    if (file, *place) == ("Jenkinsfile", line, column):
        return []
    return ["controller: 'prepare' wrote this script; there it stood at {}:{}:{}".format(file, *place)]


def main(words):
    if len(words) not in (1, 3) or words[0].startswith("-"):
        sys.exit("usage: tools/original_places.py SCRIPT [LINE COLUMN]")
    with open(words[0], encoding="utf-8", errors="replace") as file:
        script = file.read()
    if len(words) == 3:
        print("{}:{}:{}".format(*Places(script).of(int(words[1]), int(words[2]))))
    else:
        sys.stdout.write(translated(sys.stdin.read(), script))


if __name__ == "__main__":
    main(sys.argv[1:])
