"""The functions of `library/`: which there are, and which a script needs."""
import functools
import os
import re

from groovy_reader import read
from groovy_reader.nodes import Call, Name

from .names import Names

TOP = os.path.dirname(os.path.dirname(os.path.dirname(os.path.realpath(__file__))))
FOLDER = f"{TOP}/library"
# The steps of Jenkins among them; the others help these, or stand for what the language does not have.
PUBLIC = frozenset("""checkout git readFile writeFile fileExists pwd isUnix deleteDir cleanWs archiveArtifacts stash unstash junit readJSON
    writeJSON waitUntil timestamps ansiColor lock withCredentials usernamePassword string file load warnError sleep""".split())


class Item:
    """A function of the library: its name, its source with the comment above it, and the functions that it calls."""

    def __init__(self, path, source):
        self.path, self.name, self.source = path, os.path.basename(path)[:-7], source
        self.first = 1 + next(at for at, line in enumerate(source.splitlines()) if line.startswith("def "))
        self.code = "\n".join(source.splitlines()[self.first - 1:]) + "\n"

    def example(self):
        """The script behind `Example:` in its comment."""
        return re.sub(r"^//( {5})?", "", re.split(r"^// Example:\n", self.source, flags=re.M)[1].split("\ndef ")[0], flags=re.M)


@functools.lru_cache(maxsize=None)
def items():
    """All functions, by their names."""
    found = {}
    for path in [*sorted(os.listdir(FOLDER)), *(f"helpers/{name}" for name in sorted(os.listdir(f"{FOLDER}/helpers")))]:
        if path.endswith(".groovy"):
            with open(f"{FOLDER}/{path}", encoding="utf-8") as file:
                item = Item(path, file.read())
            found[item.name] = item
    return found


@functools.lru_cache(maxsize=None)
def called(name):
    """The library's functions that one of them calls by name."""
    tree = read(items()[name].code)
    own = Names([tree]).declared
    names = {it.what.name for it in tree.walk() if isinstance(it, Call) and isinstance(it.what, Name)}
    return sorted((names - own) & set(items()) - {name})


def needed(names):
    """These functions and all that they call, in the order of their names."""
    found, rest = set(), list(names)
    while rest:
        name = rest.pop()
        if name not in found:
            found.add(name)
            rest += called(name)
    return [items()[name] for name in sorted(found)]
