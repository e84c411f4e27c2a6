"""The builds of a folder: the one whose store is `DIR/program.dat`, and the earlier ones in `DIR/builds/N`, which `archive` put there.

A folder `builds/N` is a build once it has its store, which is the last thing that comes into it. Without one it is what an `archive`
left that was killed, and the next one fills it.
"""
import ctypes
import os
import re
import struct
from typing import NamedTuple, Optional

import build_view
from locks import holders
from store_changes import TASK
from store_records import OPEN, NoRecord, NotARecord, Store, number_at

STORE, LOCK = "program.dat", "program.lock"
# The system's call `statx`, which tells when a file was made: how to ask, and where in its answer that stands.
AT_FDCWD, BIRTH, SIZE_OF_STATX, PLACE_OF_BIRTH = -100, 0x800, 256, 80


class Build(NamedTuple):
    """A build: its number, the folder of its store, and whether that is an earlier one."""

    number: int
    folder: str
    is_earlier: bool

    @property
    def store(self):
        return f"{self.folder}/{STORE}"


def earlier(folder):
    """The builds that were put away, by their numbers."""
    try:
        names = os.listdir(f"{folder}/builds")
    except FileNotFoundError:
        return []
    numbers = sorted(int(name) for name in names if re.fullmatch("[1-9][0-9]*", name))
    found = [Build(number, f"{folder}/builds/{number}", True) for number in numbers]
    return [it for it in found if os.path.exists(it.store)]


def now(folder):
    """The build of the folder itself, whether it has begun or not."""
    last = max((it.number for it in earlier(folder)), default=0)
    return Build(last + 1, folder, False)


def view_of(path):
    """The build of the store at this path, by its records.

    Raises NoRecord where there is none, NotARecord where the store has another form, OSError where it cannot be read.
    """
    view = build_view.View()
    with Store(path) as store:
        for record in store.records():
            view.take(record)
    return view


def open_requests(view, kind):
    """What is open of a kind, in the order in which it was asked for."""
    return [it for _, it in sorted(view.requests.items()) if it.kind == kind]


def count_of_records(path):
    """How many records the store at this path has."""
    with Store(path) as store:
        try:
            store.open()
        except NoRecord:
            return 0
        count = gate = 0
        while len(head := store.bytes(5, gate)) == 5 and head[:1] == OPEN and store.bytes(1, end := gate + 5 + number_at(head, 1)):
            gate, count = end, count + 1
        return count


def state_word(build):
    """The result of a build that has ended, else what it does."""
    try:
        view = view_of(build.store)
    except NotARecord:
        return "unknown"
    if view.status is not None:
        return view.result()
    if not build.is_earlier and holders(f"{build.folder}/{LOCK}"):
        return "at work"
    waits = view.requests and not open_requests(view, TASK)
    return "waits" if waits else "stopped"


def began(path) -> Optional[float]:
    """When the file was made, in seconds; None where the system does not tell."""
    try:
        answer = ctypes.create_string_buffer(SIZE_OF_STATX)
        failed = ctypes.CDLL(None).statx(AT_FDCWD, os.fsencode(path), 0, BIRTH, answer)
    except (AttributeError, OSError):
        return None
    mask, seconds, parts = *struct.unpack_from("=I", answer), *struct.unpack_from("=qI", answer, PLACE_OF_BIRTH)
    return seconds + parts / 1e9 if not failed and mask & BIRTH else None

