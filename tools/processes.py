"""The processes of this machine, as Linux tells them in /proc."""
import contextlib
import os


def are_told():
    """Whether this system tells the words of its processes."""
    return os.path.isdir("/proc/self")


def words_of_processes():
    """The words of each process, as bytes, by its number."""
    words = {}
    for number in filter(str.isdigit, os.listdir("/proc")):
        with contextlib.suppress(OSError), open(f"/proc/{number}/cmdline", "rb") as file:
            words[int(number)] = file.read().split(b"\0")
    return words
