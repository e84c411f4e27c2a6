"""Who holds the lock of a folder's controllers, as Linux tells it; no lock is taken to find out."""
import os
import re
import signal
import time

EXITING = 0x4
# Seconds between two looks at a process that is ending, and how long it is waited for.
LOOK, PATIENCE = 0.005, 5


def holders(path):
    """The numbers of the processes that hold a lock of the file; none where the system does not tell."""
    try:
        own = os.stat(path).st_ino
        with open("/proc/locks", encoding="ascii") as lines:
            fields = [line.split() for line in lines]
    except OSError:
        return []
    return [int(it[4]) for it in fields if it[1] == "FLOCK" and it[5].rpartition(":")[2] == str(own)]


def is_ending(process):
    """Whether a process was killed or has ended, and has only to be gone."""
    try:
        with open(f"/proc/{process}/status", encoding="ascii", errors="replace") as file:
            status = file.read()
        with open(f"/proc/{process}/stat", encoding="ascii", errors="replace") as file:
            flags = int(file.read().rpartition(")")[2].split()[6])
    except OSError:
        return True
    pending = [int(it, 16) for it in re.findall(r"^(?:SigPnd|ShdPnd):\s*([0-9a-f]+)$", status, re.M)]
    return bool(flags & EXITING) or any(it >> (signal.SIGKILL - 1) & 1 for it in pending)


def wait_for_ending(path):
    """Waits until no process that is ending holds the lock; a controller that is at work is not waited for."""
    until = time.monotonic() + PATIENCE
    while any(is_ending(it) for it in holders(path)) and time.monotonic() < until:
        time.sleep(LOOK)
