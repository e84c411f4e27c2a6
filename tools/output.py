"""Standard output and standard error of the commands in Python: what is told, and the status, where they take no more."""
import contextlib
import errno
import os
import sys

# The status of a command whose standard output could not be written, as that of the program.
NOT_WRITTEN = 7


def open_if_closed():
    """In the place of a closed standard output something that cannot be written either: a file would get its number else."""
    if sys.stdout is None:
        sys.stdout = os.fdopen(os.open(os.devnull, os.O_RDONLY), "w")


def say(line):
    """Writes a line to standard error, where it takes one."""
    if sys.stderr is not None:
        with contextlib.suppress(OSError):
            print(line.encode(errors="replace").decode(), file=sys.stderr, flush=True)


def tell(text):
    """Tells something on standard error in the name of the controller."""
    say(f"controller: {text}")


def why_not(fault):
    """What an OSError tells: the file and the reason, without Python's own words."""
    reason = fault.strerror or str(fault)
    return f"{fault.filename}: {reason}" if fault.filename else reason


def no_folder(path):
    """Why a path is no folder."""
    return f"{path or 'a folder without a name'} is {'no folder' if os.path.exists(path) else 'not there'}"


def why_unwritable(fault):
    """Why standard output takes nothing, by the fault of a write."""
    return "it is closed" if fault.errno == errno.EBADF else fault.strerror


def not_written(fault):
    """The status where standard output takes no more. Of a reader that has gone, as `head` does, nothing is told."""
    if fault.errno != errno.EPIPE:
        tell(f"standard output could not be written: {why_unwritable(fault)}")
    # What it has not taken is not written once more.
    sys.stdout = None
    return NOT_WRITTEN


def encoded(text):
    """A text as UTF-8. Bytes of a file's name that are none stay as they are."""
    try:
        return text.encode(errors="surrogateescape")
    except UnicodeEncodeError:
        return text.encode(errors="replace")


def put(text):
    """Writes a text to standard output, and gives 0, or the status where that could not be done."""
    open_if_closed()
    try:
        sys.stdout.buffer.write(encoded(text))
        sys.stdout.flush()
    except OSError as fault:
        return not_written(fault)
    return 0
