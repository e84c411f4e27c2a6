"""Runs a program once, and tells what it took."""
import os
import subprocess
import tempfile

KIB = 1024


def measure(words, given=b""):
    """The processor seconds and the peak memory in KiB of one run of these words, and its status and output. It reads what is
    given from standard input."""
    with tempfile.TemporaryFile() as source, tempfile.TemporaryFile() as out:
        source.write(given)
        source.seek(0)
        process = subprocess.Popen(words, stdin=source, stdout=out, stderr=out)
        _, status, usage = os.wait4(process.pid, 0)
        out.seek(0)
        return usage.ru_utime + usage.ru_stime, usage.ru_maxrss, os.waitstatus_to_exitcode(status), out.read()
