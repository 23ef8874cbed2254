"""Runs of the program whose costs are measured. costly_shapes.py and input_memory.py import this file."""
import os
import pathlib
import subprocess
from collections.abc import Sequence
from typing import NamedTuple

KEY = "com,example)/"
STAMP = "20160919172024"
MEMBERS = '"url": "http://example.com/%s", "offset": "%d", "filename": "%s"}\n'
RECORD = (
    "WARC/1.1\r\nWARC-Type: resource\r\nWARC-Record-ID: <urn:x:1>\r\nWARC-Date: 2016-09-19T17:20:24Z\r\n"
    "WARC-Target-URI: %s\r\nContent-Length: 0\r\n\r\n\r\n\r\n"
)


class Costs(NamedTuple):
    """What a run took."""

    status: int
    error: bytes
    bytes_read: int
    seconds: float  # of the processor, outside of the kernel
    memory: int  # bytes, at its peak


def line(path: str = "", offset: int = 0, filename: str = "a.warc", before: str = "") -> str:
    """Returns the line of a capture, whose object has these members before the usual ones."""
    return f"{KEY}{path} {STAMP} {{{before}" + MEMBERS % (path, offset, filename)


def measure(program: pathlib.Path, folder: pathlib.Path, words: Sequence[str]) -> Costs:
    """Runs the program in the folder. What it writes on standard output is dropped."""
    process = subprocess.Popen(
        (program, *words), cwd=folder, stdin=subprocess.DEVNULL, stdout=subprocess.DEVNULL, stderr=subprocess.PIPE
    )
    with process.stderr as pipe:
        error = pipe.read()
    os.waitid(os.P_PID, process.pid, os.WEXITED | os.WNOWAIT)  # it has ended, and /proc still has its counts
    counts = pathlib.Path(f"/proc/{process.pid}/io").read_text().split()
    _, status, usage = os.wait4(process.pid, 0)
    process.returncode = os.waitstatus_to_exitcode(status)
    bytes_read = int(counts[counts.index("rchar:") + 1])
    return Costs(process.returncode, error, bytes_read, usage.ru_utime, usage.ru_maxrss * 1024)
