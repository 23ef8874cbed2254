"""What the tests share.

They run the program that the variable WARCDX names, or else `warcdx` of the PATH, and `warcdx-gz` that belongs to it.
"""
import gzip
import os
import pathlib
import signal
import subprocess
import sys
import tempfile
import time
import unittest
from collections.abc import Callable
from resource import RLIMIT_FSIZE, setrlimit
from typing import Any

from warcdx import Index

signal.signal(signal.SIGINT, signal.default_int_handler)  # a job in the background ignores it, and so would its commands

PROGRAM = os.environ.get("WARCDX", "warcdx")
SAMPLES = pathlib.Path(__file__).resolve().parents[2] / "samples"
WAIT = 30  # seconds for what takes a few milliseconds
# The signals that end a command, but for those that it ignores since these tests do, as below nohup.
ENDING = tuple(number for number in (signal.SIGINT, signal.SIGTERM, signal.SIGHUP) if signal.getsignal(number) is not signal.SIG_IGN)
ALL = "key=&matchType=prefix"
LINE = (
    'com,example)/%s 20160101000000 {"url": "http://example.com/%s", "mime": "text/html", "status": "200", '
    '"digest": "-", "length": "%d", "offset": "%d", "filename": "a.warc"}\n'
)
RECORD = (
    b"WARC/1.0\r\nWARC-Type: resource\r\nWARC-Record-ID: <urn:x>\r\nWARC-Date: 2016-01-01T00:00:00Z\r\n"
    b"WARC-Target-URI: http://example.com/%d\r\nContent-Type: text/plain\r\nContent-Length: %d\r\n\r\n%s\r\n\r\n"
)


def resource(number: int, block: bytes = b"block") -> bytes:
    """Returns a record of this block."""
    return RECORD % (number, len(block), block)


def packed(*texts: bytes) -> list[bytes]:
    """Returns a member of gzip of each text."""
    return [gzip.compress(text, mtime=0) for text in texts]


def lines(count: int) -> str:
    """Returns an index of `count` captures, each of another page."""
    return "".join(LINE % (f"{number:07}", f"{number:07}", number + 1, number) for number in range(count))


class Case(unittest.TestCase):
    """A test with a temporary folder."""

    def setUp(self) -> None:
        folder = tempfile.TemporaryDirectory()
        self.addCleanup(folder.cleanup)
        self.folder = pathlib.Path(folder.name)

    def put(self, text: str, name: str = "index") -> pathlib.Path:
        path = self.folder / name
        path.write_text(text)
        return path

    def script(self, text: str) -> str:
        """Returns a program that this text of sh is."""
        path = self.put(f"#!/bin/sh\n{text}\n", "program")
        path.chmod(0o755)
        return str(path)

    def expect_a_full_disk_is_said(self, command: pathlib.Path, said: str, *calls: tuple[str, ...]) -> None:
        """Calls a command that can write 1,000 bytes of a file. What it says is this expression."""
        for arguments in calls:
            for environment in ({}, {"PYTHONUNBUFFERED": "1"}):
                with open(self.folder / "output", "wb") as output:
                    done = subprocess.run(
                        (sys.executable, command, "--program", os.path.abspath(PROGRAM), *arguments), cwd=self.folder,
                        stdout=output, stderr=subprocess.PIPE, text=True, env={**os.environ, **environment},
                        preexec_fn=lambda: setrlimit(RLIMIT_FSIZE, (1000, 1000)),
                    )  # fmt: skip
                self.assertEqual(3, done.returncode, (arguments, done.stderr))
                self.assertRegex(done.stderr, rf"\A{said}\Z")

    def wait_for(self, condition: Callable[[], bool]) -> None:
        end = time.monotonic() + WAIT
        while not condition():
            self.assertLess(time.monotonic(), end)
            time.sleep(0.01)

    def wait_for_a_later_time(self) -> None:
        """Waits until a file that is changed gets a later time than those that were changed before, whatever the steps of the clock are."""
        probe = self.folder / "probe"
        probe.touch()
        before = probe.stat().st_mtime_ns

        def is_later() -> bool:
            probe.touch()
            return probe.stat().st_mtime_ns != before

        self.wait_for(is_later)
        probe.unlink()

    def open(self, *paths: pathlib.Path, **arguments: Any) -> Index:
        index = Index(paths, **{"program": PROGRAM, **arguments})
        self.addCleanup(index.close)
        return index

    def raises(self, kind: type[BaseException], call: Callable[..., object], *arguments: Any, **named: Any) -> Any:
        """Returns the exception of a call, of this class or of one directly below it."""
        with self.assertRaises(kind) as caught:
            call(*arguments, **named)
        self.assertIn(kind, type(caught.exception).__mro__[:2])
        return caught.exception


def processes_of(index: Index) -> list[int]:
    """Returns the process IDs of an index that is idle."""
    return [serve._process.pid for serve in index._idle if serve._process is not None]


def is_running(number: int) -> bool:
    """Returns whether a process runs: it exists, and isn't one that has ended and whose status isn't read (Linux)."""
    try:
        state = pathlib.Path(f"/proc/{number}/stat").read_text().rpartition(") ")[2][:1]
    except (FileNotFoundError, ProcessLookupError):
        return False
    return state != "Z"


def children_of(number: int) -> list[int]:
    """Returns the process IDs of what a process has started and hasn't waited for (Linux)."""
    found = []
    for path in pathlib.Path("/proc").glob("[0-9]*/stat"):
        try:
            parent = int(path.read_text().rpartition(") ")[2].split()[1])
        except OSError:  # it has ended
            continue
        if parent == number:
            found.append(int(path.parent.name))
    return found


def wait_until_caught(process: "subprocess.Popen[bytes]", number: int) -> None:
    """Waits until a process handles a signal (Linux)."""
    end = time.monotonic() + WAIT
    while process.poll() is None and time.monotonic() < end:
        status = pathlib.Path(f"/proc/{process.pid}/status").read_text()
        caught = next(line.split()[1] for line in status.splitlines() if line.startswith("SigCgt:"))
        if int(caught, 16) >> (number - 1) & 1:
            return
        time.sleep(0.01)
    raise AssertionError("the signal isn't handled")


def wait_until_asleep(process: "subprocess.Popen[bytes]") -> None:
    """Waits until a process waits (Linux). A signal that comes just before, when Python has looked for one, is seen after the wait."""
    end, looks = time.monotonic() + WAIT, 0
    while looks < 3:
        if process.poll() is not None or time.monotonic() > end:
            raise AssertionError("the process doesn't wait")
        state = pathlib.Path(f"/proc/{process.pid}/stat").read_text().rpartition(")")[2].split()[0]
        looks = looks + 1 if state == "S" else 0
        time.sleep(0.01)
