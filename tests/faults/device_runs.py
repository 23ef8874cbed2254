"""Runs of each command on archives and indexes, with given devices. real_devices.py, cut_files.py and scarce_memory.py import this file."""
import contextlib
import os
import pathlib
import subprocess
import tempfile
from collections.abc import Callable, Iterator, Sequence
from typing import Any, Optional

from preloaded_runs import ALL, Ended
from program import Report, add_program, find_program, parser_of, without_advice

SECONDS = 60
RECORD = (
    b"WARC/1.1\r\nWARC-Type: resource\r\nWARC-Record-ID: <urn:x:1>\r\nWARC-Date: 2016-09-19T17:20:24Z\r\n"
    b"WARC-Target-URI: http://example.com/%07d\r\nContent-Length: %d\r\n\r\n%b\r\n\r\n"
)
LINE = b'com,example)/%07d 20160919172024 {"url": "http://example.com/%07d", "offset": "%d", "filename": "a.warc"}\n'
SAME = b'com,example)/ 20160919172024 {"url": "http://example.com/", "mime": "%b", "offset": "%d", "filename": "a.warc"}\n'
ASKED = f"{ALL}&fl=urlkey,offset,filename\n".encode()
MANY = 20_000
# For each command a run that writes more than any buffer and any pipe holds.
LONG = {
    "list": ("list", "many.warc"),
    "verify": ("verify", "many.warc"),
    "index": ("index", "many.warc"),
    "merge": ("merge", "many.cdxj"),
    "check": ("check", *["empty"] * 10_000),
    "query": ("query", f"{ALL}&output=cdxj", "many.cdxj"),
    "pages": ("pages", "100", ALL, "many.cdxj"),
    "serve": ("serve", "many.cdxj"),
    "get": ("get", "0", "large.warc"),
    "scan": ("scan", "100", f"{ALL}&output=json", "many.warc"),
}


def of_input(name: str) -> tuple[tuple[tuple[str, ...], ...], tuple[tuple[str, ...], ...]]:
    """Returns the commands that read archives, with one of this name, and those that read indexes, with one of this name."""
    archives = (("list", name), ("verify", name), ("index", name), ("get", "0", name), ("scan", "9", ALL, name))
    indexes = (("merge", name), ("check", name), ("query", ALL, name), ("pages", "9", ALL, name), ("serve", name))
    return archives, indexes


class Differs(Exception):
    """What differs."""


def expect(holds: object, *what: object) -> None:
    if not holds:
        raise Differs(" ".join(f"{each!r:.600}" for each in what))


class Place:
    """The program, and a folder with archives and indexes."""

    def __init__(self, program: pathlib.Path, folder: str) -> None:
        self.program = program
        self.folder = pathlib.Path(folder)
        (self.folder / "many.warc").write_bytes(b"".join(RECORD % (number, 3, b"abc") for number in range(MANY)))
        (self.folder / "large.warc").write_bytes(RECORD % (0, 1 << 20, bytes(1 << 20)))
        (self.folder / "one.warc").write_bytes(RECORD % (0, 3, b"abc"))
        (self.folder / "many.cdxj").write_bytes(b"".join(LINE % (number, number, number) for number in range(MANY)))
        (self.folder / "one.cdxj").write_bytes(LINE % (0, 0, 0))
        (self.folder / "one-pair.cdxj").write_bytes(b"".join(SAME % (b"a" * 100, number) for number in range(MANY)))
        (self.folder / "wide.cdxj").write_bytes(b"".join(SAME % (b"a" * 1_000_000, number) for number in range(9)))
        (self.folder / "empty").write_bytes(b"")

    def start(self, words: Sequence[str], **devices: Any) -> "subprocess.Popen[bytes]":
        pipes = {"stdin": subprocess.DEVNULL, "stdout": subprocess.PIPE, "stderr": subprocess.PIPE}
        return subprocess.Popen((self.program, *words), cwd=self.folder, **{**pipes, **devices})

    def run(self, words: Sequence[str], lines: Optional[bytes] = None, **devices: Any) -> Ended:
        if words[0] == "serve" and lines is None:
            lines = ASKED
        if lines is not None:
            devices["stdin"] = subprocess.PIPE
        return ended(self.start(words, **devices), lines)

    def usual(self, words: Sequence[str]) -> bytes:
        status, output, error = self.run(words)
        expect((status, error) == (0, b""), words, status, error)
        return output


def ended(process: "subprocess.Popen[bytes]", lines: Optional[bytes] = None) -> Ended:
    try:
        output, error = process.communicate(lines, timeout=SECONDS)
    except subprocess.TimeoutExpired:
        process.kill()
        process.communicate()
        raise Differs(f"takes over {SECONDS} s") from None
    return Ended(process.returncode, output, without_advice(error))


def position(process: int, path: pathlib.Path) -> int:
    """Returns the position of a process in a file that it has opened, or else 0."""
    with contextlib.suppress(OSError):
        for link in pathlib.Path(f"/proc/{process}/fd").iterdir():
            if os.readlink(link) == str(path):
                return int(pathlib.Path(f"/proc/{process}/fdinfo/{link.name}").read_text().split()[1])
    return 0


Way = Callable[[Place], Iterator[str]]


def try_ways(header: Optional[str], ways: Sequence[Way]) -> int:
    """Reads the arguments of a script, and prints a line for each case of each way, and the counts. Returns the exit status of the script."""
    parser, report = parser_of(header), Report()
    add_program(parser)
    program = find_program(parser.parse_args().program)
    with tempfile.TemporaryDirectory() as folder:
        place = Place(program, folder)
        for way in ways:
            name = way.__name__.replace("_", " ")
            try:
                for case in way(place):
                    report.add_ok(f"{name}: {case}")
            except Differs as difference:
                report.add_difference(name, difference)
    return report.end()
