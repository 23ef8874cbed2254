"""The commands of this repository that are Python, and their runs on given devices. scripts.py imports this file."""
import base64
import functools
import gzip
import hashlib
import importlib.util
import itertools
import os
import pathlib
import subprocess
import time
from collections.abc import Mapping, Sequence
from types import TracebackType
from typing import Any, NamedTuple, Optional, Union

from device_runs import LINE, SECONDS, expect
from program import ROOT, find_packed_program

MANY = 6000  # records of an archive, so that a report on it is larger than any buffer and any pipe
PATIENCE = 30  # seconds in which, on a busy host too, the processes of a run that a signal has ended are gone
RECORD = (
    b"WARC/1.1\r\nWARC-Type: resource\r\nWARC-Record-ID: <urn:x:1>\r\nWARC-Date: 2016-09-19T17:20:24Z\r\n"
    b"WARC-Target-URI: http://example.com/%07d\r\nWARC-Block-Digest: sha1:%b\r\nContent-Length: %d\r\n\r\n%b\r\n\r\n"
)
PAGE = (
    b"WARC/1.1\r\nWARC-Type: response\r\nWARC-Record-ID: <urn:x:1>\r\nWARC-Date: 2016-09-19T17:20:24Z\r\n"
    b"WARC-Target-URI: http://example.com/\r\nContent-Type: application/http\r\nContent-Length: %d\r\n\r\n%b\r\n\r\n"
)
VERIFIED = (
    b"WARC/1.1\r\nWARC-Type: resource\r\nWARC-Record-ID: <urn:x:1>\r\nWARC-Date: 2016-09-19T17:20:24Z\r\n"
    b"WARC-Block-Digest: sha256:%b\r\nContent-Length: 5\r\n\r\n%b\r\n\r\n"
)
CDX_LINE = b"com,example)/%07d 20160919172024 http://example.com/%07d text/html 200 - - - 1 %d a.warc\n"
PAGE_LINE = b'com,example)/ 20160919172024 {"url": "http://example.com/", "length": "%d", "offset": "0", "filename": "page.warc"}\n'
BODY = bytes(range(256)) * 2000
STAND_IN = "def surt(url):\n    return url[::-1]\n"
Word = Union[str, bytes]


class Script(NamedTuple):
    """A run of a command: its arguments, and the file of its standard input. `file` is the argument with an archive."""

    name: str
    path: pathlib.Path
    words: tuple[Word, ...] = ()
    file: str = ""
    reads: Optional[str] = None
    has_version: bool = True
    has_output: bool = True  # whether it writes more than a pipe holds
    most_lines: int = 1  # on standard error, of which each is about another archive or process

    def words_for(self, name: Word) -> tuple[Word, ...]:
        """Returns the arguments with another name of the archive."""
        return tuple(name if word == self.file else word for word in self.words)

    @property
    def file_name(self) -> str:
        return self.name.replace(" ", "-")


def scripts_of(program: pathlib.Path) -> tuple[Script, ...]:
    """Returns the runs of each command. A new command has its own here."""
    fetch, verify, cdx = (ROOT / "python/bin" / name for name in ("warcdx-fetch", "warcdx-verify", "warcdx-cdx"))
    find_packed_program(program)  # which warcdx-verify finds too
    of_warcdx = ("--program", str(program))
    return (
        Script("warcdx-verify", verify, (*of_warcdx, "digests.warc.gz"), "digests.warc.gz"),
        Script("warcdx-verify of a plain archive", verify, (*of_warcdx, "digests.warc"), "digests.warc"),
        Script("warcdx-verify of standard input", verify, (*of_warcdx, "-"), reads="digests.warc.gz"),
        Script(
            "warcdx-verify of two at a time", verify, (*of_warcdx, "--jobs", "2", "digests.warc.gz", "digests.warc"), most_lines=2
        ),
        Script("warcdx-fetch", fetch, (*of_warcdx, "--index", "page.cdxj", "http://example.com/")),
        Script("warcdx-fetch of a record", fetch, (*of_warcdx, "--index", "page.cdxj", "--record", "http://example.com/")),
        Script("warcdx-cdx to", cdx, (*of_warcdx, "to", "a.cdxj"), "a.cdxj"),
        Script("warcdx-cdx to of standard input", cdx, (*of_warcdx, "to"), reads="a.cdxj"),
        Script("warcdx-cdx from", cdx, (*of_warcdx, "from", "a.cdx"), "a.cdx"),
        Script("warcdx-cdx from of standard input", cdx, (*of_warcdx, "from"), reads="a.cdx"),
        Script("warcdx-update", ROOT / "python/bin/warcdx-update", has_output=False),
        *gateway(program),
        Script("surt_keys.py", ROOT / "examples/surt_keys.py", reads="a.cdxj", has_version=False),
    )


def gateway(program: pathlib.Path) -> tuple[Script, ...]:
    """Returns the run of the gateway, if the packages that it needs are there."""
    if not all(map(importlib.util.find_spec, ("gunicorn", "prometheus_client", "regex", "werkzeug"))):
        return ()
    words = ("--program", str(program), "--port", "0", "--indexes", "a.cdxj")
    return (Script("warcdx-gateway", ROOT / "gateway/bin/warcdx-gateway", words, has_output=False),)


class Ended(NamedTuple):
    """How a run ended."""

    status: int
    output: bytes
    error: bytes


def record(number: int, block: bytes) -> bytes:
    return RECORD % (number, base64.b32encode(hashlib.sha1(block).digest()), len(block), block)


@functools.lru_cache(maxsize=None)
def inputs() -> Mapping[str, bytes]:
    """Returns the files of a run. Their bytes don't compress to nothing, so that they are read in several pieces."""
    blocks = (base64.b64encode(hashlib.sha512(b"%d" % number).digest()) for number in range(MANY))
    records = list(map(record, range(MANY), blocks))
    numbers = range(10_000, 14_000)
    digests = (hashlib.sha256(b"%d" % number).hexdigest().encode() for number in numbers)
    with_digests = [VERIFIED % (digest, b"%d" % number) for digest, number in zip(digests, numbers)]
    # The package reads records with a whole date by itself, and asks the program from the first other one on.
    with_digests[2000] = with_digests[2000].replace(b"T17:20:24Z", b"")
    response = b"HTTP/1.1 200 OK\r\n\r\n" + BODY
    page = PAGE % (len(response), response)
    return {
        "a.warc.gz": b"".join(gzip.compress(record, 1, mtime=0) for record in records),
        "b.warc": b"".join(records),
        "digests.warc.gz": b"".join(gzip.compress(record, 1, mtime=0) for record in with_digests),
        "digests.warc": b"".join(with_digests),
        "page.warc": page,
        "page.cdxj": PAGE_LINE % len(page),
        "a.cdxj": b"".join(LINE % (number, number, number) for number in range(MANY)),
        "a.cdx": b"".join(CDX_LINE % (number, number, number) for number in range(MANY)),
        "surt.py": STAND_IN.encode(),
    }


class Run:
    """A run of a command in a folder, with a folder for temporary files that is to be empty after it."""

    _numbers = itertools.count()

    def __init__(
        self, program: pathlib.Path, script: Script, folder: pathlib.Path, cache: pathlib.Path, unbuffered: str
    ) -> None:
        """Runs in a folder, with the byte code of modules in another, and with this value of PYTHONUNBUFFERED."""
        self.program = program
        self.script = script
        self.folder = folder
        self.unbuffered = unbuffered
        self.temporary = folder / "temporary"
        self.temporary.mkdir(mode=0o777)
        self.temporary.chmod(0o777)
        for name, text in inputs().items():
            (folder / name).write_bytes(text)
        self._mark = f"WARCDX_RUN={os.getpid()}-{next(self._numbers)}"
        mark, _, number = self._mark.partition("=")
        self._environment = {
            **os.environ,
            "PYTHONUNBUFFERED": unbuffered,
            "PYTHONPATH": str(folder),
            "PYTHONDONTWRITEBYTECODE": "",
            "PYTHONPYCACHEPREFIX": str(cache),
            "TMPDIR": str(self.temporary),
            mark: number,
        }
        self._usual: Optional[Ended] = None

    def start(
        self,
        *front: str,
        words: Optional[Sequence[Word]] = None,
        shell: str = "",
        environment: Mapping[str, str] = {},
        **devices: Any,
    ) -> "subprocess.Popen[bytes]":
        """Starts the command, by another one that is put in front of it, or by a line of shell that runs "$@"."""
        shell_words = ("sh", "-c", shell, "sh") if shell else ()
        words = self.script.words if words is None else words
        command = (*front, *shell_words, str(self.script.path), *words)
        pipes: dict[str, Any] = {"stdin": subprocess.DEVNULL, "stdout": subprocess.PIPE, "stderr": subprocess.PIPE}
        reads = None if self.script.reads is None else open(self.folder / self.script.reads, "rb")
        if reads is not None:
            pipes["stdin"] = reads
        try:
            return subprocess.Popen(
                command, cwd=self.folder, env={**self._environment, **environment}, **{**pipes, **devices}
            )
        finally:
            if reads is not None:
                reads.close()

    def ended(self, *front: str, **arguments: Any) -> Ended:
        return self.end_of(self.start(*front, **arguments))

    def end_of(self, process: "subprocess.Popen[bytes]") -> Ended:
        """Waits for the end of a run, which leaves nothing, and returns it."""
        output, error = process.communicate(timeout=SECONDS)
        self.expect_nothing_left(error or b"")
        return Ended(process.returncode, output or b"", error or b"")

    def read_first_bytes(self) -> Ended:
        """Runs the command with a reader that leaves, like `head -c 1`."""
        process = self.start()
        assert process.stdout is not None and process.stderr is not None
        first = process.stdout.read(1)
        process.stdout.close()
        error = process.stderr.read()
        process.stderr.close()
        status = process.wait(SECONDS)
        self.expect_nothing_left(error)
        return Ended(status, first, error)

    def usual(self) -> Ended:
        """Returns how the command ends if nothing fails."""
        if self._usual is None:
            self._usual = self.ended()
            expect(self._usual.status == 0 and not self._usual.error, "usual", self._usual.status, self._usual.error)
            expect(len(self._usual.output) > 70_000, "the output is short", len(self._usual.output))
        return self._usual

    def expect_failure(self, found: Ended, said: Optional[bytes] = None) -> None:
        """The run has failed, and one line says why."""
        front = self.script.path.name.encode() + b": "
        lines = found.error.splitlines(keepends=True)
        are_lines = all(line.startswith(front) and line.endswith(b"\n") for line in lines)
        expect(found.status == 3 and are_lines and 1 <= len(lines) <= self.script.most_lines, found.status, found.error)
        expect(said is None or set(lines) == {front + said + b"\n"}, found.error)

    def expect_nothing_left(self, error: bytes) -> None:
        expect(b"Traceback" not in error and b"Exception" not in error, error)
        left = os.listdir(self.temporary)
        expect(not left, "temporary files are left", left)
        end = time.monotonic() + PATIENCE
        while processes := self._processes():
            expect(time.monotonic() < end, "processes are left", processes)
            time.sleep(0.01)

    def _processes(self) -> list[str]:
        """Returns the IDs of the processes of a run."""
        found = []
        for folder in pathlib.Path("/proc").glob("[0-9]*"):
            try:
                if self._mark.encode() in (folder / "environ").read_bytes().split(b"\0"):
                    found.append(folder.name)
            except OSError:
                pass
        return found


class Disk:
    """A disk of 64 kB, if the script may mount one."""

    def __init__(self, path: pathlib.Path) -> None:
        self.path = path
        self.is_mounted = False

    def __enter__(self) -> "Disk":
        command = ("mount", "-t", "tmpfs", "-o", "size=64k", "tmpfs", self.path)
        self.is_mounted = not subprocess.run(command, stderr=subprocess.DEVNULL, check=False).returncode
        return self

    def __exit__(
        self, kind: Optional[type[BaseException]], error: Optional[BaseException], trace: Optional[TracebackType]
    ) -> None:
        if self.is_mounted:
            subprocess.run(("umount", self.path), check=True)
