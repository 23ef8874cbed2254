#!/usr/bin/env python3
"""Reads compressed archives whose members hold long records: of 3,000,000,000 bytes, and of more than 2^32, of which a trailer keeps the rest alone.

usage: long_members.py [PROGRAM]

Each archive has a long record of zeros, and behind it a short one. `list`, `verify`, `index` and `get` have to say what this script calculates,
and to hold at most MEMORY bytes meanwhile. A member in which zeros follow a record is refused in the same memory.

PROGRAM is warcdx-gz; without it, that of this repository. Makes the archives in a temporary folder (TMPDIR, 30 MB), in some minutes. Prints a line for
each check, and the counts. The exit status is 0, or 1 if a check fails.
"""
import base64
import hashlib
import json
import pathlib
import select
import subprocess
import sys
import tempfile
import zlib
from collections.abc import Iterator
from typing import NamedTuple

sys.path.insert(0, str(pathlib.Path(__file__).resolve().parents[1]))

from program import BUILT_GZ, Report, add_program, find_program, parser_of

MEMORY = 4_000_000  # bytes
PIECE = bytes(1 << 20)
SIZES = (3_000_000_000, (1 << 32) + 1000)  # bytes of a block
HEAD = "WARC/1.1\r\nWARC-Type: resource\r\nWARC-Target-URI: http://example.com/%d\r\nWARC-Record-ID: <urn:uuid:00000000-0000-4000-8000-000000000001>\r\n" \
    "WARC-Date: 2016-01-01T00:00:00Z\r\nWARC-Block-Digest: sha1:%s\r\nContent-Type: text/plain\r\nContent-Length: %d\r\n\r\n"
CLOSING = b"\r\n\r\n"
GZIP = 16 + zlib.MAX_WBITS


class Ended(NamedTuple):
    status: int
    digest: str  # of what was written, in hexadecimal digits
    output: bytes  # its first bytes
    error: bytes
    peak: int  # bytes of memory


def zeros(size: int) -> Iterator[bytes]:
    for _ in range(size // len(PIECE)):
        yield PIECE
    yield PIECE[: size % len(PIECE)]


def record(size: int) -> Iterator[bytes]:
    """The pieces of a record whose block is `size` zeros."""
    digest = hashlib.sha1()
    for piece in zeros(size):
        digest.update(piece)
    yield (HEAD % (size, base64.b32encode(digest.digest()).decode(), size)).encode()
    yield from zeros(size)
    yield CLOSING


def write_member(path: pathlib.Path, pieces: Iterator[bytes]) -> tuple[int, str]:
    """Adds a member to a file. Returns its length in bytes, and the digest of its text."""
    packer, digest, length = zlib.compressobj(1, zlib.DEFLATED, GZIP), hashlib.sha1(), 0
    with open(path, "ab") as file:
        for piece in pieces:
            digest.update(piece)
            length += file.write(packer.compress(piece))
        length += file.write(packer.flush())
    return length, digest.hexdigest()


def run(*command: object) -> Ended:
    """Runs a command to its end. Its memory is read from its own account every few milliseconds: a short run may end before that."""
    digest, first, peak = hashlib.sha1(), b"", 0
    with subprocess.Popen(tuple(map(str, command)), stdin=subprocess.DEVNULL, stdout=subprocess.PIPE, stderr=subprocess.PIPE) as process:
        assert process.stdout is not None and process.stderr is not None
        is_open = True
        while is_open:
            peak = max(peak, held_by(process.pid))
            if select.select((process.stdout,), (), (), 0.005)[0]:
                piece = process.stdout.read1(1 << 20)
                digest.update(piece)
                first = (first + piece)[:4096]
                is_open = bool(piece)
        return Ended(process.wait(), digest.hexdigest(), first, process.stderr.read(), peak)


def held_by(process: int) -> int:
    """The most memory, in bytes, that a process has held, or 0 if it has ended."""
    try:
        status = pathlib.Path(f"/proc/{process}/status").read_text()
    except OSError:
        return 0
    return next((int(line.split()[1]) * 1024 for line in status.splitlines() if line.startswith("VmHWM:")), 0)


class Checks:
    """The checks of one archive."""

    def __init__(self, report: Report, name: str) -> None:
        self.report = report
        self.name = name

    def add(self, command: str, ended: Ended, holds: bool) -> None:
        case = f"{self.name}: {command}, {ended.peak / 1e6:.1f} MB"
        if holds and ended.peak <= MEMORY:
            self.report.add_ok(case)
        else:
            self.report.add_difference(case, ended)


def check_long(report: Report, program: pathlib.Path, folder: pathlib.Path, size: int) -> None:
    path = folder / "long.warc.gz"
    path.unlink(missing_ok=True)
    long, long_digest = write_member(path, record(size))
    short, short_digest = write_member(path, record(10))
    checks = Checks(report, f"a record of {size} bytes")
    ended = run(program, "list", path)
    checks.add("list", ended, ended.output == f"0 {long} resource\n{long} {short} resource\n".encode())
    ended = run(program, "verify", path)
    checks.add("verify", ended, ended.output == f"0 same\n{long} same\n".encode())
    ended = run(program, "index", path)
    places = [(int(line["offset"]), int(line["length"])) for line in map(json_of, ended.output.splitlines())]
    checks.add("index", ended, sorted(places) == [(0, long), (long, short)])
    for offset, length, digest in ((0, long, long_digest), (long, short, short_digest)):
        for options in ((), ("--length", length)):
            ended = run(program, "get", *options, offset, path)
            checks.add(f"get {' '.join(map(str, options))} of {offset}", ended, ended.status == 0 and ended.digest == digest)


def json_of(line: bytes) -> dict[str, str]:
    return json.loads(line.split(b" ", 2)[2])


def check_zeros_behind(report: Report, program: pathlib.Path, folder: pathlib.Path) -> None:
    """A member in which 64 MB of zeros follow a record."""
    path = folder / "behind.warc.gz"
    write_member(path, (piece for pieces in (record(10), zeros(64_000_000)) for piece in pieces))
    ended = run(program, "list", path)
    Checks(report, "zeros behind a record").add("list", ended, ended.output == b"fault 0 SeveralRecords\n")


def main() -> int:
    parser = parser_of(__doc__)
    add_program(parser)
    program = find_program(parser.parse_args().program, BUILT_GZ)
    report = Report()
    with tempfile.TemporaryDirectory() as name:
        for size in SIZES:
            check_long(report, program, pathlib.Path(name), size)
        check_zeros_behind(report, program, pathlib.Path(name))
    return report.end()


if __name__ == "__main__":
    sys.exit(main())
