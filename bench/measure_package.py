#!/usr/bin/env python3
"""Measures how the Python package reads records, and compares the figures with the goals of README.md in this folder.

usage: measure_package.py [PROGRAM]

PROGRAM is warcdx, in whose folder warcdx-gz may be, too. Makes an archive of 5,000 records of 3 kB, compressed and plain, in a temporary folder
(TMPDIR, 25 MB), and prints a table. The exit status is 0, or 1 if a goal is missed.
"""
import gzip
import os
import pathlib
import random
import subprocess
import sys
import tempfile
import time
import zlib
from collections.abc import Callable
from functools import partial

PACKAGE = pathlib.Path(__file__).resolve().parents[1] / "python"
sys.path.insert(0, str(PACKAGE))

from measuring import Figure, least_times, read_program, report, run_time
from warcdx import Archive, Collection, Record, open_archive

ROUNDS = 7
RECORDS = 5000
ASKED = 100  # of these, by the program
STARTS = 20  # of Python, for each of which the least counts
MEMORY = 1 << 30  # bytes that are held while a program is started
PIECE = 1 << 16
HEAD = (
    b"WARC/1.0\r\nWARC-Type: response\r\nWARC-Record-ID: <urn:uuid:00000000-0000-4000-8000-%012d>\r\nWARC-Date: 2016-01-01T00:00:00Z\r\n"
    b"WARC-Target-URI: http://example.com/%d\r\nWARC-IP-Address: 192.0.2.1\r\nWARC-Payload-Digest: sha1:3I42H3S6NNFQ2MSVX7XZKYAYSCX5QBYJ\r\n"
    b"Content-Type: application/http; msgtype=response\r\nContent-Length: %d\r\n\r\n"
)
HTTP_HEAD = b"HTTP/1.1 200 OK\r\nContent-Type: text/html\r\n\r\n"
WORDS = [f"<p>word{number} ".encode() for number in range(5000)]
MODULES = (
    "import sys; before = set(sys.modules); import warcdx; "
    "print(*sorted(name for name in set(sys.modules) - before if not name.startswith('warcdx')), sep=',')"
)


def make(packed: pathlib.Path, plain: pathlib.Path) -> None:
    choice = random.Random(1)
    with open(packed, "wb") as members, open(plain, "wb") as texts:
        for number in range(RECORDS):
            block = HTTP_HEAD + b"".join(choice.choices(WORDS, k=230))
            record = HEAD % (number, number, len(block)) + block + b"\r\n\r\n"
            members.write(gzip.compress(record, 6, mtime=0))
            texts.write(record)


def read_by_loop(path: pathlib.Path) -> int:
    """Reads the records of an archive as a short loop does: each member, the fields of its head, and its block."""
    count = 0
    with open(path, "rb") as file:
        data = file.read(PIECE)
        while data:
            member = zlib.decompressobj(31)
            text = member.decompress(data)
            while not member.eof:
                text += member.decompress(file.read(PIECE))
            head, _, rest = text.partition(b"\r\n\r\n")
            fields = []
            for line in head.decode(errors="surrogateescape").split("\r\n")[1:]:
                name, _, value = line.partition(":")
                fields.append((name, value.strip()))
            count += bool(fields) and len(rest[:-4]) > 0
            data = member.unused_data or file.read(PIECE)
    return count


def used(call: Callable[[], object]) -> float:
    """The processor time of this process for a call, in seconds."""
    start = time.process_time()
    call()
    return time.process_time() - start


def passed(call: Callable[[], object]) -> float:
    start = time.perf_counter()
    call()
    return time.perf_counter() - start


def iterate(path: pathlib.Path, program: str) -> None:
    if sum(1 for _ in open_archive(path, program=program)) != RECORDS:
        sys.exit(f"{path} has other records")


def loop(path: pathlib.Path) -> None:
    if read_by_loop(path) != RECORDS:
        sys.exit(f"{path} has other members")


def records_of(collection: Collection) -> list[Record]:
    captures = list(collection.captures(limit=ASKED))
    return [collection.archive(capture.filename)._record_by_program(capture.offset, capture.length) for capture in captures]


def least_start(code: str) -> float:
    """The least processor time of Python that runs a text."""
    environment = {**os.environ, "PYTHONPATH": str(PACKAGE), "PYTHONDONTWRITEBYTECODE": ""}
    return min(
        run_time(("/usr/bin/env", *(f"{name}={value}" for name, value in environment.items()), sys.executable, "-c", code))
        for _ in range(STARTS)
    )


def start_time(archive: Archive) -> float:
    """The time of a start of the program, in seconds, by a process that has much memory."""
    held = bytearray(MEMORY)
    held[::4096] = b"x" * len(held[::4096])
    return min(passed(lambda: archive._record_by_program(0)) for _ in range(STARTS))


def main() -> int:
    program = str(read_program(__doc__))
    with tempfile.TemporaryDirectory(prefix="warcdx-bench-") as folder:
        packed, plain = pathlib.Path(folder, "a.warc.gz"), pathlib.Path(folder, "a.warc")
        make(packed, plain)
        for path in (packed, plain):
            with open(f"{path}.cdxj", "wb") as output:
                open_archive(path, program=program).index(output)
        with Collection(f"{packed}.cdxj", folder, program=program) as members, Collection(
            f"{plain}.cdxj", folder, program=program
        ) as texts:
            captures, plain_captures = list(members.captures()), list(texts.captures())
            times = least_times(
                {
                    "a loop over members": lambda: used(partial(loop, packed)),
                    "for record in .warc.gz": lambda: used(partial(iterate, packed, program)),
                    "for record in .warc": lambda: used(partial(iterate, plain, program)),
                    "Collection.record, .warc.gz": lambda: passed(lambda: list(map(members.record, captures))),
                    "Collection.record, .warc": lambda: passed(lambda: list(map(texts.record, plain_captures))),
                    f"{ASKED} of them by the program, .warc.gz": lambda: passed(lambda: records_of(members)),
                    f"{ASKED} of them by the program, .warc": lambda: passed(lambda: records_of(texts)),
                },
                ROUNDS,
            )
        loop_time, gz_time, _, gz_record, plain_record, gz_asked, plain_asked = times.values()
        modules = subprocess.run((sys.executable, "-c", MODULES), cwd=PACKAGE, stdout=subprocess.PIPE, text=True, check=True).stdout.strip()
        importing = least_start("import warcdx"), least_start(f"import {modules}")
        times["import warcdx"], times["import of its modules of std"] = importing
        figures = [
            Figure("over a loop over members", gz_time / loop_time, 1.5),
            Figure("Collection.record of a .warc.gz", RECORDS / gz_record / 1000, None, "records/ms"),
            Figure("Collection.record of a .warc", RECORDS / plain_record / 1000, None, "records/ms"),
            Figure("over the program, .warc.gz", gz_record / RECORDS / (gz_asked / ASKED), 0.05),
            Figure("over the program, .warc", plain_record / RECORDS / (plain_asked / ASKED), 0.05),
            Figure("import over its modules of std", importing[0] / importing[1], 1.3),
            Figure("a start with 1 GB of memory", 1000 * start_time(open_archive(plain, program=program)), 5, "ms"),
        ]
        return report(times, figures, ROUNDS, "processor (records: elapsed)")


if __name__ == "__main__":
    sys.exit(main())
