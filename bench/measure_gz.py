#!/usr/bin/env python3
"""Measures warcdx-gz on compressed archives and compares the figures with the goals of README.md in this folder.

usage: measure_gz.py [PROGRAM]

PROGRAM is warcdx, in whose folder warcdx-gz may be, too. Makes compressed archives in a temporary folder (TMPDIR, 150 MB) and prints a table.
The exit status is 0, or 1 if a goal is missed. Where there are gcc and zlib's header, unpacking by zlib is measured in the same rounds.
"""
import gzip
import os
import pathlib
import random
import resource
import shutil
import subprocess
import sys
import tempfile
from typing import Optional

from measuring import Figure, least_times, peak, read_program, report, run_time, seconds
from program import find_packed_program

ROUNDS = 7
STARTS = 100
MANY = 5000  # captures, so that what is held once doesn't matter
BY_ZLIB = pathlib.Path(__file__).with_name("unpack_by_zlib.c")
PAGES = (
    ("pages of 2 kB", 40_000, 150, 0.74),
    ("pages of 20 kB", 6000, 1700, 0.66),
    ("pages of 200 kB", 600, 17_000, 0.8),
)  # and goals over zlib
RECORD = (
    b"WARC/1.0\r\nWARC-Type: response\r\nWARC-Record-ID: <urn:x>\r\nWARC-Date: 2016-01-01T00:00:00Z\r\n"
    b"WARC-Target-URI: http://example.com/%d\r\nWARC-Payload-Digest: sha1:3I42H3S6NNFQ2MSVX7XZKYAYSCX5QBYJ\r\n"
    b"Content-Type: application/http\r\nContent-Length: %d\r\n\r\nHTTP/1.1 200 OK\r\nContent-Type: text/html\r\n\r\n%s\r\n\r\n"
)
HTTP_HEAD = 44  # bytes
WORDS = [f"<p>word{number} ".encode() for number in range(5000)]


def make(path: pathlib.Path, records: int, words: int) -> None:
    """Writes an archive of pages of a number of words, which compress to about a third."""
    choices = random.Random(1)
    with open(path, "wb") as file:
        for number in range(records):
            page = b"".join(choices.choices(WORDS, k=words))
            file.write(gzip.compress(RECORD % (number, HTTP_HEAD + len(page), page), 6, mtime=0))


def piped_time(program: pathlib.Path, archive: pathlib.Path) -> float:
    """The user and system time, in seconds, of both processes of a pipe."""
    before = resource.getrusage(resource.RUSAGE_CHILDREN)
    with open(archive, "rb") as file, subprocess.Popen(("gunzip", "-c"), stdin=file, stdout=subprocess.PIPE) as unpacking:
        subprocess.run((program, "index", "-"), stdin=unpacking.stdout, stdout=subprocess.DEVNULL, check=True)
    if unpacking.returncode:
        raise subprocess.CalledProcessError(unpacking.returncode, "gunzip")
    return seconds(resource.getrusage(resource.RUSAGE_CHILDREN)) - seconds(before)


def expect_lines(packed: pathlib.Path, archive: pathlib.Path, records: int) -> None:
    """Ends the script if warcdx-gz doesn't index each record."""
    lines = subprocess.run((packed, "index", archive), stdout=subprocess.PIPE, check=True).stdout
    if lines.count(b"\n") != records:
        sys.exit(f"{packed} has written {lines[:200]!r}..")


def build_by_zlib(folder: pathlib.Path) -> Optional[pathlib.Path]:
    """Builds the program that unpacks by zlib, or returns None if it can't be built."""
    if shutil.which("gcc") is None:
        return None
    program = folder / "by_zlib"
    done = subprocess.run(("gcc", "-O2", BY_ZLIB, "-o", program, "-lz"), stderr=subprocess.DEVNULL)
    return None if done.returncode else program


def start_time(packed: pathlib.Path) -> float:
    """The user and system time of a run over an empty archive, in milliseconds."""
    return 1000 * min(run_time((packed, "list", os.devnull)) for _ in range(STARTS))


def main() -> int:
    program = read_program(__doc__)
    packed = find_packed_program(program)
    times, figures = {}, [Figure("start", start_time(packed), 2, "ms")]
    with tempfile.TemporaryDirectory() as name:
        by_zlib = build_by_zlib(pathlib.Path(name))
        for title, records, words, goal in PAGES:
            archive = pathlib.Path(name, "archive.warc.gz")
            make(archive, records, words)
            expect_lines(packed, archive, records)
            piped, alone = f"gunzip | warcdx index -, {title}", f"warcdx-gz index, {title}"
            listing, indexing = (packed, "list", archive), (packed, "index", archive)
            listed, unpacked = f"warcdx-gz list, {title}", f"unpacking by zlib, {title}"
            runs = {piped: lambda: piped_time(program, archive), alone: lambda: run_time(indexing), listed: lambda: run_time(listing)}
            if by_zlib is not None:
                runs[unpacked] = lambda: run_time((by_zlib, archive))
            found = least_times(runs, ROUNDS)
            times.update(found)
            figures.append(Figure(f"over gunzip | index -, {title}", found[alone] / found[piped], 0.5))
            if by_zlib is not None:
                figures.append(Figure(f"list over zlib, {title}", found[listed] / found[unpacked], goal))
            figures.append(Figure(f"memory of list, {title}", peak(listing) / 1e6, 4, "MB"))
            if records >= MANY:
                figures.append(Figure(f"memory of index, a capture, {title}", (peak(indexing) - peak(listing)) / 1000 / records, 0.4, "kB"))
        return report(times, figures, ROUNDS)


if __name__ == "__main__":
    sys.exit(main())
