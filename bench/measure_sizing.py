#!/usr/bin/env python3
"""Measures what an index takes: its bytes and memory for a capture, and time as a ratio. docs/SIZING.md has the figures.

usage: measure_sizing.py [PROGRAM]

Makes crawls in a temporary folder (TMPDIR, 800 MB) and prints a table of figures. No figure has a goal. The exit status
is 0.
"""
import gzip
import os
import pathlib
import random
import resource
import shutil
import subprocess
import sys
import tempfile
from collections.abc import Callable, Sequence
from typing import NamedTuple

from make_crawls import Crawl
from measuring import machine, peak, read_program, write_archive
from program import find_packed_program

COMMANDS = pathlib.Path(__file__).resolve().parents[1] / "python/bin"
CAPTURES = 200_000
LONG_CAPTURES, LONG_PAGE = 12_000, 20_000  # bytes
ROUNDS = 5
ALL = "key=&matchType=prefix"


class Size(NamedTuple):
    """A figure of the table: what it is, its value and its unit."""

    name: str
    value: float
    unit: str

    def __str__(self) -> str:
        return f"{self.name:<72}{self.value:8.2f} {self.unit}"


def processor_time(command: Sequence[object]) -> float:
    """Returns the processor time of a command and of all that it runs, in seconds, the least of the rounds."""
    times = []
    for _ in range(ROUNDS):
        before = resource.getrusage(resource.RUSAGE_CHILDREN)
        subprocess.run(tuple(map(str, command)), stdout=subprocess.DEVNULL, stderr=subprocess.DEVNULL, check=True)
        after = resource.getrusage(resource.RUSAGE_CHILDREN)
        times.append(after.ru_utime + after.ru_stime - before.ru_utime - before.ru_stime)
    return min(times)


def write_packed(crawl: Crawl, path: pathlib.Path) -> None:
    """Writes an archive of which each record is a member of gzip."""
    with open(path, "wb") as file:
        for record in crawl.pieces:
            file.write(gzip.compress(record, 6, mtime=0))


def index_sizes(program: pathlib.Path, folder: pathlib.Path) -> list[Size]:
    """Bytes of an index, and the memory of the commands, for a capture."""
    archive, index = folder / "short.warc", folder / "short.cdxj"
    # Each page has a digest of its own, which gzip can't make smaller.
    write_archive(Crawl(CAPTURES, 100, pages=CAPTURES), archive)
    with open(index, "wb") as output:
        subprocess.run((program, "index", archive), stdout=output, check=True)
    size = index.stat().st_size
    line = index.read_bytes().split(b"\n", 1)[0]
    packed_size = size_of_packed(index)
    varied = folder / "varied.cdxj"
    write_varied(index, varied)
    key, url = line.split(b" ", 1)[0], line.split(b'"url": "')[1].split(b'"')[0]
    named = len(key) + len(url) + len(archive.name)
    query = program, "query", ALL, index
    merge = program, "merge", index, index
    check = program, "check", index
    return [
        Size("index: bytes for a capture", size / CAPTURES, "bytes"),
        Size("index: the same, without URL key, URL and file name", size / CAPTURES - named, "bytes"),
        Size("index, by gzip -6: bytes for a capture", packed_size / CAPTURES, "bytes"),
        Size("index, by gzip -6, of other URLs and times: bytes for a capture", size_of_packed(varied) / CAPTURES, "bytes"),
        Size("memory of index: bytes for a capture", peak((program, "index", archive)) / CAPTURES, "bytes"),
        Size("memory of check", peak(check) / 1e6, "MB"),
        Size("memory of merge of two", peak(merge) / 1e6, "MB"),
        Size("memory of query of all captures", peak(query) / 1e6, "MB"),
        Size("processor time of check over cat", ratio(check, ("cat", index)), "times"),
        Size("processor time of merge of two over cat", ratio(merge, ("cat", index, index)), "times"),
        Size("processor time of query of all captures over cat", ratio(query, ("cat", index)), "times"),
    ]


def size_of_packed(index: pathlib.Path) -> int:
    """Returns how many bytes an index has after gzip -6."""
    packed = index.with_suffix(".cdxj.gz")
    with open(packed, "wb") as output:
        subprocess.run(("gzip", "-6", "-c", index), stdout=output, check=True)
    return packed.stat().st_size


def write_varied(index: pathlib.Path, output: pathlib.Path) -> None:
    """Writes lines of the same lengths, with letters at random in their URLs and seconds of a day at random."""
    choice, lines = random.Random(1), []
    for line in index.read_bytes().splitlines(keepends=True):
        path = b"articles/" + line.split(b"/", 3)[2]
        letters = bytes(choice.choices(b"abcdefghijklmnopqrstuvwxyz", k=len(path)))
        time = b"%02d%02d%02d" % (choice.randrange(24), choice.randrange(60), choice.randrange(60))
        lines.append(line.replace(path, letters).replace(b"172024", time, 1))
    output.write_bytes(b"".join(sorted(lines)))


def ratio(command: Sequence[object], other: Sequence[object]) -> float:
    return processor_time(command) / processor_time(other)


def archive_times(program: pathlib.Path, folder: pathlib.Path) -> list[Size]:
    """Processor time of the commands that read archives, over that of reading the archive."""
    found = []
    archive, packed = folder / "long.warc", folder / "long.warc.gz"
    index_packed = find_packed_program(program), "index", packed
    verify_packed = COMMANDS / "warcdx-verify", "--program", program, packed
    for title, name in (("with", "WARC-Payload-Digest"), ("without", "X-Payload-Digest")):
        crawl = Crawl(LONG_CAPTURES, LONG_PAGE, name)
        write_archive(crawl, archive)
        write_packed(crawl, packed)
        over_cat = ratio((program, "index", archive), ("cat", archive))
        over_gunzip = ratio(index_packed, ("gunzip", "-c", packed))
        found.append(Size(f"index of pages of 20 kB {title} digests over cat", over_cat, "times"))
        found.append(Size(f"warcdx-gz index of them, compressed, {title} digests over gunzip", over_gunzip, "times"))
    found.append(Size("warcdx-verify of them, compressed, over gunzip", ratio(verify_packed, ("gunzip", "-c", packed)), "times"))
    return found


def cdx_times(program: pathlib.Path, folder: pathlib.Path) -> list[Size]:
    """Processor time of converting an index to CDX and back, over that of sorting its lines."""
    index, cdx = folder / "short.cdxj", folder / "short.cdx"
    command = COMMANDS / "warcdx-cdx", "--program", program
    with open(cdx, "wb") as output:
        subprocess.run((*command, "to", index), stdout=output, check=True)
    sorting = "env", "LC_ALL=C", "sort", "--parallel=1", index
    return [
        Size("warcdx-cdx to over sort of the index", ratio((*command, "to", index), sorting), "times"),
        Size("warcdx-cdx from over sort of the index", ratio((*command, "from", cdx), sorting), "times"),
    ]


def folder_sizes(program: pathlib.Path, folder: pathlib.Path) -> list[Size]:
    """What warcdx-update writes beside an index, over the index."""
    archives, index = folder / "archives", folder / "all.cdxj"
    archives.mkdir()
    for number in range(4):
        os.link(folder / "short.warc", archives / f"{number}.warc")
    command = COMMANDS / "warcdx-update", "--quiet", "--program", program, archives, index
    subprocess.run(tuple(map(str, command)), check=True)
    runs = sum(path.lstat().st_size for path in (folder / "all.cdxj.d").rglob("*"))
    again = processor_time(command)
    found = [
        Size("warcdx-update: bytes of the folder of runs over those of the index", runs / index.stat().st_size, "times"),
        Size("warcdx-update with nothing new over index of all", again / processor_time((program, "index", *archives.iterdir())), "times"),
    ]
    shutil.rmtree(archives)
    return found


def main() -> int:
    program = read_program(__doc__)
    inputs = f"{CAPTURES:,} pages of 100 bytes, {LONG_CAPTURES:,} of {LONG_PAGE:,}"
    print(f"{machine()}; {inputs}; the least of {ROUNDS} rounds\n")
    with tempfile.TemporaryDirectory() as name:
        parts: tuple[Callable[[pathlib.Path, pathlib.Path], list[Size]], ...] = (index_sizes, cdx_times, folder_sizes, archive_times)
        for part in parts:
            for size in part(program, pathlib.Path(name)):
                print(size, flush=True)
    return 0


if __name__ == "__main__":
    sys.exit(main())
