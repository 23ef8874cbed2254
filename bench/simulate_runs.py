#!/usr/bin/env python3
"""Measures queries and merges over the runs of an index, and simulates nights of warcdx-update over large indexes from these parts.

usage: simulate_runs.py [--lines N] [PROGRAM]

Makes an index of N lines, by default 1,000,000 (TMPDIR, 600 bytes a line), as one file and as the runs that it has after 1,000 equal nights.
Asks `serve` for captures of one URL and for pages of 100 captures of a host, after 20,000 other queries, so that what is cached is cached. The
URLs differ from round to round. Then merges the runs, and prints a table for indexes of 10^8, 3 x 10^9 and 10^12 captures. The exit status
is 0, or 1 if a goal is missed.
"""
import pathlib
import random
import statistics
import subprocess
import sys
import tempfile
import time
from collections.abc import Sequence
from typing import NamedTuple

from measuring import Figure, report

from program import ROOT, add_program, find_program, parser_of

sys.path.insert(0, str(ROOT / "python"))

from warcdx import Index
from warcdx.update import Merging

NIGHTS = 1000
RATIO = 8
QUERIES = 600
QUERIES_BEFORE = 20_000
ROUNDS = range(3)
LINE_BYTES = 300
SIZES = {"10^8": 10**8, "3 x 10^9": 3 * 10**9, "10^12": 10**12}
LINE = (
    'com,h%06d)/page/%03d 20160919172024 {"url": "http://h%06d.com/page/%03d", "mime": "text/html", "status": "200", '
    '"digest": "3I42H3S6NNFQ2MSVX7XZKYAYSCX5QBYJ", "length": "%d", "offset": "%d", "filename": "crawl-%05d-of-the-year-2016.warc.gz"}\n'
)


class Nights(NamedTuple):
    """Bytes that are written in a night, the mean and the most; bytes of the runs that there are, the most; and how many runs, likewise."""

    written: float
    most_written: int
    most_room: int
    runs: float
    most_runs: int
    sizes: list[int]


def nights_of(size: int) -> Nights:
    """Returns what equal nights cost until an index has this number of bytes. Of the last half, as the first ones are cheap."""
    merging, runs, left, each = Merging(RATIO, False), list[int](), list[int](), size // NIGHTS
    written, room, numbers = [], [], []
    for night in range(NIGHTS):
        runs = sorted([*runs, each])
        number = merging.number(runs)
        merged, runs = (runs[:number], sorted([sum(runs[:number]), *runs[number:]])) if number > 1 else ([], runs)
        if night >= NIGHTS // 2:
            written.append(each + sum(merged))
            room.append(sum(runs) + sum(merged) + sum(left))
            numbers.append(len(runs))
        left = merged
    return Nights(statistics.mean(written), max(written), max(room), statistics.mean(numbers), max(numbers), runs)


def put_lines(folder: pathlib.Path, lines: int, sizes: Sequence[int]) -> tuple[pathlib.Path, list[pathlib.Path]]:
    """Writes an index as one file, and as runs of these sizes, among which its lines are scattered."""
    choose, one = random.Random(1), folder / "one.cdxj"
    paths = [folder / f"{number}.cdxj" for number in range(len(sizes))]
    files = [open(path, "w", buffering=1 << 20) for path in paths]
    with open(one, "w", buffering=1 << 20) as whole:
        for start in range(0, lines, 100_000):
            numbers = range(start, min(start + 100_000, lines))
            for number, file in zip(numbers, choose.choices(files, sizes, k=len(numbers))):
                host, page = divmod(number, 100)
                line = LINE % (host, page, host, page, 5000 + number % 7919, number, number % 99_991)
                whole.write(line)
                file.write(line)
    for file in files:
        file.close()
    return one, paths


def seconds_of(index: Index, lines: int, limit: int, seed: object, queries: int = QUERIES) -> float:
    """Returns the time of a query, the median."""
    choose, times = random.Random(f"{seed}"), []
    for _ in range(queries):
        host, page = divmod(choose.randrange(lines), 100)
        url = f"http://h{host:06}.com/page/{page:03}" if limit == 1 else f"http://h{host:06}.com/*"
        start = time.perf_counter()
        rows = index.page(url, limit=limit).captures
        times.append(time.perf_counter() - start)
        if not rows:
            sys.exit(f"no capture of {url}")
    return statistics.median(times[queries // 10 :])


def main() -> int:
    parser = parser_of(__doc__)
    parser.add_argument("--lines", type=int, default=1_000_000, metavar="N", help="default: 1,000,000")
    add_program(parser)
    given = parser.parse_args()
    program = find_program(given.program)
    with tempfile.TemporaryDirectory() as name:
        one, runs = put_lines(pathlib.Path(name), given.lines, nights_of(given.lines * LINE_BYTES).sizes)
        times = {}
        with Index(one, program=str(program)) as whole, Index(runs, program=str(program)) as parts:
            for index in (whole, parts):
                seconds_of(index, given.lines, 1, "before", QUERIES_BEFORE)
            for title, limit in (("one URL", 1), ("a page of 100", 100)):
                times[f"{title}, one file"], times[f"{title}, {len(runs)} runs"] = (
                    min(seconds_of(index, given.lines, limit, number) for number in ROUNDS) for index in (whole, parts)
                )
        start = time.perf_counter()
        subprocess.run((program, "merge", *runs), stdout=subprocess.DEVNULL, check=True)
        merge = (time.perf_counter() - start) / given.lines
    (one_url, urls), (one_page, pages) = list(times.values())[:2], list(times.values())[2:]
    more = max(urls - one_url, 0) / (len(runs) - 1), max(pages - one_page, 0) / (len(runs) - 1)
    times["a line of a merge, in microseconds"] = 1e6 * merge
    figures = [
        Figure(f"one URL, {len(runs)} runs over one file", urls / one_url, 1.5),
        Figure(f"a page, {len(runs)} runs over one file", pages / one_page, None),
    ]
    status = report(times, figures, 3, "elapsed")
    print("\n| Captures | Index | Written a night, mean and most | Merging, mean | Room | Runs, mean and most | One URL | A page of 100 |")
    print("|---|---|---|---|---|---|---|---|")
    for title, captures in SIZES.items():
        each = nights_of(captures * LINE_BYTES)
        print(
            f"| {title} | {in_units(captures * LINE_BYTES)} | {in_units(each.written)}, {in_units(each.most_written)} "
            f"| {each.written / LINE_BYTES * merge:,.0f} s | {in_units(each.most_room)} | {each.runs:.0f}, {each.most_runs} "
            f"| {1000 * (one_url + more[0] * (each.runs - 1)):.2f} ms | {1000 * (one_page + more[1] * (each.runs - 1)):.2f} ms |"
        )
    return status


def in_units(size: float) -> str:
    for unit in ("bytes", "kB", "MB", "GB"):
        if size < 1000:
            break
        size, unit = size / 1000, {"bytes": "kB", "kB": "MB", "MB": "GB", "GB": "TB"}[unit]
    return f"{size:.3g} {unit}" if size < 1000 else f"{size:,.0f} {unit}"


if __name__ == "__main__":
    sys.exit(main())
