#!/usr/bin/env python3
"""Compares the processor time of two programs on runs that read an archive or an index as a whole. README.md in this folder describes the figures.

usage: compare_programs.py [--rounds N] BEFORE AFTER

Makes archives of 1.5 GB in a temporary folder (TMPDIR) and prints a table. The exit status is 0, or 1 if AFTER takes more than 1.03 times the
processor time of BEFORE.
"""
import os
import pathlib
import subprocess
import sys
import tempfile
from functools import partial

from make_archives import Archive
from make_crawls import Crawl
from measuring import ROUNDS, Figure, least_times, processor_time, report, write_archive
from program import find_program, parser_of

GOAL = 1.03
LINES = 200_000


def expect_same(before, after, words, source):
    """Ends the script if the two programs write different things."""
    written = []
    for program in (before, after):
        with open(source, "rb") as file:
            written.append(subprocess.run([program, *words], stdin=file, stdout=subprocess.PIPE, check=True).stdout)
    if written[0] != written[1]:
        sys.exit(f"{words} of {source}: the programs write different things")


def runs_of(folder):
    """Commands and the files of their standard input, by name."""
    records, given, made = (folder / name for name in ("records.warc", "given.warc", "made.warc"))
    write_archive(Archive(20_000, 50), records)
    write_archive(Crawl(25_000, 19_300), given)
    write_archive(Crawl(25_000, 19_300, "X-No-Payload-Digest"), made)
    subprocess.run([sys.executable, pathlib.Path(__file__).with_name("make_indexes.py"), "merge", folder, str(LINES)], check=True)
    whole, parts = folder / "whole", sorted(folder.glob("whole-4-*"))
    return {
        "list -": (("list", "-"), records),
        "verify FILE": (("verify", records), os.devnull),
        "index -, digests given": (("index", "-"), given),
        "index -, digests made": (("index", "-"), made),
        "index FILE, digests made": (("index", made), os.devnull),
        "check": (("check", whole), os.devnull),
        "merge, 4 files": (("merge", *parts), os.devnull),
        "query of all lines": (("query", "key=&matchType=prefix", whole), os.devnull),
    }


def main() -> int:
    parser = parser_of(__doc__)
    parser.add_argument("--rounds", metavar="N", type=int, default=ROUNDS, help=f"how often each run is measured (default: {ROUNDS})")
    parser.add_argument("before", metavar="BEFORE", help="the program to compare with")
    parser.add_argument("after", metavar="AFTER", help="the program to measure")
    arguments = parser.parse_args()
    before, after, rounds = find_program(arguments.before), find_program(arguments.after), arguments.rounds

    with tempfile.TemporaryDirectory(prefix="warcdx-bench-") as folder:
        runs, timed = runs_of(pathlib.Path(folder)), {}
        for name, (command, source) in runs.items():
            expect_same(before, after, command, source)
            timed[f"{name}: before"] = partial(processor_time, [before, *command], source)
            timed[f"{name}: after"] = partial(processor_time, [after, *command], source)
        times = least_times(timed, rounds)

    figures = [Figure(name, times[f"{name}: after"] / times[f"{name}: before"], GOAL) for name in runs]
    return report(times, figures, rounds)


if __name__ == "__main__":
    sys.exit(main())
