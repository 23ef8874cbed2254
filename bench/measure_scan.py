#!/usr/bin/env python3
"""Measures the queries over archives and compares the figures with the goals of README.md in this folder.

usage: measure_scan.py [PROGRAM]

Makes archives of 900 MB in a temporary folder (TMPDIR) and prints a table. The exit status is 0, or 1 if a goal is missed.
"""
import filecmp
import pathlib
import subprocess
import sys
import tempfile

from make_crawls import Crawl
from measuring import Figure, least_times, peak_of_run, read_program, report, run_time, write_archive

CAPTURES = 500_000
PAGES = ("1000", "key=&matchType=prefix")


def written(command, path):
    """The file, with what the command writes."""
    with open(path, "wb") as out:
        subprocess.run(command, stdout=out, check=True)
    return path


def main() -> int:
    program = read_program(__doc__)
    with tempfile.TemporaryDirectory(prefix="warcdx-bench-") as name:
        folder = pathlib.Path(name)
        large, many, index = folder / "large.warc", folder / "many.warc", folder / "index"
        write_archive(Crawl(25_000, 19_300), large)
        write_archive(Crawl(CAPTURES, 100), many)
        written((program, "index", large), index)
        of_scan = written((program, "scan", *PAGES, large), folder / "of-scan")
        of_pages = written((program, "pages", *PAGES, index), folder / "of-pages")
        if not filecmp.cmp(of_scan, of_pages, shallow=False):
            sys.exit("scan doesn't write what pages writes")

        times = least_times(
            {
                "scan": lambda: run_time((program, "scan", *PAGES, large)),
                "index": lambda: run_time((program, "index", large)),
                "pages": lambda: run_time((program, "pages", *PAGES, index)),
            }
        )
        peak = peak_of_run((program, "scan", *PAGES, many), "/dev/null")

    figures = [
        Figure("scan over index and pages", times["scan"] / (times["index"] + times["pages"]), 1.15),
        Figure("memory of a capture", peak / CAPTURES / 1000, 1.2, "kB"),
    ]
    return report(times, figures)


if __name__ == "__main__":
    sys.exit(main())
