#!/usr/bin/env python3
"""Measures the indexing of archives and compares the figures with the goals of README.md in this folder.

usage: measure_index.py [PROGRAM]

Makes archives of 2.8 GB and their lines in a temporary folder (TMPDIR) and prints a table. Sorting and writing is the processor time from when the
program has read its input, a pipe, and waits for the end of it, until it has ended. So the freeing of all captures is included. The exit status is 0, or 1 if a goal is missed.
"""
import filecmp
import os
import pathlib
import subprocess
import sys
import tempfile
from functools import partial

from make_crawls import Crawl
from measuring import (
    Figure,
    build_by_hand,
    cold_time,
    least_times,
    peak_of_run,
    processor_time,
    read_bytes,
    read_program,
    report,
    run_time,
    time_after_input,
    write_archive,
)

CAPTURES = 1_000_000
SORT = ("env", "LC_ALL=C", "sort", "--parallel=1")


def expect_index(indexing, source, lines):
    """Ends the script if the index that this command writes isn't these lines, sorted. Its standard input is the source."""
    index, wanted = lines.with_suffix(".index"), lines.with_suffix(".wanted")
    with open(source, "rb") as archive, open(index, "wb") as target:
        subprocess.run(indexing, stdin=archive, stdout=target, check=True)
    subprocess.run([*SORT, f"--output={wanted}", lines], check=True)
    if not filecmp.cmp(index, wanted, shallow=False):
        sys.exit(f"the index that {indexing} writes of {source} is not the one that it has to be: {index}")
    index.unlink()
    wanted.unlink()


def write_lines(crawl, archive, filename):
    """Writes the lines of the index under this file name, as the records stand, and returns where they are."""
    lines = archive.with_suffix(".lines")
    with open(lines, "wb") as file:
        file.writelines(crawl.index(filename))
    return lines


def write_crawl(crawl, indexing, archive):
    """Writes the archive and the lines of its index, and returns where the lines are. What the program makes of the archive has
    to be these lines, sorted.
    """
    write_archive(crawl, archive)
    lines = write_lines(crawl, archive, "-")
    expect_index(indexing, archive, lines)
    return lines


def expect_named(crawl, indexing, archive):
    """Ends the script if the program makes another index of this archive, which the command names."""
    expect_index(indexing, os.devnull, write_lines(crawl, archive, archive.name))


def main() -> int:
    program = read_program(__doc__)
    indexing = [program, "index", "-"]
    pages, large_pages = Crawl(25_000, 19_300), Crawl(2_500, 199_300)

    with tempfile.TemporaryDirectory(prefix="warcdx-bench-") as folder:
        names = ("given.warc", "made.warc", "half.warc", "many.warc", "large.warc")
        given, made, half, many, large = (pathlib.Path(folder, name) for name in names)
        indexing_given, indexing_large = [program, "index", given], [program, "index", large]
        write_crawl(pages, indexing, given)
        expect_named(pages, indexing_given, given)
        write_crawl(large_pages, indexing, large)
        expect_named(large_pages, indexing_large, large)
        write_crawl(Crawl(25_000, 19_300, "X-No-Payload-Digest"), indexing, made)
        write_crawl(Crawl(CAPTURES // 2, 100), indexing, half)
        lines = write_crawl(Crawl(CAPTURES, 100), indexing, many)
        hand, by_hand = build_by_hand(pathlib.Path(folder)), {}
        if hand is not None:
            expect_named(pages, [hand, "index", given], given)
            by_hand["index FILE by hand"] = partial(run_time, [hand, "index", given])
        times = least_times(
            {
                "cat": partial(processor_time, "cat", given),
                "cat, pages of 200 kB": partial(processor_time, "cat", large),
                "index -, digests given": partial(processor_time, indexing, given),
                "index FILE, digests given": partial(run_time, indexing_given),
                "index FILE, digests given, pages of 200 kB": partial(run_time, indexing_large),
                "sha1sum": partial(processor_time, "sha1sum", made),
                "index -, digests made": partial(processor_time, indexing, made),
                "index -, 500,000 captures": partial(processor_time, indexing, half),
                "index -, 1,000,000 captures": partial(processor_time, indexing, many),
                "of it, sorting and writing": partial(time_after_input, indexing, many),
                "sort, its lines": partial(processor_time, SORT, lines),
                "elapsed, cold: cat": partial(cold_time, ["cat", given], given),
                "elapsed, cold: index FILE": partial(cold_time, indexing_given, given),
            }
            | by_hand
        )
        read = read_bytes(indexing_large) / large.stat().st_size
        peak = peak_of_run([program, "index", many], os.devnull)

    cat, cat_large, index_given, file_given, file_large, sha1sum, index_made, index_half, index_many, writing, sort, *cold = times.values()
    figures = [
        Figure("index over cat, digests given", index_given / cat, 3.5),
        Figure("index over cat, files of pages of 20 kB", file_given / cat, 1.2),
        Figure("index over cat, files of pages of 200 kB", file_large / cat_large, 0.2),
        Figure("read of a file of pages of 200 kB", read * 100, 6, "%"),
        Figure("index over sha1sum, digests made", index_made / sha1sum, 1.25),
        Figure("1,000,000 captures over 500,000", index_many / index_half, 2.3),
        Figure("sorting and writing over sort", writing / sort, 1.5),
        Figure("index over cat, cold, pages of 20 kB", cold[1] / cold[0], None),
        *(Figure("index FILE over index FILE by hand", file_given / time, None) for time in cold[2:]),
        Figure("memory of a capture", peak / CAPTURES / 1000, 0.36, "kB"),
    ]
    return report(times, figures)


if __name__ == "__main__":
    sys.exit(main())
