#!/usr/bin/env python3
"""Measures the listing of archives, and the speed of `get`, and compares the figures with the goals of README.md in this folder.

usage: measure_list.py [PROGRAM]

Makes archives of 2.5 GB in a temporary folder (TMPDIR) and prints a table. The exit status is 0, or 1 if a goal is missed.
"""
import pathlib
import sys
import tempfile
from functools import partial

from make_archives import Archive, one_long_record, write_hole
from measuring import (
    Figure,
    build_by_hand,
    cold_time,
    expect,
    expect_named,
    least_times,
    memory_figures,
    processor_time,
    read_program,
    report,
    run_time,
    write_archive,
)


def expect_record(getting, archive, path):
    """The command that writes the last record of this archive, after it was found to do so."""
    offset, record = archive.last()
    command = [*getting, str(offset), path]
    expect_named(command, record)
    return command


def main() -> int:
    program = read_program(__doc__)
    listing, getting = [program, "list"], [program, "get"]
    long, short, twice, large = Archive(20_000, 50), Archive(1_000, 50), Archive(20_000, 100), Archive(200_000, 50)

    with tempfile.TemporaryDirectory(prefix="warcdx-bench-") as folder:
        names = ("long.warc", "short.warc", "twice.warc", "large.warc", "hole.warc")
        files = [pathlib.Path(folder, name) for name in names]
        for archive, path in zip((long, short, twice, large), files):
            write_archive(archive, path)
            expect([*listing, "-"], path, archive.listing())
            expect_named([*listing, path], archive.listing())
        hole_listing = write_hole(files[4], 5_000_000_000)
        expect_named([*listing, files[4]], hole_listing)
        get_long, get_large = expect_record(getting, long, files[0]), expect_record(getting, large, files[3])
        hand, by_hand = build_by_hand(pathlib.Path(folder)), {}
        if hand is not None:
            expect_named([hand, "list", files[0]], long.listing())
            by_hand["list FILE by hand"] = partial(run_time, [hand, "list", files[0]])
        times = least_times(
            {
                "cat": partial(processor_time, "cat", files[0]),
                "cat, records of 200 kB": partial(processor_time, "cat", files[3]),
                "list -": partial(processor_time, [*listing, "-"], files[0]),
                "list -, records of 1 kB": partial(processor_time, [*listing, "-"], files[1]),
                "list -, 1 GB": partial(processor_time, [*listing, "-"], files[2]),
                "list FILE": partial(run_time, [*listing, files[0]]),
                "list FILE, records of 200 kB": partial(run_time, [*listing, files[3]]),
                "list FILE, one record of 5 GB": partial(run_time, [*listing, files[4]]),
                "get OFFSET FILE": partial(run_time, get_long),
                "get OFFSET FILE, records of 200 kB": partial(run_time, get_large),
                "elapsed, cold: cat": partial(cold_time, ["cat", files[0]], files[0]),
                "elapsed, cold: list FILE": partial(cold_time, [*listing, files[0]], files[0]),
                "elapsed, cold: cat, records of 200 kB": partial(cold_time, ["cat", files[3]], files[3]),
                "elapsed, cold: list FILE, records of 200 kB": partial(cold_time, [*listing, files[3]], files[3]),
            }
            | by_hand
        )

    cat, cat_large, input_long, input_short, input_twice, file_long, file_large, hole, get_long, get_large, *cold = times.values()
    a_record = (input_short - input_long) / (len(short.lengths) - len(long.lengths))
    archives = {
        "500 MB, records of 20 kB": long.pieces,
        "500 MB, records of 1 kB": short.pieces,
        "1 GB, records of 20 kB": twice.pieces,
        "one record of 2 GB": one_long_record(2_000_000_000),
    }
    figures = [
        Figure("list over cat, records of 20 kB", input_long / cat, 2),
        Figure("cost of a record", a_record * 1e6, 2, "µs"),
        Figure("list of 1 GB over list of 500 MB", input_twice / input_long, 2.2),
        Figure("list over cat, files of records of 20 kB", file_long / cat, 0.5),
        Figure("list over cat, files of records of 200 kB", file_large / cat_large, 0.12),
        Figure("list of a file of one record of 5 GB", hole * 1000, 5, "ms"),
        Figure("get over cat, files of records of 20 kB", get_long / cat, 1),
        Figure("get over cat, files of records of 200 kB", get_large / cat_large, 0.12),
        Figure("list over cat, cold, records of 20 kB", cold[1] / cold[0], None),
        Figure("list over cat, cold, records of 200 kB", cold[3] / cold[2], None),
        *(Figure("list FILE over list FILE by hand", file_long / time, None) for time in cold[4:]),
    ]
    return report(times, figures + memory_figures([*listing, "-"], archives, 8))


if __name__ == "__main__":
    sys.exit(main())
