#!/usr/bin/env python3
"""Measures the verification of archives and compares the figures with the goals of README.md in this folder.

usage: measure_verify.py [PROGRAM]

Makes archives of 1 GB in a temporary folder (TMPDIR) and prints a table. The exit status is 0, or 1 if a goal is missed.
"""
import pathlib
import sys
import tempfile
from functools import partial

from make_archives import Archive, one_long_record
from measuring import Figure, expect, least_times, memory_figures, processor_time, read_program, report, write_archive


def main() -> int:
    verifying = [read_program(__doc__), "verify", "-"]
    long, short = Archive(20_000, 50), Archive(1_000, 50)

    with tempfile.TemporaryDirectory(prefix="warcdx-bench-") as folder:
        files = [pathlib.Path(folder, name) for name in ("long.warc", "short.warc")]
        for archive, path in zip((long, short), files):
            write_archive(archive, path)
            expect(verifying, path, archive.verdicts())
        times = least_times(
            {
                "sha1sum": partial(processor_time, "sha1sum", files[0]),
                "verify": partial(processor_time, verifying, files[0]),
                "sha1sum, records of 1 kB": partial(processor_time, "sha1sum", files[1]),
                "verify, records of 1 kB": partial(processor_time, verifying, files[1]),
            }
        )

    sum_long, verify_long, sum_short, verify_short = times.values()
    archives = {
        "500 MB, records of 20 kB": long.pieces,
        "500 MB, records of 1 kB": short.pieces,
        "one record of 2 GB": one_long_record(2_000_000_000),
    }
    figures = [
        Figure("over sha1sum, records of 20 kB", verify_long / sum_long, 1.15),
        Figure("over sha1sum, records of 1 kB", verify_short / sum_short, 2),
    ]
    return report(times, figures + memory_figures(verifying, archives, 8))


if __name__ == "__main__":
    sys.exit(main())
