#!/usr/bin/env python3
"""Measures the merging and checking of indexes and compares the figures with the goals of README.md in this folder.

usage: measure_merge.py [PROGRAM]

Makes indexes of 1,000,000 lines in a temporary folder (TMPDIR, 2 GB) and prints a table. The exit status is 0, or 1 if a goal is missed.
"""
import filecmp
import pathlib
import subprocess
import sys
import tempfile

from measuring import Figure, build_by_hand, least_times, peak, read_program, report, run_time

LINES = 1_000_000
SORT = ("env", "LC_ALL=C", "sort", "-s", "-k1,2")


def expect_merge(merging, files, wanted, folder):
    """Ends the script if the merge of these files isn't the wanted one."""
    written = folder / "merged"
    with open(written, "wb") as out:
        subprocess.run([*merging, *files], stdout=out, check=True)
    if not filecmp.cmp(written, wanted, shallow=False):
        sys.exit(f"the merge of {len(files)} files isn't {wanted}")
    written.unlink()


def expect_check(checking, path):
    """Ends the script if the index isn't found to be good."""
    said = subprocess.run([*checking, path], stdout=subprocess.PIPE, check=True).stdout
    if said != f"{path} {LINES}\n".encode():
        sys.exit(f"check says {said} of {path}")


def main() -> int:
    program = read_program(__doc__)
    with tempfile.TemporaryDirectory() as name:
        folder = pathlib.Path(name)
        subprocess.run([sys.executable, pathlib.Path(__file__).with_name("make_indexes.py"), "merge", folder, str(LINES)], check=True)
        merging, checking = [program, "merge"], [program, "check"]
        half = sorted(folder.glob("half-4-*"))
        parts = {count: sorted(folder.glob(f"whole-{count}-*")) for count in (1, 4, 64, 1024)}
        expect_merge(merging, half, folder / "half", folder)
        for files in parts.values():
            expect_merge(merging, files, folder / "whole", folder)
        expect_check(checking, folder / "whole")
        runs = {}
        if (hand := build_by_hand(folder)) is not None:
            for count in (4, 1024):
                expect_merge([hand, "merge"], parts[count], folder / "whole", folder)
            expect_check([hand, "check"], folder / "whole")
            runs = {
                "merge by hand, 4 files": lambda: run_time([hand, "merge", *parts[4]]),
                "merge by hand, 1,024 files": lambda: run_time([hand, "merge", *parts[1024]]),
                "check by hand": lambda: run_time([hand, "check", folder / "whole"]),
            }

        times = least_times(
            runs
            | {
                "sort -m, 4 files": lambda: run_time([*SORT, "-m", *parts[4]]),
                "merge, 4 files": lambda: run_time([*merging, *parts[4]]),
                "sort -m, 1,024 files": lambda: run_time([*SORT, "-m", "--batch-size=1024", *parts[1024]]),
                "merge, 64 files": lambda: run_time([*merging, *parts[64]]),
                "merge, 1,024 files": lambda: run_time([*merging, *parts[1024]]),
                "merge, 4 files, half the lines": lambda: run_time([*merging, *half]),
                "sort -c": lambda: run_time([*SORT, "-c", folder / "whole"]),
                "check": lambda: run_time([*checking, folder / "whole"]),
            }
        )
        by_hand = {name.replace(" by hand", ""): time for name, time in times.items() if "by hand" in name}
        figures = [
            Figure("merge of 4 over sort -m", times["merge, 4 files"] / times["sort -m, 4 files"], 1.7),
            Figure("merge of 1,024 over sort -m", times["merge, 1,024 files"] / times["sort -m, 1,024 files"], 0.3),
            Figure("merge of 1,024 over merge of 4", times["merge, 1,024 files"] / times["merge, 4 files"], 2),
            Figure("twice the lines", times["merge, 4 files"] / times["merge, 4 files, half the lines"], 2.2),
            Figure("check over sort -c", times["check"] / times["sort -c"], 1.6),
            *(Figure(f"{name} over that by hand", times[name] / time, None) for name, time in by_hand.items()),
            Figure("memory: 4 files", peak([*merging, *parts[4]]) / 1e6, 8, "MB"),
            Figure("memory: 1,024 files", peak([*merging, *parts[1024]]) / 1e6, 32, "MB"),
            Figure("memory: check", peak([*checking, folder / "whole"]) / 1e6, 8, "MB"),
        ]
        return report(times, figures)


if __name__ == "__main__":
    sys.exit(main())
