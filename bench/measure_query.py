#!/usr/bin/env python3
"""Measures the queries over indexes and compares the figures with the goals of README.md in this folder.

usage: measure_query.py [PROGRAM]

Makes indexes of 1,000,000 lines in a temporary folder (TMPDIR, 2 GB) and prints a table. The exit status is 0, or 1 if a goal is missed.
"""
import filecmp
import pathlib
import subprocess
import sys
import tempfile
from urllib.parse import quote_plus

from measuring import Figure, build_by_hand, least_times, peak, read_program, report, run_time

LINES = 1_000_000
RUNS = 20  # of a query that takes a millisecond
ALL = "key=&matchType=prefix"


def line_at(path, share):
    """The line of the index that stands at this share of its bytes, or after it; the last at the end."""
    with open(path, "rb") as index:
        size = index.seek(0, 2)
        index.seek(min(int(size * share), size - 4096))
        lines = index.read(4096).splitlines(keepends=True)
    return lines[0] if share == 0 else lines[-1] if share == 1 else lines[1]


def key_of(line):
    return line.partition(b" ")[0]


def exact_query(line):
    return f"key={quote_plus(key_of(line))}"


def asked(program, query, files):
    return subprocess.run([program, "query", query, *files], stdout=subprocess.PIPE, check=True).stdout


def expect_line(program, line, files):
    """Ends the script if the exact query doesn't give this line, and lines of its key alone."""
    found = asked(program, exact_query(line) + "&output=cdxj", files).splitlines(keepends=True)
    if line not in found or not all(other.startswith(key_of(line) + b" ") for other in found):
        sys.exit(f"the query for {line} doesn't give it")


def expect_all(program, files, wanted, folder):
    """Ends the script if the query for all lines of these files doesn't give the wanted ones."""
    written = folder / "asked"
    with open(written, "wb") as out:
        subprocess.run([program, "query", ALL + "&output=cdxj", *files], stdout=out, check=True)
    if not filecmp.cmp(written, wanted, shallow=False):
        sys.exit(f"the query for all of {len(files)} files isn't {wanted}")
    written.unlink()


def page_queries(program, line, index):
    """The queries of the pages of 100 captures of the domain of this line, from the first to the last."""
    domain = key_of(line).partition(b")")[0]
    start = f"key={quote_plus(domain)}&matchType=domain&limit=100&showResumeKey=true"
    queries, key = [], ""
    while True:
        queries.append(start + key)
        rows, _, printed = asked(program, start + key, [index]).partition(b"\n\n")
        if not printed:
            return queries
        key = "&resumeKey=" + printed.decode().strip()


def small_time(program, queries, files):
    """The time of one of these queries, in milliseconds; each is run many times."""
    runs = [run_time([program, "query", query, *files]) for query in queries for _ in range(RUNS)]
    return 1000 * sum(runs) / len(runs)


def main() -> int:
    program = read_program(__doc__)
    with tempfile.TemporaryDirectory() as name:
        folder = pathlib.Path(name)
        subprocess.run([sys.executable, pathlib.Path(__file__).with_name("make_indexes.py"), "query", folder, str(LINES)], check=True)
        whole, tenth, hosts = folder / "whole", folder / "tenth", folder / "hosts"
        parts = {count: sorted(folder.glob(f"whole-{count}-*")) for count in (4, 64, 1024)}
        sought = [line_at(whole, share) for share in (0, 0.5, 1)]
        for line in sought:
            expect_line(program, line, [whole])
            expect_line(program, line, parts[64])
        for files in parts.values():
            expect_all(program, files, whole, folder)
        queries = [exact_query(line) for line in sought]
        in_tenth = [exact_query(line_at(tenth, share)) for share in (0, 0.5, 1)]
        pages = page_queries(program, line_at(hosts, 0.5), hosts)
        print(f"{len(pages)} pages of one domain")

        query = [program, "query"]
        by_hand = {}
        if (hand := build_by_hand(folder)) is not None:
            if asked(hand, ALL, [whole]) != asked(program, ALL, [whole]):
                sys.exit("the query by hand gives something else")
            by_hand["one file as text by hand"] = lambda: run_time([hand, "query", ALL, whole])
        milliseconds = least_times(
            {
                "one file": lambda: small_time(program, queries, [whole]),
                "64 files": lambda: small_time(program, queries, parts[64]),
                "a tenth": lambda: small_time(program, in_tenth, [tenth]),
            }
        )
        page_times = least_times({number: lambda page=page: run_time([*query, page, hosts]) for number, page in enumerate(pages)})
        times = least_times(
            {
                "merge, 4 files": lambda: run_time([program, "merge", *parts[4]]),
                "one file as text": lambda: run_time([*query, ALL, whole]),
                "all as text": lambda: run_time([*query, ALL, *parts[4]]),
                "all as cdxj": lambda: run_time([*query, ALL + "&output=cdxj", *parts[4]]),
                "all as json": lambda: run_time([*query, ALL + "&output=json", *parts[4]]),
                "all by key": lambda: run_time([*query, ALL + "&collapse=urlkey", *parts[4]]),
                "all by time": lambda: run_time([*query, ALL + "&collapse=timestamp", *parts[4]]),
                **by_hand,
            }
        )
        merge = times["merge, 4 files"]
        figures = [
            Figure("exact query, one file", milliseconds["one file"], 3, "ms"),
            Figure("exact query, 64 files", milliseconds["64 files"], 15, "ms"),
            Figure("ten times the lines", milliseconds["one file"] / milliseconds["a tenth"], 1.5),
            Figure("slowest page over the first", max(page_times.values()) / page_times[0], 1.2),
            Figure("all lines as text over merge", times["all as text"] / merge, 1.4),
            Figure("all lines as cdxj over merge", times["all as cdxj"] / merge, 1.2),
            Figure("all lines as json over merge", times["all as json"] / merge, 2),
            Figure("all lines by key over as text", times["all by key"] / times["all as text"], 1.1),
            Figure("all lines by time over as text", times["all by time"] / times["all as text"], 1.1),
            *(Figure("one file as text over that by hand", times["one file as text"] / times[name], None) for name in by_hand),
            Figure("memory: one file", peak([*query, ALL, whole]) / 1e6, 8, "MB"),
            Figure("memory: 1,024 files", peak([*query, ALL, *parts[1024]]) / 1e6, 32, "MB"),
        ]
        return report(times, figures)


if __name__ == "__main__":
    sys.exit(main())
