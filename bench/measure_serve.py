#!/usr/bin/env python3
"""Measures the replies to queries and compares the figures with the goals of README.md in this folder.

usage: measure_serve.py [PROGRAM]

Makes an index of 1,000,000 lines in a temporary folder (TMPDIR, 500 MB) and prints a table. The exit status is 0, or 1 if a goal is missed.
"""
import collections
import pathlib
import random
import subprocess
import sys
import tempfile
import time
from urllib.parse import quote_plus

from measuring import Figure, ROUNDS, least_times, peak_memory, processor_time, read_program, report

LINES = 1_000_000
QUERIES = 10_000
WAITED_FOR = 200  # queries whose replies are waited for one by one
MARK = b".\n"


def by_key(index):
    """The lines of the index, by key."""
    lines = collections.defaultdict(list)
    with open(index, "rb") as file:
        for line in file:
            lines[line.partition(b" ")[0]].append(line)
    return lines


def exact_query(key):
    return f"key={quote_plus(key)}".encode()


def expect_replies(program, index, queries, pages):
    """Ends the script if the replies to these queries aren't these pages."""
    asked = b"".join(query + b"&output=cdxj\n" for query in queries)
    found = subprocess.run([program, "serve", index], input=asked, stdout=subprocess.PIPE, check=True).stdout
    if found != b"".join(page + MARK for page in pages):
        sys.exit("the replies aren't the lines of the keys that were queried")


def waits(program, index, queries):
    """How long the reply to each query took to come, in seconds, where it was waited for before the next was asked."""
    times = []
    with subprocess.Popen([program, "serve", index], stdin=subprocess.PIPE, stdout=subprocess.PIPE) as process:
        for query in queries:
            start = time.perf_counter()
            process.stdin.write(query + b"\n")
            process.stdin.flush()
            while process.stdout.readline() not in (MARK, b""):
                pass
            times.append(time.perf_counter() - start)
        process.stdin.close()
    if process.returncode:
        sys.exit("serve failed")
    return times


def longest_wait(program, index, queries):
    """The longest of the waits, each the least of all rounds, in milliseconds."""
    rounds = [waits(program, index, queries) for _ in range(ROUNDS)]
    return 1000 * max(map(min, zip(*rounds)))


def main() -> int:
    program = read_program(__doc__)
    with tempfile.TemporaryDirectory() as name:
        folder = pathlib.Path(name)
        subprocess.run([sys.executable, pathlib.Path(__file__).with_name("make_indexes.py"), "serve", folder, str(LINES)], check=True)
        index = folder / "whole"
        lines = by_key(index)
        keys = random.Random(1).choices(list(lines), k=QUERIES)
        queries = [exact_query(key) for key in keys]
        expect_replies(program, index, queries, [b"".join(lines[key]) for key in keys])
        asked = folder / "queries"
        asked.write_bytes(b"".join(query + b"\n" for query in queries))

        serve = [program, "serve", index]
        times = least_times({f"{QUERIES} replies": lambda: processor_time(serve, asked)})
        figures = [
            Figure("reply to an exact query", 1000 * times[f"{QUERIES} replies"] / QUERIES, 0.15, "ms"),
            Figure("wait for a reply", longest_wait(program, index, queries[:WAITED_FOR]), 5, "ms"),
            Figure("memory", peak_memory(serve, [asked.read_bytes()]) / 1e6, 8, "MB"),
        ]
        return report(times, figures)


if __name__ == "__main__":
    sys.exit(main())
