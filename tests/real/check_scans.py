#!/usr/bin/env python3
"""Scans archives, and compares the pages with those of the index that warcdx wrote of them.

usage: check_scans.py [--program PROGRAM] INDEX WARC..

The queries are that for all captures, and those for five keys of the index, evenly spaced, by each match type, some with times and values. As cdxj
each scan has to write what `query` writes, and in pages of 7 what `pages` writes. Prints the queries that differ, and the counts. The exit status is 0, or 1
if a query differs.
"""
import itertools
import pathlib
import subprocess
import sys
from collections.abc import Iterator
from urllib.parse import quote_plus

sys.path.insert(0, str(pathlib.Path(__file__).resolve().parents[1]))

from program import Report, find_program, parser_of

WHOLE = "1000000"
ALL = "key=&matchType=prefix"
KEYS = 5
# For each match type what else is queried.
MATCHES = ("exact", "prefix&is=statuscode:200", "host&to=2026", "domain&isnot=mimetype:text/html")


def queries(index: str) -> Iterator[str]:
    """Yields the query for all captures, and those for some keys."""
    with open(index, "rb") as file:
        keys = sorted({line.partition(b" ")[0] for line in file})
    chosen = keys[:: max(len(keys) // KEYS, 1)][:KEYS]
    hosts = {"host", "domain"}
    yield ALL
    for key, match in itertools.product(chosen, MATCHES):
        target = key.partition(b")")[0] if match.partition("&")[0] in hosts else key
        yield f"key={quote_plus(target)}&matchType={match}"


def written(*words: str) -> bytes:
    done = subprocess.run(words, stdout=subprocess.PIPE, check=False)
    return done.stdout if done.returncode == 0 else b"status %d" % done.returncode


def main() -> int:
    parser, report = parser_of(__doc__), Report()
    parser.add_argument("--program", metavar="PROGRAM", help="default: the program of this repository, built if necessary")
    parser.add_argument("index", metavar="INDEX", help="the index")
    parser.add_argument("archives", metavar="WARC", nargs="+", help="an archive")
    arguments = parser.parse_args()
    index, archives, program = arguments.index, arguments.archives, str(find_program(arguments.program))
    for query in queries(index):
        if written(program, "scan", WHOLE, f"{query}&output=cdxj", *archives) != written(program, "query", f"{query}&output=cdxj", index):
            report.add_difference(query, "another page than that of the index")
        elif written(program, "scan", "7", query, *archives) != written(program, "pages", "7", query, index):
            report.add_difference(query, "other pages than those of the index")
        else:
            report.ok += 1
    return report.end()


if __name__ == "__main__":
    sys.exit(main())
