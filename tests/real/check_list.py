#!/usr/bin/env python3
"""Compares the listings of undamaged archives with the Content-Length of their records.

usage: check_list.py [--program PROGRAM] WARC..

For each archive, `PROGRAM list WARC` has to list the records that follow one another by the Content-Length of their heads alone, with their
offsets and lengths. Prints a line for each archive, and the counts. The exit status is 0, or 1 if a listing differs.
"""
import os
import pathlib
import subprocess
import sys
from collections.abc import Iterator
from typing import BinaryIO

sys.path.insert(0, str(pathlib.Path(__file__).resolve().parents[1]))

from program import Report, find_program, parser_of


def block_length(archive: BinaryIO) -> int:
    """Reads the fields of a head up to the empty line after them."""
    length = 0
    for line in iter(archive.readline, b"\r\n"):
        name, colon, value = line.partition(b":")
        if not line:
            sys.exit("an archive ends within a head")
        if colon and name.lower() == b"content-length":
            length = int(value)
    return length


def records(path: str) -> Iterator[tuple[str, str]]:
    """Yields the offset and the length of each record."""
    with open(path, "rb") as archive:
        start = 0
        while archive.readline():  # the version
            end = archive.seek(block_length(archive) + len(b"\r\n\r\n"), os.SEEK_CUR)
            yield str(start), str(end - start)
            start = end


def main() -> int:
    parser, report = parser_of(__doc__), Report()
    parser.add_argument("--program", metavar="PROGRAM", help="default: the program of this repository, built if necessary")
    parser.add_argument("archives", metavar="WARC", nargs="+", help="an archive")
    arguments = parser.parse_args()
    program = find_program(arguments.program)
    for path in arguments.archives:
        listed = subprocess.run((program, "list", path), stdout=subprocess.PIPE, text=True).stdout.splitlines()
        found, wanted = [tuple(line.split()[:2]) for line in listed], list(records(path))
        if found == wanted:
            report.add_ok(f"{path}: {len(wanted)} records")
        else:
            report.add_difference(path, f"{len(found)} records for {len(wanted)}: {sorted(set(found) ^ set(wanted))[:3]}")
    return report.end()


if __name__ == "__main__":
    sys.exit(main())
