#!/usr/bin/env python3
"""Indexes archives with all types, and compares the index with that of the usual types and with the listings of the archives.

usage: check_types.py [--program PROGRAM] INDEX WARC..

INDEX is that of the usual types. The index of all types has to have its lines, and one for each conversion and metadata record that `list` lists and whose
head has a target, with the record's length. These lines alone have to be the index of the two types, and `verify` has to report the same records as
`list`. Prints the number of lines that the index of all types has more, or what differs. The exit status is 0, or 1 if something differs.
"""
import json
import pathlib
import subprocess
import sys

sys.path.insert(0, str(pathlib.Path(__file__).resolve().parents[1]))

from plain import records as plain
from program import find_program, parser_of

ALL = ",".join(plain.INDEXABLE)
MORE = ",".join(plain.INDEXABLE[len(plain.USUAL) :])


def written(*words: str) -> bytes:
    """Returns what the program writes. Status 1 is that of `verify` if a digest differs."""
    done = subprocess.run(words, stdout=subprocess.PIPE, check=False)
    if done.returncode > 1:
        sys.exit(f"{words} ends with status {done.returncode}")
    return done.stdout


def records(program: str, archive: str) -> list[tuple[str, str]]:
    """Returns the offset and length of each conversion and metadata record. `verify` has to report the same records as `list`."""
    listed = [line.split() for line in written(program, "list", archive).decode().splitlines()]
    verified = [line.split()[0] for line in written(program, "verify", archive).decode().splitlines()]
    if [offset for offset, _, _ in listed] != verified:
        sys.exit(f"{archive}: verify reports other records than list")
    return [(offset, length) for offset, length, kind in listed if kind in MORE.split(",")]


def has_target(archive: str, offset: str, length: str) -> bool:
    with open(archive, "rb") as opened:
        opened.seek(int(offset))
        record = plain.read_record(opened.read(int(length)), 0)
    return bool(plain.target(record, MORE.split(",")))


def place_of(line: bytes) -> tuple[str, str, str]:
    members = json.loads(line.split(b" ", 2)[2])
    return members["filename"], members["offset"], members["length"]


def main() -> None:
    parser = parser_of(__doc__)
    parser.add_argument("--program", metavar="PROGRAM", help="default: the program of this repository, built if necessary")
    parser.add_argument("index", metavar="INDEX", type=pathlib.Path, help="the index of the usual types")
    parser.add_argument("archives", metavar="WARC", nargs="+", help="an archive")
    arguments = parser.parse_args()
    archives, program = arguments.archives, str(find_program(arguments.program))
    usual = dict.fromkeys(arguments.index.read_bytes().splitlines())
    whole = written(program, "index", "--types", ALL, *archives).splitlines()
    more = [line for line in whole if line not in usual]
    if [line for line in whole if line in usual] != list(usual):
        sys.exit("the index of all types lacks lines of the other one")
    if written(program, "index", "--types", MORE, *archives).splitlines() != more:
        sys.exit(f"the index of {MORE} has other lines than those that the index of all types has more")
    wanted = {
        (pathlib.Path(archive).name, offset, length)
        for archive in archives
        for offset, length in records(program, archive)
        if has_target(archive, offset, length)
    }
    for place in wanted ^ set(map(place_of, more)):
        sys.exit(f"{place}: a record without a line, or a line without a record")
    print(f"{len(more)} lines more than of the usual types")


if __name__ == "__main__":
    main()
