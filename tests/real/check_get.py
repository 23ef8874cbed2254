#!/usr/bin/env python3
"""Gets records that an index has, and compares each with the bytes of its archive.

usage: check_get.py [--program PROGRAM] INDEX FOLDER

FOLDER contains the archives. At most 100 lines of the index are taken, evenly spaced, the first and the last among them. For each line
`PROGRAM get OFFSET ARCHIVE` has to write exactly the bytes from the line's offset on, as many as its length says. They have to begin with WARC/ and to end
with an empty line. Prints the lines that differ, and the counts. The exit status is 0, or 1 if a record differs.
"""
import json
import pathlib
import subprocess
import sys
from collections.abc import Sequence

sys.path.insert(0, str(pathlib.Path(__file__).resolve().parents[1]))

from program import Report, find_program, parser_of

MOST = 100


def sample(lines: Sequence[str]) -> list[str]:
    """Returns evenly spaced lines, with the first and the last."""
    count = min(len(lines), MOST)
    return [lines[number * (len(lines) - 1) // max(count - 1, 1)] for number in range(count)]


def is_record(program: pathlib.Path, folder: pathlib.Path, line: str) -> bool:
    """Returns whether the program writes the record of this line."""
    members = json.loads(line.split(" ", 2)[2])
    path, offset, length = folder / members["filename"], int(members["offset"]), int(members["length"])
    with open(path, "rb") as archive:
        archive.seek(offset)
        stored = archive.read(length)
    got = subprocess.run([program, "get", str(offset), path], stdout=subprocess.PIPE, check=False)
    return (
        got.returncode == 0
        and got.stdout == stored
        and len(stored) == length
        and stored.startswith(b"WARC/")
        and stored.endswith(b"\r\n\r\n")
    )


def main() -> int:
    parser, report = parser_of(__doc__), Report()
    parser.add_argument("--program", metavar="PROGRAM", help="default: the program of this repository, built if necessary")
    parser.add_argument("index", metavar="INDEX", type=pathlib.Path, help="the index")
    parser.add_argument("folder", metavar="FOLDER", type=pathlib.Path, help="the folder of the archives")
    arguments = parser.parse_args()
    program = find_program(arguments.program)
    for line in sample(arguments.index.read_text(encoding="utf-8").splitlines()):
        if is_record(program, arguments.folder, line):
            report.ok += 1
        else:
            report.add_difference("record", line)
    return report.end()


if __name__ == "__main__":
    sys.exit(main())
