#!/usr/bin/env python3
"""Queries an index that warcdx wrote, and compares the pages with its lines.

usage: check_queries.py [--program PROGRAM] INDEX

At most 200 keys of the index are taken, evenly spaced, the first and the last among them. The exact query for each has to write the lines that begin
with the key and a space. Then all lines are queried in pages of 7: by `pages`, and by `query` with each resume key as it was printed. Each line
has to be on one page, in the order of the index. Prints what differs, and the counts. The exit status is 0, or 1 if something differs.
"""
import pathlib
import subprocess
import sys
from collections.abc import Sequence
from urllib.parse import quote_plus

sys.path.insert(0, str(pathlib.Path(__file__).resolve().parents[1]))

from program import Report, find_program, parser_of

MOST = 200
SIZE = "7"


def sample(keys: Sequence[bytes]) -> list[bytes]:
    """Returns evenly spaced keys, with the first and the last."""
    count = min(len(keys), MOST)
    return [keys[number * (len(keys) - 1) // max(count - 1, 1)] for number in range(count)]


def asked(program: pathlib.Path, *words: str) -> bytes:
    done = subprocess.run([program, *words], stdout=subprocess.PIPE, check=False)
    return done.stdout if done.returncode == 0 else b"status %d" % done.returncode


def walk(program: pathlib.Path, index: str) -> tuple[bytes, int]:
    """Returns the pages of all lines, without their keys, and how many there are."""
    lines, key, count = [], "", 0
    while True:
        query = f"key=&matchType=prefix&output=cdxj&showResumeKey=true&limit={SIZE}{key}"
        page = asked(program, "query", query, index)
        count += 1
        rows, empty, printed = page.partition(b"\n\n")
        lines.append(rows + b"\n" if empty else rows)
        if not printed:
            return b"".join(lines), count
        key = "&resumeKey=" + printed.decode().removesuffix("\n")


def without_keys(text: bytes) -> bytes:
    """Returns pages of lines, without the empty line and the key after each but the last."""
    kept = []
    for part in text.split(b"\n\n"):
        kept.append(part.partition(b"\n")[2] if kept else part)
    return b"\n".join(kept)


def expect(report: Report, case: str, found: bytes, wanted: bytes) -> None:
    if found == wanted:
        report.ok += 1
    else:
        report.add_difference(case, f"wanted {wanted[:1000]!r}, found {found[:1000]!r}")


def main() -> int:
    parser, report = parser_of(__doc__), Report()
    parser.add_argument("--program", metavar="PROGRAM", help="default: the program of this repository, built if necessary")
    parser.add_argument("index", metavar="INDEX", help="the index")
    arguments = parser.parse_args()
    index, program = arguments.index, find_program(arguments.program)
    text = pathlib.Path(index).read_bytes()
    lines = text.splitlines(keepends=True)
    for key in sample(sorted({line.partition(b" ")[0] for line in lines})):
        wanted = b"".join(line for line in lines if line.startswith(key + b" "))
        expect(report, f"key {key!r}", asked(program, "query", f"key={quote_plus(key)}&output=cdxj", index), wanted)
    walked, count = walk(program, index)
    expect(report, f"query in {count} pages", walked, text)
    expect(report, "pages", without_keys(asked(program, "pages", SIZE, "key=&matchType=prefix&output=cdxj", index)), text)
    return report.end()


if __name__ == "__main__":
    sys.exit(main())
