#!/usr/bin/env python3
"""Runs each command of warcdx with its first read, write or seek failing, then its second, until a run has none to fail.

usage: fail_devices.py [PROGRAM]

Either one call fails and the device works again, or every second call from there on fails, or each. The error is EIO, or EINTR, after which a
call may be made again. Each run has to end as without a failure, or with exit status 3 and a line that names the device: `Read`, `Input`, `Write`,
`cannot flush`, or `cannot open` of an archive, because an archive is sought when it is opened. What it wrote then is a prefix of what it
writes otherwise. `index` and `check`, which continue with the next file, write some of their lines. JSON is not closed if an index couldn't be
read. Then each call moves one byte, or seven, which must change nothing.

Prints a line for each command and way, with the number of runs, and the counts. The exit status is 0, or 1 if a run ends in another way.
Needs a C compiler: $CC, cc, or that of the Rattle kit.
"""
import errno
import json
import pathlib
import re
import sys
from collections.abc import Mapping, Sequence
from typing import Optional

sys.path.insert(0, str(pathlib.Path(__file__).resolve().parents[1]))

from preloaded_runs import CASES, Ended, Runs
from program import Report, add_program, find_program, parser_of

FAILED = b"failed this call\n"
ON_ERROR = re.compile(rb"warcdx: (.*: fault [0-9]+ Read|.*\.warc: cannot open|.*: Read|Input|Write|cannot flush)")
ON_OUTPUT = re.compile(rb"fault [0-9]+ Read\n\Z")  # of list and verify
WAYS = {
    "one call fails": {"ERROR": errno.EIO},
    "every second call fails": {"ERROR": errno.EIO, "EVERY": 2},
    "each call fails": {"ERROR": errno.EIO, "EVERY": 1},
    "one call is interrupted": {"ERROR": errno.EINTR},
    "every second call is interrupted": {"ERROR": errno.EINTR, "EVERY": 2},
}
MORE = (
    ("list", "response.warc", "damaged.warc", "response.warc"),
    ("list", "wget.warc"),
    ("verify", "-", "response.warc"),
    ("index", "damaged.warc", "missing.warc", "response.warc"),
    ("query", "key=&matchType=prefix&output=json", "response.cdxj", "wget.cdxj"),
    ("query", "url=127.0.0.1:8000/*&output=cdxj&limit=3&showResumeKey=true", "wget.cdxj"),
    ("pages", "2", "key=&matchType=prefix&output=json", "response.cdxj", "damaged.cdxj"),
    ("get", "1261", "wget.warc"),
)


def may_end(arguments: Sequence[str], found: Ended, usual: Ended) -> bool:
    """Returns whether a run with a failure, which ends otherwise than without, may end so."""
    lines = found.error.splitlines()
    added = [line for line in lines if line not in usual.error.splitlines()]
    is_named = all(map(ON_ERROR.fullmatch, added)) and (bool(added) or b" Read\n" in found.output)
    is_closed = arguments[0] == "query" and "output=json" in arguments[1] and found.error.endswith(b": Read\n") and is_json(found.output)
    return found.status == 3 and is_named and not is_closed and is_front(arguments[0], found.output, usual.output)


def is_front(command: str, output: bytes, usual: bytes) -> bool:
    """Returns whether the output is a prefix of the usual one, or, of commands that continue with the next file, some of its lines."""
    if command not in ("list", "verify", "index", "check"):
        return usual.startswith(output)
    *whole, last = re.sub(rb"^fault [0-9]+ Read\n", b"", output, flags=re.MULTILINE).split(b"\n")
    lines = iter(usual.split(b"\n"))
    return all(line in lines for line in whole) and any(line.startswith(last) for line in (b"", b"fault ", *lines))


def is_json(text: bytes) -> bool:
    try:
        json.loads(text)
    except ValueError:
        return False
    return True


Result = tuple[int, int, Optional[Ended]]


def fail_in_turn(runs: Runs, arguments: Sequence[str], way: Mapping[str, int]) -> Result:
    """Returns the number of runs, of those that end as without a failure, and the first that ends as it may not."""
    usual = runs.usual(arguments)
    number, same = 0, 0
    while True:
        number += 1
        found = runs.preloaded(arguments, FAIL=str(number), **{name: str(value) for name, value in way.items()})
        if FAILED not in found.error:
            return number - 1, same, None
        found = found._replace(error=found.error.replace(FAILED, b""))
        same += found == usual
        if found != usual and not may_end(arguments, found, usual):
            return number, same, found


def run_in_pieces(runs: Runs, arguments: Sequence[str]) -> Result:
    """Returns the same of runs whose calls move few bytes. They have to end as usual."""
    usual = runs.usual(arguments)
    for number, piece in enumerate((1, 7), 1):
        found = runs.preloaded(arguments, PIECE=str(piece))
        if found != usual:
            return number, number - 1, found
    return number, number, None


def main() -> int:
    parser = parser_of(__doc__)
    add_program(parser)
    runs, report = Runs(find_program(parser.parse_args().program), "fail_calls.c"), Report()
    for case in CASES + MORE:
        results = {name: fail_in_turn(runs, case, way) for name, way in WAYS.items()}
        results["calls move few bytes"] = run_in_pieces(runs, case)
        for name, (number, same, found) in results.items():
            title = f"{' '.join(case)}: {name}"
            if found is None:
                report.add_ok(f"{title}, {number} runs, {same} as usual")
            else:
                report.add_difference(title, f"run {number}: {found}")
    return report.end()


if __name__ == "__main__":
    sys.exit(main())
