#!/usr/bin/env python3
"""Measures how much memory inputs make the program hold that are made for it, in bytes for each byte of the input.

usage: input_memory.py [--size BYTES] [PROGRAM]

Each input is made of one piece, which is repeated until the input has BYTES bytes (default:
16,777,216, the limit of a line of an index), or each of its two lines. Of less than 8,000,000, the
memory that this script holds itself would be measured. The memory is that of the run at its peak, or
of the larger of a command in Python and the program. For each byte of the input, or of one line, it
has to be what docs/SIZING.md says: at most a tenth more than the figure in INPUTS, and at least
two thirds of it, so that a figure that is too high is noticed too.

Prints a line for each input and command, and the counts. The exit status is 0, or 1 if a figure isn't as stated.
"""
import pathlib
import sys
import tempfile
from collections.abc import Iterator, Sequence
from typing import NamedTuple

sys.path.insert(0, str(pathlib.Path(__file__).resolve().parents[1]))

from measured_runs import KEY, MEMBERS, RECORD, STAMP, measure
from program import ROOT, Report, add_program, find_program, parser_of

ALL = "key=&matchType=prefix"
DEEP = 120  # an object in an object and so on; JSON of the program has at most 127
PIECE = 1 << 16  # bytes that are written at once, as what this script holds would count


class Input(NamedTuple):
    """An input: the text before, the piece that is repeated, and the text behind, with NUMBER for that of the line."""

    name: str
    before: str
    piece: str
    behind: str
    figures: Sequence[tuple[Sequence[str], float]]  # commands, and the memory of each for each byte
    lines: int = 1  # each of as many bytes


FRONT, BACK = RECORD.split("%s")
OBJECT = f"{KEY} {STAMP} {{"
ARRAY_END = "0], " + MEMBERS % ("", 0, "a")
OBJECTS = '{"":' * DEEP + "0" + "}" * DEEP + ","
ARRAYS = "[" * DEEP + "]" * DEEP + ","
TARGET = FRONT + "\x01" * 1_000_000 + BACK  # not a URL: each byte is escaped, and is in the key and in the line
PERCENT, ACCENT = "%", "é"
AS_KEY = ' 2016010100000NUMBER {"url": "u", "offset": "0", "filename": "a"}\n'
AS_URL = '", "offset": "0", "filename": "a"}\n'
AFTER_TYPE = f" - - {'r' * 200} - - 0 a\n"  # the line in the index is the shorter one
WITH_RESUME_KEY = f"{ALL}&showResumeKey=true"
OF_URLS = ((("check",), 2.2), (("merge",), 2.2), (("query", ALL), 3.2), (("pages", "1", ALL), 3.2), (("warcdx-cdx", "to"), 7.1))
OF_KEYS = (
    (("check",), 3.2), (("merge",), 3.2), (("query", ALL), 4.2), (("query", f"{WITH_RESUME_KEY}&limit=1"), 8.2),
    (("pages", "1", WITH_RESUME_KEY), 10.2), (("warcdx-cdx", "to"), 4.9),
)  # fmt: skip
OF_LINES = ((("check",), 3.2), (("merge",), 3.2), (("query", ALL), 3.2))
INPUTS = (
    Input("a line with nested objects", f'{OBJECT}"a": [', OBJECTS, ARRAY_END, OF_LINES),
    Input("a line with small objects", f'{OBJECT}"a": [', '{"":0},', ARRAY_END, OF_LINES),
    Input("a line with nested arrays", f'{OBJECT}"a": [', ARRAYS, ARRAY_END, OF_LINES),
    Input("a line with a long URL", f'{OBJECT}"url": "', "a", '", "offset": "0", "filename": "a"}\n', ((("query", ALL), 3.2),)),
    Input("a line with a URL of %", f'{OBJECT}"url": "', PERCENT, AS_URL, OF_URLS),
    Input("a line with a URL of é", f'{OBJECT}"url": "', ACCENT, AS_URL, OF_URLS),
    Input("two lines with URL keys of %", "", PERCENT, AS_KEY, OF_KEYS, 2),
    Input("two lines with URL keys of é", "", ACCENT, AS_KEY, OF_KEYS, 2),
    Input("a line of a CDX file with %", "k 20160101000000 http://a/ ", PERCENT, AFTER_TYPE, ((("warcdx-cdx", "from"), 5.8),)),
    Input("a line of a CDX file with é", "k 20160101000000 http://a/ ", ACCENT, AFTER_TYPE, ((("warcdx-cdx", "from"), 5.8),)),
    Input("targets of %", "", FRONT + "http://a/" + PERCENT * 1_000_000 + BACK, "", ((("index",), 2.4), (("scan", "1", ALL), 4.9))),
    Input("targets of é", "", FRONT + "http://a/" + ACCENT * 500_000 + BACK, "", ((("index",), 4.8), (("scan", "1", ALL), 9.8))),
    Input("targets of control characters", "", TARGET, "", ((("index",), 11), (("scan", "1", ALL), 22))),
)


def texts_of(made: Input, size: int) -> Iterator[str]:
    """Yields the pieces of an input, each of whose lines has at most as many bytes."""
    piece_size = len(made.piece.encode())
    count = (size - len(made.before) - len(made.behind)) // piece_size
    at_once = max(1, PIECE // piece_size)
    for number in range(made.lines):
        yield made.before
        for _ in range(count // at_once):
            yield made.piece * at_once
        yield made.piece * (count % at_once)
        yield made.behind.replace("NUMBER", str(number))


def run_of(program: pathlib.Path, folder: pathlib.Path, words: Sequence[str]) -> tuple[pathlib.Path, pathlib.Path, Sequence[str]]:
    """Returns what `measure` takes. A command in Python is given the program."""
    if words[0].startswith("warcdx-"):
        return ROOT / "python/bin" / words[0], folder, ("--program", str(program), *words[1:], "input")
    return program, folder, (*words, "input")


def main() -> int:
    parser, report = parser_of(__doc__), Report()
    parser.add_argument("--size", metavar="BYTES", type=int, default=1 << 24, help="of an input (default: 16777216)")
    add_program(parser)
    arguments = parser.parse_args()
    program = find_program(arguments.program)
    with tempfile.TemporaryDirectory() as name:
        folder = pathlib.Path(name)
        for made in INPUTS:
            with open(folder / "input", "w") as file:
                file.writelines(texts_of(made, arguments.size))
            size = (folder / "input").stat().st_size // made.lines
            for command, figure in made.figures:
                costs = measure(*run_of(program, folder, command))
                ratio = costs.memory / size
                title = f"{made.name}: {command[0]} of {size:,} bytes holds {costs.memory:,}, {ratio:.1f} a byte"
                if costs.status == 0 and figure / 1.5 <= ratio <= figure * 1.1:
                    report.add_ok(title)
                else:
                    report.add_difference(title, f"status {costs.status}, {costs.error[:200]!r}, stated is {figure}")
    return report.end()


if __name__ == "__main__":
    sys.exit(main())
