#!/usr/bin/env python3
"""Counts the instructions that a record, a capture or a line takes, and compares them with the goals of README.md in this folder.

usage: count_instructions.py [PROGRAM]

Runs each command on two inputs by valgrind's callgrind, and divides the difference of the counts by that of the records, captures or lines. So the
start of the program isn't counted. Makes the inputs in a temporary folder (TMPDIR, 100 MB) and prints a table. The exit status is 0, or 1 if a goal is
missed. Needs valgrind. Where there is rustc, the same is counted of the commands by hand.
"""
import json
import pathlib
import re
import subprocess
import sys
import tempfile
from collections.abc import Callable, Iterator, Sequence
from typing import NamedTuple, Optional

from make_archives import Archive
from make_crawls import Crawl
from make_indexes import deal, lines
from measuring import WIDTH, build_by_hand, read_program
from program import need

COLLECTED = re.compile(r"Collected : (\d+)")
QUERY = "key=&matchType=prefix"
RECORDS = 500  # of an archive of 10 MB
CAPTURES = (1000, 5000)
LINES = (40_960, 81_920)


class Input(NamedTuple):
    """Files, and how many records, captures or lines they have."""

    files: Sequence[pathlib.Path]
    count: int


class Row(NamedTuple):
    name: str
    command: Sequence[str]
    smaller: Input
    larger: Input
    goal: Optional[int]
    is_by_hand: bool = False  # whether the programs by hand have the command, and read such lines


def instructions(program: pathlib.Path, command: Sequence[str], files: Sequence[pathlib.Path]) -> int:
    """Returns the instructions of the user's code in one run."""
    callgrind = ("valgrind", "--tool=callgrind", "--callgrind-out-file=/dev/null")
    run = subprocess.run(
        [*callgrind, program, *command, *files],
        stdin=subprocess.DEVNULL,
        stdout=subprocess.DEVNULL,
        stderr=subprocess.PIPE,
        text=True,
        check=True,
    )
    found = COLLECTED.search(run.stderr)
    if found is None:
        sys.exit(f"callgrind prints no count: {run.stderr}")
    return int(found[1])


def each(program: pathlib.Path, row: Row) -> float:
    """Returns the instructions of one record, capture or line."""
    more = instructions(program, row.command, row.larger.files) - instructions(program, row.command, row.smaller.files)
    return more / (row.larger.count - row.smaller.count)


def archive(folder: pathlib.Path, batches: int) -> Input:
    """Writes records of 20 kB."""
    path = folder / f"records-{batches}.warc"
    path.write_bytes(b"".join(Archive(20_000, batches).pieces))
    return Input([path], RECORDS * batches)


def crawl(folder: pathlib.Path, captures: int) -> Input:
    """Writes pages of 50 to 150 bytes, with the digests of their payloads."""
    path = folder / f"pages-{captures}.warc"
    path.write_bytes(b"".join(Crawl(captures, 100).pieces))
    return Input([path], captures)


def indexes(folder: pathlib.Path, count: int, files: int) -> Input:
    """Writes lines, one in ten of them twice if there are several files."""
    deal(lines(count), files, folder, f"lines-{count}-{files}")
    paths = sorted(folder.glob(f"lines-{count}-{files}-*"))
    return Input(paths, sum(path.read_bytes().count(b"\n") for path in paths))


def with_numbers(index: Input) -> Input:
    """Writes the lines of an index with numbers for their statuses and lengths, as other programs do."""
    path = index.files[0].with_suffix(".numbers")
    path.write_bytes(re.sub(rb'("status"|"length"): "(\d+)"', rb"\1: \2", index.files[0].read_bytes()))
    return Input([path], index.count)


def respelled(index: Input, name: str, respell: Callable[[dict[str, str]], str]) -> Input:
    """Writes the lines of an index with objects as another program spells them."""
    path = index.files[0].with_suffix(f".{name}")
    with path.open("w") as file:
        for line in index.files[0].read_text().splitlines():
            key, stamp, members = line.split(" ", 2)
            print(key, stamp, respell(json.loads(members)), file=file)
    return Input([path], index.count)


def of_common_crawl(members: dict[str, str]) -> str:
    """Returns an object with the members that Common Crawl adds."""
    return json.dumps({**members, "mime-detected": members["mime"], "charset": "UTF-8", "languages": "eng"})


def without_blanks(members: dict[str, str]) -> str:
    return json.dumps(members, separators=(",", ":"))


def with_an_escape(members: dict[str, str]) -> str:
    """Returns an object with an escape in a member that nobody asks for."""
    return json.dumps({**members, "title": "caf\u00e9"})


def rows(folder: pathlib.Path) -> Iterator[Row]:
    archives, crawls = [archive(folder, batches) for batches in (1, 2)], [crawl(folder, captures) for captures in CAPTURES]
    one, four, many = ([indexes(folder, count, files) for count in LINES] for files in (1, 4, 1024))
    numbers = [with_numbers(index) for index in one]
    common_crawl = [respelled(index, "common-crawl", of_common_crawl) for index in one]
    dense = [respelled(index, "dense", without_blanks) for index in one]
    escapes = [respelled(index, "escapes", with_an_escape) for index in one]
    yield Row("list of a file, a record of 20 kB", ["list"], *archives, 2870, True)
    yield Row("index of a file, a capture", ["index"], *crawls, 8200, True)
    yield Row("check, a line", ["check"], *one, 790, True)
    yield Row("check, a line of Common Crawl", ["check"], *common_crawl, 1600)
    yield Row("check, a line without blanks", ["check"], *dense, 1430)
    yield Row("check, a line with numbers", ["check"], *numbers, 1410)
    yield Row("check, a line with an escape", ["check"], *escapes, 1490)
    yield Row("merge of 4 files, a line that is read", ["merge"], *four, 1500, True)
    yield Row("merge of 1,024 files, a line that is read", ["merge"], *many, 1850, True)
    yield Row("query of all lines as text, a line", ["query", QUERY], *one, 1710, True)
    yield Row("the same as json", ["query", f"{QUERY}&output=json"], *one, 1760)
    yield Row("the same as cdxj", ["query", f"{QUERY}&output=cdxj"], *one, 1290)
    yield Row("query of lines with numbers, as text", ["query", QUERY], *numbers, None)
    yield Row("the same with a filter", ["query", f"{QUERY}&filter=statuscode:200"], *numbers, None)


def main() -> int:
    program = read_program(__doc__)
    need("valgrind")
    is_met = True
    with tempfile.TemporaryDirectory() as name:
        hand = build_by_hand(pathlib.Path(name))
        for row in rows(pathlib.Path(name)):
            count = each(program, row)
            text = f"{row.name:<{WIDTH}}{count:8,.0f}"
            if row.goal is not None:
                met = count <= row.goal
                is_met = is_met and met
                text += f"  goal {row.goal:6,}  {'met' if met else 'MISSED':<6}"
            if hand is not None and row.is_by_hand:
                text += f"  by hand {each(hand, row):6,.0f}"
            print(text, flush=True)
    return 0 if is_met else 1


if __name__ == "__main__":
    sys.exit(main())
