#!/usr/bin/env python3
"""Weighs the crates: the lines of their sources, specs and proofs, and the definitions behind their contracts.

usage: weigh.py [--check | --write | --calls]

Prints the rows of two tables of bench/RESULTS.md. The first has the lines of each crate that is no crate of tests. The second has the definitions that the
contract of a call reaches, and their lines without comments. Its last row has the definitions that no contract of a call of a door reaches.

With --check it compares the tables with the page, and prints a line for each row. No figure may be above that of the page. With --write it lowers the
page's figures to those that fell. A figure that has to rise is changed by hand, with the reason in the last column of its row. With --calls it prints
the second table for each call of a door.

The exit status is 0, or 1 if a figure is above that of the page, or a row is missing.
"""
import re
import sys
from collections.abc import Iterable, Iterator, Sequence
from pathlib import Path
from typing import NamedTuple

sys.path.insert(0, str(Path(__file__).resolve().parents[1] / "tests"))

from check_proved import Call, calls_of_doors, contracts
from definitions import CRATES, Item, reached_from, scope_of
from program import ROOT, Report, parser_of

PAGE = ROOT / "bench/RESULTS.md"
SECTION = re.compile(r"(?<=^## Weight\n).*?(?=^## |\Z)", re.MULTILINE | re.DOTALL)
FIGURE = re.compile(r"[\d,]+")
OF_TESTS = re.compile(r"fixtures|door_examples|\w+_tests")
HEADLINES = (
    Call("index_core", None, "list"), Call("index_core", None, "verify"), Call("index_core", "Fetch", "get"), Call("index_core", "Indexer", "add"),
    Call("index_core", "Indexer", "write"), Call("query_core", None, "check"), Call("query_core", None, "merge"), Call("query_core", None, "answer"),
    Call("query_core", None, "pages"), Call("query_core", None, "serve"), Call("scan_core", None, "scan"), Call("tasks", None, "perform"),
    Call("tasks", None, "run_on"),
)  # fmt: skip


class Row(NamedTuple):
    """A row of a table: what it is about, and its figures."""

    name: str
    figures: tuple[int, ...]

    def __str__(self) -> str:
        return f"| {self.name} | {' | '.join(f'{figure:,}' for figure in self.figures)} |"


def weighed_crates() -> list[str]:
    return [path.name for path in sorted(CRATES.iterdir()) if not OF_TESTS.fullmatch(path.name)]


def lines_of(crate: str, folder: str) -> int:
    """Returns the lines of the files of a folder of a crate, blank ones and comments with them."""
    return sum(path.read_bytes().count(b"\n") for path in (CRATES / crate / folder).rglob("*") if path.is_file())


def crate_rows() -> Iterator[Row]:
    """Yields a row for each crate: lines of source, specs and proofs, and their sum; and one of all."""
    rows = []
    for crate in weighed_crates():
        lines = [lines_of(crate, folder) for folder in ("src", "specs", "proofs")]
        rows.append(Row(f"`{crate}`", (*lines, sum(lines))))
    yield from rows
    yield Row("all", tuple(map(sum, zip(*(row.figures for row in rows)))))


def contract(call: Call) -> Item:
    """Returns the contract of a call."""
    name = f"{call.owner}::{call.name}" if call.owner else call.name
    found = [scope_of(path).items.get(name) for path in sorted((CRATES / call.crate / "src").rglob("*.rt"))]
    return next(item for item in found if item)


def definitions_behind(item: Item) -> set[Item]:
    """Returns the definitions of this repository that a contract reaches."""
    return {each for each in reached_from(item) if isinstance(each, Item)}


def row_of(name: str, definitions: Iterable[Item]) -> Row:
    found = list(definitions)
    return Row(name, (len(found), sum(item.text.count("\n") + 1 for item in found)))


def call_rows(calls: Iterable[Call]) -> Iterator[Row]:
    """Yields a row for each call: the definitions that its contract reaches, and their lines."""
    for call in calls:
        owner = f"{call.owner}::" if call.owner else ""
        yield row_of(f"`{owner}{call.name}` of `{call.crate}`", definitions_behind(contract(call)))


def has_contract(call: Call) -> bool:
    try:
        contract(call)
    except StopIteration:  # a call that a derive makes
        return False
    return True


def unreached() -> Row:
    """Returns the row of the definitions in specs that no contract of a call of a door, or of the command line, reaches."""
    calls = {*filter(has_contract, calls_of_doors(contracts())), *HEADLINES}
    reached = set().union(*(definitions_behind(contract(call)) for call in calls))
    specs = (path for crate in weighed_crates() for path in sorted((CRATES / crate / "specs").rglob("*.antt")))
    return row_of("reached by no call of a door", (item for path in specs for item in scope_of(path).items.values() if item not in reached))


def cells_of(line: str) -> list[str]:
    return [cell.strip() for cell in line.strip("|").split("|")]


def number(cell: str) -> int:
    return int(cell.replace(",", ""))


def page_rows() -> dict[str, Row]:
    """Returns the rows of the page's section by their names."""
    rows = [cells_of(line) for line in SECTION.findall(PAGE.read_text())[0].splitlines() if line.startswith("|")]
    return {cells[0]: Row(cells[0], tuple(number(cell) for cell in cells[1:] if FIGURE.fullmatch(cell))) for cells in rows}


def check(rows: Iterable[Row]) -> int:
    report, known = Report(), page_rows()
    for row in rows:
        stated = known.get(row.name)
        if stated and len(stated.figures) == len(row.figures) and all(map(int.__le__, row.figures, stated.figures)):
            report.add_ok(row.name)
        else:
            report.add_difference(row.name, f"{row.figures}, and the page has {stated.figures if stated else 'no row'}")
    return report.end()


def write(rows: Sequence[Row]) -> None:
    """Lowers the figures of the page."""
    found = {row.name: row for row in rows}

    def lowered(line: str) -> str:
        cells = cells_of(line)
        if not line.startswith("|") or cells[0] not in found:
            return line
        figures = found[cells[0]].figures
        least = tuple(min(figure, number(cell)) for figure, cell in zip(figures, cells[1:]))
        return f"{Row(cells[0], least)} {' | '.join(cells[1 + len(figures) :])} |".replace("  |", " |")

    text = PAGE.read_text()
    section = SECTION.findall(text)[0]
    PAGE.write_text(text.replace(section, "\n".join(map(lowered, section.split("\n")))))


def main() -> int:
    parser = parser_of(__doc__)
    way = parser.add_mutually_exclusive_group()
    way.add_argument("--check", action="store_true", help="compares the figures with those of bench/RESULTS.md")
    way.add_argument("--write", action="store_true", help="lowers those of bench/RESULTS.md that fell")
    way.add_argument("--calls", action="store_true", help="prints a row for each call of a door")
    arguments = parser.parse_args()
    if arguments.calls:
        print(*call_rows(call for call in sorted(calls_of_doors(contracts()), key=str) if has_contract(call)), sep="\n")
        return 0
    rows = [*crate_rows(), *call_rows(HEADLINES), unreached()]
    if arguments.check:
        return check(rows)
    if arguments.write:
        write(rows)
    else:
        print(*rows, sep="\n")
    return 0


if __name__ == "__main__":
    sys.exit(main())
