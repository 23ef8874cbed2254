#!/usr/bin/env python3
"""Compares the code of docs/developers/LIBRARY.md with the crate door_examples, which the gate proves, and the map of the crates with crates.txt.

usage: check_library.py

Each block of Rust on the page has to be in a file of the crate as it stands. The page has to have a
block of each file but lib.rt, tests.rt, and those that docs/proof/STATEMENT.md shows. The map in
docs/developers/ARCHITECTURE.md has to have each crate once, below the crates on which it depends.

Prints a line for each block and for each crate, and the counts. The exit status is 0, or 1 if one differs.
"""
import re
import sys
from pathlib import Path

sys.path.insert(0, str(Path(__file__).resolve().parents[1] / "tests"))

from program import ROOT, Report, parser_of

BLOCK = re.compile(r"^```rust\n(.*?)^```$", re.MULTILINE | re.DOTALL)
OTHERS = {"lib.rt", "tests.rt", "shelf.rt", "witnesses.rt"}
NAME = re.compile(r"^pub fn (\w+)", re.MULTILINE)
ROW = re.compile(r"^\| (`[^|]*) \|", re.MULTILINE)


def dependencies() -> dict[str, list[str]]:
    """Returns the crates of crates.txt, each with those of them on which it depends."""
    lines = (line.partition("#")[0].partition(":") for line in (ROOT / "crates.txt").read_text().splitlines())
    named = {name.strip(): names.split() for name, colon, names in lines if colon}
    return {name: [other for other in names if other in named] for name, names in named.items()}


def check_map(report: Report) -> None:
    """Compares the rows of the map, each of which has one crate or several, with the dependencies."""
    page = (ROOT / "docs/developers/ARCHITECTURE.md").read_text()
    text = page.partition("\n## Map\n")[2].partition("\n## ")[0]
    rows = [re.findall(r"`(\w+)`", row) for row in ROW.findall(text)]
    seen: list[str] = []
    direct = dependencies()
    for row in rows:
        seen += row
        for crate in row:
            absent = [other for other in direct.get(crate, ()) if other not in seen]
            if crate not in direct:
                report.add_difference(crate, "isn't in crates.txt")
            elif absent or seen.count(crate) > 1:
                report.add_difference(crate, f"above {', '.join(absent)}" if absent else "stands twice")
            else:
                report.add_ok(f"{crate}, in the map")
    for crate in sorted(direct.keys() - set(seen)):
        report.add_difference(crate, "isn't in the map")


def main() -> int:
    parser_of(__doc__).parse_args()
    report = Report()
    sources = {source.name: source.read_text() for source in sorted(ROOT.glob("crates/door_examples/src/*.rt"))}
    shown = set()
    for block in BLOCK.findall((ROOT / "docs/developers/LIBRARY.md").read_text()):
        name = NAME.search(block)
        title = name[1] if name else block.splitlines()[0]
        files = [file for file, text in sources.items() if block in text]
        shown.update(files)
        if files:
            report.add_ok(f"{title}, of {files[0]}")
        else:
            report.add_difference(title, "isn't in crates/door_examples")
    for file in sorted(sources.keys() - shown - OTHERS):
        report.add_difference(file, "the page has no block of it")
    check_map(report)
    return report.end()


if __name__ == "__main__":
    sys.exit(main())
