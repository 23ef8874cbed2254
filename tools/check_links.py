#!/usr/bin/env python3
"""Looks up the targets of the links in the pages of a folder: files, folders and headings.

usage: check_links.py [FOLDER]

The pages are all files `*.md` below FOLDER, but for those in folders whose name is `out` or begins
with a dot. Without FOLDER they are those of this repository. A target has to be inside FOLDER. A
heading is named as GitHub names it. Links to other sites aren't followed.

Prints a line for each page, and the counts. The exit status is 0, or 1 if a target is missing.
"""
import functools
import re
import sys
from collections import Counter
from collections.abc import Iterator
from pathlib import Path
from typing import Optional
from urllib.parse import unquote

sys.path.insert(0, str(Path(__file__).resolve().parents[1] / "tests"))

from program import ROOT, Report, parser_of

FENCED = re.compile(r"^(```|~~~).*?^\1", re.MULTILINE | re.DOTALL)
INDENTED = re.compile(r"^(?: {4}|\t).*$", re.MULTILINE)
CODE = re.compile(r"(`+)(?!`).*?(?<!`)\1(?!`)", re.DOTALL)
LINK = re.compile(r"\[[^\]]*\]\(\s*<?([^\s)>]+)>?[^)]*\)|^\[[^\]]+\]:\s*(\S+)", re.MULTILINE)
HEADING = re.compile(r"^#{1,6}\s+(.*?)\s*#*$", re.MULTILINE)
SITE = re.compile(r"[a-z][a-z0-9+.-]*:")


def pages_of(folder: Path) -> list[Path]:
    """Returns the pages of a folder. Folders of builds and hidden ones have none."""
    places = (page.relative_to(folder) for page in folder.rglob("*.md"))
    shown = (place for place in places if not any(is_passed_over(name) for name in place.parts))
    return [folder / place for place in sorted(shown)]


def is_passed_over(name: str) -> bool:
    return name == "out" or name.startswith(".")


def without_blocks(page: Path) -> str:
    """Returns the text of a page without its blocks of code."""
    return INDENTED.sub("", FENCED.sub("", page.read_text()))


def links_of(page: Path) -> Iterator[str]:
    """Yields the targets of a page's links to other places than other sites."""
    for link in LINK.finditer(CODE.sub("", without_blocks(page))):
        target = link[1] or link[2]
        if not SITE.match(target):
            yield target


@functools.cache
def anchors_of(page: Path) -> frozenset[str]:
    """Returns the names that GitHub gives to the headings of a page."""
    found, times = set(), Counter[str]()
    for heading in HEADING.finditer(without_blocks(page)):
        shown = re.sub(r"\[([^\]]*)\]\([^)]*\)", r"\1", heading[1])
        name = re.sub(r"[^\w\- ]", "", shown.lower()).replace(" ", "-")
        found.add(f"{name}-{times[name]}" if times[name] else name)
        times[name] += 1
    return frozenset(found)


def fault_of(target: str, page: Path, folder: Path) -> Optional[str]:
    """Returns what is wrong with the target of a link, if anything is."""
    place, _, anchor = target.partition("#")
    file = (page.parent / unquote(place)).resolve() if place else page
    if not file.is_relative_to(folder):
        return "is outside"
    if not file.exists():
        return "is missing"
    if anchor and (file.suffix != ".md" or unquote(anchor) not in anchors_of(file)):
        return "has no such heading"
    return None


def main() -> int:
    parser = parser_of(__doc__)
    parser.add_argument("folder", metavar="FOLDER", nargs="?", type=Path, default=ROOT)
    folder = parser.parse_args().folder.resolve()
    report, pages = Report(), pages_of(folder)
    if not pages:
        parser.error(f"{folder} has no pages")
    for page in pages:
        name, targets = page.relative_to(folder), list(links_of(page))
        faults = [(target, fault_of(target, page, folder)) for target in targets]
        for target, fault in faults:
            if fault:
                report.add_difference(name, f"{target} {fault}")
        if not any(fault for _, fault in faults):
            report.add_ok(f"{name}, links: {len(targets)}")
    return report.end()


if __name__ == "__main__":
    sys.exit(main())
