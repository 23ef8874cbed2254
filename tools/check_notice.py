#!/usr/bin/env python3
"""Compares NOTICE with the libraries of the Rattle kit that crates.txt names for the programs.

usage: check_notice.py [--contact]

Each library that a crate of warcdx or warcdx-gz names has a line in NOTICE. With --contact, the file
CONTACT also has to name the project's address and its maintainers, as a release needs.

Prints a line for each library, and the counts. The exit status is 0, or 1 if one differs.
"""
import re
import sys
from pathlib import Path

sys.path.insert(0, str(Path(__file__).resolve().parents[1] / "tests"))

from program import ROOT, Report, parser_of

PROGRAMS = ("warcdx", "warcdx_gz")
CONTACT = re.compile(r"https://\S+ \S.* <\S+@\S+>\n")


def read_crates() -> dict[str, list[str]]:
    """Returns for each crate of the repository the names of those that it uses."""
    lines = (line.split("#")[0].partition(":") for line in (ROOT / "crates.txt").read_text().splitlines())
    return {name.split()[0]: used.split() for name, _, used in lines if name.strip()}


def linked_libraries(crates: dict[str, list[str]]) -> set[str]:
    """Returns the libraries of the kit that the programs' crates use."""
    found: set[str] = set()
    waiting = list(PROGRAMS)
    while waiting:
        name = waiting.pop()
        if name not in found:
            found.add(name)
            waiting += crates.get(name, [])
    return found - crates.keys()


def noticed_names() -> set[str]:
    """Returns the names in the first column of the table of NOTICE."""
    heading, _, rest = (ROOT / "NOTICE").read_text().partition("After ")
    width = len(heading) - heading.rindex("Library")
    rows = rest.partition("Ask the makers")[0].splitlines()
    return {name for row in rows for name in re.findall(r"\w+", row[:width])}


def main() -> int:
    parser = parser_of(__doc__)
    parser.add_argument("--contact", action="store_true", help="look at CONTACT too")
    arguments = parser.parse_args()
    report = Report()
    names = noticed_names()
    for library in sorted(linked_libraries(read_crates())):
        if library in names:
            report.add_ok(library)
        else:
            report.add_difference(library, "NOTICE has no line of it")
    if arguments.contact and not CONTACT.fullmatch((ROOT / "CONTACT").read_text()):
        report.add_difference("CONTACT", "it isn't a line such as `https://example.org/warcdx The maintainers <mail@example.org>`")
    return report.end()


if __name__ == "__main__":
    sys.exit(main())
