#!/usr/bin/env python3
"""Prints how long a check took for each function and each file of lemmas of a crate.

usage: check_times.py [--most N] [--since SECONDS] CRATE

A check saves each module in the folder out/incremental of the crate, as soon as it has checked the module. The script takes the seconds from one saved
file to the next as those of the later module. So the check has to be one of a single job, as `rt check --jobs 1`. Nothing that it checked may have been
saved before, here or in another checkout on the machine, because rt begins with what it finds there. The first module also has the seconds in which the
check began.

With --since the script reads only what was saved since then, in seconds since 1970, as `date +%s` prints them. --most limits each list to N lines; the
default is 20.

Prints three lists, the longest first: the seconds of all modules of one kind, those of all modules of one function or file of lemmas, and those of
single modules. A module FUNCTION.Proof is the search for the goals of FUNCTION that have no answer. FUNCTION.Answers has its answers. FUNCTION.Lts,
FUNCTION.Tie and others are what rt makes of its code.

The exit status is 0, 1 if nothing was saved or the output failed, or 2 after a usage error.
"""
import collections
import os
import pathlib
import re
import sys
from typing import NamedTuple

sys.path.insert(0, os.path.join(os.path.dirname(os.path.dirname(os.path.abspath(__file__))), "tests"))

from program import ROOT, parser_of

# The last names of modules that rt makes for a function.
PARTS = frozenset(
    "Answers Code Given Goals Invariants Key Kinds Layout Lts Met Mir Named Paired Proof Reads Statement Symbol TheLaws TheLink Tie View".split()
)
# What the name of each module begins with: the library of the crate.
LIBRARY = re.compile(r"^Rattle-\w+[-.]?(proofs|specs)?\.?(contracts\.)?")


class Module(NamedTuple):
    """A module that a check saved: its name within the crate, without `decls`, and seconds."""

    name: str
    seconds: float

    @property
    def part(self) -> str:
        last = self.name.rpartition(".")[2]
        return last if last in PARTS else "other"

    @property
    def function(self) -> str:
        words = self.name.split(".")
        while len(words) > 1 and words[-1] in PARTS:
            words.pop()
        return ".".join(words)


def saved_modules(crate: pathlib.Path, since: float) -> list[Module]:
    """Returns the modules that were saved since then, each with the seconds since the module before it."""
    files = sorted((path.stat().st_mtime, path.stem) for path in crate.glob("out/incremental/**/*.oantt"))
    files = [(saved, name.removesuffix(".decls")) for saved, name in files if saved >= since]
    before = [since or files[0][0], *(saved for saved, _name in files)] if files else []
    return [Module(LIBRARY.sub("", name) or name, saved - earlier) for (saved, name), earlier in zip(files, before)]


def longest(title: str, seconds: collections.Counter[str], most: int) -> list[str]:
    """Returns the lines of one list."""
    return ["", title, *(f"{spent:9.1f}  {name}" for name, spent in seconds.most_common(most))]


def main() -> int:
    parser = parser_of(__doc__)
    parser.add_argument("--most", metavar="N", type=int, default=20)
    parser.add_argument("--since", metavar="SECONDS", type=float, default=0)
    parser.add_argument("crate", metavar="CRATE", help="the name of a folder in crates/")
    arguments = parser.parse_args()
    folder = ROOT / "crates" / arguments.crate
    if not folder.is_dir():
        parser.error(f"{arguments.crate}: no such crate")
    modules = saved_modules(folder, arguments.since)
    if not modules:
        print(f"check_times.py: {arguments.crate}: no check has saved a module", file=sys.stderr)
        return 1
    parts, functions, each = (collections.Counter[str]() for _ in range(3))
    for module in modules:
        parts[module.part] += module.seconds
        functions[module.function] += module.seconds
        each[module.name] += module.seconds
    lines = [f"{sum(parts.values()):.1f} s, {len(modules)} modules"]
    for title, seconds in (("parts", parts), ("functions", functions), ("modules", each)):
        lines += longest(title, seconds, arguments.most)
    try:
        with open(1, "w", closefd=False) as output:
            output.write("\n".join(lines) + "\n")
    except OSError as error:
        print(f"check_times.py: the output failed: {error.strerror}", file=sys.stderr)
        return 1
    return 0


if __name__ == "__main__":
    sys.exit(main())
