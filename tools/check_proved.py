#!/usr/bin/env python3
"""Compares the clauses that the tables of docs/proof/PROVED.md name with the contracts of the calls.

usage: check_proved.py

Each clause that a table names for a call has to be in its contract. If the tables name a clause of a
call, they have to name all of them. A call without a clause stands for its whole contract. The row of
the calls that have a condition for the caller has to name each call of a door that has one. The
tables have to name each law, which is a public function of a file laws.rt, and the root of its crate
has to pass it on. The calls of the table of wrong bodies have to exist.

Prints a line for each clause, and the counts. The exit status is 0, or 1 if a call or a clause
doesn't exist, or a clause, a condition or a law isn't named, or a law isn't passed on.
"""
import re
import sys
from collections import defaultdict
from collections.abc import Iterator
from dataclasses import dataclass, field
from pathlib import Path
from typing import NamedTuple, Optional

sys.path.insert(0, str(Path(__file__).resolve().parents[1] / "tests"))

from program import ROOT, Report, parser_of

OWNER = re.compile(r"(?:impl|pub trait|trait)\b(?:<.*?>)? (?:.* for )?(\w+)")
FUNCTION = re.compile(r"\s*(?:pub(?:\(\w+\))? )?(?:safe )?fn (\w+)")
CLAUSE = re.compile(r"\s*(ensures|requires)\s+(\w*)")
OTHERS = {"TooLong", "url"}  # that the table of wrong bodies names
DERIVED = ("cmp",)  # calls that a derive makes, which have no text in the sources

DOORS = ("warc_core", "cdxj_core", "capture_core", "index_core", "query_core", "scan_core")
PASSED_ON = re.compile(r"^pub use (\w+)::([^;]*);", re.MULTILINE)
CONDITIONS = "these have a condition for the caller"

LAW = re.compile(r"^pub fn (\w+)", re.MULTILINE)

UNNAMED = {"ensures", "requires"}  # clauses of contracts that have one

Owner = Optional[str]


class Call(NamedTuple):
    """A call. Its owner is a type, a trait or none."""

    crate: str
    owner: Owner
    name: str


@dataclass
class Contract:
    """The names of the clauses of a call, whether it is public, and whether it has a condition for the caller."""

    clauses: set[str] = field(default_factory=set)
    is_public: bool = False
    has_condition: bool = False


Contracts = dict[Call, Contract]


def contracts() -> Contracts:
    """Returns the contract of each call."""
    found: Contracts = defaultdict(Contract)
    for source in sorted(ROOT.glob("crates/*/src/**/*.rt")):
        crate = source.relative_to(ROOT / "crates").parts[0]
        owner, contract = None, Contract()
        for line in source.read_text().splitlines():
            if line.startswith("}"):
                owner = None
            elif of := OWNER.match(line):
                owner = of[1]
            elif function := FUNCTION.match(line):
                contract = found[Call(crate, owner, function[1])]
                contract.is_public |= line.lstrip().startswith("pub fn ")
            elif clause := CLAUSE.match(line):
                contract.clauses.add(clause[2] or clause[1])
                contract.has_condition |= clause[1] == "requires"
    return found


def passed_on() -> set[tuple[str, str]]:
    """Returns what the doors pass on, each with the crate that a door has it from."""
    found = set()
    for door in DOORS:
        for crate, names_of in PASSED_ON.findall((ROOT / f"crates/{door}/src/lib.rt").read_text()):
            found |= {(door if crate == "crate" else crate, name) for name in re.findall(r"\w+", names_of)}
    return found


def calls_of_doors(found: Contracts) -> set[Call]:
    """Returns the public calls that a door passes on."""
    shown = passed_on()
    types = {name for _, name in shown}
    is_shown = {call: call.owner in types if call.owner else (call.crate, call.name) in shown for call in found}
    return {call for call, contract in found.items() if contract.is_public and is_shown[call]}


def check_conditions(report: Report, found: Contracts) -> None:
    """Compares the calls that have a condition with those that a row of the page names."""
    row = next(line for line in (ROOT / "docs/proof/PROVED.md").read_text().splitlines() if CONDITIONS in line)
    named = [pair for cell in row.strip("|").split("|")[1:] for part in cell.split(";")[1:] for pair in calls(part.partition(": ")[0])]
    for call in sorted((call for call in calls_of_doors(found) if found[call].has_condition), key=str):
        title = f"{call.crate}: {'::'.join(filter(None, (call.owner, call.name)))} has a condition"
        if any(is_meant(call, owner, name) for owner, name in named):
            report.add_ok(title)
        else:
            report.add_difference(title, "the page doesn't name it")


def check_laws(report: Report, named: set[Call]) -> None:
    """Looks for laws that aren't named, or that nobody outside of their crate can call."""
    for path in sorted(ROOT.glob("crates/*/src/laws.rt")):
        root = path.with_name("lib.rt").read_text()
        shown = {name for _, names_of in PASSED_ON.findall(root) for name in re.findall(r"\w+", names_of)}
        for law in LAW.findall(path.read_text()):
            title = f"{path.relative_to(ROOT)}: {law}"
            if not any(call.name == law for call in named):
                report.add_difference(title, "the page doesn't name it")
            elif law not in shown and "pub mod laws;" not in root:
                report.add_difference(title, "lib.rt doesn't pass it on")
            else:
                report.add_ok(title)


def check_bodies(report: Report, found: Contracts) -> None:
    """Looks up the calls of the table of wrong bodies."""
    known = {part for call in found for part in call} | OTHERS
    for body in (cells[0] for first, cells in rows() if first[0] == "Body"):
        for name in names(body):
            if set(re.findall(r"\w+", name)) <= known:
                report.add_ok(f"a wrong body: {name}")
            else:
                report.add_difference(f"a wrong body: {name}", "no such call")


def names(cell: str) -> list[str]:
    return re.findall(r"`([^`]+)`", cell)


def calls(cell: str) -> Iterator[tuple[Owner, str]]:
    """Yields the calls of a row, each with its owner; a name without one has that of the name before it."""
    calls_of, _, of = cell.partition(" of a ")
    owner = names(of)[0] if of else None
    for name in names(calls_of):
        owner, name = name.split("::") if "::" in name else (owner, name)
        yield owner, name


def rows() -> Iterator[tuple[list[str], list[str]]]:
    """Yields the cells of each row of the page's tables, behind those of its table's first row."""
    first: list[str] = []
    for line in (ROOT / "docs/proof/PROVED.md").read_text().splitlines():
        cells = [cell.strip() for cell in line.strip("|").split("|")]
        if not line.startswith("|"):
            first = []
        elif first:
            yield first, cells
        else:
            first = cells


def promises() -> Iterator[str]:
    """Yields the clauses' cell of each row of the tables of promises."""
    return (cells[-1] for first, cells in rows() if first[-1] == "Clauses" and "`" in cells[-1])


def claims() -> Iterator[tuple[list[tuple[Owner, str]], list[str]]]:
    """Yields calls, and clauses of which each is in the contract of one of them."""
    for cell in promises():
        for part in cell.split(";"):
            calls_of, _, clauses = part.partition(": ")
            yield list(calls(calls_of.partition(" in `")[0])), [name for name in names(clauses) if name.isidentifier()]


def is_meant(call: Call, owner: Owner, name: str) -> bool:
    return call.name == name and (owner is None or call.owner in (owner, None))


def calls_meant(found: Contracts, owner: Owner, name: str) -> list[Call]:
    """Returns the calls that a name means: its owner's, or those without an owner if it has none."""
    meant = [call for call in found if is_meant(call, owner, name)]
    return [call for call in meant if call.owner == owner] or meant


def calls_named(found: Contracts) -> set[Call]:
    """Returns the calls that the tables name."""
    return {call for calls_of, _ in claims() for owner, name in calls_of for call in calls_meant(found, owner, name)}


def check_claims(report: Report, found: Contracts) -> dict[Call, set[str]]:
    """Looks up each clause that is named. Returns those that are named of each call."""
    owners = {call.owner for call in found}
    named: dict[Call, set[str]] = defaultdict(set)
    for calls_of, clauses in claims():
        title = ", ".join(f"{owner}::{name}" if owner else name for owner, name in calls_of)
        here: set[str] = set()
        for owner, name in calls_of:
            meant = calls_meant(found, owner, name)
            if not meant and name not in owners and name not in DERIVED:
                report.add_difference(title, f"no call {name}")
            for call in meant:
                named[call] |= found[call].clauses.intersection(clauses)
                here |= found[call].clauses
        for clause in clauses:
            if clause in here:
                report.add_ok(f"{title}: {clause}")
            else:
                report.add_difference(title, f"no clause {clause}")
    return named


def check_whole(report: Report, found: Contracts, named: dict[Call, set[str]]) -> None:
    """Looks for clauses that aren't named, of calls of which another clause is. Of several calls with one name, one is meant."""
    unnamed = {call: found[call].clauses - clauses - UNNAMED for call, clauses in named.items() if clauses - UNNAMED}
    whole = {(call.owner, call.name) for call, clauses in unnamed.items() if not clauses}
    for call, clauses in sorted(unnamed.items(), key=str):
        for clause in sorted(clauses):
            if (call.owner, call.name) not in whole:
                report.add_difference("::".join(filter(None, call)), f"the clause {clause} isn't named")


def main() -> int:
    parser_of(__doc__).parse_args()
    found, report = contracts(), Report()
    check_whole(report, found, check_claims(report, found))
    check_conditions(report, found)
    check_laws(report, calls_named(found))
    check_bodies(report, found)
    return report.end()


if __name__ == "__main__":
    sys.exit(main())
