#!/usr/bin/env python3
"""Checks that the pages of the proofs no longer fit if what they speak of changes.

usage: proof_pages.py [PROGRAM]

A copy of the crates, the pages and their tools is changed in one place. Then the tool of the page has to report a difference there.
PROGRAM is compared with docs/proof/TRUST.md.

Prints a line for each change, and the counts. The exit status is 0, or 1 if a tool doesn't report one. Needs nm (Debian's package
binutils).
"""
import shutil
import subprocess
import sys
import tempfile
from pathlib import Path
from typing import NamedTuple

sys.path.insert(0, str(Path(__file__).resolve().parents[1]))

from program import ROOT, Report, add_program, find_packed_program, find_program, in_one_folder, need, parser_of

COPIED = ("crates", "crates.txt", "docs", "tools", "tests/program.py", "tests/edits")
NOT_COPIED = shutil.ignore_patterns("out", "__pycache__", "pictures")


class Change(NamedTuple):
    """A text of a file that is replaced, and the case that a tool reports then."""

    what: str
    file: str
    old: str
    new: str
    tool: str
    case: str


PAGES, PROVED, TRUST = "write_pages.py", "check_proved.py", "check_trust.py"
CHANGES = (
    Change("a definition says less", "crates/scan_core/specs/Laws.antt", "MayRise count = count < 2 ^ 64 - 1", "MayRise count = count < 0", PAGES, "docs/proof/STATEMENT.md: laws"),
    Change("a definition behind proofs/ does", "crates/cdxj_places/proofs/PairLemmas.antt", "pub pair_cmp_total : IsTotalOrder pair_cmp", "pub pair_cmp_total : ⊤", PAGES, "docs/proof/CONTRACTS.md: contracts"),
    Change("a file says no bytes", "crates/devices/src/file.rt", "λ f. left_of (F.stream (file_of f))", "λ _. None", PAGES, "docs/proof/CONTRACTS.md: contracts"),
    Change("a reader says no bytes", "crates/devices/src/standard.rt", "λ f. R.remaining (reader_of f)", "λ _. None", PAGES, "docs/proof/CONTRACTS.md: contracts"),
    Change("a writer says no bytes", "crates/devices/src/standard.rt", "λ f. W.contents (writer_of f)", "λ _. None", PAGES, "docs/proof/CONTRACTS.md: contracts"),
    Change("system.rt changes", "crates/tasks/src/system.rt", "65_536", "65_537", PAGES, "docs/proof/TRUST.md: file tasks/system"),
    Change("a clause has another name", "crates/scan_core/src/scanning.rt", "ensures unwritten {", "ensures untouched {", PROVED, "scan"),
    Change("a law has another name", "crates/scan_core/src/laws.rt", "fn scan_writes_one_text", "fn scans_write_one_text", PROVED, "scan_writes_one_text"),
    Change("a law isn't named", "crates/scan_core/src/laws.rt", "pub fn scan_writes_one_text", "pub fn more()\n    ensures { ⊤ }\n{}\npub fn scan_writes_one_text", PROVED, "crates/scan_core/src/laws.rt: more"),
    Change("there is more unsafe code", "crates/cdxj_keys/src/key.rt", "    let mut key = unsafe {", "    unsafe {}\n    let mut key = unsafe {", TRUST, "the places of unsafe"),
    Change("a function isn't imported", "docs/proof/TRUST.md", "| `read`, `pread` |", "| `read`, `pread`, `fsync` |", TRUST, "warcdx has fsync"),
    Change("an import isn't named", "docs/proof/TRUST.md", "`memcpy`, ", "", TRUST, "warcdx: imports that the page doesn't name"),
)


def copy_to(folder: Path) -> None:
    for name in COPIED:
        (folder / name).parent.mkdir(exist_ok=True)
        if (ROOT / name).is_dir():
            shutil.copytree(ROOT / name, folder / name, ignore=NOT_COPIED)
        else:
            shutil.copy2(ROOT / name, folder / name)


def differences(folder: Path, tool: str, program: Path) -> list[str]:
    """Returns what a tool has reported of the cases that differ."""
    words = {PAGES: ("--check",), PROVED: (), TRUST: (str(program),)}[tool]
    done = subprocess.run((folder / "tools" / tool, *words), stdout=subprocess.PIPE, stderr=subprocess.STDOUT, text=True)
    return [line.removeprefix("DIFFERS  ") for line in done.stdout.splitlines() if not line.startswith("ok ")]


def check_change(report: Report, folder: Path, change: Change, program: Path) -> None:
    path = folder / change.file
    text = path.read_text()
    if text.count(change.old) != 1:
        report.add_difference(change.what, f"{change.file} doesn't have this once: {change.old}")
        return
    path.write_text(text.replace(change.old, change.new))
    found = differences(folder, change.tool, program)
    path.write_text(text)
    if any(line.startswith(change.case + ":") for line in found):
        report.add_ok(change.what)
    else:
        report.add_difference(change.what, f"{change.tool} doesn't report {change.case}, but {found}")


def main() -> int:
    parser = parser_of(__doc__)
    add_program(parser)
    program = find_program(parser.parse_args().program)
    need("nm:binutils")
    report, both = Report(), in_one_folder(program, find_packed_program(program))
    with tempfile.TemporaryDirectory() as name:
        folder = Path(name)
        copy_to(folder)
        for change in CHANGES:
            check_change(report, folder, change, both)
    return report.end()


if __name__ == "__main__":
    sys.exit(main())
