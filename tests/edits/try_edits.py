#!/usr/bin/env python3
"""Tries the must-fail edits that rt ci doesn't try: the prover has to refuse each.

usage: try_edits.py [CRATE..]

They are beside this script, in a folder for each crate. Without CRATE all are tried. tools/build.py first proves the crates below these. Then
`rt must-fail` tries the edits on copies of the crate.

An edit has a line `clause: WORDS`. It counts only if the first goal that the prover can't prove is of this clause.

Prints a line for each edit, and the counts. The exit status is 0, or 1 if an edit isn't refused, or at another clause, or names none, or if a crate below
isn't proved. Needs the kit's rt.
"""
import pathlib
import subprocess
import sys

HERE = pathlib.Path(__file__).resolve().parent
TOOLS = HERE.parents[1] / "tools"
sys.path[:0] = [str(HERE.parent), str(TOOLS)]

from build import Crate, direct_dependencies, room_of, with_crates_below
from program import Report, need, parser_of
from refusals import CLAUSE, faults_of


def try_edits(crate: Crate, report: Report) -> None:
    texts = {f"{crate.name}/{path.name}": path.read_text() for path in sorted((HERE / crate.name).glob("*.edit"))}
    with room_of(crate) as room:
        folder = room / "crates" / crate.name / "must-fail"
        folder.mkdir()
        for name, text in texts.items():
            (folder / pathlib.Path(name).name).write_text(CLAUSE.sub("", text))
        done = subprocess.run(("rt", "must-fail", crate.name), cwd=room, stdout=subprocess.PIPE, stderr=subprocess.STDOUT, text=True, errors="replace")
    for name, fault in faults_of(texts, done.stdout).items():
        if fault:
            report.add_difference(name, fault)
        else:
            report.add_ok(name)


def prove_below(crates: list[Crate]) -> bool:
    """Proves the crates below these, and returns whether all are proved."""
    below = sorted(frozenset[str]().union(*(crate.below for crate in crates)))
    return not below or subprocess.run((TOOLS / "build.py", *below)).returncode == 0


def main() -> int:
    parser = parser_of(__doc__)
    parser.add_argument("crates", metavar="CRATE", nargs="*", help="a crate that has a folder here")
    chosen = parser.parse_args().crates
    need("rt:the Rattle kit")
    crates = {crate.name: crate for crate in with_crates_below(direct_dependencies()) if (HERE / crate.name).is_dir()}
    if not set(chosen) <= crates.keys():
        parser.error(f"a CRATE is {', '.join(crates)}")
    tried = [crate for name, crate in crates.items() if not chosen or name in chosen]
    if not prove_below(tried):
        return 1
    report = Report()
    for crate in tried:
        try_edits(crate, report)
    return report.end()


if __name__ == "__main__":
    sys.exit(main())
