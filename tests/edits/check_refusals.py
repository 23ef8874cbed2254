#!/usr/bin/env python3
"""Checks that tests/run compares the clauses of edits with what the prover says, with a script in the place of rt.

usage: check_refusals.py

A checkout has an edit for each case, and the script prints what rt would say of it. The gate has to fail, and to name the edits that weren't refused at their
clause. Then it has to pass with the other edits alone.

Prints a line for each case, and the counts. The exit status is 0, or 1 if one differs.
"""
import os
import pathlib
import shutil
import subprocess
import sys
import tempfile
from typing import NamedTuple

sys.path.insert(0, str(pathlib.Path(__file__).resolve().parents[1]))

from program import ROOT, Report, parser_of

RT = '#!/bin/sh\ncat "$OUTPUT"\n'
GATE = "clauses of edits"
NOTE = "note: src/a.rt:7:1: it is not proved that what the function ensures holds when it returns"
ANSWER = "./proofs/a/f/Answers.antt:3:5: error:"
REFUSED = "refused, as it must be"


class Case(NamedTuple):
    """An edit's line `clause: `, what rt says of it, and whether it counts as refused."""

    name: str
    clause: str
    said: str
    counts: bool


CASES = (
    Case("the_goal_of_a_return", "clause: returns", f"{REFUSED}: {NOTE} (`returns-in-Ok`); `search` gave up", True),
    Case("the_goal_of_a_named_clause", "clause: clause-text", f"{REFUSED}: {NOTE} (`returns-in-Ok-clause-text`); `search` gave up", True),
    Case("a_goal_that_is_cut", "clause: clause-text", f"{REFUSED}: {NOTE} (`returns-in-Ok-clause-text-2", True),
    Case("a_proof_by_hand", "clause: returns-in-Ok-clause-text", f"{REFUSED}: {ANSWER} `returns-in-Ok-clause-text`: the sides differ", True),
    Case("no_clause", "", f"{REFUSED}: {NOTE} (`returns`); `search` gave up", False),
    Case("an_empty_clause", "clause: ", f"{REFUSED}: {NOTE} (`returns`); `search` gave up", False),
    Case("another_clause", "clause: clause-text", f"{REFUSED}: {NOTE} (`returns-clause-failures`); `search` gave up", False),
    Case("a_clause_of_another_name", "clause: clause-text", f"{REFUSED}: {NOTE} (`returns-clause-texts`); `search` gave up", False),
    Case("a_clause_that_is_not_named", "clause: returns", f"{REFUSED}: {NOTE} (`returns-clause-text`); `search` gave up", False),
    Case("a_word_of_the_message", "clause: function", f"{REFUSED}: {NOTE} (`returns-clause-text`); `search` gave up", False),
    Case("no_goal", "clause: returns", REFUSED, False),
    Case("a_name_that_is_lost", "clause: returns", f"{REFUSED} (only because a proof file names what the edit took away): {ANSWER} `returns`: not in scope", False),
    Case("a_limit", "clause: returns", f"{REFUSED} (only by a limit of the prover): {ANSWER} `returns`: too many steps", False),
    Case("a_proof_that_passes", "clause: returns", "NOT REFUSED: the crate is still proved with this edit", False),
    Case("an_edit_that_is_bad", "clause: returns", "BAD EDIT: an 'old:' text is in src/a.rt 0 times, and not once", False),
    Case("not_tried", "clause: returns", "", False),
)


def make_checkout(folder: pathlib.Path) -> None:
    for name in ("tests/run", "tests/program.py", "tests/refusals.py"):
        (folder / name).parent.mkdir(exist_ok=True)
        shutil.copy(ROOT / name, folder / name)
    rt = folder / "bin/rt"
    rt.parent.mkdir()
    rt.write_text(RT)
    rt.chmod(0o755)


def run_gate(folder: pathlib.Path, cases: list[Case]) -> list[str]:
    """Returns what tests/run prints of the clauses of edits: the line that has a verdict, and the lines below it."""
    edits = folder / "crates/a/must-fail"
    shutil.rmtree(edits, ignore_errors=True)
    edits.mkdir(parents=True)
    lines = [f"rt: must-fail a/{case.name}.edit: {case.said}" for case in cases if case.said]
    for case in cases:
        (edits / f"{case.name}.edit").write_text(f"{case.clause}\nfile: src/a.rt\nold: 1\nnew: 2\n")
    (folder / "output").write_text("\n".join([*lines, "1 passed, 0 failed", ""]))
    environment = {**os.environ, "PATH": f"{folder}/bin:{os.environ['PATH']}", "OUTPUT": str(folder / "output")}
    done = subprocess.run(folder / "tests/run", env=environment, stdout=subprocess.PIPE, stderr=subprocess.STDOUT, text=True)
    return [line for line in done.stdout.splitlines() if GATE in line or line.startswith("         ")]


def main() -> int:
    parser_of(__doc__).parse_args()
    report = Report()
    with tempfile.TemporaryDirectory() as name:
        folder = pathlib.Path(name)
        make_checkout(folder)
        verdict, *faults = run_gate(folder, list(CASES))
        for case in CASES:
            if any(line.startswith(f"         a/{case.name}.edit: ") for line in faults) != case.counts:
                report.add_ok(case.name)
            else:
                report.add_difference(case.name, faults)
        good = [case for case in CASES if case.counts]
        lines = [verdict, *run_gate(folder, good)]
        expected = [f"FAILED   {GATE}: {len(good)} of {len(CASES)} edits are refused at their clause", f"passed   {GATE}: {len(good)} of {len(good)} edits are refused at their clause"]
        if lines == expected:
            report.add_ok("the verdicts")
        else:
            report.add_difference("the verdicts", f"{lines}, not {expected}")
    return report.end()


if __name__ == "__main__":
    sys.exit(main())
