#!/usr/bin/env python3
"""Runs warcdx on small fixed cases, each of which a plausible wrong program fails.

usage: known_faults.py [PROGRAM]

Each folder in cases/ is a case, and is named for what it shows. Its file `arguments` has the
arguments of a run, one on each line. The run has to write the file `output` to standard output, and
to end with the exit status in the file `status`, or 0 without one. All of these were written by
hand. The other files are the archives and indexes that the arguments name. The program runs in the
folder of the case.

Prints a line for each case, and the counts. The exit status is 0, or 1 if a case differs.
"""
import pathlib
import subprocess
import sys

sys.path.insert(0, str(pathlib.Path(__file__).resolve().parents[1]))

from program import Report, add_program, find_program, parser_of

CASES = pathlib.Path(__file__).resolve().parent / "cases"


def check_case(report: Report, program: pathlib.Path, case: pathlib.Path) -> None:
    arguments = (case / "arguments").read_text().splitlines()
    status = int((case / "status").read_text()) if (case / "status").exists() else 0
    output = (case / "output").read_bytes()
    command = (program, *arguments)
    done = subprocess.run(command, cwd=case, stdin=subprocess.DEVNULL, stdout=subprocess.PIPE, stderr=subprocess.PIPE)
    if (done.returncode, done.stdout) == (status, output):
        report.add_ok(case.name)
    else:
        found = f"found {done.returncode} {done.stdout!r} {done.stderr!r}"
        report.add_difference(case.name, f"wanted {status} {output!r}, {found}")


def main() -> int:
    parser, report = parser_of(__doc__), Report()
    add_program(parser)
    program = find_program(parser.parse_args().program)
    for case in sorted(CASES.iterdir()):
        check_case(report, program, case)
    return report.end()


if __name__ == "__main__":
    sys.exit(main())
