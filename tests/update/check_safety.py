#!/usr/bin/python3
"""Checks that warcdx-update touches nothing that it hasn't made, and that nothing leaves its index unasked or is passed over in silence.

usage: check_safety.py [--seed N] [PROGRAM]

It runs beside other people's files, over archives that are gone or can't be listed, with other folders and options than at first, and is
killed at random moments, which follow from N. Its memory is measured over an index of 1,000,000 hosts.

Prints a line for each case, and the counts. The exit status is 0, or 1 if a case differs. Some cases need root; without it they are left
out.
"""
import functools
import pathlib
import sys
import tempfile

import changing_states
import killed_runs
import large_states
import leaving_runs
import neighbours
import replaced_results
import reported_faults
from update_trial import Differs

from program import Report, add_program, find_program, parser_of  # isort: skip


def main() -> int:
    parser, report = parser_of(__doc__), Report()
    parser.add_argument("--seed", type=int, default=1, metavar="N", help="default: 1")
    add_program(parser)
    given = parser.parse_args()
    program = find_program(given.program)
    for module in (neighbours, replaced_results, leaving_runs, reported_faults, killed_runs, changing_states, large_states):
        for case in module.CASES:
            title = case.__name__.replace("_", " ")
            if case in (killed_runs.runs_that_are_killed_lose_nothing, changing_states.answers_are_those_of_a_state_that_was):
                case = functools.partial(case, seed=given.seed)
            with tempfile.TemporaryDirectory() as name:
                try:
                    case(program, pathlib.Path(name))
                    report.add_ok(title)
                except Differs as difference:
                    report.add_difference(title, difference)
    return report.end()


if __name__ == "__main__":
    sys.exit(main())
