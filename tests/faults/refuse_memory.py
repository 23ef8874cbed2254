#!/usr/bin/env python3
"""Runs commands of warcdx, or the tests of its crates, with the first allocation refused, then the second, until a run has none to refuse.

usage: refuse_memory.py [PROGRAM]
       refuse_memory.py --tests [CRATE..]

Each run of a command has to end as without a refusal, or with exit status 3 and a line that says `Memory`. What it wrote then is a prefix of what
it writes otherwise.

With --tests each test of these crates is run; the default is each crate in crates.txt that has tests. A run has to pass, or to end with an error that
says `Memory`. So a test passes a refused allocation on and never asserts against it: it returns Result<(), Fail>, uses `?` on what can return Memory
(or AllocError), and compares other results. A helper that makes a call turns its Memory into an error first:

    let answer = listed(rt.alloc(), input)?; // Err(Memory) if the call returned Memory
    assert_eq!(rt; answer, want);

If the growth of a Gather is refused, the Gather fails as an output does. There the helper turns Write into the same error.

After a thousand allocations, those that follow are refused in steps of a hundredth of their number. Prints a line for each command or test, with the
number of allocations, and the counts. The exit status is 0, or 1 if a run ends in another way. Needs a C compiler: $CC, cc, or that of the Rattle kit.
With --tests it needs the kit's rt, which proves and builds the tests.
"""
import os
import pathlib
import re
import subprocess
import sys
import tempfile
from collections.abc import Callable, Sequence
from typing import Optional

sys.path.insert(0, str(pathlib.Path(__file__).resolve().parents[1]))

from preloaded_runs import CASES, Ended, Runs, make_library
from program import ROOT, Report, add_program, find_program, parser_of, stop_without

REFUSED = b"refused this allocation\n"
ON_ERROR = re.compile(rb"warcdx: (.*: fault [0-9]+ )?Memory\n")
ON_OUTPUT = re.compile(rb"fault [0-9]+ Memory\n\Z")  # of list and verify
ENDS_TEST = re.compile(rb"[Ee]rror: .*(Memory|AllocError|AllocFailed)")
FAILED_TEST = 101  # the exit status of a test that fails


def may_end(found: Ended, usual: Ended) -> bool:
    """Returns whether a run of a command with a refusal may end so."""
    error = found.error.replace(REFUSED, b"")
    if found._replace(error=error) == usual:
        return True
    says = ON_ERROR.fullmatch(error) or (not error and ON_OUTPUT.search(found.output))
    return found.status == 3 and bool(says) and usual.output.startswith(ON_OUTPUT.sub(b"", found.output))


def may_end_test(found: Ended) -> bool:
    """Returns whether a run of a test with a refusal may end so."""
    return found.status == 0 or (found.status == FAILED_TEST and bool(ENDS_TEST.search(found.output + found.error)))


def refuse_in_turn(run: Callable[[int], Ended], may: Callable[[Ended], bool]) -> tuple[int, Optional[Ended]]:
    """Returns the number of allocations, and the first run that ends as it may not. `run` takes the number of the allocation to refuse."""
    number = 0
    while True:
        number += 1 + (number >= 1000) * number // 100
        found = run(number)
        if REFUSED not in found.output + found.error:
            return number - 1, None if may(found) else found
        if not may(found):
            return number, found


def add_result(report: Report, case: str, result: tuple[int, Optional[Ended]]) -> None:
    number, found = result
    if found is None:
        report.add_ok(f"{case}: {number} allocations")
    else:
        report.add_difference(case, f"allocation {number} is refused, then {found}")


def try_commands(report: Report, program: pathlib.Path) -> None:
    runs = Runs(program, "refuse_memory.c")
    for case in CASES:
        usual = runs.usual(case)
        result = refuse_in_turn(lambda number: runs.preloaded(case, REFUSE=str(number)), lambda found: may_end(found, usual))
        add_result(report, " ".join(case), result)


def crates_with_tests() -> list[str]:
    crates = [line.partition(":")[0].strip() for line in (ROOT / "crates.txt").read_text().splitlines() if ":" in line]
    return [crate for crate in crates if any("#[test]" in source.read_text() for source in (ROOT / "crates" / crate / "src").glob("**/*.rt"))]


def try_tests(report: Report, crates: Sequence[str]) -> None:
    with tempfile.TemporaryDirectory() as folder:
        library = make_library("refuse_memory.c", pathlib.Path(folder))
        for crate in crates:
            tests = build_tests(crate)
            listed = subprocess.run((tests, "--list"), stdout=subprocess.PIPE, check=True, text=True).stdout
            for name in re.findall(r"^(.*): test$", listed, re.MULTILINE):
                result = refuse_in_turn(lambda number: run_test(tests, name, number, library, folder), may_end_test)
                add_result(report, f"{crate} {name}", result)


def build_tests(crate: str) -> pathlib.Path:
    """Proves and builds the tests of a crate, which have to pass."""
    try:
        command = ("rt", "test")
        built = subprocess.run(command, cwd=ROOT / "crates" / crate, stdin=subprocess.DEVNULL, stdout=subprocess.PIPE, stderr=subprocess.STDOUT)
    except FileNotFoundError:
        stop_without("rt", "a command of the Rattle kit")
    if built.returncode:
        sys.exit(f"{built.stdout.decode(errors='replace')}\n{crate}: its tests don't pass without refusals")
    return ROOT / "crates" / crate / "out" / f"{crate}_tests"


def run_test(tests: pathlib.Path, name: str, number: int, library: pathlib.Path, folder: str) -> Ended:
    """Runs a test in a folder where it may write."""
    environment = {**os.environ, "REFUSE": str(number), "LD_PRELOAD": str(library)}
    done = subprocess.run((tests, name), cwd=folder, env=environment, stdout=subprocess.PIPE, stderr=subprocess.PIPE, timeout=60)
    return Ended(done.returncode, done.stdout, done.stderr)


def main() -> int:
    parser = parser_of(__doc__)
    parser.add_argument("--tests", metavar="CRATE", nargs="*", help="run the tests of these crates")
    add_program(parser)
    arguments = parser.parse_args()
    report = Report()
    if arguments.tests is None:
        try_commands(report, find_program(arguments.program))
    else:
        try_tests(report, arguments.tests or crates_with_tests())
    return report.end()


if __name__ == "__main__":
    sys.exit(main())
