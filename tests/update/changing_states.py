#!/usr/bin/python3
"""Runs warcdx-update in random sequences of changes, with kills, while others read the index.

usage: changing_states.py [--sequences N] [--seed N] [PROGRAM]

A sequence adds, replaces and removes archives, kills runs of the command at random moments, and makes one run of all. After each run that
isn't killed, the runs merged are byte for byte the index of all archives. Two readers take what is there all the time, one by the manifest
and one by the pattern of a shell. Each answer of theirs is that of a state that was, or they see that they have none.

Prints a line for each sequence that differs, and the counts. The exit status is 0, or 1 if one differs.
"""
import glob
import pathlib
import random
import signal
import subprocess
import sys
import tempfile
import threading
from collections.abc import Callable

from killed_runs import wait_for
from update_trial import FAST, WAIT, Differs, Trial, copy_sample, expect, kill_group, sample

from program import ROOT, Report, add_program, find_program, parser_of  # isort: skip

sys.path.insert(0, str(ROOT / "python"))

from warcdx import faults
from warcdx.states import runs_of

STEPS = (4, 9)
LONGEST = 0.6  # seconds until a run is killed


class Reader(threading.Thread):
    """Merges the runs that `find` returns, again and again, and keeps the answers."""

    def __init__(self, program: pathlib.Path, find: Callable[[], list[str]]) -> None:
        super().__init__(daemon=True)
        self.answers: set[bytes] = set()
        self.failed = 0
        self.is_ended = False
        self._program = program
        self._find = find

    def run(self) -> None:
        while not self.is_ended:
            try:
                files = self._find()
            except faults.CannotOpen:
                continue
            done = subprocess.run((self._program, "merge", *files), stdout=subprocess.PIPE, stderr=subprocess.DEVNULL)
            if done.returncode:
                self.failed += 1
            else:
                self.answers.add(done.stdout)

    def end(self) -> None:
        self.is_ended = True
        self.join(WAIT)


def a_sequence(program: pathlib.Path, folder: pathlib.Path, seed: int) -> tuple[int, int]:
    """Returns how many answers the readers had, and how often they saw that they had none."""
    choose = random.Random(seed)
    trial = Trial(program, folder, FAST)
    for path in sorted(trial.archives.iterdir())[choose.randint(1, 12) :]:
        path.unlink()
    is_single = choose.random() < 0.3
    if not is_single:
        trial.index = trial.store
    words = ("--remove", "all", "--jobs", str(choose.randint(1, 3)), "--ratio", str(choose.randint(2, 8)))
    states = {trial.index_of("*.warc")}
    expect("status of the first run", trial.run(*words) in (0, 1), True)
    pattern = str(trial.store / "current/*.cdxj")
    readers = [Reader(program, lambda: runs_of(trial.store)), Reader(program, lambda: sorted(glob.glob(pattern)))]
    for reader in readers:
        reader.start()
    try:
        for number in range(choose.randint(*STEPS)):
            change(trial, choose, number)
            wanted = trial.index_of("*.warc")
            states.add(wanted)
            more = ("--compact",) * (choose.random() < 0.2)
            if choose.random() < 0.4:
                work = trial.start(*words, *more, start_new_session=True)
                wait_for(work, choose.uniform(0, LONGEST))
                kill_group(work, signal.SIGKILL) if choose.random() < 0.5 else work.kill()
                work.wait(WAIT)
            if choose.random() < 0.8:
                expect(f"status of run {number}", trial.run(*words, *more) in (0, 1), True)
                expect(f"runs after run {number}", merged_runs(program, trial) == wanted, True)
                if is_single:
                    expect(f"file after run {number}", trial.index.read_bytes() == wanted, True)
    finally:
        for reader in readers:
            reader.end()
    expect("answers that no state had", len(set().union(*(reader.answers for reader in readers)) - states), 0)
    expect("status of the last run", trial.run(*words) in (0, 1), True)
    expect("runs at the end", merged_runs(program, trial) == trial.index_of("*.warc"), True)
    return sum(len(reader.answers) for reader in readers), sum(reader.failed for reader in readers)


def merged_runs(program: pathlib.Path, trial: Trial) -> bytes:
    return subprocess.run((program, "merge", *runs_of(trial.store)), stdout=subprocess.PIPE, check=True).stdout


def change(trial: Trial, choose: random.Random, number: int) -> None:
    """Adds, replaces and removes some archives."""
    archives = sorted(trial.archives.iterdir())
    for each in range(choose.randint(0, 2)):
        copy_sample(choose.choice(("response", "wget")), trial.archives / f"new-{number}-{each}.warc")
    for path in choose.sample(archives, min(len(archives), choose.randint(0, 2))):
        path.write_bytes(sample("response") * choose.randint(1, 40))
    for path in choose.sample(archives, min(len(archives), choose.randint(0, 2))):
        path.unlink()


def answers_are_those_of_a_state_that_was(program: pathlib.Path, folder: pathlib.Path, sequences: int = 5, seed: int = 1) -> None:
    answers = unseen = 0
    for number in range(sequences):
        with tempfile.TemporaryDirectory(dir=folder) as name:
            try:
                found = a_sequence(program, pathlib.Path(name), seed + number)
            except Differs as difference:
                raise Differs(f"sequence {seed + number}: {difference}") from None
            answers, unseen = answers + found[0], unseen + found[1]
    expect("a reader with answers", answers > sequences, True)
    print(f"readers  {answers:,} answers of states, and {unseen:,} times runs that were gone, in {sequences:,} sequences")


CASES = (answers_are_those_of_a_state_that_was,)


def main() -> int:
    parser, report = parser_of(__doc__), Report()
    parser.add_argument("--sequences", type=int, default=300, metavar="N", help="default: 300")
    parser.add_argument("--seed", type=int, default=1, metavar="N", help="default: 1")
    add_program(parser)
    given = parser.parse_args()
    program = find_program(given.program)
    with tempfile.TemporaryDirectory() as name:
        try:
            answers_are_those_of_a_state_that_was(program, pathlib.Path(name), given.sequences, given.seed)
            report.add_ok("random sequences")
        except Differs as difference:
            report.add_difference("random sequences", difference)
    return report.end()


if __name__ == "__main__":
    sys.exit(main())
