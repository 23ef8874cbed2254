"""Runs the cases of a fuzzer in several jobs, and prints what was tried and what differs."""
import argparse
import collections
import concurrent.futures
import itertools
import os
import pathlib
import random
import shutil
import tempfile
import time
import traceback
from collections.abc import Callable, Iterable
from typing import NamedTuple

from program import BUILT, add_program, find_program, parser_of
from trial import Trial

SHOWN = 4000  # characters that are printed of a difference


class Difference(NamedTuple):
    number: int
    folder: pathlib.Path  # has the case's files, if it is the first of its job
    wrong: str


class JobEnd(NamedTuple):
    tally: collections.Counter[str]
    differences: list[Difference]


def read_arguments(header: str, cases: int) -> argparse.Namespace:
    parser = parser_of(header)
    parser.add_argument("--cases", type=int, metavar="N", help=f"how many cases; the default is {cases}, unless --seconds is given")
    parser.add_argument("--seconds", type=float, metavar="N", help="for how long, if no number of cases is given")
    parser.add_argument("--case", type=int, metavar="NUMBER", help="this case alone")
    parser.add_argument("--seed", default="1", metavar="N", help="the cases are made from this number (default: 1)")
    parser.add_argument("--jobs", type=int, default=os.cpu_count(), metavar="N", help="processes at a time (default: one for each processor)")
    add_program(parser)
    arguments = parser.parse_args()
    if arguments.cases is None and arguments.seconds is None:
        arguments.cases = cases
    if arguments.case is not None:
        arguments.jobs = 1
    return arguments


def numbers_of(arguments: argparse.Namespace, job: int) -> Iterable[int]:
    if arguments.case is not None:
        return [arguments.case]
    if arguments.cases is not None:
        return range(job, arguments.cases, arguments.jobs)
    return itertools.count(job, arguments.jobs)


def work(arguments: argparse.Namespace, try_case: Callable[[Trial, int], None], kind: type[Trial], job: int) -> JobEnd:
    """Tries the cases of a job until the time is over. The files of the first that differs stay in their folder."""
    tally: collections.Counter[str] = collections.Counter()
    differences: list[Difference] = []
    end = time.monotonic() + arguments.seconds if arguments.seconds else None
    folder = pathlib.Path(tempfile.mkdtemp(prefix="fuzz-"))
    for number in numbers_of(arguments, job):
        if end and time.monotonic() > end:
            break
        try:
            try_case(kind(arguments.program, folder, random.Random(f"{arguments.seed} {number}"), tally), number)
        except Exception as wrong:  # also what the readers don't expect
            differences.append(Difference(number, folder, f"{wrong!s:.{SHOWN}}\n{traceback.format_exc(limit=-3):.{SHOWN}}"))
            folder = pathlib.Path(tempfile.mkdtemp(prefix="fuzz-")) if len(differences) == 1 else folder
        tally["cases"] += 1
        for path in folder.rglob("*"):
            if not path.is_dir():
                path.unlink()
    shutil.rmtree(folder)
    return JobEnd(tally, differences)


def run_cases(
    header: str, cases: int, try_case: Callable[[Trial, int], None], kind: type[Trial] = Trial, built: pathlib.Path = BUILT
) -> int:
    """Reads the arguments of the script, tries the cases as trials of this kind, and prints the tally. Returns the exit status."""
    arguments = read_arguments(header, cases)
    arguments.program = str(find_program(arguments.program, built))
    start = time.monotonic()
    with concurrent.futures.ProcessPoolExecutor(arguments.jobs) as pool:
        jobs = [pool.submit(work, arguments, try_case, kind, job) for job in range(arguments.jobs)]
        ends = [job.result() for job in jobs]
    return report(arguments, ends, time.monotonic() - start)


def report(arguments: argparse.Namespace, ends: Iterable[JobEnd], seconds: float) -> int:
    tally: collections.Counter[str] = collections.Counter()
    differences: list[Difference] = []
    for end in ends:
        tally += end.tally
        differences += end.differences
    tried = tally.pop("cases")
    for name, count in sorted(tally.items()):
        print(f"{count:9} {name}")
    print(f"{seconds:9.0f} seconds")
    differences.sort()
    if differences:
        first = differences[0]
        numbers = ", ".join(str(difference.number) for difference in differences[:20])
        print(f"differs: case {numbers}{' ..' if len(differences) > 20 else ''} of seed {arguments.seed}")
        print(f"case {first.number}, whose files are in {first.folder}: {first.wrong}")
    print(f"{tried} cases, {len(differences)} differ")
    return int(bool(differences))
