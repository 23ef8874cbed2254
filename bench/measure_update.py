#!/usr/bin/env python3
"""Measures warcdx-update and compares the figures with the goals of README.md in this folder.

usage: measure_update.py [--before PACKAGE] [PROGRAM]

Makes archives in a temporary folder (TMPDIR, 1 GB, on a disk) and prints a table. With --before, the folder `python` of an earlier version,
the same is measured of its command. The exit status is 0, or 1 if a goal is missed.
"""
import gzip
import os
import pathlib
import shutil
import subprocess
import sys
import tempfile
import time
from collections.abc import Callable, Sequence
from typing import NamedTuple, Optional

from measure_gz import HTTP_HEAD
from measure_gz import RECORD as RECORD_WITH_DIGEST
from measuring import Figure, report

from program import ROOT, add_program, find_packed_program, find_program, parser_of

COMMAND = ROOT / "python/bin/warcdx-update"
ROUNDS = 5
RECORD = RECORD_WITH_DIGEST.replace(b"WARC-Payload-Digest: sha1:3I42H3S6NNFQ2MSVX7XZKYAYSCX5QBYJ\r\n", b"")
ARCHIVES = 100
CAPTURES = 10_000  # of an archive
ONE_BY_ONE = 64  # archives
SMALL = 150  # archives of one record
BLOCK = 512  # bytes that the system counts as one


class Cost(NamedTuple):
    """Processor time and elapsed time in seconds, and bytes that were written to files."""

    processor: float
    elapsed: float
    written: int


def cost_of(command: Sequence[object], output: int = subprocess.DEVNULL) -> Cost:
    """Runs a command, and returns what it and its programs have taken."""
    start = time.perf_counter()
    work = subprocess.Popen(list(map(str, command)), stdin=subprocess.DEVNULL, stdout=output)
    _, status, usage = os.wait4(work.pid, 0)
    work.returncode = os.waitstatus_to_exitcode(status)
    if status:
        sys.exit(f"{command[0]} has ended with status {work.returncode}")
    return Cost(usage.ru_utime + usage.ru_stime, time.perf_counter() - start, BLOCK * usage.ru_oublock)


class Trial:
    """A folder of archives, and a command that keeps an index of them."""

    def __init__(self, folder: pathlib.Path, program: pathlib.Path, command: pathlib.Path, is_folder: bool) -> None:
        self.archives = folder / "archives"
        self.index = folder / (f"{command.parent.parent.parent.name}.d" if is_folder else f"{command.parent.parent.parent.name}.cdxj")
        self._words = (command, "--quiet", "--program", program)

    def update(self, *words: object) -> Cost:
        return cost_of((*self._words, *words, self.archives, self.index))

    def remove(self) -> None:
        for path in self.index.parent.glob(f"{self.index.name}*"):
            shutil.rmtree(path) if path.is_dir() else path.unlink()


def put_archive(path: pathlib.Path, first: int, records: int, page: int, form: bytes = RECORD_WITH_DIGEST) -> None:
    """Writes an archive with pages of a number of bytes."""
    path.parent.mkdir(parents=True, exist_ok=True)
    with open(path, "wb") as file:
        for number in range(first, first + records):
            file.write(form % (number, HTTP_HEAD + page, b"x" * page))


def one_more(trial: Trial) -> Cost:
    """Returns what the hundred and first archive takes."""
    trial.update()
    put_archive(trial.archives / "more.warc", ARCHIVES * CAPTURES, CAPTURES, 10)
    found = trial.update()
    (trial.archives / "more.warc").unlink()
    trial.remove()
    return found


def one_by_one(trial: Trial) -> Cost:
    """Returns what archives take that are added one at a time."""
    kept = sorted(trial.archives.iterdir())[:ONE_BY_ONE]
    others = trial.archives.rename(trial.archives.with_name("others"))
    trial.archives.mkdir()
    costs = []
    for path in kept:
        os.link(others / path.name, path)
        costs.append(trial.update())
    shutil.rmtree(trial.archives)
    others.rename(trial.archives)
    trial.remove()
    return Cost(*map(sum, zip(*costs)))


def small_ones(trial: Trial) -> Cost:
    found = trial.update()
    trial.remove()
    return found


def jobs(trial: Trial) -> tuple[Cost, Cost]:
    found = []
    for number in (1, 4):
        found.append(trial.update("--jobs", number))
        trial.remove()
    return found[0], found[1]


def least(measure: Callable[[], Cost], rounds: int = ROUNDS) -> Cost:
    return Cost(*map(min, zip(*(measure() for _ in range(rounds)))))


def whole(program: pathlib.Path, folder: pathlib.Path) -> Cost:
    """Returns what a merge of the indexes of all archives and a check of it take."""
    parts, index = folder / "parts", folder / "whole"
    parts.mkdir()
    for path in (folder / "archives").iterdir():
        with open(parts / path.name, "wb") as part:
            subprocess.run((program, "index", path), stdout=part, check=True)

    def measure() -> Cost:
        with open(index, "wb") as file:
            merged = cost_of((program, "merge", *parts.iterdir()), file.fileno())
        checked = cost_of((program, "check", index))
        return Cost(*map(sum, zip(merged, checked)))

    found = least(measure, 3)
    shutil.rmtree(parts)
    index.unlink()
    return found


def main() -> int:
    parser = parser_of(__doc__)
    parser.add_argument("--before", type=pathlib.Path, metavar="PACKAGE", help="the folder python of an earlier version")
    add_program(parser)
    given = parser.parse_args()
    program = find_program(given.program)
    packed = find_packed_program(program)
    times: dict[str, float] = {}
    figures: list[Figure] = []
    commands = {"": COMMAND, **({"before: ": (given.before / "bin/warcdx-update").resolve()} if given.before else {})}
    with tempfile.TemporaryDirectory() as name:
        folder = pathlib.Path(name)
        os.environ.pop("PYTHONDONTWRITEBYTECODE", None)
        os.environ["PYTHONPYCACHEPREFIX"] = str(folder / "byte_code")  # so that what has run before is compiled, as it is for users
        trials = {title: Trial(folder, program, command, is_folder=not title) for title, command in commands.items()}
        archives = folder / "archives"

        for number in range(ARCHIVES):
            put_archive(archives / f"{number:03}.warc", number * CAPTURES, CAPTURES, 10)
        compared = whole(program, folder)
        times["merge and check of a hundred indexes"] = compared.processor
        found = {title: least(lambda trial=trial: one_more(trial), 3) for title, trial in trials.items()}
        add("one more archive", found, compared, times, figures, 0.1, 0.2)
        found = {title: one_by_one(trial) for title, trial in trials.items()}
        sizes = ONE_BY_ONE * (ONE_BY_ONE + 1) / 2 * compared.written / ARCHIVES
        add("64 archives one by one", found, Cost(0, 0, int(sizes)), times, figures, 0.1, None)
        shutil.rmtree(archives)

        archives.mkdir()
        for number in range(SMALL):
            put_archive(folder / "one.warc", number, 1, 2000)
            (archives / f"{number:03}.warc.gz").write_bytes(gzip.compress((folder / "one.warc").read_bytes(), mtime=0))
        compared = least(lambda: cost_of((packed, "index", *archives.iterdir())))
        nothing = least(lambda: cost_of((COMMAND, "--version")))
        times["warcdx-gz index of 150 small archives"], times["the start of Python"] = compared.processor, nothing.processor
        found = {title: least(lambda trial=trial: small_ones(trial)) for title, trial in trials.items()}
        for title, cost in found.items():
            times[f"{title}150 small archives"] = cost.processor
            figures.append(Figure(f"{title}150 small, over index of all", cost.processor / compared.processor, None if title else 2, ""))
            more = (cost.processor - nothing.processor) / compared.processor
            figures.append(Figure(f"{title}150 small, beyond Python's start", more, None if title else 8, ""))
        shutil.rmtree(archives)

        for kind, records, page, form, goal in (
            ("pages of 20 kB without digests", 4000, 20_000, RECORD, 0.4),
            ("pages of 2 kB with digests", 20_000, 2000, RECORD_WITH_DIGEST, 0.7),
        ):
            put_archive(archives / "0.warc", 0, records, page, form)
            for number in range(1, 8):
                shutil.copy(archives / "0.warc", archives / f"{number}.warc")
            rounds = [jobs(trials[""]) for _ in range(ROUNDS)]
            alone, together = (min(cost.elapsed for cost in each) for each in zip(*rounds))
            times[f"one at a time, {kind}"], times[f"four at a time, {kind}"] = alone, together
            figures.append(Figure(f"four over one, {kind}", together / alone, goal))
            shutil.rmtree(archives)
    return report(times, figures, ROUNDS, "processor and elapsed")


def add(
    what: str,
    found: dict[str, Cost],
    whole: Cost,
    times: dict[str, float],
    figures: list[Figure],
    written: float,
    processor: Optional[float],
) -> None:
    """Adds the figures of a command, over what the index of all takes, and over what the earlier command has taken."""
    for title, cost in found.items():
        times[f"{title}{what}"] = cost.processor
        figures.append(Figure(f"{title}{what}, bytes over a whole one", cost.written / whole.written, None if title else written))
        if processor is not None:
            figures.append(Figure(f"{title}{what}, time over a whole one", cost.processor / whole.processor, None))
        if title:
            figures.append(Figure(f"{what}, bytes over before", found[""].written / cost.written, written))
            figures.append(Figure(f"{what}, time over before", found[""].processor / cost.processor, processor))


if __name__ == "__main__":
    sys.exit(main())
