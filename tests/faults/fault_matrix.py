#!/usr/bin/env python3
"""Runs each command that is Python below each fault of its surroundings, and holds all to one rule.

usage: fault_matrix.py [--seed N] [--command TEXT] [--fault TEXT] [PROGRAM]

The rule: nothing is lost in silence, there is no traceback, and nothing is left. So each run ends as if there were no
fault; or with exit status 3, a line on standard error that says why, and a part of the output; or by the signal that
it was sent, without a word. Temporary files and processes are gone after it, and all other files are the same, byte
for byte. After a run of warcdx-update, the index has all captures that it had, and a second run adds the others.

The faults: signals at random moments; a starter that ignores SIGCHLD; standard streams that are closed, full, read no
further or don't wait; a full disk for temporary files, with whole pages and with a part of one, also with
PYTHONUNBUFFERED=1; limits of files, memory and sizes; a locale that isn't UTF-8; no PATH; another program, or another
version of it. A full disk is a small tmpfs, if the script may mount one.

What is random follows from the seed. --command and --fault choose those whose names have a text. Prints a line for
each fault of each command, and the counts. The exit status is 0, or 1 if a case differs.
"""
import concurrent.futures
import contextlib
import os
import pathlib
import random
import signal
import subprocess
import sys
import tempfile
import time
from collections.abc import Callable, Iterator

sys.path.insert(0, str(pathlib.Path(__file__).resolve().parents[1]))

from device_runs import SECONDS, Differs, expect
from matrix_commands import PAGE, Command, Outcome, Trial, commands_of, trial_of
from program import Report, add_program, find_program, parser_of
from script_runs import Disk
from script_signals import is_caught, wait_until

PAGES = 16  # of the disk
PIPE = 1 << 16  # bytes that a pipe holds
UNBUFFERED = ("", "1")
IGNORING = "import os, signal, sys; signal.signal(signal.SIGCHLD, signal.SIG_IGN); os.execv(sys.argv[1], sys.argv[1:])"
OTHER_PROGRAMS = (
    "echo warcdx 0.0.1: of old",
    "echo another 9.9.9",
    "exit 1",
    '[ "$1" = --help ] && echo "warcdx 99.0.0: newer" || exit 3',
    '[ "$1" = --help ] && echo "warcdx 0.1.0: x" || kill -9 $$',
)


class Cell:
    """Runs of a command below one fault. Each gives how it ended, and is judged."""

    def __init__(self, trial: Trial, disk: Disk, locale: pathlib.Path, choice: random.Random) -> None:
        self.trial = trial
        self.disk = disk
        self.locale = locale
        self.choice = choice
        self._seconds = 0.0

    def judge(self, outcome: Outcome, is_harmless: bool = False, front: "tuple[str, ...]" = ()) -> None:
        can_start = not (outcome.ended.status and front) or self._starts(*front)
        self.trial.judge(outcome, is_harmless, can_start)

    def _starts(self, *front: str) -> bool:
        """Returns whether the command gets as far as its help, below a limit that the words in front of it set."""
        return self.trial.ended(*front, words=self.trial.help_words).status == 0

    def seconds(self) -> float:
        """Returns about how long the command works if nothing is wrong."""
        if not self._seconds:
            process = self.trial.start(stdout=subprocess.DEVNULL)
            wait_until(process, lambda: is_caught(process, signal.SIGTERM))
            start = time.monotonic()
            self.trial.end_of(process)
            self._seconds = time.monotonic() - start
            self.trial.prepare()
        return self._seconds


Fault = Callable[[Cell], Iterator[None]]


def signals(cell: Cell) -> Iterator[None]:
    for number in (signal.SIGINT, signal.SIGTERM, signal.SIGHUP) * 2:
        moment = cell.seconds() * cell.choice.random()
        yield
        process = cell.trial.start()
        wait_until(process, lambda: is_caught(process, signal.SIGTERM))
        time.sleep(moment)
        process.send_signal(number)
        cell.judge(Outcome(cell.trial.end_of(process), number))


def ignored_children(cell: Cell) -> Iterator[None]:
    yield
    cell.judge(Outcome(cell.trial.ended(sys.executable, "-c", IGNORING)), is_harmless=True)


def closed_streams(cell: Cell) -> Iterator[None]:
    for closed, is_read, is_said in (("<&-", True, True), (">&-", False, True), ("2>&-", True, False), ("<&- >&- 2>&-", False, False)):
        yield
        cell.judge(Outcome(cell.trial.ended(shell=f'exec "$@" {closed}'), 0, is_read, is_said))


def full_streams(cell: Cell) -> Iterator[None]:
    for unbuffered in UNBUFFERED:
        with open("/dev/full", "wb") as full:
            yield
            ended = cell.trial.ended(stdout=full, environment={"PYTHONUNBUFFERED": unbuffered})
            cell.judge(Outcome(ended, is_read=False))
            yield
            ended = cell.trial.ended(stderr=full, environment={"PYTHONUNBUFFERED": unbuffered})
            cell.judge(Outcome(ended, is_said=False))


def readers_that_leave(cell: Cell) -> Iterator[None]:
    if len(cell.trial.usual().output) <= PIPE:
        return
    yield
    cell.judge(Outcome(cell.trial.read_first_bytes()))


def streams_that_do_not_wait(cell: Cell) -> Iterator[None]:
    yield
    reading_end, writing_end = os.pipe()
    os.set_blocking(writing_end, False)
    process = cell.trial.start(stdout=writing_end)
    os.close(writing_end)
    with open(reading_end, "rb") as pipe:
        time.sleep(0.3)
        output = pipe.read()
    cell.judge(Outcome(cell.trial.end_of(process)._replace(output=output)), is_harmless=True)


def full_disks(cell: Cell) -> Iterator[None]:
    """Whole pages are free, and then a part of one less, as a limit of sizes cuts them."""
    if not cell.disk.is_mounted:
        return
    folder, filler = cell.disk.path / "temporary", cell.disk.path / "filler"
    folder.mkdir(exist_ok=True)
    for unbuffered in UNBUFFERED:
        for free in (0, 1, 8, cell.choice.randrange(2, PAGES)):
            yield
            filler.write_bytes(bytes(PAGE * (PAGES - free)))
            environment = {"TMPDIR": str(folder), "PYTHONUNBUFFERED": unbuffered}
            cell.judge(Outcome(cell.trial.ended(environment=environment)))
            expect(not os.listdir(folder), "temporary files are left on the disk", os.listdir(folder))
            filler.unlink()


def limits_of_sizes(cell: Cell) -> Iterator[None]:
    for unbuffered in UNBUFFERED:
        for size in (0, 4 * PAGE, cell.choice.randrange(10 * PAGE), cell.choice.randrange(100_000), cell.choice.randrange(1_000_000)):
            yield
            front = ("prlimit", f"--fsize={size}")
            ended = cell.trial.ended(*front, environment={"PYTHONUNBUFFERED": unbuffered})
            cell.judge(Outcome(ended), front=front)


def limits_of_files(cell: Cell) -> Iterator[None]:
    for files in sorted(cell.choice.sample(range(3, 24), 6)):
        yield
        front = ("prlimit", f"--nofile={files}")
        cell.judge(Outcome(cell.trial.ended(*front)), front=front)


def limits_of_memory(cell: Cell) -> Iterator[None]:
    for megabytes in sorted(cell.choice.sample(range(14, 120), 6)):
        yield
        front = ("prlimit", f"--as={megabytes << 20}")
        cell.judge(Outcome(cell.trial.ended(*front)), front=front)


def another_locale(cell: Cell) -> Iterator[None]:
    yield
    environment = {"LC_ALL": "latin", "LOCPATH": str(cell.locale), "PYTHONCOERCECLOCALE": "0"}
    cell.judge(Outcome(cell.trial.ended(environment=environment)), is_harmless=True)


def no_path(cell: Cell) -> Iterator[None]:
    yield
    cell.judge(Outcome(cell.trial.ended("/usr/bin/env", "-u", "PATH")), is_harmless=True)
    yield
    program = str(cell.trial.program)
    words = tuple("warcdx-nosuch" if word == program else word for word in cell.trial.script.words)
    cell.judge(Outcome(cell.trial.ended("/usr/bin/env", "-u", "PATH", words=words)))


def another_program(cell: Cell) -> Iterator[None]:
    program = str(cell.trial.program)
    with tempfile.TemporaryDirectory() as folder:
        for number, text in enumerate(OTHER_PROGRAMS):
            other = pathlib.Path(folder) / str(number)
            other.write_text(f"#!/bin/sh\n{text}\n")
            other.chmod(0o755)
            yield
            words = tuple(str(other) if word == program else word for word in cell.trial.script.words)
            cell.judge(Outcome(cell.trial.ended(words=words)))


FAULTS: "tuple[Fault, ...]" = (
    signals, ignored_children, closed_streams, full_streams, readers_that_leave, streams_that_do_not_wait, full_disks,
    limits_of_sizes, limits_of_files, limits_of_memory, another_locale, no_path, another_program,
)  # fmt: skip
OF_SERVERS = (ignored_children, closed_streams, full_streams, full_disks, another_locale, no_path, another_program)


def try_command(
    program: pathlib.Path, command: Command, locale: pathlib.Path, faults: "list[Fault]", seed: int
) -> "list[tuple[str, str]]":
    """Returns each fault of a command, and what differs below it, or nothing."""
    found = []
    with tempfile.TemporaryDirectory() as name, tempfile.TemporaryDirectory() as mounted, Disk(pathlib.Path(mounted)) as disk:
        folder = pathlib.Path(name) / "folder"
        folder.mkdir()
        trial = trial_of(program, command, folder, locale / "cache")
        for fault in faults:
            if command.name == "warcdx-gateway" and fault not in OF_SERVERS:
                continue
            title, runs = f"{command.script.name}: {fault.__name__.replace('_', ' ')}", 0
            cell = Cell(trial, disk, locale, random.Random(f"{seed} {title}"))
            try:
                with contextlib.closing(fault(cell)) as steps:
                    for _ in steps:
                        trial.prepare()
                        runs += 1
                trial.expect_unchanged()
                found.append((f"{title}, {runs} runs" if runs else f"{title}: left out", ""))
            except (Differs, subprocess.TimeoutExpired) as difference:
                found.append((f"{title}, run {runs}", str(difference)))
    return found


def make_locale(folder: pathlib.Path) -> None:
    """Makes a locale whose encoding is Latin-1, if localedef is there. Without it the locale is that of C."""
    command = ("localedef", "--force", "-i", "de_DE", "-f", "ISO-8859-1", folder / "latin")
    with contextlib.suppress(FileNotFoundError):
        subprocess.run(command, stdout=subprocess.DEVNULL, stderr=subprocess.DEVNULL, timeout=SECONDS)


def main() -> int:
    parser, report = parser_of(__doc__), Report()
    parser.add_argument("--seed", type=int, default=1, metavar="N", help="what is random follows from N (default: 1)")
    parser.add_argument("--command", default="", metavar="TEXT", help="only the commands whose names have TEXT")
    parser.add_argument("--fault", default="", metavar="TEXT", help="only the faults whose names have TEXT")
    add_program(parser)
    given = parser.parse_args()
    program = find_program(given.program)
    faults = [fault for fault in FAULTS if given.fault in fault.__name__.replace("_", " ")]
    with tempfile.TemporaryDirectory() as folder, concurrent.futures.ThreadPoolExecutor(len(os.sched_getaffinity(0))) as pool:
        make_locale(pathlib.Path(folder))
        tried = [
            pool.submit(try_command, program, command, pathlib.Path(folder), faults, given.seed)
            for command in commands_of(program)
            if given.command in command.script.name
        ]
        for each in tried:
            for case, difference in each.result():
                if difference:
                    report.add_difference(case, difference)
                else:
                    report.add_ok(case)
    return report.end()


if __name__ == "__main__":
    sys.exit(main())
