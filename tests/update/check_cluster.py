#!/usr/bin/python3
"""Runs warcdx-update on clusters of two Dask workers, and compares its index with what `warcdx index` writes of all archives.

usage: check_cluster.py [PROGRAM]

Prints a line for each case, and the counts. The exit status is 0, or 1 if a case differs. Needs Debian's package python3-distributed, and
Debian's Python, for which it is made.
"""
import contextlib
import importlib.util
import json
import os
import pathlib
import shutil
import signal
import subprocess
import sys
import tempfile
import time
from collections.abc import Iterator

from update_trial import SLOW, WAIT, Differs, Trial, compressed, copy_sample, expect, index_of_folders, sample, until

from program import ROOT, Report, add_program, find_program, parser_of, stop_without  # isort: skip


@contextlib.contextmanager
def running(folder: pathlib.Path, name: str, *words: str) -> "Iterator[subprocess.Popen[bytes]]":
    """A process of Dask, which is ended here if it hasn't ended."""
    command = ("/usr/bin/python3", "-m", f"distributed.cli.dask_{name}", "--scheduler-file", folder / "scheduler.json", *words)
    with open(folder / f"{name}.log", "ab") as log, subprocess.Popen(command, stdout=log, stderr=log, cwd=folder) as process:
        try:
            yield process
        finally:
            process.kill()


@contextlib.contextmanager
def cluster(folder: pathlib.Path, **settings: str) -> "Iterator[tuple[str, subprocess.Popen[bytes], subprocess.Popen[bytes]]]":
    """Runs a scheduler and two workers that are not replaced if they die. Yields its address, and the processes of the workers."""
    os.environ.update(settings)
    worker = ("worker", "--no-nanny", "--nthreads", "1", "--no-dashboard")
    with running(folder, "scheduler", "--host", "127.0.0.1", "--port", "0", "--no-dashboard"):
        until("scheduler", (folder / "scheduler.json").exists)
        with running(folder, *worker) as first, running(folder, *worker) as second:
            yield json.loads((folder / "scheduler.json").read_text())["address"], first, second


def archive_of(trial: Trial, worker: "subprocess.Popen[bytes]") -> object:
    """Returns the archive that a worker indexes, if two others were indexed before."""
    mine = [archive for parent, archive in trial.begun if parent == str(worker.pid)]
    return len(trial.done) >= 2 and mine and mine[-1] not in trial.done and mine[-1]


def a_worker_is_killed_in_the_middle(program: pathlib.Path, folder: pathlib.Path) -> None:
    """The programs run from the PATH of the workers, and the workers have no Python package."""
    trial = Trial(program, folder, SLOW)
    with cluster(folder) as (address, first, second):
        work = trial.start("--scheduler", address)
        archive = until("both are at work", lambda: archive_of(trial, second) and archive_of(trial, first))
        first.kill()
        expect("status", work.wait(WAIT), 1)
        expect("the other worker is alive", second.poll(), None)
    expect("who took the archive", [worker for worker, name in trial.begun if name == archive], [str(first.pid), str(second.pid)])
    trial.expect_results({"07.warc": 1}, trial.wanted)
    expect("lines", [line for line in trial.said if "07.warc" not in line][-2].endswith("12 of 12 archives, 100 %"), True)


def compressed_archives_and_folders_below(program: pathlib.Path, folder: pathlib.Path) -> None:
    trial = Trial(program, folder)
    (trial.archives / "below").mkdir()
    (trial.archives / "below/00.warc.gz").write_bytes(compressed(sample("response")))
    with cluster(folder) as (address, _, _):
        expect("status", trial.run("--recursive", "--scheduler", address), 1)
        trial.expect_results({"07.warc": 1}, index_of_folders(program, trial.archives, folder))
        (trial.archives / "00.warc").unlink()
        expect("status of a second run", trial.run("--recursive", "--remove", "1", "--scheduler", address), 1)
    trial.expect_results({"07.warc": 1}, index_of_folders(program, trial.archives, folder))


def a_run_that_is_ended_goes_on(program: pathlib.Path, folder: pathlib.Path) -> None:
    """It is killed, or ended by a signal, in the middle. What the workers still write changes nothing."""
    trial = Trial(program, folder, SLOW)
    with cluster(folder) as (address, _, _):
        for number in (signal.SIGKILL, signal.SIGTERM, signal.SIGINT):
            trial.remove_results()
            work = trial.start("--quiet", "--scheduler", address)
            until("parts", lambda: len(trial.done) >= 2)
            work.send_signal(number)
            expect("status", work.wait(WAIT), -number)
            expect("lines", trial.said, [])
        kept = trial.done
        trial.forget()
        expect("status", trial.run("--scheduler", address), 1)
        expect("archives of the last run", {name for _, name in trial.begun} & kept, set())
    trial.expect_results({"07.warc": 1}, trial.wanted)


def a_worker_that_returns_late_changes_nothing(program: pathlib.Path, folder: pathlib.Path) -> None:
    """It is stopped until the scheduler takes it for dead, and goes on once the index is there and the archives were changed."""
    trial = Trial(program, folder, SLOW)
    with cluster(folder, DASK_DISTRIBUTED__SCHEDULER__WORKER_TTL="2s") as (address, first, second):
        work = trial.start("--scheduler", address)
        archive = until("both are at work", lambda: archive_of(trial, second) and archive_of(trial, first))
        os.kill(first.pid, signal.SIGSTOP)
        expect("status", work.wait(WAIT), 1)
        trial.expect_results({"07.warc": 1}, trial.wanted)
        before = files_of(trial)
        shutil.copy(ROOT / "samples/damaged.warc", trial.archives / str(archive))
        os.kill(first.pid, signal.SIGCONT)
        time.sleep(4)  # longer than the program takes
        expect("files", files_of(trial) == before, True)
        expect("status of a further run", trial.run("--scheduler", address), 1)
    trial.expect_results({"07.warc": 1, str(archive): 1}, trial.index_of("*.warc"))


def files_of(trial: Trial) -> dict[pathlib.Path, bytes]:
    paths = [trial.index, *trial.store.rglob("*")]
    return {path: path.read_bytes() for path in paths if path.is_file()}


def an_archive_that_kills_workers_is_given_up(program: pathlib.Path, folder: pathlib.Path) -> None:
    """After as many deaths of workers as the scheduler allows. The workers are restarted by Dask."""
    trial = Trial(program, folder)
    lines = trial.program.read_text().splitlines()
    lines.insert(-1, 'case "$*" in *./05.warc*) kill -9 $PPID; sleep 1;; esac')
    trial.program.write_text("\n".join([*lines, ""]))
    os.environ["DASK_DISTRIBUTED__SCHEDULER__ALLOWED_FAILURES"] = "1"
    with running(folder, "scheduler", "--host", "127.0.0.1", "--port", "0", "--no-dashboard"):
        until("scheduler", (folder / "scheduler.json").exists)
        with running(folder, "worker", "--nworkers", "2", "--nthreads", "1", "--no-dashboard"):
            address = json.loads((folder / "scheduler.json").read_text())["address"]
            expect("status", trial.run("--scheduler", address), 3)
    trial.expect_results({"05.warc": 3, "07.warc": 1}, trial.index_of("*[!5].warc"))


def a_scheduler_that_is_not_there_is_reported(program: pathlib.Path, folder: pathlib.Path) -> None:
    os.environ["DASK_DISTRIBUTED__COMM__TIMEOUTS__CONNECT"] = "1s"
    trial = Trial(program, folder)
    expect("status", trial.run("--scheduler", "tcp://127.0.0.1:1"), 3)
    expect("lines", len(trial.said), 1)
    expect("index", trial.index.exists(), False)
    for address in ("127.0.0.1", "nosuch://127.0.0.1:1"):
        expect("status", trial.run("--scheduler", address), 3)
        expect("lines", (len(trial.said), "an ADDRESS is HOST:PORT" in str(trial.said)), (1, True))
    copy_sample("response", trial.archives / "new.warc")
    expect("status without a scheduler", trial.run(), 1)
    trial.expect_results({"07.warc": 1}, trial.index_of("*.warc"))


CASES = (
    a_worker_is_killed_in_the_middle,
    compressed_archives_and_folders_below,
    a_run_that_is_ended_goes_on,
    a_worker_that_returns_late_changes_nothing,
    an_archive_that_kills_workers_is_given_up,
    a_scheduler_that_is_not_there_is_reported,
)


def main() -> int:
    parser, report = parser_of(__doc__), Report()
    add_program(parser)
    program = find_program(parser.parse_args().program)
    if importlib.util.find_spec("distributed") is None:
        stop_without("the module distributed", "Debian's package python3-distributed")
    usual = dict(os.environ)
    for case in CASES:
        title = case.__name__.replace("_", " ")
        os.environ.clear()
        os.environ.update(usual)
        with tempfile.TemporaryDirectory() as name:
            try:
                case(program, pathlib.Path(name))
                report.add_ok(title)
            except Differs as difference:
                report.add_difference(title, difference)
    return report.end()


if __name__ == "__main__":
    sys.exit(main())
