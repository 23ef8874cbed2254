"""Runs of warcdx-update that are killed at random moments, and programs whose ends the system doesn't tell."""
import contextlib
import os
import pathlib
import random
import signal
import subprocess

from update_trial import (
    SLOW, WAIT, Trial, children_of, compressed, copy_sample, expect, index_of_folders, kill_group, sample, until
)

# A module that Python loads first. It kills the process before the call of the number KILL_AT that changes a name, or writes one to the disk.
KILLING = """
import itertools
import os
import signal

numbers = itertools.count(1)


def killing(usual):
    def call(*arguments, **options):
        if next(numbers) == int(os.environ["KILL_AT"]):
            os.kill(os.getpid(), signal.SIGKILL)
        return usual(*arguments, **options)

    return call


for name in ("chmod", "fsync", "mkdir", "remove", "rename", "replace", "rmdir", "symlink"):
    setattr(os, name, killing(getattr(os, name)))
"""
KILLS = 50
FIRST = 12  # kills of runs that begin without results
LONGEST = 0.9  # seconds until a run is killed


def runs_that_are_killed_lose_nothing(program: pathlib.Path, folder: pathlib.Path, seed: int = 1) -> None:
    """Archives are added, changed and removed between them. After each kill the index is the old or the new one, and a rerun makes the new
    one, with what belongs to it and nothing else. The moments follow from the seed."""
    choose = random.Random(seed)
    trial = Trial(program, folder, SLOW.replace("sleep 0.5", "sleep 0.02"))
    (trial.archives / "below").mkdir()
    for number in range(2):
        (trial.archives / f"below/{number}.warc.gz").write_bytes(compressed(sample("response") * 2))
    words = ("--recursive", "--remove", "all", "--jobs", "3")
    for number in range(KILLS):
        if number <= FIRST:
            trial.remove_results()
        before = trial.index.read_bytes() if trial.index.exists() else None
        change_some(trial, choose, number)
        wanted = index_of_folders(program, trial.archives, folder)
        work = trial.start(*words, start_new_session=True)
        wait_for(work, choose.uniform(0, LONGEST))
        children = children_of(work.pid)
        if number % 2:
            kill_group(work, signal.SIGKILL)
        else:
            work.kill()
        work.wait(WAIT)
        for child in children:
            until("the end of the programs", lambda: not os.path.exists(f"/proc/{child}"))
        found = trial.index.read_bytes() if trial.index.exists() else None
        expect(f"index after kill {number}", found in (before, wanted), True)
        status = trial.run(*words)
        expect(f"status after kill {number}", status, 1)
        trial.expect_results({"07.warc": 1}, wanted)


def wait_for(work: "subprocess.Popen[bytes]", seconds: float) -> None:
    try:
        work.wait(seconds)
    except subprocess.TimeoutExpired:
        pass


def change_some(trial: Trial, choose: random.Random, number: int) -> None:
    """Changes a third of the archives, adds one, and removes one. One archive stays damaged."""
    archives = sorted(path for path in trial.archives.rglob("*.warc*") if path.name != "07.warc")
    for path in choose.sample(archives, 5):
        more = sample("response")
        path.write_bytes(path.read_bytes() + (compressed(more) if path.suffix == ".gz" else more))
    choose.choice(archives).unlink()
    copy_sample("response", trial.archives / f"new-{number}.warc")
    if number % 10 == 9:  # so that they don't grow for ever
        for path in trial.archives.rglob("*.warc"):
            if path.name != "07.warc":
                copy_sample("response", path)


def a_run_may_be_killed_before_each_change(program: pathlib.Path, folder: pathlib.Path) -> None:
    """That is before each call that changes a name, or writes one to the disk: of a first run, and of one that has all to do."""
    trial = Trial(program, folder)
    for path in trial.archives.glob("*.warc"):
        path.unlink()
    modules = folder / "modules"
    modules.mkdir()
    (modules / "sitecustomize.py").write_text(KILLING)
    words = ("--remove", "all", "--jobs", "1")
    for is_first in (True, False):
        status, number = -signal.SIGKILL, 0
        while status == -signal.SIGKILL:
            number += 1
            trial.remove_results()
            (trial.archives / "new.warc").unlink(missing_ok=True)
            copy_sample("response", trial.archives / "05.warc")
            copy_sample("wget", trial.archives / "old.warc")
            if not is_first:
                expect("status of a first run", trial.run(*words), 0)
            before = trial.index.read_bytes() if trial.index.exists() else None
            (trial.archives / "old.warc").unlink()
            copy_sample("wget", trial.archives / "05.warc")
            copy_sample("response", trial.archives / "new.warc")
            wanted = trial.index_of("*.warc")
            environment = {**os.environ, "PYTHONPATH": str(modules), "KILL_AT": str(number)}
            status = trial.start(*words, env=environment).wait(WAIT)
            found = trial.index.read_bytes() if trial.index.exists() else None
            expect(f"index after a kill before call {number}", found in (before, wanted), True)
            expect(f"status after a kill before call {number}", trial.run(*words), 0)
            trial.expect_results({}, wanted)
        expect("status of a run that isn't killed", status, 0)
        expect("number of the calls", number > 20, True)


def programs_end_with_a_run_that_is_killed(program: pathlib.Path, folder: pathlib.Path) -> None:
    """Nothing but the run is killed. Its programs would go on for longer than is waited. One of them has all small archives."""
    trial = Trial(program, folder, SLOW.replace("sleep 0.5", f"exec sleep {10 * WAIT}"))
    (trial.archives / "packed.warc.gz").write_bytes(compressed(sample("response")))
    work = trial.start("--jobs", "20")
    until("the programs", lambda: len(trial.begun) == 6)
    processes = children_of(work.pid)
    expect("number of the programs", len(processes), 6)
    work.kill()
    work.wait()
    try:
        for process in processes:
            until(f"the end of {process}", lambda: not os.path.exists(f"/proc/{process}"))
    finally:
        for process in processes:
            with contextlib.suppress(ProcessLookupError):
                os.kill(int(process), signal.SIGKILL)
    trial.program.write_text(trial.program.read_text().replace("exec sleep", ": "))
    expect("status", trial.run(), 1)


def a_status_that_is_not_given_is_a_fault(program: pathlib.Path, folder: pathlib.Path) -> None:
    """If a starter ignores SIGCHLD and nothing handles it, the system keeps no status. No damage is lost by that."""
    trial = Trial(program, folder)

    def ignore() -> None:
        signal.signal(signal.SIGCHLD, signal.SIG_IGN)

    status = trial.start(preexec_fn=ignore).wait(WAIT)
    expect("status", status in (1, 3), True)
    expect("line", any("07.warc" in line for line in trial.said), True)
    expect("index", trial.index.exists() and trial.index.read_bytes() != trial.wanted, False)
    if status == 1:
        trial.expect_results({"07.warc": 1}, trial.wanted)
    expect("status of a further run", trial.run(), 1)
    trial.expect_results({"07.warc": 1}, trial.wanted)


CASES = (
    runs_that_are_killed_lose_nothing,
    a_run_may_be_killed_before_each_change,
    programs_end_with_a_run_that_is_killed,
    a_status_that_is_not_given_is_a_fault,
)
