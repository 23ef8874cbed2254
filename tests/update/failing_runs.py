"""Runs of warcdx-update that signals end, and runs without room on the disk, streams, memory, an archive or whole files."""
import os
import pathlib
import signal
import subprocess
import time

from update_trial import SLOW, WAIT, Trial, children_of, copy_sample, expect, until


def unfinished(trial: Trial) -> list[pathlib.Path]:
    return list(trial.store.glob("runs/*.new*"))


def a_signal_ends_a_run(program: pathlib.Path, folder: pathlib.Path) -> None:
    """It ends as the signal says, without a word. No program goes on, and nothing is left but the parts that are whole."""
    trial = Trial(program, folder, SLOW)
    temporary = folder / "temporary"
    temporary.mkdir()
    for number in (signal.SIGINT, signal.SIGTERM):
        for delay in (0.1, 0.2, 0.4, 0.7, 1.0):
            trial.remove_results()
            work = trial.start("--quiet", "--jobs", "2", env={**os.environ, "TMPDIR": str(temporary)})
            time.sleep(delay)
            children = children_of(work.pid)
            os.kill(work.pid, number)
            expect("status", work.wait(WAIT), -number)
            expect("lines", trial.said, [])
            for child in children:
                until("the end of the programs", lambda: not os.path.exists(f"/proc/{child}"))
            expect("temporary files", list(temporary.iterdir()), [])
            expect("unfinished files", unfinished(trial), [])
    kept = trial.done
    trial.forget()
    expect("status", trial.run(), 1)
    expect("archives of the last run", {name for _, name in trial.begun} & kept, set())
    trial.expect_results({"07.warc": 1}, trial.wanted)


def a_full_disk_is_reported(program: pathlib.Path, folder: pathlib.Path) -> None:
    """What doesn't fit isn't in the index, or the index stays as it was. With room, a further run adds the rest."""
    trial = Trial(program, folder)
    disk = folder / "disk"
    disk.mkdir()
    if subprocess.run(("mount", "-t", "tmpfs", "-o", "size=8k", "tmpfs", disk), stderr=subprocess.DEVNULL).returncode:
        print("skipped  a full disk: only root can make one")
        return
    try:
        trial.index, trial.store = disk / "all.cdxj", disk / "all.cdxj.d"
        for size in (8, 24, 40, 56, 64, 80, 100):
            subprocess.run(("mount", "-o", f"remount,size={size}k", disk), check=True)
            for setting in ({}, {"PYTHONUNBUFFERED": "1"}):
                expect(f"status with {size} kB", trial.start(env={**os.environ, **setting}).wait(WAIT), 3)
                lines = [line for line in trial.said if not any(each in line for each in ("archives, ", " captures of ", "fault "))]
                expect("other reasons", [line for line in lines if "No space left on device" not in line], [])
                expect("a reason", len(lines) > 0, True)
                texts = [path.read_bytes() for path in (trial.index, *trial.runs) if path.exists()]
                expect("other lines", {line for text in texts for line in text.splitlines()} - set(trial.wanted.splitlines()), set())
        subprocess.run(("mount", "-o", "remount,size=64m", disk), check=True)
        expect("status with room", trial.run(), 1)
        expect("index", trial.index.read_bytes() == trial.wanted, True)
        trial.expect_store()
    finally:
        subprocess.run(("umount", disk), check=True)


def streams_may_be_closed(program: pathlib.Path, folder: pathlib.Path) -> None:
    trial = Trial(program, folder)
    for closed in ("<&-", ">&-", "2>&-", "<&- >&- 2>&-"):
        for setting in ({}, {"PYTHONUNBUFFERED": "1"}):
            shell = ("sh", "-c", f'exec "$@" {closed}', "sh", *trial.usual_command("--all-faults"))
            with open(folder / "said", "wb") as said:
                expect(closed, subprocess.run(shell, stderr=said, env={**os.environ, **setting}).returncode, 1)
            expect("index", trial.index.read_bytes() == trial.wanted, True)
            trial.expect_store()
            trial.remove_results()


def memory_may_be_refused(program: pathlib.Path, folder: pathlib.Path) -> None:
    """A run fails, or has the whole result. Each one says why, and a run with memory goes on."""
    trial = Trial(program, folder)
    statuses = set()
    for megabytes in range(16, 112, 8):
        limit = ("prlimit", f"--as={megabytes << 20}", *trial.command("--jobs", "2", "--quiet"))
        done = subprocess.run(limit, stderr=subprocess.PIPE, stdout=subprocess.DEVNULL)
        started = b"warcdx" in done.stderr or done.returncode in (0, 1)
        if not started:  # Python itself had no memory
            continue
        statuses.add(done.returncode)
        expect(f"status with {megabytes} MB", done.returncode in (1, 3), True)
        expect(f"lines with {megabytes} MB", b"Traceback" in done.stderr, False)
        expect("unfinished files", unfinished(trial), [])
    expect("statuses", statuses, {1, 3})
    expect("status", trial.run(), 1)
    trial.expect_results({"07.warc": 1}, trial.wanted)


def an_archive_that_cannot_be_read_keeps_its_captures(program: pathlib.Path, folder: pathlib.Path) -> None:
    trial = Trial(program, folder)
    expect("status", trial.run(), 1)
    (trial.archives / "05.warc").unlink()
    (trial.archives / "05.warc").symlink_to("nothing")
    expect("status", trial.run(), 3)
    trial.expect_results({"05.warc": 3, "07.warc": 1}, trial.wanted)
    expect("line", "warcdx-update: 05.warc: No such file or directory; the index keeps its captures" in trial.said, True)
    (trial.archives / "05.warc").unlink()
    expect("status without the archive", trial.run("--remove", "1"), 1)
    trial.expect_results({"07.warc": 1}, trial.index_of("*.warc"))
    expect("action", trial.reports["05.warc"]["action"], "removed")


def runs_that_are_damaged_are_made_anew(program: pathlib.Path, folder: pathlib.Path) -> None:
    """One that is missing, or was written by something else. If only its time is that of the run, the index stays as it was."""
    trial = Trial(program, folder)
    expect("status", trial.run("--compact"), 1)
    (run,) = trial.runs

    def removed() -> None:
        run.unlink()

    def written() -> None:
        run.write_bytes(bytes(run.stat().st_size))

    def cut() -> None:
        usual = run.stat().st_mtime_ns
        run.write_bytes(run.read_bytes()[:1000])
        os.utime(run, ns=(usual, usual))

    for change in (removed, written, cut):
        change()
        trial.forget()
        expect(f"status if it was {change.__name__}", trial.run("--compact"), 1)
        expect("archives", len(trial.begun), 12)
        trial.expect_results({"07.warc": 1}, trial.wanted)
        (run,) = trial.runs
    usual = run.stat().st_mtime_ns
    written()
    os.utime(run, ns=(usual, usual))
    copy_sample("response", trial.archives / "new.warc")
    expect("status", trial.run("--compact"), 3)
    expect("line", trial.said[-1].endswith("BadLine 0; the index stays as it was"), True)
    expect("index", trial.index.read_bytes() == trial.wanted, True)
    run.unlink()
    expect("status without the run", trial.run(), 1)
    trial.expect_results({"07.warc": 1}, trial.index_of("*.warc"))
