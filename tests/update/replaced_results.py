"""Which files runs of warcdx-update replace: the one file of an index and the link to a state, which earlier runs have made."""
import contextlib
import os
import pathlib
import shutil
import sqlite3
import subprocess
from collections.abc import Callable

from neighbours import Home, put_folder, put_socket, unchanged
from update_trial import WAIT, Trial, copy_sample, expect


def only_results_of_runs_are_replaced(program: pathlib.Path, folder: pathlib.Path) -> None:
    """INDEX is refused if it was written, replaced by another file, a folder, a pipe, a socket or a link. So is the link to a state."""
    home = Home(program, folder)
    trial = home.trial
    expect("status", trial.run(), 1)
    copy_sample("response", trial.archives / "new.warc")

    def written(path: pathlib.Path) -> None:
        path.write_text("notes\n")

    def appended(path: pathlib.Path) -> None:
        path.write_bytes(path.read_bytes() + b"\n")

    def changed(path: pathlib.Path) -> None:
        text = path.read_bytes()
        path.write_bytes(text[:-1] + bytes([text[-1] ^ 1]))

    def linked(path: pathlib.Path) -> None:
        target = path.with_name(f"mine-{path.name}")
        target.write_text("mine\n")
        path.unlink()
        path.symlink_to(target)

    def remade(kind: Callable[[pathlib.Path], object]) -> Callable[[pathlib.Path], None]:
        def make(path: pathlib.Path) -> None:
            path.unlink()
            kind(path)

        return make

    kept = folder / "kept"
    changes = (written, appended, changed, linked, remade(os.mkfifo), remade(put_socket), remade(put_folder))
    for path, each in ((trial.index, changes), (trial.store / "current", changes[-3:])):
        for change in each:
            os.rename(path, kept)
            if kept.is_file():
                shutil.copy2(kept, path)
            else:
                path.touch()
            change(path)
            with unchanged(home.home, folder / "archives"):
                expect(f"status after {change} of {path.name}", trial.run("--single"), 3)
                expect("lines", (len(trial.said), "Traceback" in trial.said[0]), (1, False))
            shutil.rmtree(path) if path.is_dir() and not path.is_symlink() else path.unlink()
            os.rename(kept, path)
    trial.index.chmod(0o600)
    expect("status with the files of the run", trial.run(), 1)
    expect("index", trial.index.read_bytes() == trial.index_of("*.warc"), True)


def a_report_is_printed(program: pathlib.Path, folder: pathlib.Path) -> None:
    """So it replaces no file. The standard output may be a file in which others write, before and after, or may take nothing."""
    trial = Trial(program, folder)
    expect("status", trial.run(), 1)
    report = trial.report.read_bytes().replace(b'"indexed"', b'"unchanged"')
    log = folder / "log"
    for before in (b"", b"before\n"):
        with open(log, "wb", buffering=0) as output:
            output.write(before)
            command = trial.usual_command("--quiet", "--json")
            expect("status", subprocess.run(command, stdout=output, stderr=output, timeout=WAIT).returncode, 0)
            output.write(b"after\n")
        expect("what the file has", log.read_bytes(), before + report + b"after\n")
    copy_sample("response", trial.archives / "new.warc")
    with open("/dev/full", "wb") as full:
        command = trial.usual_command("--quiet", "--json")
        expect("status with a full disk", subprocess.run(command, stdout=full, stderr=full, timeout=WAIT).returncode, 3)
    expect("index", trial.index.read_bytes() == trial.index_of("*.warc"), True)


def names_in_the_database_are_those_of_runs(program: pathlib.Path, folder: pathlib.Path) -> None:
    """It has numbers in their place. So no other file is removed, and a link in the place of a run isn't followed."""
    trial = Trial(program, folder)
    conf = folder / "conf"
    conf.write_text("mine\n")
    expect("status", trial.run(), 1)
    with contextlib.closing(sqlite3.connect(trial.store / "state.db")) as database, database:
        database.execute("PRAGMA ignore_check_constraints = ON")
        for planted in (str(conf), "../conf"):
            database.execute("UPDATE runs SET until = ?", (planted,))
    copy_sample("response", trial.archives / "new.warc")
    with unchanged(folder / "archives"):
        trial.run()
    expect("file", conf.read_text(), "mine\n")
    trial.remove_results()
    expect("status", trial.run(), 1)
    run = trial.runs[0]
    os.rename(run, folder / "elsewhere")
    run.symlink_to(folder / "elsewhere")
    with unchanged(trial.archives):
        expect("status with a link in the place of a run", trial.run(), 1)
    expect("file behind the link", (folder / "elsewhere").is_file(), True)
    expect("index", trial.index.read_bytes() == trial.index_of("*.warc"), True)


def a_folder_that_may_not_be_written_is_reported(program: pathlib.Path, folder: pathlib.Path) -> None:
    """The folder of the index is read-only for a user. The parts may be elsewhere."""
    if os.getuid():
        print("skipped  a folder that may not be written: only root can run a command as another user")
        return
    home = Home(program, folder)
    trial = home.trial
    parts = folder / "parts"
    parts.mkdir()
    trial.store.symlink_to(parts)
    (folder / "said").touch()
    for path in (folder, *folder.rglob("*")):
        os.chown(path, 65534, 65534, follow_symlinks=False)
    nobody = {"user": 65534, "group": 65534, "extra_groups": ()}
    expect("status", trial.start(**nobody).wait(WAIT), 1)
    copy_sample("response", trial.archives / "new.warc")
    home.home.chmod(0o555)
    with unchanged(home.home):
        expect("status", trial.start(**nobody).wait(WAIT), 3)
    expect("line", trial.said[-1], f"warcdx-update: {trial.index}: Permission denied; the index stays as it was")
    expect("unfinished files", list(parts.glob("runs/*.new*")), [])
    home.home.chmod(0o755)
    expect("status", trial.start(**nobody).wait(WAIT), 1)
    expect("index", trial.index.read_bytes() == trial.index_of("*.warc"), True)


CASES = (
    only_results_of_runs_are_replaced,
    a_report_is_printed,
    names_in_the_database_are_those_of_runs,
    a_folder_that_may_not_be_written_is_reported,
)
