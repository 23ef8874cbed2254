"""Runs of warcdx-update whose archives are gone or can't be seen, or that have another folder or other options than the first."""
import os
import pathlib
import shutil
import subprocess
from collections.abc import Iterable

from neighbours import unchanged, updated
from update_trial import WAIT, Trial, copy_sample, expect, sample

from program import ROOT  # isort: skip

# A module that Python loads first. The listing of a folder of the name FAILING fails after AFTER entries.
FAILING_LISTING = """
import os

usual = os.scandir


class Failing:
    def __init__(self, entries, most):
        self.entries, self.left = entries, most

    def __enter__(self):
        return self

    def __exit__(self, *error):
        self.close()

    def close(self):
        self.entries.close()

    def __iter__(self):
        return self

    def __next__(self):
        if not self.left:
            raise OSError(5, "Input/output error")
        self.left -= 1
        return next(self.entries)


def scandir(path="."):
    entries = usual(path)
    if os.path.basename(os.path.normpath(path)) != os.environ["FAILING"]:
        return entries
    return Failing(entries, int(os.environ["AFTER"]))


os.scandir = scandir
"""


def remove(trial: Trial, names: Iterable[str]) -> None:
    for name in names:
        (trial.archives / name).unlink()


def archives_that_are_gone_keep_their_captures(program: pathlib.Path, folder: pathlib.Path) -> None:
    """They do until --remove lets all of them leave. What is new is indexed meanwhile."""
    trial = Trial(program, folder)
    expect("status", trial.run(), 1)
    kept = folder / "gone"
    kept.mkdir()
    gone = ("02.warc", "05.warc", "11.warc")
    for name in gone:
        os.rename(trial.archives / name, kept / name)
    line = "warcdx-update: 3 archives are gone, the first of them 02.warc; the index keeps their captures, unless --remove 3 is given"
    for number, words in enumerate(((), ("--remove", "0"), ("--remove", "2"), ("--remove", "15%"), ("--remove", "0%"))):
        copy_sample("wget", trial.archives / f"new-{number}.warc")
        expect(f"status with {words}", trial.run(*words), 3)
        expect("line", line in trial.said, True)
        wanted = all_of(program, trial, kept)
        trial.expect_results({"07.warc": 1, **dict.fromkeys(gone, 3)}, wanted)
        reports = trial.reports
        expect("actions", {(reports[name]["action"], reports[name]["message"]) for name in gone}, {("kept", "it is gone")})
        expect("gone", trial.summary["gone"], 3)
        trial.forget()
        identity = os.stat(trial.index)
        expect("status of a run without changes", trial.run(*words), 3)
        expect("what it does", (trial.begun, os.stat(trial.index)), ([], identity))
    shutil.copy2(kept / "05.warc", trial.archives / "05.warc")
    expect("status with one of them", trial.run(), 3)
    expect("line", "warcdx-update: 2 archives are gone, the first of them 02.warc; the index keeps their captures, unless --remove 2 is given" in trial.said, True)
    expect("status with --remove", trial.run("--remove", "2"), 1)
    trial.expect_results({"07.warc": 1}, trial.index_of("*.warc"))
    expect("actions", (trial.reports["02.warc"]["action"], trial.reports["11.warc"]["action"]), ("removed", "removed"))
    remove(trial, ["01.warc"])
    expect("status with one that is gone", trial.run_usually(), 3)
    expect("line", trial.said[0], "warcdx-update: 01.warc is gone; the index keeps its captures, unless --remove 1 is given")
    expect("status with a share", trial.run("--remove", "7%"), 1)
    remove(trial, ["07.warc", "08.warc", "09.warc"])
    expect("status with all", trial.run("--remove", "all"), 0)
    trial.expect_results({}, trial.index_of("*.warc"))


def all_of(program: pathlib.Path, trial: Trial, kept: pathlib.Path) -> bytes:
    """Returns the index of the archives, and of those that are kept elsewhere."""
    archives = sorted([*trial.archives.glob("*.warc"), *kept.glob("*.warc")], key=lambda path: path.name)
    return subprocess.run((program, "index", *archives), stdout=subprocess.PIPE, stderr=subprocess.DEVNULL).stdout


def a_disk_that_is_not_mounted_changes_nothing(program: pathlib.Path, folder: pathlib.Path) -> None:
    """Its folder is empty, or isn't there. So it may be with a folder below."""
    trial = Trial(program, folder)
    (trial.archives / "disk").mkdir()
    copy_sample("wget", trial.archives / "disk/a.warc")
    expect("status", trial.run("--recursive"), 1)
    before = trial.index.read_bytes()
    places = (trial.archives / "disk", trial.archives)
    for place in places:
        for is_empty in (True, False):
            os.rename(place, folder / "unmounted")
            if is_empty:
                place.mkdir()
            runs = {path: path.read_bytes() for path in trial.runs}
            identity = trial.index.stat()
            for words in (("--quiet",), ("--quiet", "--remove", "0")):
                expect("status", updated(trial, trial.archives, trial.index, "--recursive", *words), 3)
                expect("index", trial.index.stat(), identity)
                expect("runs", {path: path.read_bytes() for path in trial.runs} == runs, True)
            if is_empty:
                place.rmdir()
            os.rename(folder / "unmounted", place)
    trial.forget()
    expect("status", trial.run("--recursive"), 1)
    expect("archives that are indexed again", trial.begun, [])
    expect("index", trial.index.read_bytes() == before, True)


def another_folder_or_option_is_refused(program: pathlib.Path, folder: pathlib.Path) -> None:
    """The same folder by another name isn't another one."""
    trial = Trial(program, folder)
    other = folder / "other"
    shutil.copytree(trial.archives, other)
    (folder / "link").symlink_to(trial.archives)
    expect("status", trial.run("--types", "response,resource"), 1)
    usual = ("--types", "response,resource")
    cases = (
        (other, usual, "it is the index of another folder, "),
        (folder, usual, "it is the index of another folder, "),
        (trial.archives, (*usual, "--recursive"), "it was made without --recursive: leave it out, or give another INDEX"),
        (trial.archives, (), "it was made with --types response,resource: give the same, or another INDEX"),
        (trial.archives, ("--types", "response"), "it was made with --types response,resource"),
    )
    for archives, words, line in cases:
        for more in ((), ("--dry-run",), ("--remove", "all")):
            with unchanged(folder):
                command = (*trial.usual_command(*words, *more)[:-2], archives, trial.index)
                done = subprocess.run(command, stderr=subprocess.PIPE, text=True, timeout=WAIT)
                expect(f"status with {archives.name} {words} {more}", done.returncode, 3)
                expect("line", (line in done.stderr, done.stderr.count("\n")), (True, 1))
    latin = folder / os.fsdecode(b"latin-\xe9")
    shutil.copytree(other, latin)
    (folder / "latin").symlink_to(latin)
    for status in (1, 0):
        expect("status with a folder that isn't UTF-8", updated(trial, folder / "latin", folder / "latin.d"), status)
    expect("status with another folder", updated(trial, other, folder / "latin.d"), 3)
    copy_sample("wget", trial.archives / "new.warc")
    here = os.path.relpath(trial.archives)
    for name in (folder / "link", folder / "link/.", folder / "other/../archives", here, f"{trial.archives}/"):
        status = updated(trial, name, trial.index, "--all-faults", "--types", "resource,response")
        expect(f"status with {name}", status, 1)
    expect("index", trial.index.read_bytes() == typed(program, trial, "response,resource"), True)
    trial.remove_results()
    expect("status", trial.run("--recursive", "--types", "metadata"), 1)
    expect("index", trial.index.read_bytes() == typed(program, trial, "metadata"), True)
    with unchanged(trial.store):
        expect("status without --recursive", trial.run("--types", "metadata"), 3)


def typed(program: pathlib.Path, trial: Trial, types: str) -> bytes:
    command = (program, "index", "--types", types, *sorted(trial.archives.glob("*.warc")))
    return subprocess.run(command, stdout=subprocess.PIPE, stderr=subprocess.DEVNULL).stdout


def arguments_are_checked(program: pathlib.Path, folder: pathlib.Path) -> None:
    trial = Trial(program, folder)
    for option, values in (
        ("--remove", ("", "-1", "+1", "01", "1.5", "101%", "%", "1%%", " 1", "1 ", "ALL", "none", "١", "1e3", "9" * 30)),
        ("--types", ("", ",", "response,", "response,response", "Response", "request", " response", "response resource")),
    ):
        for value in values:
            with unchanged(folder):
                expect(f"status of {option} {value!r}", updated(trial, trial.archives, trial.index, option, value), 2)
    for value in ("0", "1", "0%", "100%", "all"):
        expect(f"status of --remove {value}", updated(trial, trial.archives, trial.index, "--dry-run", "--remove", value), 0)


def a_folder_that_cannot_be_listed_ends_the_run(program: pathlib.Path, folder: pathlib.Path) -> None:
    """If it is FOLDER itself, nothing is changed. If it is one below, the index keeps the captures of the archives in it."""
    trial = Trial(program, folder)
    for below in ("below", "below/deeper", "other"):
        (trial.archives / below).mkdir()
        for name in ("a.warc", "b.warc"):
            copy_sample("wget", trial.archives / below / name)
    modules = folder / "modules"
    modules.mkdir()
    (modules / "sitecustomize.py").write_text(FAILING_LISTING)
    failing = {**os.environ, "PYTHONPATH": str(modules)}
    with unchanged(trial.archives):
        for after in range(4):
            environment = {**failing, "FAILING": "archives", "AFTER": str(after)}
            expect("status of a first run", trial.start("--recursive", env=environment).wait(WAIT), 3)
            expect("what is made", (trial.store.exists(), trial.index.exists()), (False, False))
    expect("status", trial.run("--recursive"), 1)
    before = trial.index.read_bytes()
    copy_sample("response", trial.archives / "new.warc")
    for after in range(8):
        environment = {**failing, "FAILING": "archives", "AFTER": str(after)}
        for words in ((), ("--remove", "all"), ("--dry-run", "--remove", "all")):
            with unchanged(trial.archives, trial.store):
                expect("status", trial.start("--recursive", *words, env=environment).wait(WAIT), 3)
                expect("lines", [line.endswith("Input/output error") for line in trial.said], [True])
                expect("index", trial.index.read_bytes() == before, True)
    for after in range(3):
        environment = {**failing, "FAILING": "below", "AFTER": str(after)}
        expect("status", trial.start("--recursive", "--remove", "all", env=environment).wait(WAIT), 3)
        reports = trial.reports
        faulty = {name: each["message"] for name, each in reports.items() if each["status"] == 3}
        names = ("below/", "below/a.warc", "below/b.warc", "below/deeper/a.warc", "below/deeper/b.warc")
        expect("reports", faulty, dict.fromkeys(names, "Input/output error"))
        expect("captures", sum(each["captures"] for each in reports.values()), before.count(b"\n") + sample_captures(program, "response"))
    expect("status", trial.run("--recursive"), 1)


def sample_captures(program: pathlib.Path, name: str) -> int:
    return subprocess.run((program, "index", ROOT / f"samples/{name}.warc"), stdout=subprocess.PIPE, check=True).stdout.count(b"\n")


def a_run_that_is_missing_loses_no_captures(program: pathlib.Path, folder: pathlib.Path) -> None:
    """If an archive of it is gone, the index stays as it was. So it does without the database, or if that has lost an archive."""
    trial = Trial(program, folder)
    expect("status", trial.run("--compact"), 1)
    kept, whole = folder / "02.warc", folder / "whole"
    os.rename(trial.archives / "02.warc", kept)
    copy_sample("wget", trial.archives / "new.warc")
    (run,) = trial.runs
    shutil.copytree(trial.store, whole, symlinks=True)
    database = trial.store / "state.db"

    def without_run() -> None:
        run.unlink()

    def without_database() -> None:
        database.unlink()

    def with_an_empty_database() -> None:
        database.write_bytes(b"")

    way_out = "restore it from a backup, or move the index away and make it anew"
    for change, line in (
        (without_run, "1 archives can't be indexed anew whose runs are missing or damaged, such as '02.warc'; the index stays as it was"),
        (without_database, f"{database} is missing; {way_out}"),
        (with_an_empty_database, f"{database} isn't as warcdx-update has written it; {way_out}"),
    ):
        change()
        before = trial.index.read_bytes()
        expect(f"status {change.__name__}", trial.run(), 3)
        expect("line", trial.said[-1], f"warcdx-update: {trial.index}: {line}")
        expect("index", trial.index.read_bytes() == before, True)
        shutil.rmtree(trial.store)
        shutil.copytree(whole, trial.store, symlinks=True)
    run.unlink()
    os.rename(kept, trial.archives / "02.warc")
    expect("status with the archive", trial.run(), 1)
    expect("index", trial.index.read_bytes() == trial.index_of("*.warc"), True)


def folders_may_be_deep(program: pathlib.Path, folder: pathlib.Path) -> None:
    """Those whose path is too long for the system can't be read, as its reason says."""
    trial = Trial(program, folder)
    at = os.open(trial.archives, os.O_RDONLY)
    for depth in range(2200):
        os.mkdir("d", dir_fd=at)
        below = os.open("d", os.O_RDONLY, dir_fd=at)
        os.close(at)
        at = below
        if depth == 1499:
            archive = os.open("deep.warc", os.O_WRONLY | os.O_CREAT, dir_fd=at)
            os.write(archive, sample("response"))
            os.close(archive)
    os.close(at)
    try:
        expect("status", trial.run("--recursive"), 3)
        faulty = {name for name, each in trial.reports.items() if each["message"] == "File name too long"}
        expect("folders that can't be read", len(faulty), 1)
        expect("an archive that is deep", trial.reports["d/" * 1500 + "deep.warc"]["captures"], 1)
        expect("status of a further run", trial.run_usually("--recursive", "--quiet"), 0)
    finally:
        subprocess.run(("rm", "-r", trial.archives), check=True)
    expect("status of the root as INDEX", updated(trial, folder, "/"), 3)


CASES = (
    archives_that_are_gone_keep_their_captures,
    a_disk_that_is_not_mounted_changes_nothing,
    another_folder_or_option_is_refused,
    arguments_are_checked,
    a_folder_that_cannot_be_listed_ends_the_run,
    a_run_that_is_missing_loses_no_captures,
    folders_may_be_deep,
)
