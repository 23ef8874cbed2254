"""A folder of archives, and runs of warcdx-update over it, for the scripts of this folder."""
import contextlib
import gzip
import json
import os
import pathlib
import shutil
import signal
import sqlite3
import subprocess
import sys
import time
from collections.abc import Callable, Iterable, Sequence
from typing import Any

sys.path.insert(0, str(pathlib.Path(__file__).resolve().parents[1]))

from program import PACKED, ROOT, find_packed_program

signal.signal(signal.SIGINT, signal.default_int_handler)  # a job in the background ignores it, and so would its commands

COMMAND = ROOT / "python/bin/warcdx-update"
WAIT = 120  # seconds for what takes a few
RECORD_END = b"\r\n\r\n"
# Stands in the place of both programs. Notes its parent and each archive that it begins, and takes half a second for it.
SLOW = """#!/bin/sh
case $0 in *-gz) program="%(packed)s";; *) program="%(program)s";; esac
[ "$1" = index ] || exec "$program" "$@"
echo $$ >> "%(folder)s/started"
for word; do
    case $word in ./*) echo "$PPID ${word#./}" >> "%(folder)s/begun"; sleep 0.5;; esac
done
exec "$program" "$@"
"""
FAST = SLOW.replace("sleep 0.5", ":")
# Fails as on a machine that can't reach a file.
FAILING = FAST.replace(
    " :;;", " case $word in */05.warc) echo \"warcdx: $word: cannot open\" >&2; exit 3;; esac;;"
)


class Differs(Exception):
    """What differs."""


def expect(name: str, found: object, wanted: object) -> None:
    if found != wanted:
        raise Differs(f"{name}: {found} for {wanted}")


def until(name: str, holds: Callable[[], Any]) -> Any:
    """Waits until something holds, and returns it."""
    end = time.monotonic() + WAIT
    while time.monotonic() < end:
        if found := holds():
            return found
        time.sleep(0.02)
    raise Differs(f"{name}: not within {WAIT} s")


def index_of(program: pathlib.Path, archives: Iterable[pathlib.Path]) -> bytes:
    """Returns what a program writes of archives."""
    return subprocess.run((program, "index", *archives), stdout=subprocess.PIPE, stderr=subprocess.PIPE).stdout


def index_of_folders(program: pathlib.Path, folder: pathlib.Path, work: pathlib.Path) -> bytes:
    """Returns the index of all archives below a folder: that of each, with its path as the file name, merged."""
    parts = []
    for archive in sorted(folder.rglob("*.warc*")):
        name = json.dumps(str(archive.relative_to(folder)), ensure_ascii=False)
        is_compressed = archive.read_bytes()[:2] == b"\x1f\x8b"
        lines = index_of(find_packed_program(program) if is_compressed else program, [archive])
        parts.append(work / f"{len(parts)}.part")
        old = f'"filename": {json.dumps(archive.name, ensure_ascii=False)}}}\n'
        parts[-1].write_bytes(lines.replace(old.encode(), f'"filename": {name}}}\n'.encode()))
    return merged(program, parts)


def merged(program: pathlib.Path, indexes: Sequence[pathlib.Path]) -> bytes:
    return subprocess.run((program, "merge", *indexes), stdout=subprocess.PIPE, check=True).stdout


def sample(name: str) -> bytes:
    return (ROOT / f"samples/{name}.warc").read_bytes()


def compressed(archive: bytes) -> bytes:
    """Returns a compressed archive with these records, each of which is a member."""
    parts = [b"WARC/1." + part for part in archive.split(RECORD_END + b"WARC/1.")]
    parts[0] = parts[0][len(b"WARC/1.") :]
    return b"".join(gzip.compress(part + RECORD_END, mtime=0) for part in parts[:-1]) + gzip.compress(parts[-1], mtime=0)


class Trial:
    """A folder with twelve archives, one of them damaged, a program, and what warcdx-update makes of them.

    `store` is the folder of the index, and `report` what the last run has printed.
    """

    def __init__(self, program: pathlib.Path, folder: pathlib.Path, script: str = FAST) -> None:
        self.folder, self.archives, self.index = folder, folder / "archives", folder / "all.cdxj"
        self.store, self.report = folder / "all.cdxj.d", folder / "report"
        self.archives.mkdir()
        for number in range(12):
            name = "damaged" if number == 7 else "wget" if number % 2 else "response"
            (self.archives / f"{number:02}.warc").write_bytes(sample(name))
        self.program = folder / "program"
        self.program.write_text(script % {"folder": folder, "program": program, "packed": find_packed_program(program)})
        self.program.chmod(0o755)
        (folder / PACKED).symlink_to(self.program)
        self._built = program
        self.wanted = self.index_of("*.warc")

    def index_of(self, pattern: str) -> bytes:
        """Returns the index of the plain archives of this pattern."""
        return index_of(self._built, sorted(self.archives.glob(pattern)))

    def command(self, *words: object) -> list[str]:
        """Returns the command with these options, which reports known faults too."""
        return self.usual_command("--all-faults", "--json", *words)

    def usual_command(self, *words: object) -> list[str]:
        return [*map(str, (COMMAND, "--program", self.program, *words)), str(self.archives), str(self.index)]

    def start(self, *words: object, **options: Any) -> "subprocess.Popen[bytes]":
        with open(self.folder / "said", "wb") as said, open(self.report, "wb") as report:
            return subprocess.Popen(self.command(*words), stdin=subprocess.DEVNULL, stdout=report, stderr=said, **options)

    def run(self, *words: object) -> int:
        """Runs warcdx-update, and returns its exit status."""
        return self.start(*words).wait(WAIT)

    def run_usually(self, *words: object) -> int:
        """Runs it so that it reports new faults only, and prints no report of the archives unless a word says so."""
        with open(self.folder / "said", "wb") as said, open(self.report, "wb") as report:
            return subprocess.Popen(self.usual_command(*words), stdin=subprocess.DEVNULL, stdout=report, stderr=said).wait(WAIT)

    @property
    def said(self) -> list[str]:
        """The lines of standard error of the last run."""
        return (self.folder / "said").read_text().splitlines()

    @property
    def begun(self) -> list[tuple[str, str]]:
        """The parent and the archive of each run of the program that has begun to index."""
        with contextlib.suppress(FileNotFoundError):
            lines = (self.folder / "begun").read_text().splitlines()
            return [(parent, archive) for parent, _, archive in (line.partition(" ") for line in lines)]
        return []

    def remove_results(self) -> None:
        """Removes what earlier runs have made."""
        shutil.rmtree(self.store, ignore_errors=True)
        for path in (self.index, self.report):
            path.unlink(missing_ok=True)

    def forget(self) -> None:
        """Forgets what has begun."""
        with contextlib.suppress(FileNotFoundError):
            (self.folder / "begun").unlink()

    @property
    def done(self) -> set[str]:
        """The archives that the database has."""
        return {name for (name,) in self.ask("SELECT name FROM archives")}

    @property
    def runs(self) -> list[pathlib.Path]:
        """The runs that the index has."""
        return sorted(path.resolve() for path in (self.store / "current").glob("*.cdxj"))

    @property
    def summary(self) -> dict[str, Any]:
        return dict(json.loads((self.store / "current/summary.json").read_text()))

    def ask(self, question: str) -> list[tuple[Any, ...]]:
        """Asks the database, also while a run has it. Returns nothing while it is being made or written."""
        with contextlib.suppress(sqlite3.Error), contextlib.closing(
            sqlite3.connect(f"file:{self.store}/state.db?immutable=1", uri=True)
        ) as database:
            return database.execute(question).fetchall()
        return []

    @property
    def reports(self) -> dict[str, dict[str, Any]]:
        return {report["archive"]: report for report in map(json.loads, self.report.read_text().splitlines())}

    def expect_results(self, faulty: dict[str, int], wanted: bytes) -> None:
        """Expects this index, these archives to be reported with these statuses, and no other file beside the index."""
        expect("index", self.index.read_bytes() == wanted, True)
        reports = self.reports
        expect("report", {name: each["status"] for name, each in reports.items() if each["status"]}, faulty)
        captures = sum(each["captures"] for each in reports.values())
        expect("captures of the report", captures, wanted.count(b"\n"))
        expect("captures of the summary", self.summary["captures"], captures)
        self.expect_store()

    def expect_store(self) -> None:
        """Expects the runs of the index to be what its one file is, and no files but those of it and of the state before."""
        expect("runs", merged(self._built, self.runs) == self.index.read_bytes(), True)
        (state,), = self.ask("SELECT state FROM settings")
        expect("current", os.readlink(self.store / "current"), f"states/{state}")
        names = names_in(self.store) - {"state.db-journal"}  # which SQLite leaves after a run that was killed
        expect("names", names, {"current", "runs", "state.db", "states"})
        expect("states", names_in(self.store / "states") <= {str(state), str(state - 1)}, True)
        used = {f"{number:06}.cdxj" for (number,) in self.ask(f"SELECT number FROM runs WHERE until IS NULL OR until = {state}")}
        expect("files", names_in(self.store / "runs") - used, set())
        manifest = json.loads((self.store / "current/manifest.json").read_text())
        listed = {each["file"]: each["size"] for each in manifest["runs"]}
        expect("manifest", listed, {path.name: path.stat().st_size for path in (self.store / "current").glob("*.cdxj")})
        expect("number of runs", len(listed) <= 40, True)
        beside = {name for name in names_in(self.index.parent) if name.startswith((".", self.index.name))}
        expect("files beside the index", beside, {self.index.name, self.store.name})


def names_in(folder: pathlib.Path) -> set[str]:
    return {path.name for path in folder.iterdir()}


def copy_sample(name: str, path: pathlib.Path) -> None:
    shutil.copy(ROOT / f"samples/{name}.warc", path)


def children_of(pid: int) -> list[str]:
    """Returns the processes that a process has started, by any of its threads."""
    found = []
    for path in pathlib.Path(f"/proc/{pid}/task").glob("*/children"):
        with contextlib.suppress(OSError):
            found += path.read_text().split()
    return found


def kill_group(process: "subprocess.Popen[bytes]", number: int) -> None:
    with contextlib.suppress(ProcessLookupError):
        os.killpg(process.pid, number)
