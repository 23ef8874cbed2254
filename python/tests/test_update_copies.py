"""Copies of an index, whose files have other inodes and times: a restored backup, or what `cp -r`, `tar` and `rsync` make; other updates."""
import contextlib
import errno
import os
import pathlib
import shutil
import sqlite3
import subprocess
import sys
import unittest
import zlib
from typing import Any
from unittest import mock

from warcdx import states
from warcdx.progress import Silent
from warcdx.update import Merging, Removal, Update
from warcdx.update_reports import Outcome
from warcdx.update_store import Store
from warcdx.update_tables import Settings
from warcdx.update_workers import Threads

from .support import PROGRAM, Case, resource

COMMAND = (sys.executable, pathlib.Path(__file__).resolve().parents[1] / "bin/warcdx-update", "--program", os.path.abspath(PROGRAM))


class Copies(Case):
    def setUp(self) -> None:
        super().setUp()
        self.archives = self.folder / "archives"
        self.archives.mkdir()
        for number in range(3):
            (self.archives / f"{number}.warc").write_bytes(resource(number) + resource(number + 5))

    def update(self, index: str, *words: str) -> str:
        """Updates an index in the folder `indexes`, and returns what was said of all archives."""
        done = subprocess.run((*COMMAND, *words, self.archives, f"indexes/{index}"), cwd=self.folder, capture_output=True, text=True)
        self.status = done.returncode
        return (done.stdout + done.stderr).rstrip("\n").rpartition("\n")[2].rpartition(": ")[2]

    def make(self, *indexes: str) -> None:
        (self.folder / "indexes").mkdir()
        for index in indexes:
            self.update(index)

    def copy(self) -> None:
        """Puts a copy in the place of the indexes. All its files are new, and have later times."""
        self.wait_for_a_later_time()
        shutil.copytree(self.folder / "indexes", self.folder / "copies", symlinks=True, copy_function=shutil.copyfile)
        shutil.rmtree(self.folder / "indexes")
        (self.folder / "copies").rename(self.folder / "indexes")

    def ask(self, question: str) -> list[tuple[Any, ...]]:
        with contextlib.closing(sqlite3.connect(self.folder / "indexes/all.d/state.db")) as database, database:
            return database.execute(question).fetchall()

    def runs(self) -> dict[str, bytes]:
        return {path.name: path.read_bytes() for path in (self.folder / "indexes/all.d/runs").iterdir()}

    def test_a_copy_of_the_folder_is_taken_as_it_is(self) -> None:
        self.make("all.d")
        (self.archives / "3.warc").write_bytes(resource(3))
        self.assertEqual("7 captures of 4 archives (1 indexed, 3 unchanged)", self.update("all.d"))
        runs, before = self.runs(), self.ask("SELECT mtime FROM runs")
        for is_without_links in (False, True):
            self.copy()
            if is_without_links:  # as by `rsync -r`
                for path in (self.folder / "indexes").rglob("*"):
                    path.unlink() if path.is_symlink() else None
            self.assertEqual("", self.update("all.d", "--dry-run"))
            self.assertEqual(before, self.ask("SELECT mtime FROM runs"))
            self.assertEqual("7 captures of 4 archives (4 unchanged)", self.update("all.d"))
            before = self.ask("SELECT mtime FROM runs ORDER BY number")
            times = [(path.stat().st_mtime_ns,) for path in sorted((self.folder / "indexes/all.d/runs").iterdir())]
            self.assertEqual((times, runs), (before, self.runs()))
        self.assertEqual(7, self.open(self.folder / "indexes/all.d").count())

    def test_archives_that_differ_are_indexed(self) -> None:
        self.make("all.d")
        self.copy()
        (self.archives / "1.warc").write_bytes(resource(9))
        (self.archives / "2.warc").unlink()
        self.assertEqual("3 captures of 2 archives (1 indexed, 1 unchanged, 1 removed)", self.update("all.d", "--remove", "1"))

    def test_runs_that_differ_are_made_anew(self) -> None:
        self.make("all.d")
        runs = self.runs()
        for content in (lambda old: old.replace(b"2016", b"2017", 1), lambda old: old[:-1], lambda old: b""):
            self.copy()
            for path in (self.folder / "indexes/all.d/runs").iterdir():
                path.write_bytes(content(path.read_bytes()))
            self.assertEqual("6 captures of 3 archives (3 indexed)", self.update("all.d"))
            self.assertIn(*runs.values(), self.runs().values())

    def test_a_copy_of_the_one_file_is_taken_as_it_is(self) -> None:
        self.make("all")
        file = self.folder / "indexes/all"
        for _ in range(2):
            self.copy()
            self.assertEqual("", self.update("all", "--dry-run"))
            self.assertEqual("6 captures of 3 archives (3 unchanged)", self.update("all"))
            text = file.read_bytes()
            self.assertEqual([(len(text), zlib.crc32(text))], self.ask("SELECT size, crc_32 FROM files"))
        self.copy()
        (self.archives / "3.warc").write_bytes(resource(3))
        self.assertEqual("7 captures of 4 archives (1 indexed, 3 unchanged)", self.update("all"))
        self.assertEqual(7, self.open(file).count())
        self.copy()
        changed = file.read_bytes().replace(b"2016", b"2017", 1)
        file.write_bytes(changed)
        for words in ((), ("--dry-run",)):
            self.assertEqual("give another INDEX", self.update("all", *words))
            self.assertEqual((3, changed), (self.status, file.read_bytes()))


class SmallUpdate(Case):
    def test_one_new_archive_needs_no_module_that_takes_long_to_load(self) -> None:
        (self.folder / "archives").mkdir()
        (self.folder / "archives/a.warc").write_bytes(resource(1))
        command = (COMMAND[0], "-X", "importtime", *COMMAND[1:], "--quiet", "archives", "all.d")
        said = subprocess.run(command, cwd=self.folder, stderr=subprocess.PIPE, text=True, check=True).stderr
        loaded = {line.rpartition("|")[2].strip() for line in said.splitlines()}
        self.assertIn("sqlite3", loaded)
        self.assertEqual(set(), loaded & {"concurrent.futures", "difflib", "logging"})


class FirstState(Case):
    def test_without_a_first_state_there_is_no_index(self) -> None:
        """The disk is full when readers are to see it."""
        (self.folder / "archives").mkdir()
        store, outcomes = Store(str(self.folder / "all.d")), list[Outcome]()
        update = Update(Settings(str(self.folder / "archives"), False, "response"), store, None, PROGRAM, Merging(8, False), Silent())
        for fault in (OSError(errno.ENOSPC, "No space left on device"), None):
            with mock.patch.object(states, "show", side_effect=fault, wraps=states.show), update.done(
                Removal(0, False), Threads(1)
            ) as outcome:
                outcomes.append(outcome)
        self.assertEqual([("No space left on device", False), (None, True)], [(outcome.failure, outcome.is_there) for outcome in outcomes])


if __name__ == "__main__":
    unittest.main()
