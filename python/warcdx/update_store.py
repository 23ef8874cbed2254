"""The folder of an index, with the database of what is in its runs.

A run has a number that no other run has had, and is never changed. The database has the largest number that was given, so that what a
run of the command made before it was ended is known by its name. What the database says of a state is there before readers see it.
"""
import contextlib
import errno
import json
import os
import re
import sqlite3
from collections.abc import Iterable, Iterator, Mapping, Sequence
from typing import Any, Optional

from . import states, update_tables
from .ending import blocked
from .files import is_regular, remove, write_to_disk
from .url_keys import host_of
from .update_tables import Archive, CannotUpdate, Merged, Noted, Run, Settings, text_of
from .update_tasks import FIELDS, MOST_VALUES, Indexed, Written, crc_32_of, state_of

DATABASE = "state.db"
FORM = 3  # of the database
MOST_SHOWN = 100  # values of a field in a summary
_APPLICATION = 0x57434458  # marks the database as one of this command
_BEGUN = {DATABASE, f"{DATABASE}-journal"}
_RUN = re.compile(r"([0-9]{6,18})\.(?:cdxj|new-[0-9a-f]{16})")
_WAY_OUT = "restore it from a backup, or move the index away and make it anew"
_MOST_KNOWN = 1000  # files that are known as made by the command


class Store:
    """The folder. Its methods raise OSError, or CannotUpdate, also if another process has the database."""

    def __init__(self, path: str) -> None:
        self.folder = os.path.realpath(path)
        self.runs_folder = f"{self.folder}/{states.RUNS}"
        if os.path.islink(path) and not os.path.exists(path):
            raise CannotUpdate(f"{path} is a link that leads to nothing; is its disk mounted?")
        self._path = f"{self.folder}/{DATABASE}"
        self._database: sqlite3.Connection

    def is_made(self) -> bool:
        """Returns whether the folder is one of an index. Raises CannotUpdate if it is used otherwise."""
        if is_regular(self._path):
            with self._connected():
                return self._is_made()
        self._expect_unused(set())
        return False

    def _is_made(self) -> bool:
        """Returns whether the database has the tables of an index. Raises CannotUpdate if others have changed them."""
        is_begun = not self._ask("SELECT 1 FROM sqlite_master LIMIT 1")
        if is_begun or self._ask("PRAGMA application_id") != [(_APPLICATION,)]:
            self._expect_unused(_BEGUN if is_begun else set())
            return False
        if self._ask("PRAGMA user_version") != [(FORM,)]:
            raise CannotUpdate(f"another version of warcdx-update has made {self.folder}")
        if not update_tables.are_whole(self._database):
            raise _changed_by_others(self._path)
        return True

    def _expect_unused(self, begun: "set[str]") -> None:
        """Raises CannotUpdate if the folder has something else than what was begun."""
        try:
            names = set(os.listdir(self.folder)) - begun
        except FileNotFoundError:
            return
        if {states.CURRENT, *states.FOLDERS} <= names:
            raise _changed_by_others(self._path) if os.path.lexists(self._path) else CannotUpdate(f"{self._path} is missing; {_WAY_OUT}")
        if names:
            raise CannotUpdate(f"warcdx-update hasn't made all that is in {self.folder}, and doesn't use it; give another INDEX")

    @contextlib.contextmanager
    def locked(self, settings: Settings) -> Iterator[None]:
        """Keeps other processes from the folder, makes it if there is none, and removes what an ended run of the command has left.

        What is made here is removed if nothing but the database was made. A folder that was there before stays.
        """
        if not is_regular(self._path) or is_regular(self._path, 0):
            self.is_made()  # so that nothing is made in a folder that is used otherwise
        is_own = states.make_folder(self.folder)
        try:
            with self._connected(is_alone=True):
                is_new = not self._is_made()  # another run may have filled it since
                try:
                    if is_new:
                        self._make(settings)
                    settings.expect(self.noted.settings)
                    for name in states.FOLDERS:
                        states.make_folder(f"{self.folder}/{name}")
                    self._recover()
                    try:
                        yield
                    finally:
                        self.clear()
                except BaseException:
                    if is_new:
                        self._remove_unused()
                    raise
        except BaseException:
            if is_own:
                with contextlib.suppress(OSError):  # it isn't empty
                    os.rmdir(self.folder)
            raise

    @contextlib.contextmanager
    def opened(self, settings: Settings) -> Iterator[None]:
        """Opens the database to read it, or one without archives if the folder isn't made yet."""
        if self.is_made():
            with self._connected():
                settings.expect(self.noted.settings)
                yield
        else:
            with contextlib.closing(sqlite3.connect(":memory:")) as self._database:
                self._database.executescript(";".join(update_tables.STATEMENTS))
                yield

    @property
    def noted(self) -> Noted:
        ((folder, recursive, types, *others),) = self._ask("SELECT * FROM settings")
        return Noted(Settings(folder, bool(recursive), types), *others)

    def archives(self) -> dict[str, Archive]:
        """Returns the archives that were indexed, by their names."""
        rows = self._ask("SELECT name, size, mtime, ctime, inode, cause, captures, run FROM archives")
        return {name: Archive((size, mtime, ctime, inode), *rest) for name, size, mtime, ctime, inode, *rest in rows}

    def runs(self) -> list[Run]:
        """Returns the runs that are in the last state, or will be in the next one, the smallest first."""
        rows = self._ask(
            "SELECT number, size, mtime, crc_32, captures, since, IFNULL(kept, 0) FROM runs LEFT JOIN (SELECT run, SUM(captures) AS kept "
            "FROM archives GROUP BY run) ON run = number WHERE until IS NULL ORDER BY size, number"
        )
        return [Run(*row) for row in rows]

    def names_in(self, run: Run) -> list[str]:
        """Returns the archives of a run that the index has still."""
        return [name for (name,) in self._ask("SELECT name FROM archives WHERE run = ? ORDER BY name", run.number)]

    def is_whole(self, run: Run) -> bool:
        """Returns whether the file of a run is as it was written, or a copy."""
        path = f"{self.runs_folder}/{run.file}"
        return is_regular(path, run.size) and (state_of(path)[1] == run.mtime or crc_32_of(path) == run.crc_32)

    def faults(self) -> dict[str, str]:
        """Returns the faults that were reported, by archives and folders."""
        return dict(self._ask("SELECT archive, message FROM faults"))

    def remember(self, faults: Mapping[str, str]) -> None:
        if faults != self.faults():
            with self._transaction():
                self._ask("DELETE FROM faults")
                self._each("INSERT INTO faults VALUES (?, ?)", faults.items())

    def reserve(self, count: int) -> list[int]:
        """Returns numbers of runs that are made next."""
        with self._transaction():
            last = self.noted.last
            self._ask("UPDATE settings SET last = ?", last + count)
        return list(range(last + 1, last + count + 1))

    def new(self, number: int) -> str:
        """Returns how the path begins at which a task makes a run of this number."""
        return f"{self.runs_folder}/{number:06}.new"

    def add(self, number: int, written: Written, archives: Sequence[Indexed]) -> None:
        """Adds a run of archives, instead of what the database has of these."""
        path, size, crc_32, captures, counts = written
        with self._transaction():
            if captures:
                self._add_run(number, path, size, crc_32, captures)
                self._add_counts(number, counts)
            else:
                remove(path)
            rows = ((name, *state, cause, count, number if count else None) for name, state, cause, count in archives)
            self._each("INSERT OR REPLACE INTO archives VALUES (?, ?, ?, ?, ?, ?, ?, ?)", rows)

    def forget(self, archives: Iterable[str]) -> None:
        """Removes archives. Their captures are in the runs until these are replaced."""
        with self._transaction():
            self._each("DELETE FROM archives WHERE name = ?", ((name,) for name in archives))

    def replace(self, run: Run, number: int, written: Written) -> None:
        """Adds a run with the captures of another one that the index has still. The states have that one until the next is made."""
        path, size, crc_32, captures, counts = written
        self._expect(run.left, captures)
        with self._transaction():
            self._add_run(number, path, size, crc_32, captures)
            self._add_counts(number, counts)
            self._ask("UPDATE archives SET run = ? WHERE run = ?", number, run.number)

    def publish(self, merged: Optional[Merged], unused: Sequence[Run], members: Mapping[str, Any]) -> None:
        """Makes a state without the unused runs, with a run that was made of others, and a summary with these members."""
        with self._transaction():
            state = self.noted.state + 1
            gone = [(state, run.number) for run in (*unused, *(merged.runs if merged else ()))]
            if merged is not None:
                self._add_merged(merged)
            self._each("UPDATE runs SET until = ? WHERE number = ?", gone)
            self._ask("DELETE FROM counts WHERE run IN (SELECT number FROM runs WHERE until IS NOT NULL)")
            self._ask("DELETE FROM runs WHERE since IS NULL AND until IS NOT NULL")
            is_changed = bool(gone or self._ask("SELECT 1 FROM runs WHERE since IS NULL") or state == 1)
            self._ask("UPDATE runs SET since = ? WHERE since IS NULL", state)
            summary = json.dumps({**self._counted(), **members})
            self._ask(
                "UPDATE settings SET state = ?, changed = ?, summary = ?", state, state if is_changed else self.noted.changed, summary
            )
        self._show()

    def clear(self) -> None:
        """Removes what no state has that may be in use, and what is unfinished."""
        with blocked():
            self._ask("DELETE FROM runs WHERE until < ?", self.noted.state)
            last = self.noted.last
            used = {f"{number:06}.cdxj" for (number,) in self._ask("SELECT number FROM runs")}
            for name in os.listdir(self.runs_folder):
                found = _RUN.fullmatch(name)
                if found and 0 < int(found[1]) <= last and name not in used:
                    remove(f"{self.runs_folder}/{name}")
            states.remove_before(self.folder, self.noted.state - 1)

    def know(self, size: int, crc_32: int) -> None:
        """Notes by what a file with the runs of the last state is known."""
        with self._transaction():
            self._ask("INSERT INTO files VALUES (?, ?, ?)", size, crc_32, self.noted.changed)
            self._ask("DELETE FROM files WHERE rowid <= last_insert_rowid() - ?", _MOST_KNOWN)

    def known(self, path: str) -> Optional[int]:
        """Returns the first state with the runs of a file that an update has made, or None for another file."""
        rows = self._ask("SELECT crc_32, state FROM files WHERE size = ? ORDER BY rowid DESC", os.path.getsize(path))
        found = crc_32_of(path) if rows else 0
        return next((state for crc_32, state in rows if crc_32 == found), None)

    def _make(self, settings: Settings) -> None:
        with self._transaction():
            for statement in update_tables.STATEMENTS:
                self._ask(statement)
            self._ask(
                "INSERT INTO settings VALUES (?, ?, ?, ?, 0, 0, 0, '{}')",
                *settings._replace(folder=text_of(settings.folder)),
                os.urandom(16).hex(),
            )
            self._ask(f"PRAGMA application_id = {_APPLICATION}")
            self._ask(f"PRAGMA user_version = {FORM}")

    def _remove_unused(self) -> None:
        with contextlib.suppress(OSError):
            for name in states.FOLDERS:
                if os.path.exists(f"{self.folder}/{name}"):
                    os.rmdir(f"{self.folder}/{name}")
            if set(os.listdir(self.folder)) <= _BEGUN:
                for name in _BEGUN:
                    remove(f"{self.folder}/{name}")

    def _recover(self) -> None:
        """Makes the last state if it isn't there, notes the times of copied runs, and removes what an ended run of the command has left."""
        shown = states.shown(self.folder)
        for link in (f"{self.folder}/{states.CURRENT}", f"{self.folder}/{states.STATES}/{states.CURRENT}"):
            if os.path.lexists(link) and not states.is_link(link):
                raise CannotUpdate(f"warcdx-update hasn't made {link}, and doesn't replace it")
        self._expect_no_later_run()
        if self.noted.state and not (shown == self.noted.state and states.is_whole(self.folder, self.noted.state, self._listed())):
            self._show()
        for run in filter(self.is_whole, self.runs()):
            if (mtime := state_of(f"{self.runs_folder}/{run.file}")[1]) != run.mtime:
                self._ask("UPDATE runs SET mtime = ? WHERE number = ?", mtime, run.number)
        self.clear()

    def _expect_no_later_run(self) -> None:
        """Raises CannotUpdate if there is a run with a number that wasn't given. A run that is made would replace it."""
        last = self.noted.last
        for name in os.listdir(self.runs_folder):
            if name.endswith(".cdxj") and (found := _RUN.fullmatch(name)) and int(found[1]) > last:
                raise CannotUpdate(f"warcdx-update hasn't made {self.runs_folder}/{name}, or {self._path} is older than it")

    def _show(self) -> None:
        write_to_disk(self.runs_folder)
        states.show(self.folder, self.noted.state, self._listed(), json.loads(self.noted.summary))

    def _listed(self) -> list[states.Listed]:
        """Returns the runs of the last state."""
        return [states.Listed(run.file, run.size, run.captures) for run in self.runs() if run.since is not None]

    def _add_run(self, number: int, path: str, size: int, crc_32: int, captures: int) -> None:
        _, mtime, _, _ = state_of(path)
        os.replace(path, f"{self.runs_folder}/{number:06}.cdxj")
        self._ask("INSERT INTO runs VALUES (?, ?, ?, ?, ?, NULL, NULL)", number, size, mtime, crc_32, captures)

    def _add_counts(self, number: int, counts: Mapping[str, Mapping[str, int]]) -> None:
        rows = ((number, field, value, count) for field, each in counts.items() for value, count in each.items())
        self._each("INSERT INTO counts VALUES (?, ?, ?, ?)", rows)

    def _add_merged(self, merged: Merged) -> None:
        """Adds a run that was made of others, with their counts. Raises CannotUpdate if it hasn't the size and captures that it has to have."""
        number, path, size, crc_32, runs = merged
        numbers = ",".join(str(run.number) for run in runs)
        (captures,) = self._ask(f"SELECT SUM(captures) FROM archives WHERE run IN ({numbers})")[0]
        self._expect(captures, sum(run.captures for run in runs), size == sum(run.size for run in runs))
        self._add_run(number, path, size, crc_32, captures)
        self._ask(f"UPDATE archives SET run = ? WHERE run IN ({numbers})", number)
        for field in FIELDS:
            self._ask(
                f"INSERT INTO counts SELECT ?, field, value, SUM(captures) AS captures FROM counts WHERE run IN ({numbers}) AND field = ? "
                "GROUP BY value ORDER BY captures DESC, value LIMIT ?",
                number, field, MOST_VALUES,
            )  # fmt: skip

    @staticmethod
    def _expect(wanted: int, captures: int, is_whole: bool = True) -> None:
        """Raises CannotUpdate unless runs have as many captures as their archives, and all bytes."""
        if captures != wanted or not is_whole:
            raise CannotUpdate(f"the archives of runs have {wanted:,} captures, and the runs {captures:,}, or these were changed")

    def _counted(self) -> dict[str, Any]:
        """Returns the counts of a summary."""
        if not update_tables.has_types(self._database, "counts"):
            raise _changed_by_others(self._path)
        in_runs = "FROM counts JOIN runs ON run = number WHERE until IS NULL AND field = ?"
        (captures,) = self._ask("SELECT IFNULL(SUM(captures), 0) FROM runs WHERE until IS NULL")[0]
        found: dict[str, Any] = {"captures": captures}
        for field in FIELDS:
            order = "value" if field == "years" else "2 DESC, value"
            most = MOST_VALUES if field == "years" else MOST_SHOWN
            rows = self._ask(f"SELECT value, SUM(counts.captures) {in_runs} GROUP BY value ORDER BY {order} LIMIT ?", field, most)
            found[field] = {host_of(f"{value})/") or value if field == "hosts" else value: count for value, count in rows}
        counted = {field: self._ask(f"SELECT IFNULL(SUM(counts.captures), 0) {in_runs}", field)[0][0] for field in FIELDS}
        return {**found, "others": {field: captures - count for field, count in counted.items()}}

    def _ask(self, text: str, *values: Any) -> list[Any]:
        with _errors_of(self._path):
            return self._database.execute(text, values).fetchall()

    def _each(self, text: str, rows: Iterable[Sequence[Any]]) -> None:
        with _errors_of(self._path):
            self._database.executemany(text, rows)

    @contextlib.contextmanager
    def _connected(self, is_alone: bool = False) -> Iterator[None]:
        """Opens the database, and lets no other process open it if this one is to be alone."""
        with _errors_of(self._path), contextlib.closing(sqlite3.connect(self._path, timeout=0, isolation_level=None)) as self._database:
            if is_alone:
                self._ask("PRAGMA locking_mode = EXCLUSIVE")
                try:
                    with self._transaction():
                        pass
                except (OSError, CannotUpdate) as error:  # the database is locked all the same, unless it is another's
                    if not isinstance(error, (_Locked, PermissionError)) and is_regular(self._path, 0):
                        self._remove_unused()
                    raise
            yield

    @contextlib.contextmanager
    def _transaction(self) -> Iterator[None]:
        """Commits what a block does at its end, or nothing of it. A signal comes after it."""
        with blocked():
            self._ask("BEGIN EXCLUSIVE")
            try:
                yield
                self._ask("COMMIT")
            except BaseException:
                with contextlib.suppress(Exception):
                    self._ask("ROLLBACK")
                raise


class _Locked(CannotUpdate):
    """Another process has the database."""


def _changed_by_others(path: str) -> CannotUpdate:
    return CannotUpdate(f"{path} isn't as warcdx-update has written it; {_WAY_OUT}")


@contextlib.contextmanager
def _errors_of(path: str) -> Iterator[None]:
    """Raises errors of a database as those of the system, or CannotUpdate."""
    try:
        yield
    except sqlite3.Error as error:
        said = str(error)
        if "is locked" in said:
            raise _Locked("another process updates this index") from None
        if "Could not decode" in said:  # a text that isn't UTF-8
            raise _changed_by_others(path) from None
        for words, number in (("is full", errno.ENOSPC), ("readonly", errno.EACCES)):
            if words in said:
                raise OSError(number, os.strerror(number), path) from None
        way = f"; {_WAY_OUT}" if type(error) is sqlite3.DatabaseError else ""  # and not one of its kinds: the file is damaged
        raise CannotUpdate(f"{path}: {said}{way}") from None
    except (OverflowError, UnicodeDecodeError):  # such as of an error that has a part of a damaged text
        raise _changed_by_others(path) from None
