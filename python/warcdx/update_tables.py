"""The tables of the database of an index, and what their rows are.

Types are checked by conditions, as SQLite has no strict tables before version 3.37.
"""
import json
import sqlite3
from collections.abc import Sequence
from typing import NamedTuple, Optional

from .update_tasks import State

_CONDITIONS = {
    "TEXT": "typeof({0}) = 'text'",
    "INTEGER": "typeof({0}) = 'integer' AND {0} >= 0",
    "INTEGER?": "({0} IS NULL OR typeof({0}) = 'integer' AND {0} >= 0)",
}
_COLUMNS = {
    "settings": "folder TEXT, recursive INTEGER, types TEXT, token TEXT, last INTEGER, state INTEGER, changed INTEGER, summary TEXT",
    "runs": "number INTEGER, size INTEGER, mtime INTEGER, crc_32 INTEGER, captures INTEGER, since INTEGER?, until INTEGER?",
    "archives": "name TEXT, size INTEGER, mtime INTEGER, ctime INTEGER, inode INTEGER, cause TEXT, captures INTEGER, run INTEGER?",
    "counts": "run INTEGER, field TEXT, value TEXT, captures INTEGER",
    "faults": "archive TEXT, message TEXT",
    "files": "size INTEGER, crc_32 INTEGER, state INTEGER",
}
_ENDS = {
    "runs": ", PRIMARY KEY (number))",
    "archives": ", PRIMARY KEY (name))",
    "counts": ", PRIMARY KEY (run, field, value)) WITHOUT ROWID",
    "faults": ", PRIMARY KEY (archive))",
}


def _condition_of(table: str) -> str:
    columns = (column.split(" ") for column in _COLUMNS[table].split(", "))
    return " AND ".join(_CONDITIONS[kind].format(name) for name, kind in columns)


def _statement_of(table: str) -> str:
    columns = _COLUMNS[table].replace("?", "")
    return f"CREATE TABLE {table} ({columns}, CHECK ({_condition_of(table)}){_ENDS.get(table, ')')}"


STATEMENTS = tuple(map(_statement_of, _COLUMNS))


def are_whole(database: sqlite3.Connection) -> bool:
    """Returns whether a database has these tables, with one row of settings and values of their types. Those of `counts` aren't looked at."""
    made = "SELECT sql FROM sqlite_master WHERE type IN ('table', 'trigger') AND name NOT LIKE 'sqlite%'"
    return (
        set(database.execute(made)) == {(statement,) for statement in STATEMENTS}
        and database.execute("SELECT COUNT(*) FROM settings").fetchone() == (1,)
        and all(has_types(database, table) for table in _COLUMNS if table != "counts")
        and _is_object(database.execute("SELECT summary FROM settings").fetchone()[0])
    )


def _is_object(text: str) -> bool:
    try:
        return isinstance(json.loads(text), dict)
    except (RecursionError, ValueError):
        return False


def has_types(database: sqlite3.Connection, table: str) -> bool:
    """Returns whether the values of a table have its types: they may have been written with its conditions ignored."""
    return database.execute(f"SELECT 1 FROM {table} WHERE NOT ({_condition_of(table)}) LIMIT 1").fetchone() is None


class CannotUpdate(Exception):
    """The index can't be brought up to date, and stays as it was."""


def text_of(name: str) -> str:
    """Returns a name as a database takes it, also one that isn't UTF-8."""
    return name.encode(errors="backslashreplace").decode()


class Settings(NamedTuple):
    """The real path of the folder of archives, whether the folders below are read too, and the types that are indexed."""

    folder: str
    recursive: bool
    types: str

    def expect(self, made: "Settings") -> None:
        """Raises CannotUpdate if an index was made with other settings."""
        if made.folder != text_of(self.folder):
            moved = "or, if that was moved, write its new path into state.db as docs/FOLDER.md says"
            raise CannotUpdate(f"it is the index of another folder, {made.folder}; give another INDEX, {moved}")
        if made.recursive != self.recursive:
            how = "with --recursive: give it too" if made.recursive else "without --recursive: leave it out"
            raise CannotUpdate(f"it was made {how}, or give another INDEX")
        if made.types != self.types:
            raise CannotUpdate(f"it was made with --types {made.types}: give the same, or another INDEX")


class Noted(NamedTuple):
    """The row of settings: those of the first run, and a word that no other folder has, unless it is a copy.

    `last` is the largest number that a run was given, `state` the number of the last state, and `changed` that of the first one with its runs.
    """

    settings: Settings
    token: str
    last: int
    state: int
    changed: int
    summary: str


class Archive(NamedTuple):
    """An archive as it was when it was indexed: what the program reported of it, and how many captures it has in which run."""

    state: State
    cause: str
    captures: int
    run: Optional[int]


class Run(NamedTuple):
    """A run: its size in bytes, the time of its file in nanoseconds, its CRC-32, its captures, and the first state that has it.

    `left` are the captures of archives that the index has still.
    """

    number: int
    size: int
    mtime: int
    crc_32: int
    captures: int
    since: Optional[int]
    left: int

    @property
    def file(self) -> str:
        return f"{self.number:06}.cdxj"


class Merged(NamedTuple):
    """A run that was made of others: its number, the path of its file, its size in bytes, its CRC-32, and those others."""

    number: int
    path: str
    size: int
    crc_32: int
    runs: Sequence[Run]
