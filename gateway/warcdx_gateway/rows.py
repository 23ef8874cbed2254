"""Rows: the values of captures, what is done with them one after another, and their text."""
import json
import re
from collections.abc import Sequence
from dataclasses import dataclass
from enum import Enum
from typing import Any, Optional, Union
from urllib.parse import quote_plus

from warcdx import FIELDS

from .refusal import Refusal

# The fields of the program, the line of the index, and the fields that the gateway makes.
ORIGINALS = ("orig.length", "orig.offset", "orig.filename")
# Columns of other servers that indexes in CDXJ don't have. And those of captures that a collapse
# has made one: the last timestamp, how many they are, how many digests they have, and how many were
# left out.
UNKNOWN = ("redirect", "robotflags")
GROUPED = ("endtimestamp", "groupcount", "uniqcount", "skipcount")
COLUMNS = (*FIELDS, "line", "dupecount", *UNKNOWN, *GROUPED, *ORIGINALS)
PLACES = {name: place for place, name in enumerate(COLUMNS)}
KEY, STAMP, DIGEST, OFFSET, NAME, LINE, COUNT = (
    PLACES[name] for name in ("urlkey", "timestamp", "digest", "offset", "filename", "line", "dupecount")
)
MIME, STATUS, LENGTH = (PLACES[name] for name in ("mimetype", "statuscode", "length"))
END, GROUP_COUNT, DIGEST_COUNT, SKIPPED = (PLACES[name] for name in GROUPED)
ADDED = ["", "0", "-", "-", "", "1", "1", "0", "-", "-", "-"]
MOST_DIGESTS = 100_000  # of a group
MEMBERS = ("url", "mime", "status", "digest", "length", "offset", "filename")

_CONTROLS = re.compile("[\x00-\x20\x7f]")

Row = list[str]


def row_of_values(values: Sequence[str]) -> Row:
    """Returns the row of the values of all fields of the program."""
    return [*values, *ADDED]


def row_of_line(line: str) -> Row:
    """Returns the row of a line of an index, without its line feed."""
    key, stamp, text = line.split(" ", 2)
    members: dict[str, Any] = json.loads(text, parse_float=lambda _: None, parse_int=number_of)
    row = [key, stamp, *(text_of(members.get(name)) for name in MEMBERS), *ADDED]
    row[OFFSET] = row[OFFSET].lstrip("0") or "0"
    row[LINE] = line
    return row


def number_of(digits: str) -> object:
    """Returns a number as a line has it if it is one from 0 to 2^64 - 1 without a sign."""
    return digits if digits.isdigit() and len(digits) <= 20 and int(digits) < 2**64 else None


def text_of(value: object) -> str:
    return value if isinstance(value, str) and value else "-"


def resume_key(row: Row) -> str:
    """Returns the place of a row as a resume key, encoded as the program writes it."""
    place = " ".join((row[KEY], row[STAMP], row[NAME], row[OFFSET]))
    return quote_plus(place, safe="*").replace("~", "%7E")


@dataclass(frozen=True)
class Collapse:
    """Consecutive captures with the same first characters of a field are one.

    Without `count` it is the whole value.
    """

    field: str
    count: Optional[int] = None


class Unknown(Enum):
    PART = 0


UNKNOWN_PART = Unknown.PART
Part = Union[str, Unknown, None]  # of a value; None is before the first capture


class Output(Enum):
    """How captures are written."""

    TEXT = "text"
    JSON = "json"  # one array of rows
    CDXJ = "cdxj"  # the lines of the index
    LINES = "lines"  # an object on each line


class Collapser:
    """Gives the first of consecutive captures with the same part of a field.

    With several collapses, each is of what the one before it gives. It holds one part for each in `last`,
    which is what each has got before the first capture. With UNKNOWN_PART a collapse gives the first
    capture that it gets to none after it: what it then gives is what it would give in any case.
    """

    def __init__(self, collapses: Sequence[Collapse], last: Sequence[Part]) -> None:
        self._parts = [(PLACES[collapse.field], collapse.count) for collapse in collapses]
        self.last = [*last]

    def select(self, rows: list[Row]) -> list[Row]:
        for number, (place, count) in enumerate(self._parts):
            given: list[Row] = []
            last = self.last[number]
            for row in rows:
                part = row[place][:count]
                if part != last:
                    if last is not UNKNOWN_PART:
                        given.append(row)
                    last = part
            self.last[number] = last
            rows = given
        return rows

    def rest(self) -> list[Row]:
        """Returns the captures that weren't given yet, after the last one was taken."""
        return []


class Grouper(Collapser):
    """Does one collapse, and gives the columns GROUPED. It holds the digests of a group."""

    def __init__(self, collapses: Sequence[Collapse], last: Sequence[Part]) -> None:
        super().__init__(collapses, last)
        self._first: Optional[Row] = None
        self._digests: set[int] = set()

    def select(self, rows: list[Row]) -> list[Row]:
        done: list[Row] = []
        for row in rows:
            if super().select([row]):
                done += self.rest()
                self._first, self._digests = row, set()
                row[GROUP_COUNT] = "0"
            if self._first is not None:  # otherwise its first capture was given before
                first = self._first
                self._digests.add(hash(row[DIGEST]))
                if len(self._digests) > MOST_DIGESTS:
                    cause = f"captures that are one have more than {MOST_DIGESTS} digests"
                    raise Refusal("TooMany", "collapse", cause)
                first[END], first[GROUP_COUNT] = row[STAMP], str(int(first[GROUP_COUNT]) + 1)
                first[DIGEST_COUNT] = str(len(self._digests))
                first[SKIPPED] = str(int(first[GROUP_COUNT]) - 1)
        return done

    def rest(self) -> list[Row]:
        return [] if self._first is None else [self._first]


class Writer:
    """Writes an answer in pieces, of lines: `rows` for some captures each time, then `end`.

    `fields` are pairs of a column and its name in the answer. Here a line has the values.
    """

    def __init__(self, fields: Sequence[tuple[str, str]]) -> None:
        self._names = [name for _, name in fields]
        self._places = [PLACES[column] for column, _ in fields]

    def values(self, row: Row) -> list[str]:
        return [row[place] for place in self._places]

    def line(self, row: Row) -> str:
        return " ".join(map(escaped, self.values(row)))

    def rows(self, rows: Sequence[Row]) -> bytes:
        """Returns the text of some captures."""
        return "".join(self.line(row) + "\n" for row in rows).encode()

    def end(self, key: Optional[str]) -> bytes:
        """Returns the end of the answer, with the resume key if there is one."""
        return b"" if key is None else f"\n{key}\n".encode()


class LineWriter(Writer):
    """The lines of the index."""

    def line(self, row: Row) -> str:
        return row[LINE]


class ObjectWriter(Writer):
    """An object on each line, as pywb writes it."""

    def line(self, row: Row) -> str:
        return json.dumps(dict(zip(self._names, self.values(row))), ensure_ascii=False)


class ArrayWriter(Writer):
    """One array of rows, the first of which has the names of the fields."""

    def __init__(self, fields: Sequence[tuple[str, str]]) -> None:
        super().__init__(fields)
        self._head = "[" + array(self._names)

    def rows(self, rows: Sequence[Row]) -> bytes:
        head, self._head = self._head, ""
        return (head + "".join(",\n" + array(self.values(row)) for row in rows)).encode()

    def end(self, key: Optional[str]) -> bytes:
        shown = "" if key is None else f',\n[],\n["{key}"]'
        return self.rows(()) + f"{shown}]\n".encode()


WRITERS = {Output.TEXT: Writer, Output.JSON: ArrayWriter, Output.CDXJ: LineWriter, Output.LINES: ObjectWriter}


def array(values: Sequence[str]) -> str:
    return json.dumps(values, ensure_ascii=False, separators=(",", ":"))


def escaped(value: str) -> str:
    """Returns a value as the program writes it as text: without spaces and controls."""
    if value.isprintable() and " " not in value:
        return value
    return _CONTROLS.sub(lambda found: f"%{ord(found[0]):02X}", value)
