"""Query texts, and the captures that a query selects."""
import datetime
from collections.abc import Iterable, Iterator, Sequence
from dataclasses import dataclass
from typing import NamedTuple, Optional, Union
from urllib.parse import quote_plus, unquote_plus

from .reported import refused
from .stamps import Moment, stamp_of

Texts = Union[str, Iterable[str]]
Value = Union[Moment, Texts]
RowPage = tuple[list[list[str]], Optional[str]]  # the rows of a page, and the resume key of the next

MOST_LIMIT = 1_000_000  # the largest limit of the program
MOST_TEXT = 65_536  # bytes of a query text
_MOST_DIGITS = 20


class Capture(NamedTuple):
    """A line of an index, by the names of the fields of a query. What a line doesn't have is `-`.

    `timestamp` is 14 digits, in UTC. `offset` is in bytes from the start of the archive `filename`. `length` is
    the record's length in bytes, or None if the line has no such number.
    """

    urlkey: str
    timestamp: str
    original: str
    mimetype: str
    statuscode: str
    digest: str
    length: Optional[int]
    offset: int
    filename: str

    @classmethod
    def of(cls, row: Sequence[str]) -> "Capture":
        """Returns the capture with these values of all fields, in the order of FIELDS."""
        key, stamp, url, mime, status, digest, length, offset, name = row
        return cls(key, stamp, url, mime, status, digest, length_of(length), int(offset), name)

    @property
    def datetime(self) -> Optional[datetime.datetime]:
        """The timestamp as a date and time in UTC, or None if there is no such date: indexes may have any 14 digits."""
        try:
            return datetime.datetime.strptime(self.timestamp, "%Y%m%d%H%M%S").replace(tzinfo=datetime.timezone.utc)
        except ValueError:
            return None


def length_of(text: str) -> Optional[int]:
    """Returns the length that a line has, or None if it isn't a number."""
    return int(text) if text.isascii() and text.isdigit() and len(text) <= _MOST_DIGITS else None


@dataclass(frozen=True)
class Page:
    """The captures of a page, over which it iterates, and the resume key of the next page, or None if there is none."""

    captures: tuple[Capture, ...]
    resume_key: Optional[str]

    def __iter__(self) -> Iterator[Capture]:
        return iter(self.captures)

    def __len__(self) -> int:
        return len(self.captures)

    def __getitem__(self, number: int) -> Capture:
        return self.captures[number]


class Query(NamedTuple):
    """The pieces of a query text, each `name=value`, encoded."""

    pieces: tuple[str, ...]

    @classmethod
    def of(cls, text: Optional[str], parameters: dict[str, Value]) -> "Query":
        """Returns the query of a text and of further parameters."""
        pieces = [piece for piece in one_line(text or "").split("&") if piece]
        for name, value in parameters.items():
            if value is not None:
                pieces += encoded(name.rstrip("_"), value)
        return cls(tuple(pieces))

    def take(self, name: str) -> tuple[Optional[str], "Query"]:
        """Returns the value of the first parameter of this name, as it is written, and the query without it."""
        for number, piece in enumerate(self.pieces):
            found, _, value = piece.partition("=")
            if unquote_plus(found) == name:
                return value, Query(self.pieces[:number] + self.pieces[number + 1 :])
        return None, self

    def has(self, name: str, value: str) -> bool:
        found = self.take(name)[0]
        return found is not None and unquote_plus(found) == value

    def with_parameters(self, **parameters: Value) -> "Query":
        return Query((*self.pieces, *Query.of(None, parameters).pieces))

    def encoded(self) -> bytes:
        return in_bytes(str(self))

    def __str__(self) -> str:
        return "&".join(self.pieces)


def rows_query(query: Query, fields: Sequence[str], size: Optional[int]) -> Query:
    """Returns the query for the rows of a page of at most `size` captures, with the resume key of the next."""
    asked = query.with_parameters(output="json", fl=",".join(fields), showResumeKey=True)
    return asked if size is None else asked.with_parameters(limit=size)


def fits(query: Query, fields: Sequence[str]) -> bool:
    """Returns whether the query for a page of rows, of any size, isn't too long for the program."""
    return len(rows_query(query, fields, MOST_LIMIT).encoded()) <= MOST_TEXT


def split_rows(rows: list[list[str]]) -> RowPage:
    """Returns the captures of the rows of a page, and the resume key of the next page."""
    if len(rows) > 2 and not rows[-2]:
        return rows[1:-2], rows[-1][0]
    return rows[1:], None


def in_bytes(text: str) -> bytes:
    """Returns a text in UTF-8, with the bytes that surrogates stand for. Raises the refusal NotText for other surrogates."""
    try:
        return text.encode(errors="surrogateescape")
    except UnicodeEncodeError:
        raise refused("NotText") from None


def one_line(text: str) -> str:
    """Returns a query text without line breaks, which means the same."""
    return text.replace("\r", "%0D").replace("\n", "%0A")


def encoded(name: str, value: Value) -> list[str]:
    """Returns a piece for each value. A resume key is encoded already."""
    if name == "resumeKey" and isinstance(value, str):
        return [f"resumeKey={one_line(value)}"]
    if isinstance(value, bool):
        values: Iterable[str] = ("true" if value else "false",)
    elif isinstance(value, datetime.date):
        values = (stamp_of(name, value),)
    elif isinstance(value, (int, str)):
        values = (str(value),)
    else:
        values = () if value is None else tuple(value) if isinstance(value, Iterable) else (value,)
    for each in values:
        if not isinstance(each, str):
            raise TypeError(f"{name} has to be a text, or a list of texts, and not {each!r:.60}")
    return [f"{quote_plus(name)}={quote_plus(in_bytes(each))}" for each in values]
