"""Records, and the body of a page without the codings of HTTP."""
import contextlib
import datetime
import functools
import itertools
import re
from collections.abc import Generator, Iterator
from dataclasses import dataclass, field
from typing import IO, Optional, Union

from .codings import PIECE, UNLIMITED, Limits, Unreadable
from .errors import expect_type
from .http_messages import HEAD_LIMIT, Fields, HttpHead, Message, WithFields, field_of, unfolded
from .iterators import Again

__all__ = ["Head", "HttpHead", "Record", "RecordStream", "Unreadable", "payload"]

CLOSING = b"\r\n\r\n"
HTTP_TYPE = "application/http"
_LENGTH = re.compile("[0-9]{1,19}")
_DATE = re.compile(r"([0-9-]{10}T[0-9:]{8})(?:\.([0-9]{1,9}))?Z")


@dataclass(frozen=True)
class Head(WithFields):
    """A record's head: its fields in order, with the bytes that aren't UTF-8 as surrogates."""

    @staticmethod
    def fields_of(text: bytes) -> Fields:
        """Returns the fields of the text of a head, without the empty line at its end. Raises Unreadable."""
        if not text.startswith(b"WARC/"):
            raise Unreadable("the input isn't a record")
        _, *lines = unfolded(text.decode(errors="surrogateescape").split("\r\n"))
        return tuple(map(field_of, lines))

    @property
    def kind(self) -> str:
        """The type of the record, in lower case."""
        return (self.field("WARC-Type") or "").lower()

    @property
    def type(self) -> str:
        """The same as `kind`."""
        return self.kind

    @property
    def url(self) -> Optional[str]:
        """WARC-Target-URI, without the brackets that GNU Wget writes around it, or None."""
        url = self.field("WARC-Target-URI")
        return None if url is None else without_brackets(url)

    @property
    def date(self) -> Optional[datetime.datetime]:
        """WARC-Date in UTC, to the microsecond, or None if that isn't a date to the second."""
        found = _DATE.fullmatch(self.field("WARC-Date") or "")
        if not found:
            return None
        try:
            return datetime.datetime.fromisoformat(f"{found[1]}.{found[2] or '':0<6.6}+00:00")
        except ValueError:  # such as 30 February
            return None

    @property
    def is_http(self) -> bool:
        """Whether the record's type of content is application/http."""
        return (self.field("Content-Type") or "").lower().startswith(HTTP_TYPE)


@dataclass(frozen=True)
class Record(Head):
    """A record: the fields of its head, and its block. Records that have the same are equal, wherever they are.

    `offset` and `length` are where it is in the file of its archive, in bytes, or None if that isn't known. In a
    compressed archive they are those of its member.
    """

    block: bytes
    offset: Optional[int] = field(default=None, compare=False)
    length: Optional[int] = field(default=None, compare=False)

    def __repr__(self) -> str:
        return f"Record({self.fields!r}, <{len(self.block):,} bytes>)"

    @classmethod
    def read(cls, record: bytes, offset: Optional[int] = None, length: Optional[int] = None) -> "Record":
        """Returns the record of these bytes, as `warcdx get` writes them. Raises Unreadable."""
        expect_type("a record", record, bytes, "bytes")
        head, found, rest = record.partition(CLOSING)
        if not found or not rest.endswith(CLOSING):
            raise Unreadable("the input isn't a record")
        return cls(cls.fields_of(head), rest[: -len(CLOSING)], offset, length)

    @functools.cached_property
    def http(self) -> Optional[HttpHead]:
        """The HTTP head of the block, or None if it has none."""
        return self._message().http

    def payload(self, limits: Limits = UNLIMITED) -> bytes:
        """Returns the body without its codings, as `payload` of this module. One beyond the limits is Unreadable."""
        return b"".join(self._message().payload(limits))

    @functools.cached_property
    def stored_otherwise(self) -> tuple[str, ...]:
        """The codings that the HTTP head names and the body doesn't have, as far as it can be read."""
        message = self._message()
        with contextlib.suppress(Unreadable):
            next(message.payload(), None)
        return message.stored_otherwise

    def _message(self) -> Message:
        pieces = (self.block[at : at + PIECE] for at in range(0, len(self.block), PIECE))
        return Message(pieces, self.is_http, self.field("WARC-Truncated"))


class RecordStream(Message):
    """A record that is read as it is taken, so that one of any length takes bounded memory.

    One of `whole`, `block`, `payload` and `stored_payload` is called, and once. Before `whole` and `block`, `http` isn't
    asked for, as that reads the beginning. A further call raises ValueError.
    """

    def __init__(self, head: bytes, rest: IO[bytes]) -> None:
        self.head = Head(Head.fields_of(head))
        self.length = _length_of(self.head)  # of the block, in bytes
        self.size = len(head) + len(CLOSING) + self.length + len(CLOSING)  # of the record, in bytes
        self._text = head
        self._rest = rest
        super().__init__(_block_of(rest, self.length), self.head.is_http, self.head.field("WARC-Truncated"))

    @classmethod
    def read(cls, output: IO[bytes]) -> Optional["RecordStream"]:
        """Returns the record that an output of `warcdx get` begins with, or None if the output ends in its head."""
        text = bytearray()
        while not text.endswith(CLOSING):
            line = output.readline(HEAD_LIMIT)
            text += line
            if not line:
                return None
            if len(text) > HEAD_LIMIT:
                raise Unreadable("the head of the record is too long")
        return cls(bytes(text[: -len(CLOSING)]), output)

    def whole(self) -> Iterator[bytes]:
        """Yields the record as it is stored, in pieces. They end in it if the archive does."""
        self._take("front" in self.__dict__)
        pieces = iter(lambda: self._rest.read(PIECE), b"")
        return Again(piece for piece in itertools.chain((self._text + CLOSING,), pieces))

    def block(self) -> Iterator[bytes]:
        """Yields the block in pieces. They have fewer bytes than `length` if the archive ends in them."""
        self._take("front" in self.__dict__)
        return Again(_block_of(self._rest, self.length))

    def whole_block(self) -> Iterator[bytes]:
        """Yields the block as `block` does. Raises Unreadable if it has fewer bytes than `length`."""
        self._take("front" in self.__dict__)
        return Again(_block_of(self._rest, self.length, is_whole=True))

    @property
    def stored_length(self) -> Optional[int]:
        """The bytes of `stored_payload` in a whole record, or None if a transfer coding hides them."""
        return None if self.transfer_codings else self.length - self.front.size

    def _take(self, is_read: bool = False) -> None:
        super()._take(is_read or self._rest.closed)


def _block_of(rest: IO[bytes], length: int, is_whole: bool = False) -> Generator[bytes, None, None]:
    """Yields the block of a record, from what follows its head."""
    while length and (piece := rest.read(min(length, PIECE))):
        length -= len(piece)
        yield piece
    rest.read(len(CLOSING))  # so that the record was read to its end, where its member is judged
    if length and is_whole:
        raise Unreadable("the archive ends in the record")


def without_brackets(url: str) -> str:
    """Returns a URL without the brackets that GNU Wget writes around it."""
    return url[1:-1] if url.startswith("<") and url.endswith(">") else url


def _length_of(head: Head) -> int:
    value = head.field("Content-Length") or ""
    if not _LENGTH.fullmatch(value):
        raise Unreadable("the record has no length")
    return int(value)


def payload(record: Union[Record, bytes]) -> bytes:
    """Returns the body of a captured page without its transfer and content codings.

    If the record's type of content is application/http, the body is what follows the HTTP head in the
    block, and chunks, gzip, deflate and br are undone. Of any other record, the body is the block. A coding
    that the head names, and with which the body doesn't begin, is passed over: it was undone before. Raises
    Unreadable if the body begins with a coding and isn't a whole text of it, or the coding can't be undone.
    """
    expect_type("a record", record, (Record, bytes), "a Record, or its bytes")
    return (Record.read(record) if isinstance(record, bytes) else record).payload()
