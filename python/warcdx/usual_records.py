"""Records of the usual form, which this process reads by itself. Of any other one the program has to decide.

Whether a record is in order is decided by the program alone, by the rules of docs/RECORDS.md.
The test here is narrower: a record that passes it is one that the program accepts too, with the same bytes, and almost
all records of crawls pass it. Nothing here raises a fault. `None` says that the program is to be asked.
"""
import datetime
import functools
import io
import itertools
import os
import re
import stat
import zlib
from collections.abc import Iterator
from typing import NamedTuple, Optional

from .http_messages import Fields
from .record import CLOSING, Record

MAGIC = b"\x1f\x8b"  # what a compressed archive begins with, and each of its members
MOST = 1 << 26  # bytes of a record that is read here
_MOST_HEAD = 1 << 16  # bytes of a usual head; the program takes longer ones
_AHEAD = 1 << 16  # bytes of an archive that are read at once
_PACKED = 1 << 13  # bytes that are unpacked from at once: what follows a member is copied
_GZIP = 16 + zlib.MAX_WBITS
_ODD = b"\r\n\0"
_VERSIONS = ("WARC/1.0", "WARC/1.1")
_TOKEN = b"!#$%&'*+-.^_`|~0123456789ABCDEFGHIJKLMNOPQRSTUVWXYZabcdefghijklmnopqrstuvwxyz"  # the bytes of a name
_DATE = re.compile("([1-9][0-9]{3}-[0-9]{2}-[0-9]{2})T(?:[01][0-9]|2[0-3]):[0-5][0-9]:[0-5][0-9](?:[.][0-9]{1,9})?Z")
_LENGTH = re.compile("[0-9]{1,18}")
_MANDATORY = ("warc-type", "warc-record-id", "warc-date", "content-length")


_Head = tuple[Fields, int, int]


def usual_head(text: bytes, start: int = 0) -> Optional[_Head]:
    """Returns the head that begins at an index of a text, or None if none of the usual form does.

    That is its fields, its length with the empty line at its end, and the length of the block, in bytes.
    """
    end = text.find(CLOSING, start, start + _MOST_HEAD)
    if end < 0:
        return None
    head = text[start:end]
    version, *lines = head.decode(errors="surrogateescape").split("\r\n")
    if version not in _VERSIONS or len(head) - len(head.translate(None, _ODD)) != 2 * len(lines):
        return None  # another byte of these than those of the line breaks
    parts = [line.partition(":") for line in lines]
    fields = tuple([(name, value.strip(" \t")) for name, colon, value in parts if colon])
    places = _places_in("\n".join([name for name, _ in fields])) if len(fields) == len(lines) else None
    if places is None:
        return None
    date, length = _DATE.fullmatch(fields[places[0]][1]), fields[places[1]][1]
    if not date or not _is_day(date[1]) or not _LENGTH.fullmatch(length):
        return None
    return fields, end + len(CLOSING) - start, int(length)


@functools.lru_cache(maxsize=100)
def _places_in(names: str) -> Optional[tuple[int, int]]:
    """Returns which fields of a head are WARC-Date and Content-Length, from the names of all fields, one on each line.

    Returns None if one isn't a name, or a mandatory field is absent or repeated. Most records of a crawl have the same
    names.
    """
    if names.encode(errors="surrogateescape").translate(None, _TOKEN + b"\n"):
        return None
    found = names.lower().split("\n")
    if "" in found or [found.count(name) for name in _MANDATORY] != [1, 1, 1, 1]:
        return None
    return found.index("warc-date"), found.index("content-length")


@functools.lru_cache(maxsize=1000)
def _is_day(text: str) -> bool:
    """Returns whether there is a day of this year, month and day, `YYYY-MM-DD`."""
    try:
        datetime.date(int(text[:4]), int(text[5:7]), int(text[8:]))
    except ValueError:
        return False
    return True


def usual_record(text: bytes, offset: Optional[int] = None, length: Optional[int] = None) -> Optional[Record]:
    """Returns the record that a text is, or None if it isn't exactly one record of the usual form.

    `offset` and `length` are where it is in its file.
    """
    head = usual_head(text)
    if head is None or not text.endswith(CLOSING):
        return None
    fields, start, size = head
    return Record(fields, text[start : -len(CLOSING)], offset, length) if start + size + len(CLOSING) == len(text) else None


class NotUsual(Exception):
    """A record isn't of the usual form, or isn't whole."""


class Block(NamedTuple):
    """A record whose block is read in pieces. They raise NotUsual at its end if it isn't a record of the usual form."""

    offset: int
    fields: Fields
    length: int  # of the block, in bytes
    pieces: Iterator[bytes]


def _checked(length: int, pieces: Iterator[bytes]) -> Iterator[bytes]:
    """Yields a block of this length. Raises NotUsual unless the pieces have it, and then the closing alone."""
    left, closing = length, b""
    for piece in pieces:
        if left:
            yield piece[:left]
        closing += piece[left:]
        left -= min(left, len(piece))
        if len(closing) > len(CLOSING):
            break
    if left or closing != CLOSING:
        raise NotUsual


class ArchiveFile(io.FileIO):
    """An archive that is open to be read at any place. Raises OSError if it isn't a file, or can't be opened, or has no size.

    `size` is that of the file when it was opened, in bytes, and `identity` what no other file has. `end` is the offset up to which records were yielded, and
    `next` what follows the one that is read.
    """

    def __init__(self, path: str, may_be_packed: bool = True) -> None:
        if not stat.S_ISREG(os.stat(path).st_mode):  # to open a pipe would be seen by who writes it
            raise OSError("not a regular file")
        super().__init__(path, opener=lambda name, flags: os.open(name, flags | os.O_NONBLOCK))  # a pipe may have taken its place
        found = os.fstat(self.fileno())
        self.size, self.identity = found.st_size, (found.st_dev, found.st_ino)
        if not self.size or not stat.S_ISREG(found.st_mode):  # or the system can't give the size, as of a file in /proc
            self.close()
            raise OSError("not a regular file of a size")
        self.is_packed = may_be_packed and os.pread(self.fileno(), len(MAGIC), 0) == MAGIC
        self.end = 0
        self.next = 0  # the offset behind what was read of a record
        self._start = 0  # the offset of the bytes that are held
        self._held = b""

    def text(self, offset: int, length: Optional[int] = None, most: int = MOST) -> Optional[bytes]:
        """Returns the text of the record at an offset, which has this length if one is given, or whose member has.

        Returns None if that isn't so, if the text has more than `most` bytes, and for a plain record without a length.
        """
        if length is not None and length > most or not 0 <= offset <= self.size - (length or 1):
            return None
        if length is not None:  # nothing else is read
            self._held, self._start = os.pread(self.fileno(), length, offset), offset
        if not self.is_packed:
            return self._held if length == len(self._held) else None
        found = self._member(offset, most)
        return found[0] if found and length in (None, found[1]) else None

    def blocks(self) -> Iterator[Block]:
        """Yields the records to be read in pieces, each to its end before the next one, with little memory.

        Members of a compressed archive without a text are passed over. Raises NotUsual at the first record that isn't of
        the usual form, or in its pieces. `end` is its offset then.
        """
        while self.end < self.size:
            if block := self._packed_block() if self.is_packed else self._plain_block():
                yield block
            self.end = self.next

    def _plain_block(self) -> Block:
        at = self._look(self.end, 1)
        head = usual_head(self._held, at)
        if head is None and at:  # it may end in what isn't held yet
            at = self._look(self.end, _AHEAD)
            head = usual_head(self._held, at)
        if head is None:
            raise NotUsual
        fields, start, length = head
        self.next = self.end + start
        return Block(self.end, fields, length, _checked(length, self._pieces(length + len(CLOSING))))

    def _pieces(self, left: int) -> Iterator[bytes]:
        """Yields as many bytes behind `_next` as are left, if the file has them, and sets `_next` behind them."""
        while self.next + left <= self.size and left:
            size = min(left, _AHEAD)
            at = self._look(self.next, size)
            piece = self._held[at : at + size]
            self.next += len(piece)
            left = left - len(piece) if piece else 0
            yield piece

    def _packed_block(self) -> Optional[Block]:
        pieces, text = self._pieces_of_member(self.end), b""
        while len(text) < _MOST_HEAD and (piece := next(pieces, b"")):
            text += piece
        head = usual_head(text)
        if head is None:
            if text:
                raise NotUsual
            return None
        fields, start, length = head
        return Block(self.end, fields, length, _checked(length, itertools.chain((text[start:],), pieces)))

    def _pieces_of_member(self, offset: int) -> Iterator[bytes]:
        """Yields the text of the member at an offset. Sets `_next` at its end. Raises NotUsual if it isn't a good one."""
        unpacker, packed = zlib.decompressobj(_GZIP), b""
        self.next = offset
        while not unpacker.eof:
            if not packed:
                at = self._look(self.next, 1)
                packed = self._held[at : at + _PACKED]
                self.next += len(packed)
            if not packed:
                raise NotUsual
            try:
                piece = unpacker.decompress(packed, _AHEAD)
            except zlib.error:
                raise NotUsual from None
            packed = unpacker.unconsumed_tail
            if piece:
                yield piece
        self.next -= len(unpacker.unused_data)

    def _member(self, offset: int, most: int) -> Optional[tuple[bytes, int]]:
        """Returns the text and the length of a good member whose text has at most `most` bytes."""
        pieces, left = list[bytes](), most
        try:
            for piece in self._pieces_of_member(offset):
                pieces.append(piece)
                left -= len(piece)
                if left < 0:
                    return None
        except NotUsual:
            return None
        return b"".join(pieces), self.next - offset

    def _look(self, offset: int, least: int) -> int:
        """Holds `least` bytes or more from an offset on, if the file has them. Returns the index of the first one."""
        at = offset - self._start
        if not 0 <= at <= len(self._held) - least:
            self._held = os.pread(self.fileno(), max(least, _AHEAD), offset)
            self._start, at = offset, 0
        return at
