"""The codings of HTTP bodies, undone piece by piece, so that a body of any length takes bounded memory.

Archives have bodies without codings that their heads name: the crawler has undone them. So a coding is undone only if
the body begins with it. A body that begins with a coding, and isn't of it later, is damaged.
"""
import itertools
import re
import time
import zlib
from collections.abc import Iterable, Iterator, Sequence
from dataclasses import dataclass
from typing import Any, Optional, Union

from .errors import Error, expect_type

MOST_CODINGS = 8  # of one body
PIECE = 1 << 16  # bytes that are read and unpacked at once, at most
_PACKED = 1 << 13  # bytes that are unpacked from at once: what follows a member is copied
_PACKED_BY_BROTLI = 16  # the same for the module brotli, which has no bound: 13 bytes may unpack to 16 MB
_TRIED = 512  # bytes from the start of a body that show whether it unpacks, if its coding begins with no certain ones
_MOST_LINE = 1 << 14  # bytes of the line before a chunk
_GZIP = b"\x1f\x8b"
_CHUNK_HEAD = rb"0*([0-9A-Fa-f]{1,15})[ \t]*(?:;[^\r\n]*)?\r?\n"
_FIRST_CHUNK, _NEXT_CHUNK = re.compile(_CHUNK_HEAD), re.compile(rb"\r?\n" + _CHUNK_HEAD)
_CUT = "the body is cut"
# Codings that can't be undone here, and what their texts begin with.
FOREIGN = {"compress": b"\x1f\x9d", "x-compress": b"\x1f\x9d", "zstd": b"\x28\xb5\x2f\xfd"}


class Unreadable(Error):
    """A record or a coding of its body can't be read."""


@dataclass(frozen=True)
class Limits:
    """How much a body may take, so that one that is made to unpack to very much is given up.

    `size` bounds the bytes that go into all codings and come out of the last, `seconds` the time from the
    start. None is no bound.
    """

    size: Optional[int] = None
    seconds: Optional[float] = None

    def __post_init__(self) -> None:
        expect_type("size", self.size, (int, type(None)), "a whole number")
        expect_type("seconds", self.seconds, (int, float, type(None)), "a number")


UNLIMITED = Limits()


class Decoder:
    """Undoes the codings of one body. `names` are in lower case, the last one that was applied first."""

    def __init__(self, names: Sequence[str], limits: Limits = UNLIMITED) -> None:
        expect_type("limits", limits, Limits, "a Limits, such as Limits(size=10_000_000)")
        if len(names) > MOST_CODINGS:
            raise Unreadable(f"the body has more than {MOST_CODINGS} codings")
        self._codings = [_KINDS.get(name, _Coding)(name) for name in names]
        self._left = limits.size
        self._end = None if limits.seconds is None else time.monotonic() + limits.seconds

    def over(self, body: Iterable[bytes]) -> Iterator[bytes]:
        """Yields the body that these pieces are, without its codings, in pieces of at most PIECE bytes. Reads them to their end.

        Raises Unreadable for a body that is damaged or beyond the limits.
        """
        pieces = self._counted(body)
        for coding in self._codings:
            pieces = self._counted(coding.over(pieces))
        return pieces

    @property
    def stored_otherwise(self) -> tuple[str, ...]:
        """The codings that the body doesn't have. They are known when a piece has come. An empty body has none."""
        return tuple(coding.name for coding in self._codings if coding.is_there is False)

    def has_last(self, count: int) -> bool:
        """Returns whether the body is known to have the last codings, as many as `count`."""
        return all(coding.is_there for coding in self._codings[len(self._codings) - count :])

    def _counted(self, pieces: Iterable[bytes]) -> Iterator[bytes]:
        for data in pieces:
            for at in range(0, len(data), PIECE):
                piece = data[at : at + PIECE]
                self._count(len(piece))
                yield piece

    def _count(self, size: int) -> None:
        if self._left is not None:
            self._left -= size
            if self._left < 0:
                raise Unreadable("the body is longer than is allowed, or unpacks to more")
        if self._end is not None and time.monotonic() > self._end:
            raise Unreadable("the body takes longer to unpack than is allowed")


class _Coding:
    """A coding, or a name such as `utf-8` that is none, which no body has."""

    def __init__(self, name: str) -> None:
        self.name = name
        self.is_there: Optional[bool] = None  # whether the body has it, once that is known

    def over(self, pieces: Iterator[bytes]) -> Iterator[bytes]:
        """Yields a body without the coding, if it has it."""
        first = b""
        for piece in pieces:
            first += piece
            self.is_there = self._begins(first, False)
            if self.is_there is not None:
                break
        if self.is_there is None and first:
            self.is_there = self._begins(first, True)
        body = itertools.chain((first,) if first else (), pieces)
        yield from self._undone(body) if self.is_there else body

    def _begins(self, first: bytes, is_end: bool) -> Optional[bool]:
        """Returns whether a body of these first bytes has the coding, or None to be asked again with more."""
        return False

    def _undone(self, body: Iterator[bytes]) -> Iterator[bytes]:
        raise Unreadable(f"the coding {self.name!r} can't be undone")


class _Foreign(_Coding):
    def _begins(self, first: bytes, is_end: bool) -> Optional[bool]:
        return _starts(first, FOREIGN[self.name], is_end)


class _Chunks(_Coding):
    """Chunks (RFC 9112, section 7.1). Lines may end with LF alone. What follows the size of the last one is left out."""

    def _begins(self, first: bytes, is_end: bool) -> Optional[bool]:
        """The first line is a size, and a line break follows as many bytes. A page may begin with a number too."""
        found = _FIRST_CHUNK.match(first, 0, _MOST_LINE)
        if not found:
            may_begin = first[:1].isalnum() and first.find(b"\n", 0, _MOST_LINE) < 0 and len(first) < _MOST_LINE
            return None if may_begin and not is_end else False
        end = found.end() + int(found[1], 16)
        if end > _MOST_LINE:
            return True
        if len(first) < end + 2 and not is_end:
            return None
        behind = first[end : end + 2]
        if not behind:
            return end > found.end()  # a chunk that is cut, or the page `0`
        return behind.startswith(b"\n") or b"\r\n".startswith(behind)

    def _undone(self, body: Iterator[bytes]) -> Iterator[bytes]:
        pattern, line = _FIRST_CHUNK, b""  # what has come of the lines before a chunk
        left: Optional[int] = None  # bytes of the chunk; of the last one 0
        for data in body:
            data, line, at = line + data, b"", 0
            while at < len(data) and left != 0 and not line:
                if left is None:
                    found = pattern.match(data, at, at + _MOST_LINE)
                    if found:
                        left, at = int(found[1], 16), found.end()
                    else:
                        line = self._begun(data[at : at + _MOST_LINE])
                    continue
                piece = data[at : at + left]
                left, at = left - len(piece) or None, at + len(piece)
                pattern = _NEXT_CHUNK
                yield piece
        if left != 0:
            raise Unreadable(_CUT)

    def _begun(self, line: bytes) -> bytes:
        """Returns what isn't yet the lines before a chunk."""
        if line.count(b"\n") > 1 or len(line) == _MOST_LINE:
            raise Unreadable("a chunk has a size that is none, or more bytes than its size")
        return line


class _BrotliText:
    """A text of brotli (RFC 7932), unpacked as one of zlib is."""

    unconsumed_tail = b""

    def __init__(self, module: Any) -> None:
        self._module = module
        self._text = module.Decompressor()

    @property
    def eof(self) -> bool:
        return bool(self._text.is_finished())

    @property
    def unused_data(self) -> bytes:
        return self.unconsumed_tail if self.eof else b""

    def decompress(self, data: bytes, max_length: int, /) -> bytes:
        """Unpacks a few bytes. What they unpack to may be longer than `max_length`."""
        self.unconsumed_tail = data[_PACKED_BY_BROTLI:]
        try:
            return bytes(self._text.process(data[:_PACKED_BY_BROTLI]))
        except self._module.error as fault:
            raise zlib.error(str(fault)) from fault


_Text = Union["zlib._Decompress", _BrotliText]


class _Packed(_Coding):
    """A compressed text, of gzip one or more members. As by `gunzip`, what follows and doesn't begin so is left out."""

    def _start(self) -> _Text:
        raise NotImplementedError

    def _begins(self, first: bytes, is_end: bool) -> Optional[bool]:
        """A body of at most _TRIED bytes is one whole text, and a longer one is of a text that goes on."""
        text, size = self._start(), 0
        if len(first) <= _TRIED and not is_end:
            return None
        try:
            for piece in _unpacked(text, first[:_TRIED]):
                size += len(piece)
                if size > PIECE:
                    return True  # so far no other bytes come
        except Unreadable:
            return False
        return text.eof == (len(first) <= _TRIED) and not text.unused_data

    def _undone(self, body: Iterator[bytes]) -> Iterator[bytes]:
        text, is_left_out = self._start(), False
        for packed in (data[at : at + _PACKED] for data in body for at in range(0, len(data), _PACKED)):
            while packed and not is_left_out:
                if text.eof:
                    is_left_out = not self._follows(packed)
                    text = text if is_left_out else self._start()
                else:
                    yield from _unpacked(text, packed)
                    packed = text.unused_data
        if not text.eof:
            raise Unreadable(_CUT)

    def _follows(self, packed: bytes) -> bool:
        """Returns whether a further text begins."""
        return False


class _Gzip(_Packed):
    def _start(self) -> _Text:
        return zlib.decompressobj(16 + zlib.MAX_WBITS)

    def _begins(self, first: bytes, is_end: bool) -> Optional[bool]:
        return _starts(first, _GZIP, is_end)

    def _follows(self, packed: bytes) -> bool:
        return packed.startswith(_GZIP[:1])


class _Brotli(_Packed):
    def _start(self) -> _Text:
        try:
            import brotli
        except ImportError:  # whether a body has the coding can't be known
            raise Unreadable(f"the coding {self.name!r} needs the module brotli (Debian's package python3-brotli)") from None
        return _BrotliText(brotli)

    def _follows(self, packed: bytes) -> bool:
        raise Unreadable("bytes follow the compressed body")  # as the module says if the end comes with them


class _Deflate(_Packed):
    """A text of zlib (RFC 1950), or one of deflate alone, which some servers send."""

    _bits = -zlib.MAX_WBITS

    def _start(self) -> _Text:
        return zlib.decompressobj(self._bits)

    def _begins(self, first: bytes, is_end: bool) -> Optional[bool]:
        head = int.from_bytes(first[:2], "big")
        if len(first) > 1 and head & 0x8F20 == 0x800 and head % 31 == 0:
            self._bits = zlib.MAX_WBITS
            return True
        return super()._begins(first, is_end)


def _starts(first: bytes, start: bytes, is_end: bool) -> Optional[bool]:
    """Returns whether the first bytes of a body are certain ones, or None if more have to come."""
    return None if first != start and start.startswith(first) and not is_end else first.startswith(start)


def _unpacked(text: _Text, data: bytes) -> Iterator[bytes]:
    while not text.eof:
        try:
            piece = text.decompress(data, PIECE)
        except zlib.error as fault:
            raise Unreadable(f"the body can't be decompressed: {fault}") from fault
        if piece:
            yield piece
        data = text.unconsumed_tail
        if not data and len(piece) < PIECE:
            return


_KINDS: dict[str, type[_Coding]] = {
    "br": _Brotli,
    "chunked": _Chunks,
    "deflate": _Deflate,
    "gzip": _Gzip,
    "x-gzip": _Gzip,
    **dict.fromkeys(FOREIGN, _Foreign),
}
