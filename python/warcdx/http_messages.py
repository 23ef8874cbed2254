"""HTTP messages as archives have them: their heads, and bodies that are stored with or without the codings of their heads."""
import contextlib
import functools
import itertools
import re
from collections.abc import Generator, Iterator, Sequence
from dataclasses import dataclass
from typing import NamedTuple, Optional

from .codings import UNLIMITED, Decoder, Limits, Unreadable
from .errors import expect_type
from .iterators import Again

HEAD_LIMIT = 1 << 20  # bytes of a head, of HTTP or of a record
_MOST_HELD = 16  # pieces of a body that are read ahead
_BLANKS = (" ", "\t")
_LINE_BREAK = re.compile(r"\r?\n")
_END_OF_HEAD = re.compile(rb"\r?\n\r?\n")
# Of responses, those of SHOUTcast too, and of requests.
_START_LINE = re.compile(rb"(?i:HTTP/|(?:HTTP|ICY)[ \t]+[0-9])|[^\n]* HTTP/[0-9]")
_STATUS_LINE = re.compile(r"(?i:HTTP\S*|ICY)[ \t]+([1-9][0-9]{2})(?![0-9])[ \t]*(.*)", re.ASCII | re.DOTALL)

Fields = tuple[tuple[str, str], ...]


@dataclass(frozen=True)
class WithFields:
    fields: Fields

    @property
    def headers(self) -> Fields:
        """The same as `fields`."""
        return self.fields

    def field(self, name: str) -> Optional[str]:
        """Returns the value of the first field of a name, in any case, or None."""
        expect_type("the name of a field", name, str, "a text")
        wanted = name.lower()
        return next((value for found, value in self.fields if found.lower() == wanted), None)


def unfolded(lines: Sequence[str]) -> list[str]:
    """Returns the lines of a head, each with those that continue it, which begin with a blank.

    One space stands for a line break and the blanks around it.
    """
    joined = [[lines[0]]]
    for line in lines[1:]:
        if line.startswith(_BLANKS):
            joined[-1][-1] = joined[-1][-1].rstrip(" \t")
            joined[-1].append(line.lstrip(" \t"))
        else:
            joined.append([line])
    return [" ".join(parts) for parts in joined]


def field_of(line: str) -> tuple[str, str]:
    name, _, value = line.partition(":")
    return name, value.strip(" \t")


@dataclass(frozen=True)
class HttpHead(WithFields):
    """An HTTP head: its fields in order, and the line before them. Bytes that aren't UTF-8 are surrogates.

    Names have no blanks at their ends. A line that isn't a field is one without a value.
    """

    line: str

    @classmethod
    def of(cls, text: bytes) -> "HttpHead":
        """Returns the head of a text without the empty line at its end. No text is refused."""
        line, *lines = unfolded(_LINE_BREAK.split(text.decode(errors="surrogateescape")))
        return cls(tuple((name.strip(" \t"), value) for name, value in map(field_of, lines)), line)

    @property
    def status(self) -> Optional[int]:
        """The status code of a response, from 100 to 999, or None if the line has none."""
        found = _STATUS_LINE.fullmatch(self.line)
        return int(found[1]) if found else None

    @property
    def reason(self) -> str:
        """What follows the status code in its line."""
        found = _STATUS_LINE.fullmatch(self.line)
        return found[2].rstrip(" \t") if found else ""

    @property
    def transfer_codings(self) -> list[str]:
        """The names of Transfer-Encoding in lower case, the last one that was applied first.

        Chunks are made last, and once (RFC 9112, section 6.1), wherever and however often they are named.
        """
        names = self._codings("transfer-encoding")
        is_chunked = "chunked" in names or "chunked" in self._codings("content-encoding")
        return [*["chunked"] * is_chunked, *(name for name in names if name != "chunked")]

    @property
    def content_codings(self) -> list[str]:
        """The names of Content-Encoding in lower case, but for chunks, the last one that was applied first."""
        return [name for name in self._codings("content-encoding") if name != "chunked"]

    def _codings(self, name: str) -> list[str]:
        values = ",".join(value for found, value in self.fields if found.lower() == name).lower()
        names = (each.partition(";")[0].strip() for each in reversed(values.split(",")))
        return [each for each in names if each not in ("", "identity")]


class Front(NamedTuple):
    """What precedes the body of a block: the text of an HTTP head without the empty line at its end, if there is one.

    `size` is how many bytes precede the body. A head `is_endless` if it begins, and doesn't end within HEAD_LIMIT bytes, or
    in the block.
    """

    text: Optional[bytes] = None
    size: int = 0
    is_endless: bool = False


def read_front(block: Iterator[bytes]) -> tuple[Front, bytes]:
    """Reads what precedes the body of a block, which is given in pieces, and returns it and the first bytes of the body.

    Line breaks may precede a head (RFC 9112, 2.2). A block that doesn't begin with the line of a head is a body alone, as
    of HTTP/0.9.
    """
    held, start, end = bytearray(), 0, None
    for piece in block:
        searched = len(held) - 3
        held += piece
        while held[start : start + 1] in (b"\r", b"\n"):
            start += 1
        end = _END_OF_HEAD.search(held, max(start, searched), HEAD_LIMIT)
        if end or len(held) >= HEAD_LIMIT:
            break
    if not _START_LINE.match(held, start):
        return Front(), bytes(held)
    if end is None:
        return Front(None, len(held), True), b""
    return Front(bytes(held[start : end.start()]), end.end()), bytes(held[end.end() :])


class Message:
    """A block that is given in pieces, and read once: an HTTP head, if it has one, and a body.

    `truncated` says why its record is truncated, if it is.
    """

    def __init__(self, block: Iterator[bytes], is_http: bool, truncated: Optional[str] = None) -> None:
        self.body = block  # without what precedes the body, once that was read
        self._is_http = is_http
        self._truncated = truncated
        self._decoder = Decoder(())
        self._is_taken = False

    @functools.cached_property
    def front(self) -> Front:
        """What precedes the body. It is read when it is first asked for."""
        if not self._is_http:
            return Front()
        front, first = read_front(self.body)
        self.body = itertools.chain((first,) if first else (), self.body)
        return front

    @property
    def http_head(self) -> Optional[bytes]:
        """The HTTP head without the empty line at its end, or None if the block has none."""
        return self.front.text

    @functools.cached_property
    def http(self) -> Optional[HttpHead]:
        """The HTTP head, or None if the block has none."""
        return None if self.front.text is None else HttpHead.of(self.front.text)

    @property
    def stored_otherwise(self) -> tuple[str, ...]:
        """The codings that the head names and the body doesn't have, once its first piece was read."""
        return self._decoder.stored_otherwise

    def payload(self, limits: Limits = UNLIMITED) -> Iterator[bytes]:
        """Yields the body without its codings, as `payload` of a Record returns it. One beyond the limits is Unreadable."""
        self._take()
        return self._without(self.transfer_codings + self._content_codings, limits)

    def stored_payload(self, limits: Limits = UNLIMITED) -> Iterator[bytes]:
        """Yields the body without its transfer codings only, such as chunks. Its content codings stay."""
        self._take()
        return self._without(self.transfer_codings, limits)

    def has_content_codings(self, limits: Limits = UNLIMITED) -> bool:
        """Returns whether the body has all content codings of its head, by its first bytes, which stay to be read.

        If not, or if that can't be known, no field Content-Encoding may be sent with `stored_payload`.
        """
        codings, held = self.transfer_codings + self._content_codings, list[bytes]()

        def read() -> Iterator[bytes]:
            for piece in itertools.islice(self.body, _MOST_HELD):
                held.append(piece)
                yield piece

        try:
            decoder = Decoder(codings, limits)
        except Unreadable:  # they are too many
            return False
        with contextlib.suppress(Unreadable):
            next(decoder.over(read()), None)
        self.body = itertools.chain(held, self.body)
        return decoder.has_last(len(self._content_codings))

    @property
    def transfer_codings(self) -> list[str]:
        return self.http.transfer_codings if self.http else []

    @property
    def _content_codings(self) -> list[str]:
        return self.http.content_codings if self.http else []

    def _take(self, is_read: bool = False) -> None:
        if self._is_taken or is_read:
            raise ValueError("a RecordStream is read once, within its `with`; open the record again")
        self._is_taken = True

    def _without(self, names: Sequence[str], limits: Limits) -> Iterator[bytes]:
        if self.front.is_endless:
            raise Unreadable("the HTTP head doesn't end")
        self._decoder = Decoder(names, limits)
        return Again(self._decoded())

    def _decoded(self) -> Generator[bytes, None, None]:
        """Yields the body. If it can't be read, and the record is truncated (ISO 28500:2017, 5.13), the reason says so."""
        try:
            yield from self._decoder.over(self.body)
        except Unreadable as fault:
            if self._truncated is None:
                raise
            raise Unreadable(f"{fault}; the record is truncated: {self._truncated[:40]!r}") from fault
