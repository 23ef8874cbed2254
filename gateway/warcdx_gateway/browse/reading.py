"""Reads records for these pages, with bounds on what is read, unpacked and held."""
import contextlib
import os
from collections.abc import Generator, Iterator
from dataclasses import dataclass, replace
from typing import Optional

from warcdx import Capture, Error, Fault, ReplyTooLate, Unreadable, faults, open_archive
from warcdx.codings import Limits
from warcdx.collection import find_archive
from warcdx.fitting import fitting_stream
from warcdx.http_messages import HttpHead
from warcdx.record import Head, RecordStream
from warcdx.record_digests import Verdicts, verdicts_of

from ..collection import Collection
from ..generation import Identity
from ..rules import Action
from ..work import Work
from .charsets import charset_of, text_of
from .searching import NotShown

MOST_SHOWN = 4 << 20  # bytes of a payload that are shown
MOST_VERIFIED = 1 << 28  # bytes of a block whose digest is compared for a page
SILENCE = 10  # seconds for the program to find a record, and to unpack what follows it in its member
# What unpacking a payload may take, for a page and for a download.
SHOWN = Limits(size=64 << 20, seconds=5)
DOWNLOADED = Limits(size=16 << 30, seconds=3600)
HTML = ("text/html", "application/xhtml+xml")
HTML_SHOWN = "text/html; charset=utf-8"  # as `embedding` gives it
_IMAGES = ("image/png", "image/jpeg", "image/gif", "image/webp")
_TEXTS = ("application/json", "application/javascript", "application/x-javascript", "application/xml", "application/warc-fields")


@dataclass(frozen=True)
class Payload:
    """A payload without its codings, or its first MOST_SHOWN bytes. `fault` says why it is cut.

    `stored_otherwise` are the codings that its head names, and that it didn't have.
    """

    content: bytes
    is_whole: bool
    fault: str = ""
    stored_otherwise: tuple[str, ...] = ()


UNREAD = Payload(b"", is_whole=False)


@dataclass(frozen=True)
class Read:
    """A record: its heads, the length of its block in bytes, and its payload."""

    head: Head
    http: Optional[HttpHead]
    length: int
    payload: Payload

    @property
    def kind(self) -> str:
        """The media type of the payload, in lower case and without parameters."""
        return self.content_type.partition(";")[0].strip().lower()

    @property
    def content_type(self) -> str:
        head = self.http or (None if self.head.is_http else self.head)
        return (head.field("Content-Type") or "") if head else ""

    @property
    def charset(self) -> Optional[str]:
        """The character set that the type names, if browsers know it, in lower case."""
        return charset_of(self.content_type)

    @property
    def text(self) -> str:
        """The payload as a text."""
        return text_of(self.payload.content, self.charset, self.is_html, self.payload.is_whole)

    @property
    def shown_type(self) -> Optional[str]:
        """The type with which the payload is shown in its frame, or None if it isn't shown."""
        if self.kind in _IMAGES:
            return self.kind if self.payload.is_whole else None
        if self.is_html:
            return HTML_SHOWN
        return self.text_type if self.is_text else None

    @property
    def text_type(self) -> str:
        return f"text/plain; charset={self.charset or 'utf-8'}"

    @property
    def is_text(self) -> bool:
        return self.kind.startswith("text/") or self.kind in _TEXTS or self.kind.endswith(("+xml", "+json"))

    @property
    def is_html(self) -> bool:
        return self.kind in HTML


@contextlib.contextmanager
def opened(collection: Collection, capture: Capture) -> Iterator[RecordStream]:
    """Opens the record of a capture, by its offset and length. Raises NotShown, also if it is another's."""
    work, path = collection.work, archive_of(collection, capture)
    _expect_allowed(collection, capture, capture.digest)
    if path is None or not os.path.isfile(path):
        raise NotShown(
            f"The archive “{capture.filename}” isn't here.",
            "The collection has no archive of this name in its folders, " "so its record can't be read.",
            404,
        )
    try:
        archive, seconds = open_archive(path, program=collection.program), work.seconds(SILENCE)
        with fitting_stream(archive, capture, collection.program, seconds) as record:
            _expect_allowed(collection, capture, record.head.field("WARC-Payload-Digest") or "")
            yield record
    except faults.OtherRecord:
        why = "The record at this offset has another URL or time than the line of the index says. The index has to be made anew."
        raise NotShown("The index doesn't fit the archive.", why, 502) from None
    except faults.NoRecord:
        raise NotShown("There is no record here.", "No record of the archive begins at this offset and has this length.", 404) from None
    except (Fault, ReplyTooLate, Unreadable) as error:
        work.go_on()
        raise NotShown("The record can't be read.", reason_of(error), 502) from error


def _expect_allowed(collection: Collection, capture: Capture, digest: str) -> None:
    """Raises NotShown if the rules are for a capture, with the digest that its line or its record has."""
    if collection.rules.action(capture.urlkey, capture.timestamp, digest) > Action.SHOW:
        raise NotShown("This capture can't be shown.", "The archive doesn't give it to readers.", 451)


def archive_of(collection: Collection, capture: Capture) -> Optional[str]:
    return find_archive(collection.settings.archives, capture.filename, collection.settings.links)


def state_of(collection: Collection, capture: Capture) -> str:
    """Returns a text that changes with the index line of a capture, and with the file that is its archive.

    Before the record is opened it is at most too old. So no tag that is made of it is one of what an archive will hold.
    """
    path = archive_of(collection, capture)
    try:
        return f"{capture!r} {path and Identity.of(os.stat(path))}"
    except OSError:
        return repr(capture)


def reason_of(error: Error) -> str:
    """Returns why something can't be read, without the path of the file."""
    if isinstance(error, Fault):
        where = "" if error.offset is None else f" at byte {error.offset:,}"
        return f"The archive is damaged{where}: {error.name}."
    text = str(error)
    return text[:1].upper() + text[1:] + "."


def read(collection: Collection, capture: Capture) -> Read:
    """Reads a record, and the first MOST_SHOWN bytes of its payload. Raises NotShown."""
    with opened(collection, capture) as record:
        return Read(record.head, record.http, record.length, shown_payload(record, collection.work))


def shown_payload(record: RecordStream, work: Work) -> Payload:
    content, fault = bytearray(), ""
    try:
        for piece in record.payload(bounded(SHOWN, work)):
            work.go_on()
            content += piece
            if len(content) > MOST_SHOWN:
                break
    except Unreadable as error:
        work.go_on()
        fault = reason_of(error)
    is_whole = len(content) <= MOST_SHOWN and not fault
    return Payload(bytes(content[:MOST_SHOWN]), is_whole, fault, record.stored_otherwise)


def verdicts(collection: Collection, capture: Capture) -> Optional[Verdicts]:
    """Returns the verdicts on a record's digests, or None if it is too long. Raises NotShown."""
    with opened(collection, capture) as record:
        if record.length > MOST_VERIFIED:
            return None
        return verdicts_of(record.head, record.length, _watched(record.whole_block(), collection.work))


def _watched(pieces: Iterator[bytes], work: Work) -> Iterator[bytes]:
    for piece in pieces:
        work.go_on()
        yield piece


def bounded(limits: Limits, work: Work) -> Limits:
    """Returns limits that leave no more time than the present request has."""
    return replace(limits, seconds=work.seconds(limits.seconds or 0))


def pieces_of(stack: contextlib.ExitStack, record: RecordStream, what: str, work: Work) -> Generator[bytes, None, None]:
    """Yields the pieces of a record, of its payload, or of the payload as it is stored with its codings.

    What `stack` has to close is closed with it. Raises NotShown, in place of the last piece, if the record isn't whole or
    its archive is damaged there.
    """
    ahead = b""
    with stack.pop_all():  # which raises why the record has ended, if that is too early
        try:
            read = {"payload": record.payload, "stored": record.stored_payload}.get(what)
            for piece in record.whole() if read is None else read(bounded(DOWNLOADED, work)):
                work.go_on()
                if ahead:
                    yield ahead
                ahead = piece
        except Unreadable as error:
            work.go_on()
            raise NotShown("The payload can't be unpacked.", reason_of(error), 422) from error
    yield ahead
