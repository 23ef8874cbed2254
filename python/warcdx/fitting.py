"""Whether a record is the one that the line of an index is of, by its URL and its time.

An archive may be replaced by another one of its name, or cut and written on, after it was indexed. A record of other content
may then begin at the same offset, and have the same length.
"""
import contextlib
import re
from collections.abc import Iterator
from typing import Optional

from .archive import Archive
from .faults import OtherRecord
from .query import Capture
from .record import Head, Record, RecordStream, without_brackets
from .streams import is_text
from .url_keys import keys_of

_FIRST = "00000101000000"  # of a timestamp whose first digits replace these
_NO_URL = ("", "-")  # what stands for the URL in a line without one


def fitting_record(archive: Archive, capture: Capture, program: str) -> Record:
    """Returns the record of a capture, as `Archive.record` does. Raises OtherRecord if it is another's."""
    record = archive.record(capture.offset, length=capture.length)
    _expect_fitting(archive, record, capture, program)
    return record


@contextlib.contextmanager
def fitting_stream(archive: Archive, capture: Capture, program: str, seconds: Optional[float] = None) -> Iterator[RecordStream]:
    """Opens the record of a capture, as `Archive.stream` does. Raises OtherRecord if it is another's."""
    with archive.stream(capture.offset, length=capture.length, seconds=seconds) as record:
        _expect_fitting(archive, record.head, capture, program)
        yield record


def _expect_fitting(archive: Archive, head: Head, capture: Capture, program: str) -> None:
    if _timestamp_of(head.field("WARC-Date") or "") != capture.timestamp or not _has_url(head, capture, program):
        raise OtherRecord("OtherRecord", archive.path, capture.offset)


def _timestamp_of(date: str) -> str:
    """Returns the timestamp of a WARC-Date that the program accepts. Its last parts may be absent."""
    digits = date.replace("-", "").replace("T", "").replace(":", "").rstrip("Z")[:14]
    return digits + _FIRST[len(digits) :]


def _has_url(head: Head, capture: Capture, program: str) -> bool:
    """Returns whether a record has the URL of a line, maybe in another spelling. Only then the program is asked."""
    url, original = _in_line(head.url or ""), without_brackets(capture.original)
    if not url:
        return False
    if url in (original, capture.original) and url not in _NO_URL:
        return True
    spellings = [url] if original in _NO_URL else [url, original]
    keys = [keyed.key for keyed in keys_of(program, [_as_target(each) for each in spellings])]
    return bool(keys) and keys[0] in (capture.urlkey.encode(errors="surrogatepass"), *keys[1:])


def _in_line(url: str) -> str:
    """Returns the URL of a record as the program writes it into a line: of one that isn't UTF-8, with escapes."""
    if url.isascii() or is_text(url):
        return url
    return "".join(chr(each) if each < 0x80 else f"%{each:02X}" for each in url.encode(errors="surrogateescape"))


def _as_target(url: str) -> bytes:
    """Returns a URL without what the URL Standard passes over, and the head of a record can't have in it."""
    return re.sub("[\t\r\n]", "", url).encode(errors="surrogatepass")
