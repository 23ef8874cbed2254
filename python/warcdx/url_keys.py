"""URL keys: of many URLs, as `warcdx index` makes them, and their hosts."""
import re
from collections.abc import Iterator, Sequence
from typing import NamedTuple, Optional

from .errors import Fault, ProgramError
from .program import PIPE, Process

MOST_URL = 1 << 20  # bytes: the program refuses the head of a record that is longer
_HEAD = (
    b"WARC/1.1\r\nWARC-Type: resource\r\nWARC-Record-ID: <urn:x:1>\r\nWARC-Date: 2000-01-01T00:00:00Z\r\n"
    b"WARC-Payload-Digest: x\r\nContent-Length: 0\r\nWARC-Target-URI: <"
)
_END = b">\r\n\r\n\r\n\r\n"  # the program takes the brackets off, and so no other ones
_LINE = re.compile(
    rb'([^ ]+) 20000101000000 \{"url": "(.*)", "mime": "-", "status": "-", "digest": "x", "length": "[0-9]+", '
    rb'"offset": "([0-9]+)", "filename": "-"\}\n'
)


class Keyed(NamedTuple):
    """A URL: its key, and its text as it stands in JSON between the quotes, both in UTF-8."""

    key: bytes
    escaped: bytes


def host_of(key: str) -> Optional[str]:
    """Returns the host and the port of a key, or None if it isn't that of a web address."""
    front, found, path = key.partition(")")
    if not found or not path.startswith("/"):
        return None
    if front.startswith("["):
        return front
    labels, colon, port = front.partition(":")
    return ".".join(reversed(labels.split(","))) + colon + port


def keys_of(program: str, urls: Sequence[bytes]) -> Iterator[Keyed]:
    """Yields the keys of URLs, in their order. It stops before the first URL that the program can't index.

    No URL has a line feed. The program reads the URLs as the targets of records. Raises Error if it fails.
    """
    found, offset = dict[int, Keyed](), 0
    for line in _lines_of(program, urls):
        parts = _LINE.fullmatch(line)
        if parts is None:
            raise ProgramError("the program has written no line of an index")
        found[int(parts[3])] = Keyed(parts[1], parts[2])
    for url in urls:
        if offset not in found:
            return
        yield found[offset]
        offset += len(_HEAD) + len(url) + len(_END)


def _lines_of(program: str, urls: Sequence[bytes]) -> list[bytes]:
    """Returns the lines of an archive with a record for each URL, up to the first one that the program can't index."""
    with Process((program, "index", "-"), PIPE) as process:
        lines = process.communicate(b"".join(_HEAD + url + _END for url in urls)).splitlines(keepends=True)
        if process.wait():
            reported = process.error()
            if not isinstance(reported, Fault) or reported.offset is None:
                raise reported
    return lines
