"""Reads the HTTP head at the start of a block, as docs/CDXJ.md says ("Captures").

A response head is a status line, lines of fields and an empty line (RFC 9112). As the kit's `httparse` reads it with its usual settings, a line
may end with LF alone, empty lines may precede the head, and a status line without a reason may lack the space before it. A text with a
folded field isn't a head.
"""
import re
from typing import NamedTuple, Optional

LENGTH_LIMIT = 65_536
FIELD_LIMIT = 256
VALUE = rb"[\t\x20-\x7e\x80-\xff]*"
FIELD = re.compile(rb"([!#$%&'*+.0-9A-Z^_`a-z|~-]+):(" + VALUE + rb")\r?\n")
STATUS_LINE = re.compile(rb"(?:\r?\n)*HTTP/1\.[01] ([0-9]{3})(?: " + VALUE + rb")?\r?\n")
EMPTY_LINE = re.compile(rb"\r?\n")


class HttpHead(NamedTuple):
    status: str
    content_type: bytes  # the first, or nothing
    length: int


def read_head(block: bytes) -> Optional[HttpHead]:
    front = block[:LENGTH_LIMIT]
    line = STATUS_LINE.match(front)
    if not line:
        return None
    types = []
    at, count = line.end(), 0
    field = FIELD.match(front, at)
    while field:
        if field[1].lower() == b"content-type":
            types.append(field[2].strip(b" \t"))
        at, count = field.end(), count + 1
        field = FIELD.match(front, at)
    empty = EMPTY_LINE.match(front, at)
    if not empty or count > FIELD_LIMIT:
        return None
    return HttpHead(line[1].decode(), types[0] if types else b"", empty.end())
