"""Reads the lines of indexes in the plainest way, as docs/CDXJ.md says ("Lines", "Places"), with Python's reader of JSON."""
import json
import math
import re
from collections.abc import Iterable, Iterator
from typing import Any, NamedTuple, Optional

LINE_LIMIT = 16_777_216
DEPTH_LIMIT = 127
KEY = re.compile("[^\0-\x20\x7f]+")
STAMP = re.compile("[0-9]{14}")
OFFSET = re.compile("[0-9]{1,19}")
MEMBERS = {
    "original": "url",
    "mimetype": "mime",
    "statuscode": "status",
    "digest": "digest",
    "length": "length",
    "filename": "filename",
}
Fault = tuple[int, str]  # the offset of a line at fault, and what is wrong with it


class Place(NamedTuple):
    key: bytes
    stamp: bytes
    filename: bytes
    offset: int


class Line(NamedTuple):
    body: bytes  # without its line feed
    place: Place
    values: dict[str, str]  # by the names of fields


def cut(text: bytes) -> Iterator[tuple[int, bytes]]:
    """Each line with the offset at which it begins, without its line feed."""
    offset = 0
    for line in text.removesuffix(b"\n").split(b"\n") if text else ():
        yield offset, line
        offset += len(line) + 1


def read_line(body: bytes) -> Line:
    """A line, or ValueError where it is no line of a capture."""
    if len(body) >= LINE_LIMIT:
        raise ValueError("too long")
    key, stamp, said = body.decode().split(" ", 2)
    if not KEY.fullmatch(key) or not STAMP.fullmatch(stamp):
        raise ValueError("no pair")
    members = read_object(said)
    filename, offset = members.get("filename"), members.get("offset")
    if isinstance(offset, str) and OFFSET.fullmatch(offset):
        offset = int(offset)
    if not isinstance(filename, str) or not filename or type(offset) is not int or offset >= 1 << 63:
        raise ValueError("no place")
    values = {field: value_of(members.get(member)) for field, member in MEMBERS.items()}
    values.update(urlkey=key, timestamp=stamp, offset=str(offset))
    return Line(body, Place(key.encode(), stamp.encode(), filename.encode(), offset), values)


def value_of(member: Any) -> str:
    if isinstance(member, str):
        return member or "-"
    return str(member) if type(member) is int else "-"


def place(body: bytes) -> Place:
    return read_line(body).place


def is_line(body: bytes) -> bool:
    try:
        read_line(body)
    except ValueError:
        return False
    return True


def first_fault(text: bytes) -> Optional[Fault]:
    """The offset and the name of what is wrong with the first line at fault, where there is one."""
    before = None
    for offset, line in cut(text):
        try:
            pair = place(line)[:2]
        except ValueError:
            return offset, "BadLine"
        if before is not None and pair < before:
            return offset, "OutOfOrder"
        before = pair
    return None


def is_fault(text: bytes, offset: int, cause: str) -> bool:
    """Whether the line at the offset is at fault in this way."""
    lines = dict(cut(text))
    if cause == "BadLine":
        return offset in lines and not is_line(lines[offset])
    starts = list(lines)
    number = starts.index(offset) if offset in lines else 0
    return number > 0 and place(lines[offset])[:2] < place(lines[starts[number - 1]])[:2]


def read_lines(texts: Iterable[bytes]) -> list[Line]:
    """All lines of indexes."""
    return [read_line(body) for text in texts for _, body in cut(text)]


def collected(lines: Iterable[Line]) -> list[Line]:
    """The lines in the order of places, of each place the first."""
    first: dict[Place, Line] = {}
    for line in lines:
        first.setdefault(line.place, line)
    return [line for _, line in sorted(first.items())]


# ---- JSON


def read_object(text: str) -> dict[str, Any]:
    try:
        value = json.loads(text, object_pairs_hook=members_of, parse_int=number, parse_float=fraction, parse_constant=refuse)
    except RecursionError:
        raise ValueError("too deep") from None
    if not isinstance(value, dict) or depth(value) > DEPTH_LIMIT:
        raise ValueError("no object")
    return value


def members_of(pairs: list[tuple[str, Any]]) -> dict[str, Any]:
    """The last value of each name. A half of a surrogate pair is no text."""
    json.dumps(pairs, ensure_ascii=False).encode()
    return dict(pairs)


def number(text: str) -> Any:
    """A number from 0 to 2^64 - 1 as it is, and any other as a fraction."""
    if text.isdigit() and len(text) <= 20 and int(text) < 1 << 64:
        return int(text)
    return fraction(text)


def fraction(text: str) -> float:
    if math.isinf(float(text)):
        raise ValueError("out of range")
    return float(text)


def refuse(text: str) -> None:
    raise ValueError(text)


def depth(value: Any) -> int:
    if isinstance(value, dict):
        value = list(value.values())
    return 1 + max(map(depth, value), default=0) if isinstance(value, list) else 0
