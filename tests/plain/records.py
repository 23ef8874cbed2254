"""Reads archives in the plainest way: whole, in memory, record by record, as docs/RECORDS.md says."""
import base64
import calendar
import hashlib
import re
from collections.abc import Collection
from typing import NamedTuple, Optional

VERSIONS = (b"WARC/1.1\r\n", b"WARC/1.0\r\n")
CLOSING = b"\r\n\r\n"
HEAD_LIMIT = 1_048_576
END_LIMIT = (1 << 63) - 1
MANDATORY = (b"warc-record-id", b"content-length", b"warc-date", b"warc-type")
KINDS = ("warcinfo", "response", "resource", "request", "metadata", "revisit", "conversion", "continuation")
INDEXABLE = ("response", "resource", "revisit", "conversion", "metadata")
USUAL = INDEXABLE[:3]
NAME = re.compile(rb"[!#$%&'*+.0-9A-Z^_`a-z|~-]+")
DATE = re.compile(rb"(\d{4})(?:-(\d\d)(?:-(\d\d)(?:T(\d\d):(\d\d)(?::(\d\d)(?:\.\d{1,9})?)?Z)?)?)?")
DIGEST = re.compile(rb"sha1:([a-z2-7]{32})", re.IGNORECASE)
Fault = tuple[int, str]  # the offset of a record that can't be read, and the cause


class Damage(Exception):
    """The cause for which no record stands somewhere."""


class Record(NamedTuple):
    offset: int
    length: int
    fields: dict[bytes, bytes]  # names in lower case, and of each the first value
    block: bytes

    @property
    def kind(self) -> str:
        kind = self.fields[b"warc-type"].decode("latin-1").lower()
        return kind if kind in KINDS else "other"

    @property
    def verdict(self) -> str:
        given = self.fields.get(b"warc-block-digest")
        if given is None:
            return "absent"
        digest = DIGEST.fullmatch(given)
        if not digest:
            return "not-sha1"
        return "same" if digest[1].upper() == base_32(self.block) else "differs"


def read(archive: bytes) -> tuple[list[Record], Optional[Fault]]:
    """The whole records, and where the archive is damaged the offset and the cause."""
    records: list[Record] = []
    offset = 0
    while offset < len(archive):
        try:
            records.append(read_record(archive, offset))
        except Damage as damage:
            return records, (offset, str(damage))
        offset += records[-1].length
    return records, None


def read_record(archive: bytes, offset: int) -> Record:
    front = archive[offset : offset + HEAD_LIMIT]
    if not any(version.startswith(front[:10]) for version in VERSIONS):
        raise Damage("Version")
    size = front.find(CLOSING) + len(CLOSING)
    if size < len(CLOSING):
        raise Damage("HeadTooLong" if len(front) == HEAD_LIMIT else "ShortHead")
    fields = read_fields(front[10 : size - 2])
    names = [name for name, _ in fields]
    if not all(name in names for name in MANDATORY):
        raise Damage("Missing")
    if not all(names.count(name) == 1 for name in MANDATORY):
        raise Damage("Repeated")
    said = dict(reversed(fields))
    length = read_length(said[b"content-length"])
    read_stamp(said[b"warc-date"])
    end = offset + size + length + len(CLOSING)
    if end > END_LIMIT:
        raise Damage("TooFar")
    if end - len(CLOSING) > len(archive):
        raise Damage("ShortBlock")
    if archive[end - len(CLOSING) : end] != CLOSING:
        raise Damage("Closing")
    return Record(offset, end - offset, said, archive[offset + size : end - len(CLOSING)])


def read_fields(text: bytes) -> list[tuple[bytes, bytes]]:
    """Pairs of a name in lower case and a value, of lines that all end with CR LF."""
    fields: list[tuple[bytes, list[bytes]]] = []
    for line in text.split(b"\r\n")[:-1]:
        if b"\r" in line or b"\n" in line:
            raise Damage("FieldLine")
        if line[:1] in (b" ", b"\t"):
            if not fields:
                raise Damage("FieldLine")
            fields[-1][1].append(line)
        else:
            name, colon, rest = line.partition(b":")
            if not colon or not NAME.fullmatch(name):
                raise Damage("FieldLine")
            fields.append((name.lower(), [rest]))
    return [(name, value_of(pieces)) for name, pieces in fields]


def value_of(pieces: list[bytes]) -> bytes:
    """The value of a field: the rest of its line and its continuations, trimmed and joined."""
    trimmed = [piece.strip(b" \t") for piece in pieces]
    return b" ".join(piece for piece in trimmed if piece)


def read_length(value: bytes) -> int:
    if not re.fullmatch(rb"[0-9]{1,19}", value) or int(value) > END_LIMIT:
        raise Damage("BadLength")
    return int(value)


def read_stamp(value: bytes) -> str:
    """Fourteen digits."""
    found = DATE.fullmatch(value)
    if not found:
        raise Damage("BadDate")
    year, month, day, hour, minute, second = (int(part or usual) for part, usual in zip(found.groups(), (0, 1, 1, 0, 0, 0)))
    exists = 1 <= month <= 12 and 1 <= day <= calendar.monthrange(year, month)[1]
    if not exists or hour > 23 or minute > 59 or second > 59:
        raise Damage("BadDate")
    return f"{year:04}{month:02}{day:02}{hour:02}{minute:02}{second:02}"


def target(record: Record, types: Collection[str] = USUAL) -> bytes:
    """The address of a record of one of these types, else nothing."""
    value = record.fields.get(b"warc-target-uri", b"") if record.kind in types else b""
    return value[1:-1] if len(value) > 1 and value[:1] + value[-1:] == b"<>" else value


def base_32(text: bytes) -> bytes:
    """The digest of a text: its SHA-1 in base 32."""
    return base64.b32encode(hashlib.sha1(text).digest())
