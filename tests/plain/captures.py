"""Makes the captures of archives and the index of them in the plainest way, as docs/CDXJ.md says ("Captures", "Lines", "Places")."""
import json
import re
from collections.abc import Collection, Iterable
from typing import NamedTuple, Optional

from plain import keys
from plain.http_heads import HttpHead, read_head
from plain.records import USUAL, Record, base_32, read_stamp, target


class Capture(NamedTuple):
    key: Optional[str]  # nothing where the plain reader doesn't know the key of the target
    stamp: str
    url: str
    mime: str
    status: str
    digest: str
    length: int
    offset: int
    filename: str

    def line_after_key(self) -> bytes:
        members = self._asdict()
        del members["key"], members["stamp"]
        texts = {name: str(value) for name, value in members.items()}
        return f" {self.stamp} {json.dumps(texts, ensure_ascii=False)}\n".encode()

    def line(self) -> bytes:
        assert self.key is not None
        return self.key.encode() + self.line_after_key()

    def place(self) -> tuple[bytes, str, bytes, int]:
        assert self.key is not None
        return self.key.encode(), self.stamp, self.filename.encode(), self.offset


def index(captures: Iterable[Capture]) -> bytes:
    """The index of captures whose keys are known."""
    return b"".join(capture.line() for capture in sorted(captures, key=Capture.place))


def captures_of(records: Iterable[Record], filename: str, types: Collection[str] = USUAL) -> list[Capture]:
    return [capture_of(record, filename) for record in records if target(record, types)]


def capture_of(record: Record, filename: str) -> Capture:
    """The capture of a record that has a target."""
    url = text_of(target(record, (record.kind,)))
    head = http_head(record)
    return Capture(
        key_of(url),
        read_stamp(record.fields[b"warc-date"]),
        url,
        mime_of(record, head),
        head.status if head else "-",
        digest_of(record, head),
        record.length,
        record.offset,
        filename,
    )


def key_of(url: str) -> Optional[str]:
    try:
        return keys.key_of(url)
    except keys.Unknown:
        return None


def is_marked_http(record: Record) -> bool:
    return media_type(record.fields.get(b"content-type", b"")).lower() == b"application/http"


def http_head(record: Record) -> Optional[HttpHead]:
    if record.kind in ("response", "revisit") and is_marked_http(record):
        return read_head(record.block)
    return None


def mime_of(record: Record, head: Optional[HttpHead]) -> str:
    if record.kind == "revisit":
        return "warc/revisit"
    if head:
        return text_of(media_type(head.content_type)) or "-"
    if is_marked_http(record):
        return "-"
    return text_of(media_type(record.fields.get(b"content-type", b""))) or "-"


def digest_of(record: Record, head: Optional[HttpHead]) -> str:
    given = re.sub(rb"\Asha1:", b"", record.fields.get(b"warc-payload-digest", b""), flags=re.IGNORECASE)
    if given:
        return text_of(given)
    if record.kind == "revisit":
        return "-"
    return base_32(record.block[head.length :] if head else record.block).decode()


def media_type(value: bytes) -> bytes:
    return value.partition(b";")[0].strip(b" \t")


def text_of(value: bytes) -> str:
    """The text of a value. In one that isn't UTF-8, each byte from 0x80 is written in hexadecimal."""
    try:
        return value.decode()
    except UnicodeDecodeError:
        return "".join(chr(byte) if byte < 0x80 else f"%{byte:02X}" for byte in value)
