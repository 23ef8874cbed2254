#!/usr/bin/env python3
"""Compares an index of warcdx with the CDX file that wget wrote while it crawled the same archives.

usage: check_wget_cdx.py INDEX CDX FOLDER

FOLDER contains the archives. The index and the CDX file are of all of them. With --warc-cdx, wget writes a line for each response record. Each of
these lines needs a line of the index with the same file name and offset, and with the same URL, date, status, media type and digest. Each
other line of the index has to be that of a revisit or a resource record. Keys and lengths are not compared, because the CDX file has none. Two
spellings are no difference: wget writes a status as a number (99 for 099), and bytes that aren't UTF-8 as they are (the index has %XX).

A response may differ from its CDX line in these ways only, and its record is read to see that one applies:

no head     The block doesn't begin with a response head of RFC 9112 with at most 256 fields: it has another version than HTTP/1.0 and 1.1,
            no head, or a name with a space after it. wget accepts such a head, and takes a block without one as a response with status 200.
            The index has - for status and media type, and the digest of the whole block unless the record gives one of the payload.
empty line  The block begins with an empty line. wget takes all of it as a body. The index reads the head after the line. URL and date are
            compared, and the digest if the record gives one.
no digest   The CDX line has no digest, as with --no-warc-digests. The index has that of the block after its head.

Prints the numbers, and at most 20 lines that differ. The exit status is 0, or 1 if a line differs.
"""
import base64
import collections
import hashlib
import json
import pathlib
import re
import sys
from collections.abc import Iterable, Iterator, Mapping
from typing import NamedTuple, Optional

sys.path.insert(0, str(pathlib.Path(__file__).resolve().parents[1]))

from program import parser_of

CDX_LINE = re.compile(rb"(\S+) (\d{14}) \1 (.+) (\d+) (\S*) \S+ - (\d+) (.+) <urn:uuid:[-0-9a-f]+>")
DIGEST = re.compile("[A-Z2-7]{32}")
TEXT = rb"[\t -~\x80-\xff]*"
FIELD = rb"[-\w!#$%&'*+.^`|~]+:" + TEXT + rb"\r?\n"
FOLDS = rb"(?:[ \t]" + TEXT + rb"\r?\n)*"
HTTP_HEAD = re.compile(rb"HTTP/1\.[01] \d{3}(?: " + TEXT + rb")?\r?\n((?:" + FIELD + FOLDS + rb")*)\r?\n")
MOST_HEAD = 1_048_576  # bytes
MOST_FIELDS = 256


class Row(NamedTuple):
    url: str
    date: str
    status: str
    mime: str
    digest: str


class Record:
    """The record that begins at this offset of the archive."""

    def __init__(self, path: pathlib.Path, offset: int) -> None:
        with open(path, "rb") as archive:
            archive.seek(offset)
            head = archive.read(MOST_HEAD).partition(b"\r\n\r\n")[0]
            lines = [line.partition(":") for line in head.decode("latin-1").split("\r\n")]
            fields = {name.lower(): value.strip() for name, _, value in lines}
            archive.seek(offset + len(head) + 4)
            self.block = archive.read(int(fields.get("content-length", 0)))
        self.type = fields.get("warc-type", "no record")
        self.digest = fields.get("warc-payload-digest", "").removeprefix("sha1:")

    def payload(self) -> Optional[bytes]:
        """Returns the block after its HTTP head, or None if it has no such head."""
        head = HTTP_HEAD.match(self.block)
        if head and len(re.findall(rb"^[^ \t]", head[1], re.MULTILINE)) <= MOST_FIELDS:
            return self.block[head.end() :]
        return None

    def difference(self, wget: Row, found: Row) -> tuple[str, Row]:
        """Returns which of the differences may be between these rows, and the row that the index then has to have."""
        payload = self.payload()
        if self.block.startswith((b"\r\n", b"\n")):
            return "empty line", wget._replace(status=found.status, mime=found.mime, digest=self.digest or found.digest)
        if payload is None:
            return "no head", wget._replace(status="-", mime="-", digest=self.digest or digest(self.block))
        if not DIGEST.fullmatch(wget.digest):
            return "no digest", wget._replace(digest=digest(payload))
        return "none", wget


def digest(payload: bytes) -> str:
    return base64.b32encode(hashlib.sha1(payload).digest()).decode()


def text(value: bytes) -> str:
    try:
        return value.decode()
    except UnicodeDecodeError:
        return re.sub(rb"[\x80-\xff]", lambda byte: b"%%%02X" % ord(byte[0]), value).decode()


Rows = Iterator[tuple[tuple[str, int], Row]]


def read_index(path: pathlib.Path) -> Rows:
    """Yields the place of each line, file name and offset, and its row."""
    for line in open(path, encoding="utf-8", newline="\n"):
        _, date, members = line.split(" ", 2)
        names = json.loads(members)
        row = Row(names["url"], date, names["status"], names["mime"], names["digest"])
        yield (names["filename"], int(names["offset"])), row


def read_cdx(path: pathlib.Path) -> Rows:
    """The same of a CDX file, whose columns are a b a m s k r M V g u."""
    for line in path.read_bytes().splitlines()[1:]:
        parts = CDX_LINE.fullmatch(line)
        if parts is None:
            sys.exit(f"{path}: not a line as wget writes them: {line}")
        url, date, mime, status, digest, offset, archive = map(text, parts.groups())
        yield (archive.rpartition("/")[2], int(offset)), Row(url, date, status.zfill(3), mime, digest)


def by_place(pairs: Iterable[tuple[tuple[str, int], Row]], path: pathlib.Path) -> dict[tuple[str, int], Row]:
    found = list(pairs)
    if len(dict(found)) < len(found):
        sys.exit(f"{path}: two lines for one record")
    return dict(found)


def compare(
    index: Mapping[tuple[str, int], Row], wget: Mapping[tuple[str, int], Row], folder: pathlib.Path
) -> Iterator[tuple[str, Optional[tuple[object, ...]]]]:
    """Yields a word for each record, and the place and rows that disagree."""
    for place, row in wget.items():
        found = index.get(place)
        if found == row:
            yield "same", None
        elif found is None:
            yield "MISSING", (place, row)
        else:
            word, wanted = Record(folder / place[0], place[1]).difference(row, found)
            yield (word, None) if found == wanted else ("DIFFERS", (place, wanted, found))
    for place in index.keys() - wget.keys():
        kind = Record(folder / place[0], place[1]).type
        yield (kind, None) if kind in ("revisit", "resource") else ("MORE", (place, index[place]))


def main() -> int:
    parser = parser_of(__doc__)
    parser.add_argument("index", metavar="INDEX", type=pathlib.Path, help="the index")
    parser.add_argument("cdx", metavar="CDX", type=pathlib.Path, help="the CDX file of wget")
    parser.add_argument("folder", metavar="FOLDER", type=pathlib.Path, help="the folder of the archives")
    arguments = parser.parse_args()
    index, wget = by_place(read_index(arguments.index), arguments.index), by_place(read_cdx(arguments.cdx), arguments.cdx)
    verdicts = list(compare(index, wget, arguments.folder))
    differing = [(word, *rows) for word, rows in verdicts if rows]
    for each in differing[:20]:
        print("DIFFERS ", *each)
    counts = collections.Counter(word for word, _ in verdicts).items()
    print(f"{len(wget)} lines of CDX, {len(index)} of the index:", ", ".join(f"{count} {word}" for word, count in counts))
    return 1 if differing else 0


if __name__ == "__main__":
    sys.exit(main())
