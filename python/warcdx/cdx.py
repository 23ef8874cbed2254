"""CDX files of eleven and of nine columns, which are read and written as docs/OTHER_TOOLS.md says."""
import json
import re
from collections.abc import Iterator, Sequence
from typing import IO, NamedTuple, Optional

from .codings import Unreadable
from .errors import Error
from .faults import Read
from .merging import merged
from .program import Path
from .streams import whole
from .url_keys import MOST_URL, Keyed, keys_of

HEADER = b" CDX N b a m s k r M S V g\n"
MOST_LINE = 1 << 24  # bytes of a line, with its line feed
_MOST_ROWS = 4096  # that one run of the program makes keys for
_MOST_HELD = 1 << 20  # bytes of all their values, one row aside
_MOST_COLUMNS = 64  # of a header
_USUAL_LETTERS = {11: b"N b a m s k r M S V g", 9: b"N b a m s k r V g"}  # of files without a header, by their columns
_READ = (b"b", b"a", b"m", b"s", b"k", b"S", b"V", b"g")  # the letters of the values of a row
_TIMESTAMP = re.compile(rb"[0-9]{14}")
_NUMBER = re.compile(rb"[0-9]{1,19}")
_NOT_IN_A_COLUMN = re.compile(r"[\x00-\x20\x7f]")
_NOT_ASCII = re.compile(rb"[\x80-\xff]")
_VALUES = ("url", "mime", "status", "digest", "length", "offset", "filename")


class BadRow(Error):
    """A line of a CDX file can't be read."""

    def __init__(self, number: int, cause: str) -> None:
        super().__init__(number, cause)
        self.number = number
        self.cause = cause

    def __str__(self) -> str:
        return f"line {self.number}: {self.cause}"


class NoColumns(BadRow):
    """A line has neither the columns of a file without a header, nor a header before it. The file may be of another kind."""


def write_cdx(indexes: Sequence[Path], output: IO[bytes], program: str) -> None:
    """Writes the header and the captures of indexes, merged, in eleven columns.

    Raises Error as `warcdx merge` fails, after the captures before the fault.
    """
    output, count, is_whole = whole(output), 0, False
    with merged(indexes, program) as lines:
        for line in lines:
            columns = _cdx_line(line)
            if columns is None:
                break
            output.write(columns if count else HEADER + columns)
            count += 1
        else:
            is_whole = True
    if not is_whole:
        raise Unreadable("the program has written no line of an index")
    if not count:
        output.write(HEADER)


def _cdx_line(line: bytes) -> Optional[bytes]:
    """Returns the columns of a line that the program has accepted, or None for a part of one, if it was ended."""
    parts = line.split(b" ", 2)
    if len(parts) != 3 or not line.endswith(b"\n"):
        return None
    key, timestamp, members = parts
    try:  # blanks may follow the members, as in a file with the line ends of Windows
        found = json.loads(members, parse_int=_decimal, parse_float=_nothing, parse_constant=_nothing)
    except ValueError:
        return None
    url, mime, status, digest, length, offset, filename = (_column(found.get(name)) for name in _VALUES)
    columns = f"{url} {mime} {status} {digest} - - {length} {int(offset)} {filename}\n"
    return b"%b %b %b" % (key, timestamp, columns.encode())


def _decimal(text: str) -> Optional[str]:
    is_number = text.isdigit() and (len(text) < 20 or len(text) == 20 and int(text) < 1 << 64)
    return text if is_number else None


def _nothing(text: str) -> None:
    return None


def _column(value: object) -> str:
    if not isinstance(value, str) or not value:
        return "-"
    return _NOT_IN_A_COLUMN.sub(lambda found: f"%{ord(found[0]):02X}", value)


class _Row(NamedTuple):
    """A line of a CDX file: its number, from 1, and the values that are read of it, as bytes."""

    number: int
    timestamp: bytes
    url: bytes
    mime: bytes
    status: bytes
    digest: bytes
    length: bytes
    offset: bytes
    filename: bytes


def cdxj_lines(file: IO[bytes], program: str) -> Iterator[bytes]:
    """Yields the lines of a CDX file as lines of CDXJ, in their order, with the URL keys of warcdx.

    Raises BadRow or `faults.Read` after the lines before it, or another Error if the program fails.
    """
    for rows, end in _batches(file):
        yield from _keyed_lines(rows, program)
        if end is not None:
            raise end


def _batches(file: IO[bytes]) -> Iterator[tuple[list[_Row], Optional[Exception]]]:
    """Yields the rows that one run of the program makes keys for, with the last ones also the fault that ended them."""
    rows: list[_Row] = []
    held = 0
    try:
        for row in _rows(file):
            rows.append(row)
            held += sum(map(len, row[1:]))
            if len(rows) == _MOST_ROWS or held >= _MOST_HELD:
                yield rows, None
                rows, held = [], 0
    except (BadRow, Read) as error:
        yield rows, error
    else:
        yield rows, None


def _keyed_lines(rows: list[_Row], program: str) -> Iterator[bytes]:
    count = 0
    for row, keyed in zip(rows, keys_of(program, [row.url for row in rows]) if rows else ()):
        yield _cdxj_line(row, keyed)
        count += 1
    if count < len(rows):
        raise BadRow(rows[count].number, "the URL can't be indexed")


def _rows(file: IO[bytes]) -> Iterator[_Row]:
    letters, number = list[bytes](), 0
    while line := _line_of(file):
        number += 1
        if len(line) > MOST_LINE:
            raise BadRow(number, f"it has more than {MOST_LINE:,} bytes")
        line = line.removesuffix(b"\n").removesuffix(b"\r")
        if line.startswith(b" CDX ") or number == 1 and line.startswith(b"CDX "):
            letters = line.lstrip(b" ").split(b" ", _MOST_COLUMNS + 1)[1:]
            _expect_columns(letters, number)
            continue
        count = line.count(b" ") + 1
        if not letters:
            if count not in _USUAL_LETTERS:
                raise NoColumns(number, f"it has {_columns(count)}, and not 11 or 9; a header names other columns")
            letters = _USUAL_LETTERS[count].split(b" ")
        if count != len(letters):
            raise BadRow(number, f"it has {_columns(count)}, and not {len(letters)}")
        yield _row_of(dict(zip(reversed(letters), reversed(line.split(b" ")))), number)  # of two columns with one letter the first counts


def _columns(count: int) -> str:
    return "1 column" if count == 1 else f"{count:,} columns"


def _line_of(file: IO[bytes]) -> bytes:
    """Returns the next line, or the front of one that is too long."""
    try:
        return file.readline(MOST_LINE + 1)
    except OSError as error:
        fault = Read("Read")
        fault.reason = error.strerror or ""
        raise fault from error


def _expect_columns(letters: list[bytes], number: int) -> None:
    if len(letters) > _MOST_COLUMNS:
        raise BadRow(number, f"the header has more than {_MOST_COLUMNS} columns")
    if not {b"a", b"b", b"g"} <= set(letters) or not {b"V", b"v"} & set(letters):
        raise BadRow(number, "the header hasn't the columns a, b, g, and V or v")


def _row_of(values: dict[bytes, bytes], number: int) -> _Row:
    values.setdefault(b"V", values.get(b"v", b"-"))
    row = _Row(number, *(values.get(letter, b"-") for letter in _READ))
    if cause := _fault_of(row):
        raise BadRow(number, cause)
    return row


def _fault_of(row: _Row) -> Optional[str]:
    if not all(row[1:]):
        return "a column is empty"
    if not _TIMESTAMP.fullmatch(row.timestamp):
        return "the timestamp isn't 14 digits"
    if row.url == b"-":
        return "it has no URL"
    if len(row.url) > MOST_URL:
        return f"the URL has more than {MOST_URL:,} bytes"
    if not _is_number(row.offset):
        return "the offset isn't a number below 2^63"
    if row.length != b"-" and not _is_number(row.length):
        return "the length isn't a number below 2^63"
    return "it has no file name" if row.filename == b"-" else None


def _is_number(text: bytes) -> bool:
    return _NUMBER.fullmatch(text) is not None and int(text) < 1 << 63


def _cdxj_line(row: _Row, keyed: Keyed) -> bytes:
    length = b"" if row.length == b"-" else b'"length": "%d", ' % int(row.length)
    mime, status, digest, filename = map(_json, (row.mime, row.status, row.digest, row.filename))
    line = b'%b %b {"url": "%b", "mime": %b, "status": %b, "digest": %b, %b"offset": "%d", "filename": %b}\n' % (
        keyed.key, row.timestamp, keyed.escaped, mime, status, digest, length, int(row.offset), filename,
    )  # fmt: skip
    if len(line) > MOST_LINE:
        raise BadRow(row.number, f"its line in the index has more than {MOST_LINE:,} bytes")
    return line


def _json(value: bytes) -> bytes:
    """Returns a value as a JSON string. Of one that isn't UTF-8, the bytes from 0x80 become escapes of URLs."""
    try:
        text = value.decode()
    except UnicodeDecodeError:
        text = _NOT_ASCII.sub(lambda found: b"%%%02X" % found[0][0], value).decode()
    return json.dumps(text, ensure_ascii=False).encode()
