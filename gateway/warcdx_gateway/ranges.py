"""Ranges of the lines of an index: where places are in its files, and how many bytes are between them.

A *place* here is the front of a line: the bytes of a key, a blank and a timestamp. The files of an index
have a *position* each, the start of a line: for all of them it is one list, in the order of the files.
"""
import os
from collections.abc import Iterator, Sequence
from dataclasses import dataclass
from typing import Optional

from warcdx.faults import BadLine, OutOfOrder

FRONT = 1024  # bytes that have the end of a line and the front of the next one, usually
MOST_LINE = 16 << 20  # bytes of a line
FARTHER = 16  # times: how a search from a position on looks ahead
STAMP = 15  # bytes of a timestamp and the blank before it

Positions = list[int]


@dataclass(frozen=True)
class Lines:
    """The lines of an open file, the one with this number in the index. They are in order, as was checked.

    What a search reads is compared with what it has read. So it raises BadLine or OutOfOrder for many
    files that aren't in order, and none for some of them: it reads few lines.
    """

    number: int
    file: int
    size: int

    def from_offset(self, offset: int) -> tuple[int, bytes]:
        """Returns the start of the first line that begins at an offset or after it, and its place.

        After the last line it is the end of the file, and no place.
        """
        at = max(offset - 1, 0)
        read, start = self._read(at, FRONT), 0
        if offset:
            read, end = self._with(read, at, b"\n", 0)
            start = end + 1 if end >= 0 else len(read)
        if at + start >= self.size:
            return self.size, b""
        read, blank = self._with(read, at, b" ", start)
        if len(read) < blank + STAMP:
            read = self._read(at, blank + STAMP)
        place, digits = read[start : blank + STAMP], read[blank + 1 : blank + STAMP]
        if blank <= start or not digits.isdigit() or len(digits) < STAMP - 1:
            raise self._fault(BadLine, at + start)
        return at + start, place

    def first(self, place: bytes, low: int, high: int, step: int = MOST_LINE) -> int:
        """Returns the position, between two positions, of the first line whose place isn't below this one.

        It is `high` if there is none. A small `step` finds one that is near the first position sooner.
        """
        top, below, above = high, b"", b""
        while low < top:
            middle = min(low + step, (low + top) // 2)
            start, found = self.from_offset(middle)
            if start >= high:
                top = middle
                continue
            if found < below or (above and found > above):
                raise self._fault(OutOfOrder, start)
            if found < place:
                low, below, step = start + 1, found, (step or FRONT) * FARTHER
            else:
                top, high, above, step = middle, start, found, MOST_LINE
        return high

    def first_same(self, start: int, place: bytes, low: int) -> int:
        """Returns the position of the first line with the place of the one that begins at `start`, from `low` on."""
        is_first = start == low or self.last_before(start) < place
        return start if is_first else self.first(place, low, start)

    def last_before(self, position: int) -> bytes:
        """Returns the place of the last line before a position, which isn't 0."""
        size = FRONT
        while True:
            at = max(position - size, 0)
            found = self._read(at, position - 1 - at).rfind(b"\n")
            if found >= 0 or at == 0:
                return self.from_offset(at + found + 1)[1]
            size *= 4

    def _with(self, read: bytes, at: int, byte: bytes, start: int) -> tuple[bytes, int]:
        """Returns what was read at an offset, or more, and where it first has a byte from `start` on, or -1."""
        while (found := read.find(byte, start)) < 0:
            longer = self._read(at, 4 * len(read))
            if len(longer) <= len(read) or len(read) > 2 * MOST_LINE:
                return read, -1
            read = longer
        return read, found

    def _read(self, at: int, size: int) -> bytes:
        return os.pread(self.file, min(size, self.size - at), at)

    def _fault(self, kind: "type[BadLine | OutOfOrder]", offset: int) -> "BadLine | OutOfOrder":
        return kind(kind.__name__, None, offset, self.number)

    def copy(self, to: int, start: int, end: int) -> None:
        """Writes the bytes between two positions to another file."""
        while start < end:
            sent = os.sendfile(to, self.file, start, end - start)
            if not sent:
                raise self._fault(BadLine, start)  # it has become shorter
            start += sent


class Range:
    """The lines of an index between two positions. It has `size` bytes in all files."""

    def __init__(self, files: Sequence[Lines], starts: Positions, ends: Positions) -> None:
        self.files = files
        self.starts = starts
        self.ends = ends
        self.size = sum(ends) - sum(starts)

    @classmethod
    def of(cls, files: Sequence[Lines], first: bytes, end: Optional[bytes]) -> "Range":
        """Returns the lines whose places aren't below one place, and are below another one if there is one."""
        starts = [each.first(first, 0, each.size) for each in files]
        pairs = list(zip(files, starts))
        ends = [each.size if end is None else each.first(end, low, each.size) for each, low in pairs]
        return cls(files, starts, ends)

    def between(self, starts: Positions, ends: Positions) -> "Range":
        return Range(self.files, starts, ends)

    def at(self, place: bytes) -> Positions:
        """Returns the position before the first line of the range whose place isn't below this one."""
        return [each.first(place, low, high) for each, low, high in zip(self.files, self.starts, self.ends)]

    def after(self, count: int) -> Positions:
        """Returns the position of the first place before which the range has `count` bytes or more.

        So lines with the same key and timestamp are on the same side of it. It is the end of the range if
        there is no such place.
        """
        lows, highs = self.starts, self.ends
        if count <= 0:
            return lows
        wanted = sum(lows) + count
        while lows != highs:
            widths = [high - low for low, high in zip(lows, highs)]
            number = widths.index(max(widths))
            low, high = lows[number], highs[number]
            start, place = self.files[number].from_offset((low + high) // 2)
            if start >= high:
                start, place = self.files[number].from_offset(low)
            found = [
                each.first_same(start, place, low) if each is self.files[number] else each.first(place, low, high)
                for each, low, high in zip(self.files, lows, highs)
            ]
            if sum(found) >= wanted:
                highs = found
            else:
                nearest = zip(self.files, found, highs)
                lows = [each.first(place + b"\0", low, high, 0) for each, low, high in nearest]
        return highs

    def parts(self, size: int) -> Iterator["Range"]:
        """Yields ranges of about `size` bytes that are this one, joined. None of them is empty."""
        start, count = self.starts, 0
        while start != self.ends:
            count += size
            end = self.after(count)
            if end != start:
                yield self.between(start, end)
            start = end

    def last_place(self) -> bytes:
        """Returns the place of the last line. The range isn't empty."""
        ends = zip(self.files, self.starts, self.ends)
        return max(each.last_before(end) for each, start, end in ends if start < end)
