"""The records of an archive, by `list`, `verify`, `index` and `get` of the program."""
import contextlib
import io
import os
import re
import stat
from collections.abc import Callable, Generator, Iterator
from typing import IO, NamedTuple, Optional, TypeVar

from .advice import advice_on
from .errors import Fault, ProgramError, expect_type, number_of
from .faults import NoRecord, Read, cannot_open
from .files import open_at_once
from .iterators import Again
from .program import Path, Process, find_packed_program, find_program, operand, running, write_output
from .record import CLOSING, Record, RecordStream, Unreadable
from .reported import fault
from .usual_records import MAGIC, MOST, ArchiveFile, Block, NotUsual, usual_record

FAULTY = 1  # the exit status after a fault that is on the output, and after a digest that differs
_INPUT = "-"
_Archive = TypeVar("_Archive", bound="Archive")
_Read = TypeVar("_Read")
_MOST = (1 << 63) - 1  # bytes before the end of a record
_MOST_STREAMED = 1 << 20  # bytes of a record that `stream` holds in memory
_VERDICT = re.compile(b"0 ([a-z0-9-]+)\n")
_LISTED = re.compile(b"([0-9]+) ([0-9]+) ([a-z]+)\n")
_VERIFIED = re.compile(b"([0-9]+) ([a-z0-9-]+)\n")
_FAULT = re.compile(b"fault ([0-9]+) ([A-Za-z0-9]+)\n")


class Listed(NamedTuple):
    """A record as `list` prints it: its offset and length in bytes, and its type in lower case.

    In a compressed archive, offset and length are those of the record's member.
    """

    offset: int
    length: int
    kind: str


class Verified(NamedTuple):
    """A record as `verify` prints it: its offset in bytes, and `same`, `differs`, `not-sha1` or `absent`."""

    offset: int
    verdict: str


class Archive:
    """A plain archive, which `warcdx` reads. `open_archive` opens one of either form.

        with open_archive("crawl.warc.gz") as archive:
            for record in archive:
                print(record.kind, record.field("WARC-Target-URI"), len(record.block))

    The iterators read the archive as they are advanced. If it is damaged, they raise the class of
    `warcdx.faults` that is named as the program names the cause, after all records before the damage.

    Records of the usual form are read by this process. All others are asked of the program, which
    alone decides what is at fault. An archive is opened for each call, so `with` and `close` close nothing.
    """

    _may_be_packed = False

    def __init__(self, path: Path, *, program: str = "warcdx") -> None:
        self.path = operand(path)
        self._program = find_program(program)

    def list(self) -> Iterator[Listed]:
        """Yields each record."""
        return Again(Listed(int(found[0]), int(found[1]), found[2]) for found in self._lines("list", _LISTED))

    def verify(self) -> Iterator[Verified]:
        """Yields each record, with the verdict on the digest of its block."""
        return Again(Verified(int(found[0]), found[1]) for found in self._lines("verify", _VERIFIED))

    def index(self, output: IO[bytes], *, name: Optional[str] = None, types: Optional[str] = None) -> None:
        """Writes an index of the captures. `types` are those of `--types` of the program.

        The archive's file name in it is the part of its path behind the last `/`, or else of `name`. If the archive
        is at fault, the captures before the fault are written first.
        """
        expect_type("types", types, (str, type(None)), "a text, such as response,metadata")
        command = (self._program, "index", *(() if types is None else ("--types", types)))
        if name is None:
            write_output(output, *command, self.path)
            return
        try:
            file = open(self.path, "rb", buffering=0)
        except (OSError, ValueError) as error:
            raise cannot_open(self.path, getattr(error, "errno", None)) from error
        with file:
            try:
                write_output(output, *command, "--name", operand(name), _INPUT, stdin=file.fileno())
            except Fault as found:
                found.file = self.path if found.file == _INPUT else found.file
                raise

    def __iter__(self) -> Iterator[Record]:
        """Yields each record, held in memory. `streams` yields them to be read in pieces.

        Records of the usual form are read by this process, and others are asked of the program.
        """
        records = self.each(lambda block: (block, b"".join(block.pieces)))
        return Again(Record(block.fields, text, block.offset, size) for (block, text), size in records)

    def each(self, read: Callable[[Block], _Read]) -> Generator[tuple[_Read, int], None, None]:
        """Yields what is made of each record by `read`, which reads its block to the end, and the length of the record in the file.

        Records of the usual form are read by this process, and once. From the first other one on, `list` of the program
        finds the records, and has read a member to its end. It says too why the file can't be read.
        """
        file = None
        try:
            with self.opened() as file:
                for block in file.blocks():
                    yield read(block), file.next - block.offset
            return
        except (NotUsual, OSError, ValueError):
            pass
        for listed, stream in self.listed_streams(file):
            yield read(Block(listed.offset, stream.head.fields, stream.length, stream.whole_block())), listed.length
        if file is not None and (size := os.stat(self.path).st_size) < file.size:  # another process has cut it
            raise fault("ShortHead", self.path, size)

    def streams(self) -> Iterator[RecordStream]:
        """Yields each record to be read in pieces, before the next one is taken. Long ones take little memory so."""
        return Again(stream for _, stream in self.listed_streams())

    def listed_streams(self, read: Optional[ArchiveFile] = None) -> Iterator[tuple[Listed, RecordStream]]:
        """Yields what `list` has of each record, and the record as `streams` does, if a file was read behind its `end`.

        Raises Read if another file has taken the archive's place meanwhile.
        """
        expect_file(self.path)
        start, before = (0, self._identity()) if read is None else (read.end, read.identity)
        for listed in self.list():
            if listed.offset < start:
                continue
            with self._stream(listed.offset, listed.length, True) as stream:
                self._expect(before)
                yield listed, stream

    def record(self, offset: int, *, length: Optional[int] = None) -> Record:
        """Returns the record that begins at an offset, in bytes from the start of the archive.

        A plain archive is read from its start to the end of the record, and a compressed one from the offset on. If
        the `length` of the record or of its member is given, in bytes as an index has it, nothing before it is read.
        Raises `faults.NoRecord` if no record, or one of another length, begins at the offset, or else the archive's
        fault. The record is held in memory.
        """
        text = self._text_at(offset, length, MOST)
        found = None if text is None else usual_record(text, offset, length)
        if found is not None:
            return found
        with running(*self._get(offset, length)) as output:
            text = output.read()
        return Record.read(text, offset, length)

    get = record

    def copy(self, offset: int, output: IO[bytes], *, length: Optional[int] = None) -> None:
        """Writes the record that begins at an offset. Raises as `get` does, after a part of it may be written."""
        write_output(output, *self._get(offset, length))

    def stream(
        self, offset: int, *, length: Optional[int] = None, seconds: Optional[float] = None
    ) -> contextlib.AbstractContextManager[RecordStream]:
        """Opens the record that begins at an offset, as `get` does, to be read in pieces.

        It needn't be read to its end. If it is, and the archive is damaged in it, the fault is raised at the end.
        A record of up to 1 MB is read at once. Of a longer one the program unpacks the member to its end, however much
        follows the record. If it is silent for more than `seconds`, it is ended, and ReplyTooLate is raised.
        """
        return self._stream(offset, length, False, seconds)

    @contextlib.contextmanager
    def _stream(self, offset: int, length: Optional[int], is_listed: bool, seconds: Optional[float] = None) -> Iterator[RecordStream]:
        text = self._text_at(offset, length, _MOST_STREAMED)
        if text is not None and (is_listed or usual_record(text) is not None):
            head, _, rest = text.partition(CLOSING)
            yield RecordStream(head, io.BytesIO(rest))
            return
        with running(*self._get(offset, length), seconds=seconds) as output:
            record = RecordStream.read(output)
            if record is not None:
                yield record
        if record is None:
            raise Unreadable("the program has written no record")

    def verdict(self, offset: int) -> str:
        """Returns the verdict of `verify` on the record that begins at an offset, which alone is read whole."""
        with running(*self._get(offset, None)) as record, Process((self._program, "verify", _INPUT), record.fileno()) as process:
            found = _VERDICT.fullmatch(process.stdout.read())
            is_whole = process.wait() in (0, FAULTY)
        if found is None or not is_whole:
            raise Unreadable("the program has given no verdict")
        return found[1].decode()

    def _get(self, offset: int, length: Optional[int]) -> tuple[str, ...]:
        """Returns the command that writes a record.

        Raises NoRecord for an offset or a length that no record has, and the program refuses as an argument.
        """
        offset, length = number_of("offset", offset), None if length is None else number_of("length", length)
        if not (0 <= offset <= _MOST and 0 <= (length or 0) <= _MOST):
            raise NoRecord("NoRecord", self.path)
        only = () if length is None else ("--length", str(length))
        return self._program, "get", *only, str(offset), self.path

    def opened(self) -> ArchiveFile:
        """Opens the file. Raises OSError or ValueError."""
        return ArchiveFile(self.path, self._may_be_packed)

    def close(self) -> None:
        """Does nothing: no file is open between two calls."""

    def __enter__(self: "_Archive") -> "_Archive":
        return self

    def __exit__(self, *error: object) -> None:
        self.close()

    def __repr__(self) -> str:
        return f"{type(self).__name__}({self.path!r})"

    def _text_at(self, offset: int, length: Optional[int], most: int) -> Optional[bytes]:
        """Returns the text of the record at an offset, or None if the program has to find it, or for a longer one.

        `most` is the number of bytes that it may have. Whether the text is a record isn't looked at.
        """
        offset, length = number_of("offset", offset), None if length is None else number_of("length", length)
        try:
            with self.opened() as file:
                return file.text(offset, length, most)
        except (OSError, ValueError):
            return None  # the program says why the file can't be read

    def _identity(self) -> Optional[tuple[int, int]]:
        """Returns what another file in the archive's place doesn't have. It stays the same if the archive is written on."""
        try:
            found = os.stat(self.path)
        except (OSError, ValueError):  # the program says why
            return None
        return found.st_dev, found.st_ino

    def _expect(self, identity: Optional[tuple[int, int]]) -> None:
        if self._identity() != identity:
            replaced = Read("Read", self.path)
            replaced.advice = "another file has taken its place while it was read"
            raise replaced

    def _lines(self, command: str, pattern: "re.Pattern[bytes]") -> Iterator[tuple[str, ...]]:
        """Yields the groups of each line of a report."""
        with running(self._program, command, self.path, good=(0, FAULTY)) as output:
            for line in output:
                if found := pattern.fullmatch(line):
                    yield tuple(group.decode() for group in found.groups())
                else:
                    self._expect_end(command, line)

    def _expect_end(self, command: str, line: bytes) -> None:
        """Raises why a line of a report isn't about a record, unless the program was ended in it."""
        if found := _FAULT.fullmatch(line):
            error = fault(found[2].decode(), self.path, int(found[1]))
            if not _is_read_once(self.path):
                error.advice = advice_on(error, self.path, self._program)
            raise error
        if line.endswith(b"\n"):
            raise ProgramError(f"warcdx {command} has written {line!r:.100}")


class CompressedArchive(Archive):
    """An archive that `warcdx-gz` reads: compressed, each record a member of gzip of its own, or plain.

    `warcdx-gz` stands beside `program`, which may be itself, or else on the PATH. The offset of a fault is that of the
    member. Further faults are NoMember, BadMember, CutMember and SeveralRecords of `warcdx.faults`.
    """

    _may_be_packed = True

    def __init__(self, path: Path, *, program: str = "warcdx") -> None:
        super().__init__(path, program=find_packed_program(program))


def open_archive(path: Path, *, program: str = "warcdx") -> Archive:
    """Returns an archive, which is compressed if its first bytes are those of gzip. Raises CannotOpen or Read.

    What can be read only once, such as a pipe, isn't looked at. `warcdx-gz` reads it, in either form.
    """
    name = operand(path)
    first = None if _is_read_once(name) else _first_bytes(name)
    if first is None or first and MAGIC.startswith(first):
        return CompressedArchive(path, program=program)
    return Archive(path, program=program)


def _is_read_once(path: Path) -> bool:
    """Returns whether a path names a pipe or another device, of which what was read is gone."""
    try:
        mode = os.stat(path).st_mode
    except (OSError, ValueError):
        return False
    return stat.S_ISFIFO(mode) or stat.S_ISCHR(mode)


def expect_file(path: Path) -> None:
    """Raises Unreadable for a pipe or another device of which what was read is gone."""
    if _is_read_once(path):
        raise Unreadable(f"{os.fspath(path)}: a pipe can be read only once, by list, verify or index; save it to a file")


def _first_bytes(path: str) -> Optional[bytes]:
    """Returns the first bytes of a file. Raises CannotOpen or Read."""
    try:
        file = open_at_once(path)
    except (OSError, ValueError) as error:
        raise cannot_open(path, getattr(error, "errno", None)) from error
    with file:
        try:
            return file.read(len(MAGIC))  # None if a pipe has taken its place
        except OSError as error:
            unread = Read("Read", path)
            unread.reason = error.strerror or ""
            raise unread from error
