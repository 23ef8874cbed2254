"""Why a file is at fault, by the names that docs/COMMANDS.md and docs/RECORDS.md have."""
import errno
import os
from typing import Any, Optional

from .errors import Fault


class Version(Fault):
    """The record doesn't begin with a version line of WARC 1.0 or 1.1."""


class ShortHead(Fault):
    """The archive ends in the head of the record."""


class HeadTooLong(Fault):
    """The head of the record has more than 1,048,576 bytes."""


class FieldLine(Fault):
    """A line of the head isn't a field."""


class Missing(Fault):
    """A mandatory field is absent."""


class Repeated(Fault):
    """A mandatory field occurs twice."""


class BadLength(Fault):
    """The value of Content-Length isn't a length."""


class BadDate(Fault):
    """The value of WARC-Date isn't a date."""


class TooFar(Fault):
    """The record would end past byte 2^63 - 1."""


class ShortBlock(Fault):
    """The archive ends in the block of the record."""


class Closing(Fault):
    """The block isn't followed by two line breaks."""


class KeyTooLong(Fault):
    """The URL of the record is too long for a key."""


class LineTooLong(Fault):
    """The line of the capture would be too long."""


class NoRecord(Fault):
    """No record begins at the offset."""


class OtherRecord(Fault):
    """The record at the offset has another URL or time than the line of the index. The program doesn't know this cause."""

    advice = "it isn't the record of the index line; if the archive was replaced, index it anew"


class BadName(Fault):
    """The file name of the archive is empty or too long."""


class DuplicateName(Fault):
    """An earlier archive has the same file name."""


class BadLine(Fault):
    """A line of the index isn't that of a capture."""


class OutOfOrder(Fault):
    """A line of the index is below the line before it."""


class TooManySources(Fault):
    """There are more than 1,024 indexes or archives."""


class CannotOpen(Fault):
    """The file can't be opened.

    It is a FileNotFoundError too if there is no such file, and a PermissionError if opening it isn't allowed.
    """

    system_error: Optional[int] = None  # the number of the system's error

    def __reduce__(self) -> "tuple[Any, ...]":
        if self.file is None or self.system_error is None:
            return super().__reduce__()  # type: ignore[return-value]
        return cannot_open, (self.file, self.system_error)


_MISSING: type[CannotOpen] = type("CannotOpen", (CannotOpen, FileNotFoundError), {"__module__": __name__})
_FORBIDDEN: type[CannotOpen] = type("CannotOpen", (CannotOpen, PermissionError), {"__module__": __name__})
_KINDS = {errno.ENOENT: _MISSING, errno.EACCES: _FORBIDDEN, errno.EPERM: _FORBIDDEN}


def cannot_open(path: str, error: Optional[int]) -> CannotOpen:
    """Returns the fault of a file that can't be opened. `error` is the number of the system's error, if it is known."""
    fault = _KINDS.get(error or 0, CannotOpen)("CannotOpen", path)
    if error is not None:
        fault.reason, fault.system_error = os.strerror(error), error
        fault.advice = advice_on_name(path) if error == errno.ENOENT else ""
        if isinstance(fault, OSError):
            fault.errno, fault.strerror, fault.filename = error, fault.reason, path
    return fault


def advice_on_name(path: str) -> str:
    """Returns what the name is of a file that isn't there, if it looks like a URL or a pattern."""
    if "://" in path:
        return "it is a URL, and only files are read: fetch it first"
    return "no file has a name of this pattern" if any(each in path for each in "*?[") else ""


class Read(Fault):
    """The file can't be read."""


class Input(Fault):
    """Standard input can't be read."""


class Write(Fault):
    """The output can't be written."""


class CannotFlush(Fault):
    """The output can't be flushed."""


class Memory(Fault):
    """Memory could not be allocated."""


# Those of compressed archives. Their offset is where the member begins in the file.


class NoMember(Fault):
    """No member of gzip begins here."""


class BadMember(Fault):
    """The member can't be decompressed, or its checksum differs."""


class CutMember(Fault):
    """The file ends in the member."""


class SeveralRecords(Fault):
    """The member holds more than one record."""


BY_NAME: dict[str, type[Fault]] = {kind.__name__: kind for kind in Fault.__subclasses__()}
