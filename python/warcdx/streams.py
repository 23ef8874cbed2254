"""The standard streams of a command, and outputs to which all comes that is written, or an error."""
import contextlib
import errno
import io
import json
import os
import select
import sys
from collections.abc import Callable
from typing import IO, Optional, cast

_BUFFER = 1 << 16  # bytes


class OutputError(OSError):
    """Standard output can't be written."""


class _Standard(io.RawIOBase):
    """Standard input or output. Where reading or writing doesn't wait, as of a pipe that its other users have set so, this waits."""

    def __init__(self, number: int) -> None:
        self._number = number

    def readable(self) -> bool:
        return self._number == 0

    def writable(self) -> bool:
        return self._number == 1

    def fileno(self) -> int:
        return self._number

    def readinto(self, room: "bytearray | memoryview") -> int:  # type: ignore[override]
        while True:
            try:
                return os.readv(0, [room])
            except BlockingIOError:
                is_ready(0, select.POLLIN)

    def write(self, data: "bytes | bytearray | memoryview") -> int:  # type: ignore[override]
        while True:
            try:
                return os.write(1, data)
            except BlockingIOError:
                is_ready(1, select.POLLOUT)
            except OSError as error:
                raise OutputError(error.errno, error.strerror) from None


def is_ready(file: "int | IO[bytes]", event: int, seconds: Optional[float] = None) -> bool:
    """Waits until a file can be read or written, or has ended, or for these seconds, and returns whether it can."""
    poll = select.poll()
    poll.register(file, event)
    return bool(poll.poll(None if seconds is None else seconds * 1000))


class _StandardError(io.RawIOBase):
    """Standard error. What can't be written is lost, as there is no other place for it."""

    def writable(self) -> bool:
        return True

    def write(self, data: "bytes | bytearray | memoryview") -> int:  # type: ignore[override]
        write_error(data)
        return len(data)


def open_closed_streams() -> None:
    """Opens files that can't be used as the standard streams that are closed.

    So no other file takes their places.
    """
    for number, mode in ((0, os.O_WRONLY), (1, os.O_RDONLY), (2, os.O_RDONLY)):
        try:
            os.fstat(number)
        except OSError:
            opened = os.open(os.devnull, mode)
            if opened != number:
                os.dup2(opened, number)
                os.close(opened)
            os.set_inheritable(number, True)


def replace_standard_streams() -> io.BufferedWriter:
    """Returns standard output."""
    # Unbuffered, a file of Python writes a part of what it is given. This one writes all of it.
    output = io.BufferedWriter(_Standard(1), _BUFFER)
    sys.stdin = io.TextIOWrapper(io.BufferedReader(_Standard(0), _BUFFER))
    sys.stdout = io.TextIOWrapper(output, "utf-8", "surrogateescape", "\n", write_through=True)
    errors = io.BufferedWriter(_StandardError())
    sys.stderr = io.TextIOWrapper(errors, "utf-8", "backslashreplace", "\n", line_buffering=True)
    return output


def write_error(data: "bytes | bytearray | memoryview") -> bool:
    """Writes to standard error, if that is possible, and returns whether it was."""
    with contextlib.suppress(OSError, MemoryError):
        while data:
            try:
                data = data[os.write(2, data) :]
            except BlockingIOError:
                is_ready(2, select.POLLOUT)
    return not data


def report(name: str, text: str) -> bool:
    """Writes a line of a command to standard error, if that is possible, and returns whether it was."""
    return write_error(message(name, text))


def message(name: str, text: str) -> bytes:
    return f"{name}: {text}\n".encode(errors="surrogateescape")


def is_text(word: str) -> bool:
    """Returns whether a word is UTF-8."""
    try:
        word.encode()
    except UnicodeEncodeError:
        return False
    return True


def printable(text: str) -> str:
    """Returns a text as it is if a terminal shows it as one line and as it is, and else as a JSON string."""
    return text if text.isprintable() else json.dumps(text)


class _Whole(io.BufferedIOBase):
    """Writes all of what it is given to an unbuffered file, or fails."""

    def __init__(self, file: io.RawIOBase) -> None:
        self._file = file

    def writable(self) -> bool:
        return True

    def write(self, data: "bytes | bytearray | memoryview") -> int:  # type: ignore[override]
        left = memoryview(data).cast("B")
        while left:
            count = self._file.write(left)
            if not count:
                raise BlockingIOError(errno.EAGAIN, os.strerror(errno.EAGAIN))
            left = left[count:]
        return len(data)


def whole(output: IO[bytes]) -> IO[bytes]:
    """Returns an output for a given one, that writes all of what it is given, or fails.

    An unbuffered file of Python may write a part, and returns how much.
    """
    if not hasattr(output, "write") or isinstance(output, io.TextIOBase):
        raise TypeError(f"the output is a file that is open to write bytes, and not {output!r:.60}")
    given: object = output
    return cast("IO[bytes]", _Whole(given)) if isinstance(given, io.RawIOBase) else output


class Watched(io.RawIOBase):
    """The output of a program. Each time that nothing has come for some seconds, `look` is called, which may raise an error."""

    def __init__(self, pipe: IO[bytes], seconds: float, look: Callable[[], None]) -> None:
        self._pipe = pipe
        self._seconds = seconds
        self._look = look

    def readable(self) -> bool:
        return True

    def readinto(self, room: "bytearray | memoryview") -> int:  # type: ignore[override]
        while not is_ready(self._pipe, select.POLLIN, self._seconds):
            self._look()
        return os.readv(self._pipe.fileno(), [room])
