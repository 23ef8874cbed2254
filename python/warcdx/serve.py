"""A `warcdx serve` that is kept: each query is a line, and its reply ends with the line `.`."""
import contextlib
import json
import os
import re
import select
import time
from collections.abc import Callable, Generator
from typing import IO, NamedTuple, Optional

from .errors import Error, Fault, ProgramEnded, ProgramError, Refused, ReplyTooLate, ReplyTooLong
from .program import PIPE, Process
from .reported import fault, refused
from .streams import is_ready

PATIENCE = 10  # seconds for the program to end
PAUSE = 0.01  # seconds between two looks whether it has
LOOKS = 0.25  # seconds between two calls of `waits`
PIECE = 1 << 16  # bytes that are read at once
TAIL = 256  # bytes that hold the end of a reply, and the line of a fault before it
# The end of the reply to a query and an empty line, which is refused. No page has these three
# lines: one with a line `.` has no spaces.
END = b".\nrefused NoUrl\n.\n"
# A query with this condition selects nothing, and is refused if the query without it is.
NOTHING = b"&hasnot=urlkey:"

Limit = Callable[[], Optional[float]]  # gives the moment until which the program may take for what it writes next

_REFUSED = re.compile(rb"refused ([A-Za-z0-9]+)\n")
_FAULT = re.compile(rb"fault ([A-Za-z0-9]+) ([0-9]+) ([0-9]+)")


class Files(NamedTuple):
    """The files of indexes: their paths, the paths by which the program opens them, and the descriptors that it has for that."""

    names: tuple[str, ...]
    operands: tuple[str, ...]
    descriptors: tuple[int, ...]


class Serve:
    """One run of `warcdx serve`, which is started for the first query, and again if it has ended.

    If it ends before a reply is whole, it is started again and asked once more. Only one thread at a time
    may ask it. If a reply takes more than `seconds`, or has more than `most` bytes, the program is ended. While
    a reply is waited for, `waits` is called again and again. If it raises something, the program is ended.
    """

    def __init__(self, program: str, files: Files) -> None:
        self._command = (program, "serve", *files.operands)
        self._files = files
        self._process: Optional[Process] = None
        self._is_closed = False
        self.waits: Callable[[], None] = lambda: None

    def rows(self, query: bytes, seconds: Optional[float] = None, most: Optional[int] = None) -> list[list[str]]:
        """Returns the rows of a page, from a query for `output=json`. The first one has the names."""
        text = self.text(query, True, seconds, most)
        if not text.startswith(b"["):
            raise ProgramError(f"warcdx serve has replied {text.strip()!r:.100}")
        rows: list[list[str]] = json.loads(text)
        return rows

    def text(self, query: bytes, is_json: bool, seconds: Optional[float] = None, most: Optional[int] = None) -> bytes:
        """Returns a page as the program writes it. Whether it is JSON decides what a fault follows."""
        limit = _limit(seconds)
        try:
            return self._text(query, is_json, limit, most)
        except ProgramEnded:
            return self._text(query, is_json, limit, most)

    def _text(self, query: bytes, is_json: bool, limit: Optional[float], most: Optional[int]) -> bytes:
        text = bytearray()
        with contextlib.closing(self._pieces(query, is_json, lambda: limit)) as pieces:
            for piece in pieces:
                text += piece
                if most is not None and len(text) > most:
                    raise ReplyTooLong(f"the reply has more than {most} bytes")
        return bytes(text)

    def stream(self, query: bytes, is_json: bool, seconds: Optional[float] = None) -> Generator[bytes, None, None]:
        """Yields a page as `text` returns it, in pieces as the program writes them, each within `seconds`.

        A program that ends meanwhile is started again, and goes on after the bytes that were given, unless it
        ends twice without another one.
        """
        given, left = 0, 1
        while True:
            read = 0
            try:
                with contextlib.closing(self._pieces(query, is_json, lambda: _limit(seconds))) as pieces:
                    for piece in pieces:
                        read += len(piece)
                        if read > given:
                            yield piece[given - read :]
                            given, left = read, 1
                if read < given:
                    raise ProgramError("the program has replied otherwise to the same query")
                return
            except ProgramEnded:
                if not left:
                    raise
                left -= 1

    def end(self) -> None:
        """Ends the program, if it runs."""
        process, self._process = self._process, None
        if process is not None:
            process.end()

    def close(self) -> None:
        """Ends the program for good. If another thread waits for its reply, that is at its end, and none is started again."""
        self._is_closed = True
        if self._process is not None:
            self._process.kill()

    def _pieces(self, query: bytes, is_json: bool, limit: Limit) -> Generator[bytes, None, None]:
        """Yields a page in pieces, of which the last may be empty. Raises its refusal, or the fault at its end."""
        with contextlib.closing(self._reply(query, limit)) as reply:
            last, is_short = next(reply), True
            for piece in reply:
                yield last
                last, is_short = piece, False
        refusal = refusal_of(last) if is_short else None
        if refusal is not None and b"".join(self._reply(query + NOTHING, limit)) == last:
            raise refusal
        yield text_of(last, is_json, self._files.names)

    def _reply(self, query: bytes, limit: Limit) -> Generator[bytes, None, None]:
        """Asks, and yields the reply without the lines that end it. The last piece has the TAIL of it.

        If anything fails before the reply is whole, an interrupt for example, or it isn't taken to its end, the program is
        ended. So the next query has a program of its own, which has nothing of this reply.
        """
        held = bytearray()
        try:
            process = self._running()
            self._ask(process, query + b"\n\n", limit())
            while not is_whole(held):
                if len(held) > TAIL:
                    yield bytes(held[:-TAIL])
                    del held[:-TAIL]
                held += self._read(process, limit())
        except BaseException:
            self.end()
            raise
        yield bytes(held[: -len(END)])

    @staticmethod
    def _ask(process: Process, asked: bytes, limit: Optional[float]) -> None:
        assert process.stdin is not None
        left = memoryview(asked)
        with contextlib.suppress(BrokenPipeError):
            while left:
                try:
                    left = left[os.write(process.stdin.fileno(), left) :]
                except BlockingIOError:
                    _is_ready(process.stdin, select.POLLOUT, limit)

    def _read(self, process: Process, limit: Optional[float]) -> bytes:
        if limit is not None:
            while not _is_ready(process.stdout, select.POLLIN, limit, LOOKS):
                self.waits()
        piece = os.read(process.stdout.fileno(), PIECE)
        if not piece:
            raise self._end_of(process)
        return piece

    def _end_of(self, process: Process) -> Error:
        """Returns why the program has closed its output. One that doesn't end by itself is ended."""
        assert process.stdin is not None
        process.stdin.close()
        end = time.monotonic() + PATIENCE
        while process.poll() is None and time.monotonic() < end:
            time.sleep(PAUSE)
        process.kill()
        error = process.error()
        if isinstance(error, Fault) and error.file in self._files.operands:
            error.file = self._files.names[self._files.operands.index(error.file)]
        return error

    def _running(self) -> Process:
        """Returns the program, which is started if it doesn't run."""
        if self._is_closed:
            raise ValueError("the Index is closed")
        if self._process is not None and self._process.poll() is not None:
            self.end()
        if self._process is None:
            process = Process(self._command, PIPE, self._files.descriptors)
            assert process.stdin is not None
            os.set_blocking(process.stdin.fileno(), False)
            self._process = process
        return self._process


def _limit(seconds: Optional[float]) -> Optional[float]:
    """Returns the moment at which seconds from now are over."""
    return None if seconds is None else time.monotonic() + seconds


def _is_ready(pipe: IO[bytes], event: int, limit: Optional[float], most: Optional[float] = None) -> bool:
    """Waits as `is_ready` does, for `most` seconds. Raises ReplyTooLate after the moment `limit`."""
    left = None if limit is None else max(limit - time.monotonic(), 0)
    seconds = min((each for each in (left, most) if each is not None), default=None)
    if is_ready(pipe, event, seconds):
        return True
    if seconds == left:
        raise ReplyTooLate("the reply took too long")
    return False


def is_whole(reply: "bytes | bytearray") -> bool:
    """Returns whether the last lines of a reply are those of its end.

    The program writes nothing after them before the next query, so only the last lines are looked
    at.
    """
    return reply.endswith(END) and (len(reply) == len(END) or reply[-len(END) - 1] == ord("\n"))


def text_of(reply: bytes, is_json: bool, indexes: tuple[str, ...]) -> bytes:
    """Returns a page as the program writes it, or raises the fault at its end. Whether it is JSON decides what a fault follows."""
    start = reply.rfind(b"\n", 0, -1) + 1  # of the last line
    before = reply[max(start - 2, 0) : start]
    is_after = bool(before) if is_json else before in (b"\n", b"\n\n")
    if is_after and (found := _FAULT.fullmatch(reply, start, len(reply) - 1)):
        raise fault(found[1].decode(), indexes[int(found[2])], int(found[3]), int(found[2]))
    return reply


def refusal_of(reply: bytes) -> Optional[Refused]:
    """Returns the refusal that a reply reads like, or None.

    A page of two fields may read like one.
    """
    found = _REFUSED.fullmatch(reply)
    return refused(found[1].decode()) if found else None
