"""Work of a command that processes do side by side, with their outputs in order."""
import contextlib
import os
import resource
import selectors
import shutil
import signal
import tempfile
import threading
from collections.abc import Callable, Sequence
from typing import IO, BinaryIO, NoReturn, Optional, Protocol

from .command import FAILED, report, run
from .ending import blocked
from .streams import write_error

Work = Callable[[BinaryIO], int]


class Watch(Protocol):
    """Is told of each work, by its number."""

    def begin(self, number: int) -> None:
        """A work begins."""

    def clear(self) -> None:
        """Output and errors of a work will be written."""

    def end(self, number: int, status: int) -> None:
        """A work has ended with this exit status, and its output was written."""


BROKEN = 64  # is added to the exit status of a process whose work has failed by an exception
_PIECE = 1 << 16  # bytes that are read at once
_SPARE = 64  # files that each process may open besides those of the works


def run_one_by_one(works: Sequence[Work], output: BinaryIO, watch: Watch) -> int:
    """Runs each work of a command in this process. Returns the largest exit status."""
    status = 0
    for number, work in enumerate(works):
        watch.begin(number)
        ended = work(output)
        output.flush()
        watch.end(number, ended)
        status = max(status, ended)
    return status


def run_side_by_side(name: str, works: Sequence[Work], most: int, output: BinaryIO, watch: Watch, is_in_order: bool) -> int:
    """Runs each work of a command in a process of its own, at most `most` at a time. Returns the largest exit status.

    Writes their outputs in the order of the works, or as they end. Until then they are in temporary files without names,
    of which nothing stays however the command ends. A work that fails by an exception is the last, and is reported.
    """
    with contextlib.closing(_Workers(name, works, watch)) as workers:
        return workers.run_all(most, output, is_in_order)


class _Workers:
    """The processes: those that run, and the exit statuses of those that have ended, by the numbers of their works."""

    def __init__(self, name: str, works: Sequence[Work], watch: Watch) -> None:
        self._statuses: dict[int, int] = {}
        self._name = name
        self._works = works
        self._watch = watch
        self._alive = os.pipe()  # nobody writes to it: its end says that this process is gone
        self._started = 0
        self._running: dict[int, int] = {}  # the process IDs of those that run
        self._errors = selectors.PollSelector()  # the pipes from their standard errors
        self._said: dict[int, bytes] = {}  # what came from there
        self._parts: dict[int, IO[bytes]] = {}  # the files with the outputs of works
        self._most_open = resource.getrlimit(resource.RLIMIT_NOFILE)[0] - _SPARE

    def run_all(self, most: int, output: BinaryIO, is_in_order: bool) -> int:
        status = 0
        for turn in range(len(self._works)):
            number = self._next(turn if is_in_order else None, most)
            ended = self._statuses.pop(number)
            status = max(status, ended % BROKEN)
            with self._parts.pop(number) as part:
                if self._said[number] or part.seek(0, os.SEEK_END):
                    self._watch.clear()
                part.seek(0)
                shutil.copyfileobj(part, output)
            output.flush()  # so that no process has a copy of what isn't written yet
            write_error(self._said.pop(number))
            if ended >= BROKEN:
                break
            self._watch.end(number, ended)
        return status

    def _next(self, number: Optional[int], most: int) -> int:
        """Runs processes, at most `most` at a time, until this work has ended, or any. Returns its number."""
        while not self._statuses if number is None else number not in self._statuses:
            self._start_to(most)
            self._wait()
        return next(iter(self._statuses)) if number is None else number

    def _start_to(self, most: int) -> None:
        """Starts processes until `most` run, or as many files are open as may be, or each work has a process."""
        while len(self._running) < most and self._started < len(self._works):
            if self._running and len(self._running) + len(self._parts) >= self._most_open:
                break
            self._watch.begin(self._started)
            with blocked():
                part, (reading_end, writing_end) = tempfile.TemporaryFile(buffering=0), os.pipe()
                self._parts[self._started], self._said[self._started] = part, b""
                self._errors.register(reading_end, selectors.EVENT_READ, self._started)
                try:
                    identifier = os.fork()
                    if not identifier:
                        self._work(self._started, part.fileno(), writing_end)
                finally:
                    os.close(writing_end)
                self._running[self._started] = identifier
                self._started += 1

    def _wait(self) -> None:
        """Reads what processes write to standard error, until one or more have written something or have ended."""
        for pipe, _ in self._errors.select():
            with blocked():
                piece = os.read(pipe.fd, _PIECE)
                self._said[pipe.data] += piece
                if not piece:
                    self._errors.unregister(pipe.fd)
                    os.close(pipe.fd)
                    self._end(pipe.data)

    def _end(self, number: int) -> None:
        """Takes the status of a process that has ended. One that a signal has ended is reported, and has no output."""
        status = os.waitstatus_to_exitcode(os.waitpid(self._running.pop(number), 0)[1])
        if status < 0:
            report(self._name, f"a process has ended with signal {-status}")
            self._parts[number].truncate(0)
        self._statuses[number] = BROKEN + FAILED if status < 0 else status

    def close(self) -> None:
        """Ends the processes that run, and closes their files."""
        with blocked():
            for part in self._parts.values():
                part.close()
            for end in self._alive:
                os.close(end)
            for identifier in self._running.values():
                os.kill(identifier, signal.SIGTERM)
            for pipe in list(self._errors.get_map().values()):
                os.close(pipe.fd)
            for identifier in self._running.values():
                os.waitpid(identifier, 0)

    def _work(self, number: int, part: int, said: int) -> NoReturn:
        """Does a work as a command of its own, whose standard output and error are these files."""
        status, is_done = FAILED, False

        def work(output: BinaryIO) -> int:
            nonlocal is_done
            ended = self._works[number](output)
            output.flush()
            is_done = True
            return ended

        try:
            os.close(self._alive[1])
            with contextlib.suppress(RuntimeError):  # there is no memory for a thread
                threading.Thread(target=self._end_with_parent, daemon=True).start()
            signal.pthread_sigmask(signal.SIG_SETMASK, ())
            os.dup2(part, 1)
            os.dup2(said, 2)
            status = run(self._name, work)
        finally:
            os._exit(status if is_done else BROKEN + status)

    def _end_with_parent(self) -> None:
        """Ends this process of a work once its parent is gone, as after a SIGKILL. Nobody would read what it finds."""
        os.read(self._alive[0], 1)
        os.kill(os.getpid(), signal.SIGTERM)
