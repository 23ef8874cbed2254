"""Finds the program, and runs it."""
import contextlib
import errno
import fcntl
import functools
import io
import os
import re
import select
import signal
import sys
import threading
from collections.abc import Iterable, Iterator
from typing import IO, Optional, Union, cast

from .ending import blocked
from .errors import NO_STATUS, Error, ProgramError, ProgramMissing, ProgramTooOld, ReplyTooLate, expect_type
from .reported import error_of
from .streams import Watched, whole

Path = Union[str, os.PathLike[str]]

PACKED = "warcdx-gz"  # the program that reads compressed archives too
LEAST_VERSION = (0, 1, 0)
_PIECE = 1 << 20  # bytes of an output
_SCARCE = (errno.EMFILE, errno.ENFILE, errno.EAGAIN)  # too many files or processes
PIPE = -1  # stands for a pipe to the standard input of a program
_names: dict[str, str] = {}  # of the programs that were found, by their paths
_HELP = re.compile(rb"(warcdx|warcdx-gz) ([0-9]+)\.([0-9]+)\.([0-9]+)")


def find_program(program: Path) -> str:
    """Returns the path of a program that is warcdx or warcdx-gz, and not too old.

    A name without `/` is looked up on the PATH, then in the folder of Python, where a wheel has it, and then in bin/ of
    the release that has this package. Raises ProgramMissing or ProgramTooOld.
    """
    path = _located(program)
    check_version(path)
    return path


def _located(program: Path) -> str:
    expect_type("program", program, (str, os.PathLike), "a text or a Path")
    name = os.fspath(program)
    path = executable(name, (os.path.dirname(sys.executable), *_bin_of_release()))
    if path is None:
        raise ProgramMissing(f"{name}: no such program" + ("" if "/" in name else " on the PATH"))
    return os.path.abspath(path)


def executable(name: str, folders: Iterable[str] = ()) -> Optional[str]:
    """Returns the path of a program: a name without `/` is looked up on the PATH, and then in these folders."""
    paths = [name] if "/" in name else [os.path.join(folder, name) for folder in (*os.get_exec_path(), *folders)]
    return next((path for path in paths if os.path.isfile(path) and os.access(path, os.X_OK)), None)


def _bin_of_release() -> tuple[str, ...]:
    """Returns the folder of the programs, if this package is in share/warcdx/python of a release."""
    package = os.path.dirname(os.path.realpath(__file__))
    prefix = package.removesuffix("/share/warcdx/python/warcdx")
    return () if prefix == package else (f"{prefix}/bin",)


def find_packed_program(program: Path) -> str:
    """Returns the path of warcdx-gz, from the name of either program. Raises as `find_program` does.

    If it is that of warcdx, warcdx-gz is in the same folder, or else where `find_program` finds it.
    """
    path = _located(program)
    beside = executable(os.path.join(os.path.dirname(path), PACKED))
    if os.path.basename(path) == "warcdx" and beside:  # so what isn't used needn't be run
        return find_program(beside)
    return path if check_version(path) == PACKED else find_program(beside or PACKED)


@functools.lru_cache(maxsize=None)
def check_version(path: str) -> str:
    """Returns which of the programs a file is. Raises ProgramMissing or ProgramTooOld."""
    with memory_file() as nothing, Process((path, "--help"), nothing.fileno()) as process:
        found = _HELP.match(process.stdout.read())
    if not found:
        raise ProgramMissing(f"{path}: not the program warcdx")
    version = tuple(map(int, found.groups()[1:]))
    if version < LEAST_VERSION:
        need = ".".join(map(str, LEAST_VERSION))
        raise ProgramTooOld(f"{path}: version {'.'.join(map(str, version))}, but {need} is needed")
    return _names.setdefault(path, found[1].decode())


def _not_started(path: str, error: OSError) -> Exception:
    """Returns what is raised for a program that can't be started."""
    if error.errno == errno.ENOMEM:
        return MemoryError()
    kind = ProgramError if error.errno in _SCARCE else ProgramMissing
    return kind(f"{path}: {error.strerror}")


def operand(path: Path) -> str:
    """Returns a path as the program takes it: one that begins with `-` would be an option."""
    expect_type("a path", path, (str, os.PathLike), "a text or a Path")
    name = os.fspath(path)
    return f"./{name}" if name.startswith("-") else name


def operands(paths: Union[Path, Iterable[Path]]) -> list[str]:
    """Returns one path, or several, as the program takes them."""
    if isinstance(paths, Iterable) and not isinstance(paths, (str, bytes, os.PathLike, io.IOBase)):
        return list(map(operand, paths))
    return [operand(cast(Path, paths))]


class Process:
    """A program that runs. `stdout` is what it writes, and `stdin` what it reads, if it is started with a pipe for that.

    When this process ends, however it does, the program finds its input at the end or its output closed, and ends too. It is
    ended, and its files are closed, at the end of a block, or when nobody has the Process any more.
    """

    pid = 0  # until it is started
    stdin: Optional[IO[bytes]] = None
    stdout: IO[bytes]

    def __init__(self, command: tuple[str, ...], stdin: Optional[int] = None, descriptors: tuple[int, ...] = ()) -> None:
        """Starts the program. Its standard input is this descriptor, or PIPE, or that of this process. It has the others too.

        Raises ProgramMissing, ProgramError if there are too many files or processes, or MemoryError.
        """
        self.path, self._starter = command[0], os.getpid()
        self._status: Optional[int] = None
        self._turn = threading.Lock()  # of the one thread that takes the status
        try:
            # A signal waits until the program is noted here. In the program itself none is blocked.
            with blocked(), contextlib.ExitStack() as kept, contextlib.ExitStack() as given:
                self._said = kept.enter_context(memory_file())
                self.stdout, output = _pipe(kept, given)
                if stdin == PIPE:
                    reading, self.stdin = _pipe(given, kept)
                    stdin = reading.fileno()
                streams = (stdin, output.fileno(), self._said.fileno())
                actions: list[tuple[int, ...]] = []
                actions += [(os.POSIX_SPAWN_DUP2, each, number) for number, each in enumerate(streams) if each is not None]
                actions += [(os.POSIX_SPAWN_CLOSE, each) for each in _inherited() - {*descriptors}]
                actions += [(os.POSIX_SPAWN_DUP2, each, each) for each in descriptors]  # so it stays open
                self.pid = os.posix_spawnp(
                    self.path, command, os.environ, file_actions=actions, setsigmask=(), setsigdef=(signal.SIGPIPE, signal.SIGXFSZ)
                )
                self._files = kept.pop_all()
        except OSError as error:
            raise _not_started(self.path, error) from error

    def communicate(self, data: bytes) -> bytes:
        """Writes to the program while it reads, closes its input, and returns all that it writes."""
        assert self.stdin is not None
        os.set_blocking(self.stdin.fileno(), False)
        poll, left, found = select.poll(), memoryview(data), bytearray()
        poll.register(self.stdout, select.POLLIN)
        poll.register(self.stdin, select.POLLOUT)
        while True:
            for number, _ in poll.poll():
                if number == self.stdout.fileno():
                    piece = os.read(number, _PIECE)
                    if not piece:
                        return bytes(found)
                    found += piece
                    continue
                try:
                    left = left[os.write(number, left) :]
                except BrokenPipeError:
                    left = left[:0]
                if not left:
                    poll.unregister(number)
                    self.stdin.close()

    def poll(self) -> Optional[int]:
        """Returns the exit status, or None if the program runs. It is NO_STATUS, and never 0, if the system doesn't give it.

        That is so if this process ignores SIGCHLD, or another part of it has waited for all processes.
        """
        return self._take_status() if self._has_ended(os.WNOHANG) else None

    def wait(self) -> int:
        """Waits for the program to end, and returns its exit status as `poll` does."""
        self._has_ended(0)
        return self._take_status()

    def _has_ended(self, options: int) -> bool:
        """Returns whether the program has ended, and waits for that unless these are WNOHANG. Its status stays to be taken."""
        try:
            return self._status is not None or os.waitid(os.P_PID, self.pid, os.WEXITED | os.WNOWAIT | options) is not None
        except ChildProcessError:
            return True

    def _take_status(self) -> int:
        with self._turn:  # which an interrupt can't leave locked
            if self._status is None:
                try:
                    self._status = os.waitstatus_to_exitcode(os.waitpid(self.pid, 0)[1])
                except ChildProcessError:
                    self._status = NO_STATUS
            return self._status

    def kill(self) -> None:
        """Ends the program if it runs, and waits for that."""
        if self.poll() is None:
            os.kill(self.pid, signal.SIGKILL)
            self.wait()

    def error(self) -> Error:
        """Waits for a program that doesn't go on, and returns what it has reported."""
        status = self.wait()
        self._said.seek(0)
        return error_of(status, os.fsdecode(self._said.read()), _names.get(self.path, "warcdx"))  # a path in it is as it was given

    def end(self) -> None:
        """Ends the program, and closes its files. A forked process leaves it to its starter."""
        with blocked():
            if os.getpid() == self._starter:
                self.kill()
            self._files.close()

    def __enter__(self) -> "Process":
        return self

    def __exit__(self, *error: object) -> None:
        self.end()

    def __del__(self) -> None:
        if self.pid:
            self.end()


def _inherited() -> set[int]:
    """Returns the descriptors that a program would have too besides the standard streams, such as those of who started this process."""
    found = set[int]()
    for number in map(int, os.listdir("/proc/self/fd")):
        with contextlib.suppress(OSError):  # it is closed again, as that of the list
            if number > 2 and os.get_inheritable(number):
                found.add(number)
    return found


def _pipe(reader: contextlib.ExitStack, writer: contextlib.ExitStack) -> tuple[IO[bytes], IO[bytes]]:
    """Makes a pipe, and returns its ends, which these close."""
    reading, writing = os.pipe()
    return reader.enter_context(_opened(reading, "rb")), writer.enter_context(_opened(writing, "wb"))


def _opened(descriptor: int, mode: str) -> IO[bytes]:
    """Opens a descriptor, or another one of its file in place of one of a standard stream, which may be closed in this process."""
    file: IO[bytes] = open(descriptor, mode, 0 if mode == "wb" else -1)
    if descriptor > 2:
        return file
    with file:
        return _opened(fcntl.fcntl(file, fcntl.F_DUPFD_CLOEXEC, 3), mode)


def memory_file() -> IO[bytes]:
    """Makes a file in memory, for what a program says (Linux). A disk that is full would not take why it failed.

    Raises as the start of a program does.
    """
    try:
        with blocked():
            return _opened(os.memfd_create("warcdx"), "w+b")
    except OSError as error:
        raise _not_started("a file in memory", error) from error


@contextlib.contextmanager
def running(
    *command: str, good: tuple[int, ...] = (0,), stdin: Optional[int] = None, seconds: Optional[float] = None
) -> Iterator[IO[bytes]]:
    """Runs the program, and yields its output, of which each piece comes within `seconds`, or ReplyTooLate is raised.

    Its standard input is that of this process, in which a path such as `/dev/stdin` may name a file, or `stdin`.
    If the output was read to its end, raises what the program has reported, unless its exit status is one
    of the good ones. A program whose output isn't read to its end is ended.
    """

    def end() -> None:
        raise ReplyTooLate(f"the program has written nothing for {seconds:g} seconds")

    with Process(command, stdin) as process:
        output = process.stdout if seconds is None else io.BufferedReader(Watched(process.stdout, seconds, end))
        yield output
        if not output.read(1) and process.wait() not in good:
            raise process.error()


def write_output(output: IO[bytes], *command: str, stdin: Optional[int] = None) -> None:
    """Runs the program, and writes what it prints to an output."""
    output = whole(output)
    with running(*command, stdin=stdin) as pipe:
        while piece := pipe.read(_PIECE):
            output.write(piece)
