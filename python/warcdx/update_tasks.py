"""The tasks of warcdx-update: they index archives, write a run anew without some of them, and merge runs.

A worker on another machine needs the programs, and not this package: a task is sent to it with the functions of this module.
So this module stands on the standard library, and on what is sent of two other modules. All that it is given and returns is of plain values.
"""
import contextlib
import io
import json
import operator
import os
import re
import stat
import subprocess
import zlib
from collections import Counter
from collections.abc import Callable, Iterator, Sequence
from typing import IO

from .files import made
from .streams import Watched

FAULT = 1  # the exit status of the program after a damaged archive
FIELDS = ("hosts", "years", "types", "statuses")  # of which the captures are counted
MOST_VALUES = 100_000  # of a field in the counts of a run
MOST_MERGED = 1000  # runs that are merged at a time: the program takes 1,024, and many systems as many open files
_TEXT = rb'([^"\\\n]*(?:\\[^\n][^"\\\n]*)*)'  # of JSON
_URL = rb'[^"\n]*(?:"[^\n]*?)??'  # the same followed by `", "mime": "`, with little memory for one of many quotes
# It matches a line to its end, so that the next one begins there: to search for that takes as long as all else.
_CAPTURE = re.compile(
    rb'^([^ \n]*) ([0-9]{4})[0-9]{10} \{"url": "%b", "mime": "%b", "status": "%b"[^\n]*\n' % (_URL, _TEXT, _TEXT), re.MULTILINE
)
_NAME = b', "filename": '  # isn't in a text of JSON
_REASON = r"\n  (.*) \(os error [0-9]+\)(?=\n|\Z)"  # the second line of a message about a failed call of the system
_FRONT = operator.itemgetter(slice(256))  # bytes of a value
_PIECE = 1 << 20  # bytes
_LARGEST = (1 << 63) - 1  # that SQLite has
_SILENCE = 5  # seconds without output of the program, and then its archives are checked

Start = Callable[..., "subprocess.Popen[bytes]"]
# The size of a file in bytes, the times of its last change and of its inode's in nanoseconds, and its inode.
State = tuple[int, int, int, int]
# What became of an archive: its name, its state, what the program has reported of it or nothing, and its captures.
Indexed = tuple[str, State, str, int]
# A file of lines: its path, its size in bytes, its CRC-32, its captures, and those of each value of a field.
Written = tuple[str, int, int, int, dict[str, "Counter[str]"]]


class Failed(Exception):
    """A task didn't succeed. Another try may."""


def state_of(path: str) -> State:
    """Returns what changes if a file does. Raises OSError, or Failed if it isn't a regular file."""
    found = os.stat(path)
    if not stat.S_ISREG(found.st_mode):
        raise Failed("not a regular file")
    return found.st_size, found.st_mtime_ns & _LARGEST, found.st_ctime_ns & _LARGEST, found.st_ino & _LARGEST


def index_archives(
    program: str, folder: str, names: Sequence[str], output: str, words: Sequence[str] = (), start: Start = subprocess.Popen
) -> tuple[Written, list[Indexed]]:
    """Indexes archives by one run of the program with these words, into a new file whose path begins with `output`.

    `names` are their paths below `folder`. All are in the same folder, whose path stands in the index before their file names.
    Raises Failed or OSError, and then leaves no file. Several of which one can't be read fail together.
    """

    def find_states() -> list[State]:
        return [state_of(os.path.join(folder, name)) for name in names]

    def expect_no_change() -> None:  # the program would wait for ever for who writes a pipe in the place of an archive
        if find_states() != states:
            raise Failed("the archive was changed while it was indexed")

    states = find_states()
    with _new(output) as file:
        lines = _Lines(file, names)
        with _running((program, "index", *words, *(f"./{name}" for name in names)), folder, start) as (process, pipe, said):
            for piece in _whole_lines(io.BufferedReader(Watched(pipe, _SILENCE, expect_no_change))):
                lines.write(piece)
            status, causes, text = _wait(process), _causes_of(said, names), _text_of(said)
        if status not in (0, FAULT) or status and not any(causes.values()):
            why = causes[names[0]] or text if len(names) == 1 else ""
            raise Failed(why or f"{program} has ended with status {status}")
        expect_no_change()
        written = lines.end()
        return written, [(name, state, causes[name], lines.captures[name]) for name, state in zip(names, states)]


def filter_run(folder: str, run: str, names: Sequence[str], output: str, start: Start = subprocess.Popen) -> Written:
    """Writes a run of a folder anew, without the lines of other archives than these, into a new file whose path begins with `output`."""
    kept = frozenset(map(_json_of, names))
    with open(os.path.join(folder, run), "rb") as file, _new(output) as new:
        lines = _Lines(new)
        for piece in _whole_lines(file):
            lines.write([line for line in piece if line[line.rfind(_NAME) + len(_NAME) : -2] in kept])
        return lines.end()


def merge_runs(program: str, folder: str, files: Sequence[str], output: str, start: Start = subprocess.Popen) -> tuple[str, int, int]:
    """Merges runs of a folder into a new file, whose path begins with `output`. Returns its path, its size and its CRC-32.

    The program reads each run as a check does.
    """
    files = list(files)
    with contextlib.ExitStack() as stack:
        while len(files) > MOST_MERGED:
            path, *_ = _merge((program, "merge", *files[:MOST_MERGED]), folder, output, start)
            stack.callback(os.remove, path)
            files[:MOST_MERGED] = [path]
        merged = _merge((program, "merge", *files), folder, output, start)
    return merged


def _merge(command: Sequence[str], folder: str, output: str, start: Start) -> tuple[str, int, int]:
    """Merges indexes, or none, into a new file, and returns its path, its size and its CRC-32."""
    crc_32 = 0
    with _new(output) as file:
        if len(command) > 2:
            with _running(command, folder, start) as (process, lines, said):
                while piece := lines.read(_PIECE):
                    file.write(piece)
                    crc_32 = zlib.crc32(piece, crc_32)
                if status := _wait(process):
                    raise Failed(_text_of(said) or f"{command[0]} has ended with status {status}")
        size = file.tell()
    return file.name, size, crc_32


def crc_32_of(path: str) -> int:
    """Returns the CRC-32 of a file."""
    found = 0
    with open(path, "rb", buffering=0) as file:
        while piece := file.read(_PIECE):
            found = zlib.crc32(piece, found)
    return found


class _Lines:
    """Lines of a run, which are counted as they are written, by host, year, type and status, and by archives of these names."""

    def __init__(self, file: IO[bytes], names: Sequence[str] = ()) -> None:
        self.captures = dict.fromkeys(names, 0)
        self._file = file
        self._size = self._crc_32 = self._lines = 0
        self._tails = {name: _NAME + _json_of(name) + b"}\n" for name in names}
        self._folder = _json_of(f"{os.path.dirname(names[0])}/")[:-1] if names and "/" in names[0] else b""
        self._counts: dict[str, Counter[bytes]] = {field: Counter() for field in FIELDS}

    def write(self, lines: Sequence[bytes]) -> None:
        """Writes lines in which the file name of an archive is without the path of its folder."""
        text = b"".join(lines)
        found = _CAPTURE.findall(text)
        if len(found) != len(lines) or text.count(_NAME) != len(lines):
            raise Failed("the program has written a line that isn't one of an index")
        if self._folder:
            text = text.replace(_NAME + b'"', _NAME + self._folder)
        ends = Counter[bytes](line[line.rfind(_NAME) :] for line in text.splitlines(keepends=True) if len(self._tails) > 1)
        for name, tail in self._tails.items():
            self.captures[name] += ends[tail] if ends else text.count(tail)
        if found:
            self._count(*zip(*found))
        self._file.write(text)
        self._size += len(text)
        self._crc_32 = zlib.crc32(text, self._crc_32)
        self._lines += len(lines)

    def end(self) -> Written:
        """Returns what was written. Raises Failed if there are lines of other archives."""
        if self.captures and sum(self.captures.values()) != self._lines:
            raise Failed("the program has written a line with another file name")
        counts: dict[str, Counter[str]] = {field: Counter() for field in FIELDS}
        for field, counter in self._counts.items():
            for value, count in counter.items():
                counts[field][_value_of(value)] += count
        return self._file.name, self._size, self._crc_32, self._lines, counts

    def _count(self, keys: Sequence[bytes], years: Sequence[bytes], types: Sequence[bytes], statuses: Sequence[bytes]) -> None:
        for field, values in zip(FIELDS, (map(host_key_of, keys), years, types, statuses)):
            self._counts[field].update(map(_FRONT, values))
        for field, counter in self._counts.items():
            if len(counter) > MOST_VALUES:
                self._counts[field] = _most_of(counter, MOST_VALUES // 2)


def _most_of(counter: "Counter[bytes]", number: int) -> "Counter[bytes]":
    """Returns this number of values, those with the most captures, and of equal ones the first."""
    return Counter(dict(sorted(counter.items(), key=lambda each: (-each[1], each[0]))[:number]))


def _value_of(front: bytes) -> str:
    """Returns the value whose text of JSON begins so."""
    text = front.decode(errors="ignore")
    with contextlib.suppress(ValueError):  # the last escape is cut
        return str(json.loads(f'"{text}"'))
    return text


def host_key_of(key: bytes) -> bytes:
    """Returns the front of a URL key that names the host, up to the first `)/`. Of another key it is the scheme with its colon."""
    front, slash, _ = key.partition(b")/")
    return front if slash and b")" not in front else key.partition(b":")[0] + b":"


def _json_of(name: str) -> bytes:
    return json.dumps(name, ensure_ascii=False).encode()


def _new(front: str) -> contextlib.AbstractContextManager[IO[bytes]]:
    """Opens a file that is made now, and whose path begins so. It is on the disk at the end, or isn't there.

    Its name is another one if a cluster runs a task again whose worker is gone.
    """
    return made(f"{front}-{os.urandom(8).hex()}")


@contextlib.contextmanager
def _running(command: Sequence[str], folder: str, start: Start) -> Iterator[tuple["subprocess.Popen[bytes]", IO[bytes], IO[bytes]]]:
    """Runs a program in a folder, and yields it, its output and its standard error. It has ended at the end.

    What it says is held in memory: on a full disk the later ones of its messages would be lost.
    """
    with open(os.memfd_create("said"), "w+b") as said:
        try:
            process = start(command, cwd=folder, stdin=subprocess.DEVNULL, stdout=subprocess.PIPE, stderr=said)
        except OSError as error:
            raise Failed(": ".join(filter(None, (error.filename, error.strerror)))) from None
        with process:
            assert process.stdout is not None
            try:
                yield process, process.stdout, said
            finally:
                process.kill()


def _wait(process: "subprocess.Popen[bytes]") -> int:
    """Waits for a program to end, and returns its status. Raises Failed if the system doesn't give it.

    That is so if this process ignores SIGCHLD. Popen.wait returns 0 then.
    """
    with contextlib.suppress(ChildProcessError):
        os.waitid(os.P_PID, process.pid, os.WEXITED | os.WNOWAIT)
        return process.wait()
    if process.returncode is None:
        raise Failed("the system hasn't given the status of the program")
    return process.returncode


def _whole_lines(file: IO[bytes]) -> Iterator[list[bytes]]:
    """Yields the lines of what a program writes or a file has, many at a time."""
    while lines := file.readlines(_PIECE):
        if not lines[-1].endswith(b"\n"):
            raise Failed("the last line isn't whole")
        yield lines


def _causes_of(said: IO[bytes], names: Sequence[str]) -> dict[str, str]:
    """Returns what a program has reported of each archive, without the names of both. Raises Failed if more is said of several.

    More may be said by the system, as of a library that isn't there.
    """
    if len(names) == 1:
        return {names[0]: _text_of(said, f": ./{names[0]}: ")}
    causes = dict.fromkeys(names, "")
    for line in filter(None, _text_of(said).split("\n")):
        name, _, cause = line.partition(": ./")[2].rpartition(": ")
        if name not in causes:
            raise Failed(line)
        causes[name] = cause
    return causes


def _text_of(said: IO[bytes], front: str = "") -> str:
    """Returns what a program has said behind this front, with the reasons of the system in parentheses.

    Other second lines of its messages, which begin with two spaces, are left out.
    """
    said.seek(0)
    text = said.read().decode(errors="replace")
    lines = re.sub(_REASON, r" (\1)", text.partition(front)[2] if front else text).split("\n") if text else ()
    return "\n".join(line for line in lines if line and not line.startswith("  "))
