"""The file of `warcdx-verify --resume`. It notes which archives were good, so that later runs pass them over."""
import contextlib
import json
import os
import stat
from typing import NamedTuple, Optional

from .errors import Error
from .outputs import STANDARD
from .streams import printable

_FORM = b'"warcdx-verify --resume 1"\n'
_MOST_LINE = 1 << 16  # bytes of a line; a path has at most 4,096
_OPENED = os.O_RDWR | os.O_CREAT | os.O_APPEND | os.O_NOFOLLOW | os.O_NONBLOCK | os.O_CLOEXEC


class CannotResume(Error):
    """A file isn't one of notes. It stays as it is."""


class Note(NamedTuple):
    """What changes if an archive is replaced or written: its size in bytes, the time of its last change in nanoseconds, its inode."""

    size: int
    time: int
    inode: int


# What changes if an archive is changed while it is read, also by a program that sets the time of its last change back: besides
# the note the time of its inode's last change, and the device.
_State = tuple[Note, int, int]


class Notes:
    """The archives that were good, by their paths. Each one adds a line to the file, and so does one that isn't good any more."""

    def __init__(self, path: str) -> None:
        """Reads the notes, or makes their file. Raises CannotResume or OSError."""
        real = os.path.realpath(path)
        if os.path.exists(real) and not os.path.isfile(real):
            raise CannotResume(f"{printable(path)} isn't a regular file")
        self._file = os.open(real, _OPENED, 0o666)
        self._noted: dict[str, Optional[Note]] = {}
        self._begun: dict[int, Optional[_State]] = {}  # by the numbers of archives, of which two may be the same
        with open(self._file, "rb", closefd=False) as file:
            form = file.readline(_MOST_LINE)
            if form not in (b"", _FORM):
                raise CannotResume(f"{printable(path)} isn't a file of --resume, and stays as it is: give another name")
            while line := file.readline(_MOST_LINE):
                self._take(line)
            self._size = file.tell()  # in bytes, but for what others write meanwhile
        self._unwritten = b"" if form else _FORM
        self.save()

    def _take(self, line: bytes) -> None:
        """Takes a note. A line that isn't one, as a full disk may cut it, is passed over: its archive is read again."""
        with contextlib.suppress(RecursionError, TypeError, ValueError):
            path, note = json.loads(line)
            self._noted[path] = None if note is None else Note(*note)

    def has(self, file: str) -> bool:
        """Returns whether an archive was good, and is the same."""
        state = _state_of(file)
        return state is not None and self._noted.get(os.path.abspath(file)) == state[0]

    def begin(self, number: int, file: str) -> None:
        """An archive will be read."""
        self._begun[number] = _state_of(file)

    def end(self, number: int, file: str, is_good: bool) -> None:
        """An archive was read. Nothing is noted of one that was changed meanwhile."""
        before, path = self._begun.pop(number), os.path.abspath(file)
        note = before[0] if is_good and before is not None and before == _state_of(file) else None
        is_noted = self._noted.get(path) == note and os.fstat(self._file).st_size == self._size
        if not is_noted:
            self._noted[path] = note
            self._unwritten += b"\n" + json.dumps([path, note]).encode()  # a line before it may be cut

    def save(self) -> None:
        """Writes what isn't in the file yet. Raises OSError."""
        left = self._unwritten
        while left:
            count = os.write(self._file, left)
            self._size += count
            left = left[count:]
        self._unwritten = b""


def _state_of(file: str) -> Optional[_State]:
    """Returns the state of a regular file, or None if it isn't one, or can't be found, or is standard input."""
    if file == STANDARD:
        return None
    try:
        found = os.stat(file)
    except (OSError, ValueError):
        return None
    if not stat.S_ISREG(found.st_mode):
        return None
    return Note(found.st_size, found.st_mtime_ns, found.st_ino), found.st_ctime_ns, found.st_dev
