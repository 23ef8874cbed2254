"""Files that are made under names of their own, and are on the disk before anything stands on them."""
import contextlib
import io
import os
import stat
from collections.abc import Iterator
from typing import IO, Optional, Union

Path = Union[str, os.PathLike[str]]


def open_at_once(path: Path) -> io.FileIO:
    """Opens a file to be read, without waiting for who writes a pipe. Raises OSError or ValueError."""
    return open(path, "rb", buffering=0, opener=lambda name, flags: os.open(name, flags | os.O_NONBLOCK))


def is_regular(path: Path, size: Optional[int] = None) -> bool:
    """Returns whether there is a regular file, of this many bytes if a size is given. A link isn't one."""
    try:
        found = os.lstat(path)
    except OSError:
        return False
    return stat.S_ISREG(found.st_mode) and size in (None, found.st_size)


@contextlib.contextmanager
def made(path: Path) -> Iterator[IO[bytes]]:
    """Opens a file that is made now. It is on the disk at the end, or isn't there. Raises OSError."""
    with open(path, "xb") as file:
        try:
            yield file
            file.flush()
            os.fsync(file.fileno())
        except BaseException:
            os.remove(path)
            raise


def remove(path: Path) -> None:
    """Removes a regular file, if there is one of this name. Raises OSError."""
    if is_regular(path):
        os.remove(path)


def is_in(path: Path, folder: Path) -> bool:
    """Returns whether a path is a folder or is below it, by whatever name. Neither has to be there."""
    at = os.path.realpath(path)
    while True:
        with contextlib.suppress(OSError):
            if os.path.samefile(at, folder):
                return True
        above = os.path.dirname(at)
        if above == at:
            return False
        at = above


def write_to_disk(folder: Path) -> None:
    """Writes to the disk which names a folder has."""
    descriptor = os.open(folder, os.O_RDONLY | os.O_DIRECTORY | os.O_CLOEXEC)
    try:
        os.fsync(descriptor)
    finally:
        os.close(descriptor)
