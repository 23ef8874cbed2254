"""The files that the indexes of a collection were at one time, which stay open."""
import errno
import os
import stat
from collections.abc import Iterable
from typing import NamedTuple, Optional

from warcdx import Index

MOST_REPLY = 8 << 20  # bytes of a reply, unless no shorter one can be had


class Identity(NamedTuple):
    """What differs if another file has the name, or if the file was changed.

    `size` is in bytes. `modified` and `changed` are the times of its content and of its inode, in
    nanoseconds since 1970.
    """

    device: int
    inode: int
    size: int
    modified: int
    changed: int

    @classmethod
    def of(cls, found: os.stat_result) -> "Identity":
        return cls(found.st_dev, found.st_ino, found.st_size, found.st_mtime_ns, found.st_ctime_ns)


Stamp = tuple[Identity, ...]


class Generation:
    """Regular files that are open for reading, in the order of their paths.

    `stamp` is what they were when they were opened. The program opens them by their descriptors. So a program that is
    started again reads the same files, also after others have taken their names. The constructor raises OSError.
    """

    def __init__(self, paths: Iterable["str | os.PathLike[str]"]) -> None:
        self.files: list[int] = []
        try:
            for path in paths:
                self.files.append(open_regular(path))
            self.stamp = stamp_of(map(os.fstat, self.files))
        except BaseException:
            self.close()
            raise

    def index(self, program: str, seconds: Optional[float]) -> Index:
        return Index(self.names, program=program, processes=2, seconds=seconds, most=MOST_REPLY)

    @property
    def names(self) -> list[str]:
        """The paths by which the programs of this process open the files."""
        return list(map(name_of, self.files))

    @property
    def is_unchanged(self) -> bool:
        """Whether they are the same files, to which nothing was written as their sizes and times say.

        The times of the inodes aren't compared: they change when other files take the names.
        """
        return [each[:-1] for each in stamp_of(map(os.fstat, self.files))] == [each[:-1] for each in self.stamp]

    def close(self) -> None:
        for file in self.files:
            os.close(file)
        self.files.clear()


def open_regular(path: "str | os.PathLike[str]") -> int:
    """Returns the descriptor of a regular file that is open for reading. Raises OSError, at once, also for others such as pipes."""
    file = os.open(path, os.O_RDONLY | os.O_CLOEXEC | os.O_NONBLOCK)
    if not stat.S_ISREG(os.fstat(file).st_mode):
        os.close(file)
        raise OSError(errno.EINVAL, "not a regular file", str(path))
    return file


def name_of(file: int) -> str:
    """Returns the path by which the programs of this process open a file that it has open."""
    return f"/proc/{os.getpid()}/fd/{file}"


def stamp_of(found: Iterable[os.stat_result]) -> Stamp:
    return tuple(map(Identity.of, found))
