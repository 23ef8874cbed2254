"""The one file of an index, which warcdx-update replaces if an earlier update has made it."""
import contextlib
import os
import stat
import zlib
from typing import Optional

from .files import remove, write_to_disk
from .update_store import Store
from .update_tables import CannotUpdate


class Single:
    """The one file of the index in a store. Its path may be a link. It is known by its size and its CRC-32."""

    def __init__(self, store: Store, path: str) -> None:
        self.path = os.path.realpath(path)
        self._store = store
        self._read: tuple[object, Optional[int]] = None, None  # what a file has that isn't changed, and its state

    def begin(self) -> None:
        """Removes what an ended run of the command has left. Raises as `state` does."""
        self.state()
        folder, name = os.path.split(self.new)
        for left in os.listdir(folder):
            if left.startswith(f"{name}-"):
                remove(os.path.join(folder, left))

    @property
    def new(self) -> str:
        """How the path begins at which a task makes the file. A copy of the store beside another index has another one."""
        name = f".warcdx-{self._store.noted.token}-{zlib.crc32(os.fsencode(self.path)):08x}"
        return os.path.join(os.path.dirname(self.path), name)

    def state(self) -> Optional[int]:
        """Returns the first state with the runs of the file, or None if there is no file.

        Raises OSError, or CannotUpdate if there is a file that no run of the command has made as it is.
        """
        try:
            found = os.lstat(self.path)
        except FileNotFoundError:
            return None
        if not stat.S_ISREG(found.st_mode):
            raise CannotUpdate(f"{self.path} isn't a regular file, and isn't replaced")
        same = found.st_size, found.st_mtime_ns, found.st_ctime_ns, found.st_ino
        if self._read[0] != same:
            self._read = same, self._store.known(self.path)
        if self._read[1] is None:
            raise CannotUpdate(f"no earlier update has made {self.path} as it is, and it isn't replaced: give another INDEX")
        return self._read[1]

    def take(self, path: str, size: int, crc_32: int) -> None:
        """Replaces the file by one of the last state, which is in the same folder."""
        with contextlib.suppress(FileNotFoundError):
            os.chmod(path, os.stat(self.path).st_mode & 0o7777)
        self._store.know(size, crc_32)
        self.state()
        os.replace(path, self.path)
        write_to_disk(os.path.dirname(self.path))
