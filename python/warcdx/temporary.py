"""Files without names, of which nothing stays however a command ends."""
import os
import tempfile
from typing import IO

from .ending import blocked


def unnamed_file() -> IO[bytes]:
    """Makes a file. A signal waits, since the file has a name for a moment on some file systems."""
    with blocked():
        return tempfile.TemporaryFile()


def path_of(file: IO[bytes]) -> str:
    """Returns a path that leads to an open file as long as it is open, for other processes too (Linux)."""
    return f"/proc/{os.readlink('/proc/self')}/fd/{file.fileno()}"
