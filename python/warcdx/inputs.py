"""The files that commands read, of which some can be read only once."""
import contextlib
import shutil
import sys
from collections.abc import Iterator
from typing import IO

from .faults import cannot_open
from .outputs import STANDARD
from .temporary import path_of, unnamed_file


@contextlib.contextmanager
def opened(name: str) -> Iterator[IO[bytes]]:
    """Opens a file, or standard input. Raises CannotOpen."""
    if name == STANDARD:
        yield sys.stdin.buffer
        return
    try:
        file = open(name, "rb")
    except (OSError, ValueError) as error:
        raise cannot_open(name, getattr(error, "errno", None)) from error
    with file:
        yield file


@contextlib.contextmanager
def read_again(name: str, is_held: bool = False) -> Iterator[str]:
    """Yields the path of a file, or of a copy of one that can be read only once, such as a pipe. Raises CannotOpen.

    With `is_held` the file stays open, and its path leads to it also if something else takes the place of its name.
    """
    with contextlib.ExitStack() as stack:
        file = stack.enter_context(opened(name))
        if name == STANDARD or not file.seekable():
            copy = stack.enter_context(unnamed_file())
            shutil.copyfileobj(file, copy)
            copy.flush()
            yield path_of(copy)
        elif is_held:
            yield path_of(file)
        else:
            stack.close()
            yield name
