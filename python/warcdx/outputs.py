"""The file that `-o` names: it is new, and has its name once it is whole."""
import contextlib
import errno
import os
from collections.abc import Iterator
from typing import BinaryIO, Optional

from .ending import blocked
from .streams import OutputError

STANDARD = "-"  # the name of standard output, and of standard input


def output_of(path: Optional[str], standard: BinaryIO) -> contextlib.AbstractContextManager[BinaryIO]:
    """Opens what a command writes to: a new file, or standard output if none is named. Raises OSError."""
    return contextlib.nullcontext(standard) if path is None or path == STANDARD else new_file(path)


@contextlib.contextmanager
def new_file(path: str) -> Iterator[BinaryIO]:
    """Makes a file that has its name once it is whole. Raises FileExistsError if anything has the name."""
    check_that_it_is_new(path)
    begun = os.path.join(os.path.dirname(path), f".warcdx-output-{os.urandom(8).hex()}")
    with contextlib.ExitStack() as stack:
        try:
            with blocked():
                file = open(begun, "xb")
                stack.callback(_remove, begun, file)
            yield file
            file.flush()
            os.fsync(file.fileno())
            _give_name(begun, path)
        except OSError as error:
            if error.filename in (None, begun) and not isinstance(error, OutputError):
                error.filename = path
            raise
        finally:
            with blocked():
                stack.close()


def check_that_it_is_new(path: str) -> None:
    if os.path.lexists(path):
        raise FileExistsError(errno.EEXIST, "it is there, and isn't replaced; give another name", path)
    expect_folder(path)


def expect_folder(path: str) -> None:
    """Raises FileNotFoundError if a file can't be made because its folder isn't there."""
    with contextlib.suppress(PermissionError, NotADirectoryError):  # which are said when it is made
        try:
            os.stat(os.path.dirname(path.rstrip("/")) or ".")
        except FileNotFoundError as error:
            raise FileNotFoundError(error.errno, f"{error.strerror}: its folder isn't there", path) from None


def _give_name(begun: str, path: str) -> None:
    """Gives a file its name, and replaces nothing."""
    try:
        os.link(begun, path)
    except FileExistsError:
        check_that_it_is_new(path)
        raise
    except OSError:  # a file system without links, such as that of most USB sticks
        with blocked():
            os.close(os.open(path, os.O_WRONLY | os.O_CREAT | os.O_EXCL))
            os.replace(begun, path)


def _remove(begun: str, file: BinaryIO) -> None:
    with contextlib.suppress(FileNotFoundError):
        os.remove(begun)
    with contextlib.suppress(OSError):  # what couldn't be written isn't written again
        file.close()
