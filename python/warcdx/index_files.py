"""The files of an `Index`, which are opened once to see whether they are indexes."""
import contextlib
import fcntl
import io
import os
import re
import stat
from collections.abc import Sequence

from .faults import BadLine, Read, cannot_open
from .files import open_at_once
from .program import running
from .serve import Files
from .states import around, runs_of

_AHEAD = 1 << 12  # bytes of a file that show whether it is an index
_USUAL = re.compile(rb"[^ \n]* [0-9]{14} *\{|\Z")  # how an index begins
_CDX = re.compile(rb"[^ \n]+ [0-9]{14}(?: [^ \n]+){7}(?: [^ \n]+ [^ \n]+)?\n")


def open_files(indexes: Sequence[str], program: str, stack: contextlib.ExitStack) -> Files:
    """Opens the files of indexes. Those of a folder stay open, because updates remove them. Raises a Fault."""
    names: list[str] = []
    operands: list[str] = []
    descriptors: list[int] = []
    for index in indexes:
        is_folder = os.path.isdir(index)
        for path in runs_of(index) if is_folder else [index]:
            names.append(path)
            with _opened(path) as file:
                if is_folder:
                    # If a standard stream of this process is closed, the file has its number. The program has a pipe there.
                    descriptor = fcntl.fcntl(file, fcntl.F_DUPFD_CLOEXEC, 3)
                    stack.callback(os.close, descriptor)
                    descriptors.append(descriptor)
                    operands.append(f"/dev/fd/{descriptor}")
                else:
                    _expect_index(path, file, program)
                    operands.append(path)
    return Files(tuple(names), tuple(operands), tuple(descriptors))


def _opened(path: str) -> io.FileIO:
    try:
        file = open_at_once(path)
    except (OSError, ValueError) as error:  # ValueError: such as a path with a NUL
        raise cannot_open(path, getattr(error, "errno", None)) from error
    if stat.S_ISFIFO(os.fstat(file.fileno()).st_mode):  # the program would wait for a writer, or hasn't the descriptor of the path
        file.close()
        fault = Read("Read", path)
        fault.advice = "An index is a file, because it is searched: write what a pipe has to a file first."
        raise fault
    return file


def _expect_index(path: str, file: io.FileIO, program: str) -> None:
    """Raises BadLine if a file isn't an index, as its first line shows. Whether it is one, and what else, the program says."""
    try:
        first = file.read(_AHEAD) or b""
    except OSError:  # the first query says why
        return
    if _USUAL.match(first):
        return
    try:
        with running(program, "query", "key=&matchType=prefix&limit=1", path) as output:
            output.read()
    except BadLine as fault:
        if (folder := around(path)) is not None:
            fault.advice = f"It is in the folder of an index: open {folder}"
        elif _CDX.match(first):
            fault.advice = "It seems to be a CDX file without a header: warcdx-cdx converts it to an index."
        raise
