"""Merges any number of indexes by `warcdx merge`."""
import contextlib
import shutil
from collections.abc import Iterable, Iterator
from typing import IO, Union

from .program import Path, find_program, operands, running
from .streams import whole
from .temporary import path_of, unnamed_file

MOST = 1000  # indexes that are merged at a time: the program takes 1,024, and many systems as many open files


@contextlib.contextmanager
def merged(indexes: Union[Path, Iterable[Path]], program: str = "warcdx") -> Iterator[IO[bytes]]:
    """Yields the lines of several indexes as those of one. More than 1,000 are merged in groups first, in temporary files."""
    with contextlib.ExitStack() as stack:
        files = operands(indexes)
        while len(files) > MOST:
            groups = [files[start : start + MOST] for start in range(0, len(files), MOST)]
            parts = [stack.enter_context(unnamed_file()) for _ in groups]
            for part, group in zip(parts, groups):
                merge(group, part, program=program)
                part.flush()
            files = list(map(path_of, parts))
        yield stack.enter_context(running(find_program(program), "merge", *files))


def merge(indexes: Union[Path, Iterable[Path]], output: IO[bytes], *, program: str = "warcdx") -> None:
    """Writes one index of the lines of several."""
    if files := operands(indexes):
        with merged(files, program) as lines:
            shutil.copyfileobj(lines, whole(output))
