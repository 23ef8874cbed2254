"""Indexes and the archives that they name: from a capture to its record in one call."""
import contextlib
import errno
import os
from collections.abc import Iterable, Iterator, Mapping, Sequence
from typing import TYPE_CHECKING, Optional, Union

from .archive import Archive, expect_file, open_archive
from .asked import Selection, selecting
from .errors import NoArchive, expect_type
from .faults import cannot_open
from .files import is_in
from .fitting import fitting_record, fitting_stream
from .index import PAGE_SIZE, Index
from .program import Path, find_program, operands
from .query import Capture
from .record import Record, RecordStream

if TYPE_CHECKING:
    from typing_extensions import Unpack

Archives = Union[Path, Iterable[Path], Mapping[str, Path]]
_MOST_KNOWN = 4096  # archives of which the path and the form are kept


class Collection:
    """Indexes, and the archives that they name.

    `archives` is the folder of the archives, several folders, or a mapping from the file names in the indexes to
    paths. Without it, they are in the folder of the first index. Of several folders, the first that has a file of the name counts. In a
    folder, a file name in an index may name a file in a folder below, as in `2016/a.warc.gz`. One that begins
    with `/`, or has an empty part, `.` or `..` between its slashes, names no archive, so that no name leads out
    of the folder. Symbolic links in the folder are followed. With `links`, a list of folders, those that lead out of
    the folder have to lead into one of these.

        with Collection("all.cdxj", "archives") as collection:
            for record in collection.records("example.com/*", since=2016):
                print(record.field("WARC-Target-URI"), len(payload(record)))

    `index` is the Index, with as many `processes`. The parameters of `captures` and `records` are those of its calls.
    """

    def __init__(
        self,
        indexes: Union[Path, Iterable[Path]],
        archives: Optional[Archives] = None,
        *,
        links: Optional[Iterable[Path]] = None,
        program: str = "warcdx",
        processes: int = 1,
    ) -> None:
        self._links = None if links is None else operands(links)
        names = operands(indexes)
        self.index = Index(names, program=program, processes=processes)
        if archives is None:
            archives = os.path.dirname(os.path.abspath(names[0]))
        self._archives: Union[list[str], Mapping[str, Path]] = archives if isinstance(archives, Mapping) else operands(archives)
        if not self._archives:
            raise ValueError("no folder is given")
        for folder in () if isinstance(self._archives, Mapping) else self._archives:
            if os.path.isfile(folder):
                raise cannot_open(folder, errno.ENOTDIR)
        self._program = find_program(program)
        self._known: dict[str, Archive] = {}

    @selecting
    def captures(
        self, url: Optional[str] = None, *, page_size: Optional[int] = PAGE_SIZE, **selection: "Unpack[Selection]"
    ) -> Iterator[Capture]:
        """Yields the captures that a query selects, as `Index.captures` does: all of them without an argument."""
        return self.index.captures(url, page_size=page_size, **selection)

    @selecting
    def records(
        self, url: Optional[str] = None, *, page_size: Optional[int] = PAGE_SIZE, **selection: "Unpack[Selection]"
    ) -> Iterator[Record]:
        """Yields the record of each capture that a query selects. Raises as `record` does."""
        return map(self.record, self.captures(url, page_size=page_size, **selection))

    def record(self, capture: Capture) -> Record:
        """Returns the record of a capture, which is held in memory.

        Nothing of a plain archive before the record is read, unless the capture has no length, and of a
        compressed one only its member. Raises NoArchive if no archive has the name of the capture's,
        `faults.CannotOpen` if it can't be opened, `faults.NoRecord` if the record isn't there, and `faults.OtherRecord` if
        one of another URL or time is, as after the archive was replaced.
        """
        return fitting_record(self._archive_of(capture), capture, self._program)

    def stream(self, capture: Capture) -> contextlib.AbstractContextManager[RecordStream]:
        """Opens the record of a capture, to be read in pieces as by `Archive.stream`. Raises as `record` does."""
        return fitting_stream(self._archive_of(capture), capture, self._program)

    def _archive_of(self, capture: Capture) -> Archive:
        if not hasattr(capture, "filename"):
            raise TypeError(f"a capture is what `captures` gives, and not {capture!r:.60}")
        return self.archive(capture.filename)

    def archive(self, name: str) -> Archive:
        """Returns the archive of a file name in an index. Raises NoArchive, `faults.CannotOpen`, or Unreadable for a pipe.

        Its form, plain or compressed, is found out once. Open a new Collection if archives are replaced.
        """
        found = self._known.get(name)
        if found is None:
            path = self.path(name)
            expect_file(path)  # another one may let who opens it wait for ever
            found = open_archive(path, program=self._program)
            if len(self._known) >= _MOST_KNOWN:
                self._known.clear()
            self._known[name] = found
        return found

    def path(self, name: str) -> Path:
        """Returns the path of the archive of a file name in an index. There may be no such file. Raises NoArchive."""
        expect_type("a file name", name, str, "a text")
        if isinstance(self._archives, Mapping):
            if name not in self._archives:
                raise NoArchive(name)
            return self._archives[name]
        path, found = _path_of(name), find_archive(self._archives, name, self._links)
        if path is None or found is None and self._links is not None:
            raise NoArchive(name)
        return found or os.path.join(self._archives[0], path)

    def close(self) -> None:
        """Ends the processes of the index."""
        self.index.close()

    def __enter__(self) -> "Collection":
        return self

    def __exit__(self, *error: object) -> None:
        self.close()


def find_archive(folders: Sequence[Path], name: str, links: Optional[Sequence[Path]] = None) -> Optional[str]:
    """Returns the path of the file with a name in an index, in the first of some folders that has it, or None.

    With `links` it is in that folder or in one of these, wherever symbolic links lead.
    """
    path = _path_of(name)
    for folder in folders if path is not None else ():
        found = os.path.join(os.fspath(folder), path or "")
        if os.path.exists(found) and (links is None or any(is_in(found, each) for each in (folder, *links))):
            return found
    return None


def _path_of(name: str) -> Optional[str]:
    """Returns the path of a file in a folder or below, whose bytes are a name in UTF-8, or None for `..` and the like."""
    try:
        path = name.encode(errors="surrogateescape")
    except UnicodeEncodeError:
        return None
    if b"\0" in path or any(part in (b"", b".", b"..") for part in path.split(b"/")):
        return None
    return os.fsdecode(path)
