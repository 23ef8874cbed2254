"""The archives in a folder, and what in it isn't one."""
import itertools
import os
import re
from collections import Counter
from collections.abc import Callable
from typing import Any, NamedTuple, Optional, TypeVar

from .streams import is_text
from .update_tasks import Failed, State, state_of

ENDINGS = (".warc", ".warc.gz")  # of the names of archives, in any case of their letters
_PACKED = (".gz", ".bz2", ".xz", ".zst", ".br")
_ENDING = re.compile(r"\.[a-z][a-z0-9]{0,9}", re.ASCII)
_KINDS = 1000  # endings that are counted by themselves
_SHOWN = 10  # endings in a line
_Seen = TypeVar("_Seen")
_MOST_SEEN = 10_000  # entries of the folders below, if their archives are only counted


class FoundArchive(NamedTuple):
    """An archive: its path below the folder, and the state of the file. The state is None if it can't be seen, or isn't a file."""

    name: str
    state: Optional[State]

    @property
    def size(self) -> int:
        """The size in bytes."""
        return 0 if self.state is None else self.state[0]

    @property
    def is_text(self) -> bool:
        """Whether the name is UTF-8, which an index has to have."""
        return is_text(self.name)


class Passed:
    """What is passed over: files by the endings of their names, links to folders, and archives in the folders below."""

    def __init__(self) -> None:
        self.endings: Counter[str] = Counter()
        self.links = 0
        self.below = 0
        self.is_whole = True  # whether all folders below were looked at

    def add(self, name: str) -> None:
        """Adds a file."""
        ending = _ending_of(name)
        self.endings[ending if len(self.endings) < _KINDS or ending in self.endings else "others"] += 1

    def values(self) -> dict[str, Any]:
        """Returns what a summary has of it."""
        return {"endings": dict(self._ordered()), "links": self.links, "below": self.below}

    def line(self) -> Optional[str]:
        """Returns a line that says what is passed over, or None if nothing is."""
        shown = self._ordered()
        counts = [(count, ending or "without an ending") for ending, count in shown[:_SHOWN]]
        counts.append((sum(count for _, count in shown[_SHOWN:]), "with other endings"))
        counts.append((self.links, "link to a folder" if self.links == 1 else "links to folders"))
        texts = [f"{count:,} {what}" for count, what in counts if count]
        if self.below:
            texts.append(f"{'' if self.is_whole else 'at least '}{self.below:,} in folders below, without --recursive")
        return f"passed over: {', '.join(texts)}" if texts else None

    def _ordered(self) -> list[tuple[str, int]]:
        return sorted(self.endings.items(), key=lambda each: (-each[1], each[0]))


def _ending_of(name: str) -> str:
    """Returns the ending of a name in small letters, such as `.arc.gz`. It is empty if the name has none of letters and digits."""
    front, ending = os.path.splitext(name.lower())
    if ending in _PACKED:
        before = os.path.splitext(front)[1]
        return before + ending if _ENDING.fullmatch(before) else ending
    return ending if _ENDING.fullmatch(ending) else ""


class Found(NamedTuple):
    """The archives in a folder, in the order of their names, the folders below it that can't be read, with the reasons, and the rest."""

    archives: list[FoundArchive]
    unreadable: dict[str, str]
    passed: Passed

    def reason_for(self, name: str) -> Optional[str]:
        """Returns why an archive of this name can't be seen, or None if it isn't in a folder that can't be read."""
        above = itertools.accumulate(name.split("/")[:-1], "{}/{}".format)
        return next(filter(None, map(self.unreadable.get, above)), None)


def find_archives(folder: str, recursive: bool, store: str, single: Optional[str] = None) -> Found:
    """Returns the archives in a folder, and with `recursive` those in the folders below it, without following links to folders.

    The folder `store` isn't entered. The file `single`, given by its real path, is the command's, and doesn't count as passed over.
    Raises OSError if the folder itself can't be read to its end.
    """
    found, root, own_folder = Found([], {}, Passed()), os.path.realpath(folder), _seen(os.stat, store)
    waiting, left = [""], _MOST_SEEN
    while waiting and left > 0:
        below = waiting.pop()
        is_counted = bool(below) and not recursive
        try:
            with os.scandir(os.path.join(root, below) if below else root) as listed:
                some = itertools.islice(listed, left if is_counted else None)
                entries = [(entry, entry.is_dir(follow_symlinks=False)) for entry in some]
        except OSError as error:
            if not below:
                raise
            if recursive:
                found.unreadable[below] = error.strerror or str(error)
            continue
        left -= len(entries) if is_counted else 0
        while entries:  # so that each is free before the next one
            entry, is_folder = entries.pop()
            name = f"{below}/{entry.name}" if below else entry.name
            is_archive = entry.name.lower().endswith(ENDINGS)
            if is_folder:
                waiting += [name] * (not _is_same(entry, own_folder))
            elif entry.is_symlink() and os.path.isdir(entry.path):
                found.passed.links += not is_counted
            elif is_counted:
                found.passed.below += is_archive
            elif is_archive:
                found.archives.append(FoundArchive(name, _seen(state_of, entry.path)))
            elif entry.path != single:
                found.passed.add(entry.name)
    found.passed.is_whole = left > 0
    found.archives.sort()
    return found


def _is_same(entry: "os.DirEntry[str]", folder: Optional[os.stat_result]) -> bool:
    """Returns whether an entry is a folder, which may be there under several names."""
    return folder is not None and entry.inode() == folder.st_ino and os.path.samestat(entry.stat(follow_symlinks=False), folder)


def _seen(look: Callable[[str], _Seen], path: str) -> Optional[_Seen]:
    """Returns what a look at a file gives, or None if it can't be seen. The task that indexes it says why."""
    try:
        return look(path)
    except (OSError, Failed):
        return None
