"""What became of the archives in an update, and why."""
import os
from enum import Enum
from errno import EACCES, EIO, ELOOP, ENAMETOOLONG, ENOENT, ENOTDIR, EPERM
from typing import Any, NamedTuple, Optional

from .update_archives import Passed
from .update_tables import Archive, CannotUpdate, text_of
from .update_tasks import FAULT, Failed

FAILED = 3  # the status of an archive that can't be indexed
GONE = "it is gone"  # what a report says of an archive whose captures the index keeps all the same
# Why an archive can't be read that may not be read the next time either. Another reason may lie with the machine.
_LASTING = frozenset(
    ("cannot open", "Read", "not a regular file", "the name isn't UTF-8")
    + tuple(map(os.strerror, (EACCES, EIO, ELOOP, ENAMETOOLONG, ENOENT, ENOTDIR, EPERM)))
)


class Action(Enum):
    """What became of an archive."""

    INDEXED = "indexed"
    UNCHANGED = "unchanged"
    KEPT = "kept"  # it can't be read, and the index has its captures as they were
    LEFT_OUT = "left out"  # it can't be read, and wasn't indexed before
    REMOVED = "removed"  # it is gone


class Report(NamedTuple):
    """What became of an archive. `status` is 0, 1 if it is damaged, or 3 if it can't be indexed.

    `bytes` is the size of the archive, and `captures` how many of its captures are in the index.
    """

    archive: str
    action: Action
    status: int
    message: str
    bytes: int
    captures: int

    @classmethod
    def of(cls, name: str, archive: Archive, action: Action) -> "Report":
        return cls(name, action, FAULT if archive.cause else 0, archive.cause, archive.state[0], archive.captures)

    @property
    def is_lasting(self) -> bool:
        """Whether the archive is at fault, and not the machine, as without memory or room on a disk."""
        cause = damage_of(self.archive, self.message)["cause"].partition(" (")[0]
        return self.status == FAULT or self.status == FAILED and cause in _LASTING

    def values(self) -> dict[str, Any]:
        return {**self._asdict(), "action": self.action.value}


class Outcome(NamedTuple):
    """What an update has done: a report on each archive, in the order of their names, and why it has failed, if it has.

    `is_there` says whether there is an index, as it was or a new one. `gone` are the archives that are gone, and keep their captures.
    `known` has the messages of faults that were reported before.
    """

    reports: list[Report]
    failure: Optional[str]
    is_there: bool
    gone: list[str]
    passed: Passed
    known: dict[str, str]

    @property
    def faults(self) -> list[Report]:
        """The reports on archives and folders at fault, but for those on archives that are gone."""
        gone = frozenset(self.gone)
        return [report for report in self.reports if report.status and report.archive not in gone]

    def is_known(self, report: Report) -> bool:
        """Returns whether an earlier run has reported this fault."""
        return self.known.get(text_of(report.archive)) == report.message


def reason_of(error: Exception) -> str:
    """Returns why a task has failed."""
    if isinstance(error, (Failed, CannotUpdate)):
        return str(error)
    if isinstance(error, OSError):
        return error.strerror or str(error)
    if isinstance(error, MemoryError):
        return "Memory"
    return ": ".join(filter(None, (type(error).__name__, str(error))))


def damage_of(name: str, cause: str) -> dict[str, Any]:
    """Returns the archive, the offset of the record at fault in bytes, and the cause, as a summary has them."""
    words = cause.split(" ", 2)
    if len(words) == 3 and words[0] == "fault" and words[1].isdecimal() and len(words[1]) < 20:
        return {"archive": name, "offset": int(words[1]), "cause": words[2]}
    return {"archive": name, "offset": None, "cause": cause}
