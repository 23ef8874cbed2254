"""Compares the digests of blocks and of payloads with an archive of either form."""
from collections.abc import Generator
from typing import NamedTuple

from .archive import Archive
from .codings import Unreadable
from .faults import NoRecord, Read
from .record import Head
from .record_digests import Verdict, verdicts_of
from .usual_records import Block


class Checked(NamedTuple):
    """A record: its offset in bytes from the archive's start, and the verdicts on the digests of block and payload."""

    offset: int
    block: Verdict
    payload: Verdict


def check_archive(archive: Archive) -> Generator[Checked, None, None]:
    """Yields each record of an archive, which isn't a pipe. After the last one raises the fault of a damaged archive.

    Raises Read if a record is changed after the program has found it.
    """
    try:
        for checked, _ in archive.each(_checked):
            yield checked
    except (NoRecord, Unreadable) as error:
        raise Read("Read", archive.path) from error


def _checked(block: Block) -> Checked:
    return Checked(block.offset, *verdicts_of(Head(block.fields), block.length, block.pieces))
