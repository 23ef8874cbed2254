#!/usr/bin/env python3
"""Compares the two ways in which the Python package reads records: by itself, and by the program.

usage: package_records.py [--cases N | --seconds N | --case NUMBER] [--seed N] [--jobs N] [PROGRAM]

A case is an archive that is made at random, plain or compressed, and most often changed: in a few bytes, lines, numbers or parts, in its members,
by a cut or by another archive behind it. The package has to give the same records when it iterates over the archive as the program lists and
writes, and to end with the same fault. `record` and `stream` have to do the same at the offsets of records, and at others, with the right length,
with another and with none. A fault is the same if its class, its file and its offset are. The places of records are those that the program lists. The
verdicts on their digests are the same whichever way finds the records, and in pieces of any size.

PROGRAM is warcdx, in whose folder warcdx-gz may be, too. The output and the exit status are those of against_plain.py.
"""
import pathlib
import random
import sys
from collections.abc import Callable, Iterator
from typing import Optional, Union

ROOT = pathlib.Path(__file__).resolve().parents[2]
sys.path[:0] = [str(ROOT / "tests"), str(ROOT / "python")]

from case_runs import run_cases
from choices import mostly
from random_archives import SAMPLES, archive, record, record_at_fault
from random_changes import mutated
from random_members import damaged, member
from trial import Trial

from warcdx import Archive, CompressedArchive, Error, Fault, Listed, Record, open_archive, usual_records
from warcdx.record import RecordStream
from warcdx.usual_records import ArchiveFile
from warcdx.verifying import Checked, check_archive

Place = tuple[int, Optional[int]]  # an offset and a length
Found = Union[Record, bytes, str]
# Changes of a record that is of the usual form but for one thing.
ODD = (
    (b"-09-19T", b"-02-30T"), (b"-22T", b"-31T"), (b"T17:20:24", b"T24:20:24"), (b"2016-", b"0000-"), (b"Content-Length: ", b"Content-Length: 000000000000000000"),
    (b"Content-Length: ", b"Content-Length: -"), (b"Content-Length: ", b"Content-Length: 1"), (b"Content-Length", b"WARC-Type"),
    (b"WARC/1.", b"WARC/2."), (b"WARC/1.", b"warc/1."), (b"WARC-Type", b"WARC-Date"), (b"WARC-Record-ID", b"X"), (b"WARC-Type", b"WARC-Type "),
    (b"WARC-Type", b"W(RC-Type"), (b"WARC-Type", b"WARC-T\xc3\xa9"), (b"WARC-Type", b""), (b":", b""), (b": ", b":\0"), (b": ", b":\r"), (b": ", b":\n"),
    (b": ", b":\r\n "), (b"\r\n", b"\n"), (b"\r\n", b"\r\n "), (b"\r\n\r\n", b"\r\n"), (b"\r\n\r\n", b"\r\n\r\n\r\n"), (b"\r\n\r\n", b"\r\n\n\r"),
    (b"\r\n", b"\r\n:x\r\n"), (b"\r\n", b"\r\nwarc-type: a\r\n"), (b"\r\n", b"\r\nWARC-Date: 2016\r\n"), (b"\r\n\r\n", b"\r\n\r\nx"), (b"\r\n\r\n", b"\0\0\r\n"), (b"\r\n\r\n", b"\r\n--"),
)  # fmt: skip
ENDS = (b"x", b"\0" * 20, b"\x1f", b"\x1f\x8b", b"\r\n", b"WARC/1.1\r\n", b"WARC/1.1\r\n\r\n")


def some_text(choice: random.Random) -> bytes:
    """Most often a record; or an odd one, one at fault, one that is changed, none, or two."""
    kind = choice.random()
    if kind < 0.5:
        return usual(choice)
    if kind < 0.75:
        return odd(choice, usual(choice))
    if kind < 0.82:
        return record_at_fault(choice)
    if kind < 0.92:
        return mutated(choice, record(choice))
    return choice.choice((b"", record(choice) + record(choice), record(choice) + b"\0", record(choice)[:-1], choice.randbytes(30)))


def usual(choice: random.Random) -> bytes:
    """A record of a crawl, or one that is made, which isn't of the usual form as often."""
    return mostly(choice, 0.5, choice.choice(SAMPLES), record(choice))


def odd(choice: random.Random, text: bytes) -> bytes:
    """A record with one of the changes, in its first place or in its last."""
    old, new = choice.choice([change for change in ODD if change[0] in text])
    at = text.index(old) if choice.random() < 0.7 else text.rindex(old)
    return text[:at] + new + text[at + len(old) :]


def some_member(choice: random.Random) -> bytes:
    packed = member(choice, some_text(choice))
    return damaged(choice, packed) if choice.random() < 0.08 else packed


def some_archive(choice: random.Random) -> bytes:
    if choice.random() < 0.5:
        made = b"".join(some_member(choice) for _ in range(choice.randint(0, 5)))
    else:
        made = archive(choice, 5, share_at_fault=0.3) if choice.random() < 0.5 else b"".join(some_text(choice) for _ in range(choice.randint(1, 4)))
    if choice.random() < 0.3:
        made = mutated(choice, made)
    if choice.random() < 0.1:
        made += choice.choice((*ENDS, some_member(choice), record(choice)))
    return made


class ByProgram(Archive):
    """A plain archive of which each record is asked of the program."""

    def opened(self) -> ArchiveFile:
        raise OSError


class CompressedByProgram(ByProgram, CompressedArchive):
    """A compressed archive of which each record is asked of the program."""


def found_by(call: Callable[[], Found]) -> Found:
    """What a call returns, or the fault that it raises, as a text."""
    try:
        return call()
    except Error as error:
        return named(error)


def named(error: Error) -> str:
    place = (error.file, error.offset) if isinstance(error, Fault) else str(error)
    return f"{type(error).__name__} {place}"


def all_of(archive: Archive) -> list[Found]:
    """The records of an archive, and the fault after them, if there is one."""
    found: list[Found] = []
    try:
        found.extend(archive)
    except Error as error:
        found.append(named(error))
    return found


def verdicts(records: Iterator[Checked]) -> list[Union[Checked, str]]:
    """The verdicts on an archive, and the fault after them, if there is one."""
    found: list[Union[Checked, str]] = []
    try:
        found.extend(records)
    except Error as error:
        found.append(named(error))
    return found


def expect_places(trial: Trial, records: list[Found], archive: Archive) -> None:
    """The records know the places that the program lists."""
    listed_records = archive.list()
    for each in records:
        if isinstance(each, Record):
            listed = next(listed_records)
            trial.check(each.offset == listed.offset and each.length in (None, listed.length), f"{each.offset}, {each.length}: {listed}")


def streamed(archive: Archive, offset: int, length: Optional[int]) -> bytes:
    with archive.stream(offset, length=length) as stream:
        return b"".join(stream.whole())


def count_asks(archive: Archive) -> list[int]:
    """Returns the offsets from which on an archive has the program list its records, as they come."""
    ask, offsets = archive.listed_streams, list[int]()

    def counted(start: int = 0) -> Iterator[tuple[Listed, RecordStream]]:
        offsets.append(start)
        return ask(start)

    archive.listed_streams = counted  # type: ignore[method-assign]
    return offsets


def some_places(choice: random.Random, archive: Archive, size: int) -> list[Place]:
    """Places of records, as they are and otherwise, and places of anything else."""
    try:
        listed = [(each.offset, each.length) for each in choice.sample(list(archive.list()), 1)]
    except (Error, ValueError):
        listed = []
    places: list[Place] = [(choice.randint(0, size + 1), choice.choice((None, choice.randint(0, size + 1)))), (0, size), (0, None)]
    for offset, length in listed:
        other = max(0, length + choice.choice((-1, 1, choice.randint(-length, size))))
        places += [(offset, length), (offset, other), (offset, None), (max(0, offset + choice.choice((-1, 1))), length)]
    return choice.sample(places, min(len(places), 4))


def expect_same(trial: Trial, here: Archive, asked: Archive, size: int) -> None:
    asks = count_asks(here)
    found, wanted = all_of(here), all_of(asked)
    trial.tally["iterations that ask the program"] += len(asks)
    trial.check(found == wanted, f"{here.path} has {found!s:.1500}\nand by the program {wanted!s:.1500}")
    expect_places(trial, found, asked)
    usual_records._AHEAD = trial.choice.choice((1 << 16, 509, 50))
    checked, wanted_verdicts = verdicts(check_archive(here)), verdicts(check_archive(asked))
    trial.check(checked == wanted_verdicts, f"{here.path} has the verdicts {checked!s:.1500}\nand by the program {wanted_verdicts!s:.1500}")
    trial.tally["verdicts on digests"] += sum(isinstance(each, Checked) and "absent" not in (each.block.value, each.payload.value) for each in checked)
    trial.tally["records"] += sum(isinstance(each, Record) for each in found)
    trial.tally[f"archive: {str(found[-1]).split()[0] if found and isinstance(found[-1], str) else 'whole'}"] += 1
    for offset, length in some_places(trial.choice, asked, size):
        for read in (lambda each: each.record(offset, length=length), lambda each: streamed(each, offset, length)):
            found_here, found_there = found_by(lambda: read(here)), found_by(lambda: read(asked))
            trial.check(found_here == found_there, f"at {offset}, {length}: {found_here!s:.1500}\nand by the program {found_there!s:.1500}")
            trial.tally["places"] += 1
            trial.tally["places with a record"] += not isinstance(found_here, str)


def try_case(trial: Trial, number: int) -> None:
    made = some_archive(trial.choice)
    path = trial.folder / trial.write([made], "warc")[0]
    is_packed = mostly(trial.choice, 0.95, type(open_archive(path, program=trial.program)) is CompressedArchive, trial.choice.random() < 0.5)
    kind, asked = (CompressedArchive, CompressedByProgram) if is_packed else (Archive, ByProgram)
    trial.tally["compressed archives" if is_packed else "plain archives"] += 1
    expect_same(trial, kind(path, program=trial.program), asked(path, program=trial.program), len(made))


if __name__ == "__main__":
    sys.exit(run_cases(__doc__, 1000, try_case))
