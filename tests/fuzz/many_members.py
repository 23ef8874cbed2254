#!/usr/bin/env python3
"""Compares what warcdx-gz unpacks and refuses with what zlib does, on very many small members.

usage: many_members.py [--cases N | --seconds N | --case NUMBER] [--seed N] [--jobs N] [PROGRAM]

A case is 500 files, which one run of `list` reads. Each has one member, and 2,000 cases are a million of them. Most are changed: a bit or a byte,
or cut; or their data are, and the trailer is that of what zlib still unpacks of them. So whatever is unpacked is compared by its CRC-32. One case in
fifty has each cut of a member and each change of one of its bits instead. The texts are records, parts of them, long copies and other bytes.

PROGRAM is warcdx-gz; without it, that of this repository. The output and the exit status are those of against_plain.py.
"""
import pathlib
import random
import sys
import zlib
from collections.abc import Iterator

sys.path.insert(0, str(pathlib.Path(__file__).resolve().parents[1]))

from against_zlib import GzTrial
from case_runs import run_cases
from plain import members
from program import BUILT_GZ
from random_archives import record
from random_members import damaged, data, far_text, header, trailer

FILES = 500  # of a case, and of a run at most


def some_text(choice: random.Random) -> bytes:
    kind = choice.random()
    if kind < 0.5:
        return record(choice)
    if kind < 0.53:
        return far_text(choice)
    if kind < 0.8:
        return b"".join(choice.choices((b"a", b"WARC", b"\r\n", b"<p>", b"  ", choice.randbytes(40)), k=choice.randint(0, 200)))
    return choice.randbytes(choice.choice((0, 1, 2, 50)))


def some_member(choice: random.Random) -> bytes:
    """A member: as it is, changed, or with changed data whose trailer is right again."""
    kind = choice.random()
    front, packed, text = header(choice), b"", some_text(choice)
    packed = data(choice, text)
    if kind < 0.3:
        return front + packed + trailer(text)
    if kind < 0.6:
        return damaged(choice, front + packed + trailer(text))
    return front + mended(damaged(choice, packed), trailer(text))


def mended(packed: bytes, end: bytes) -> bytes:
    """Changed data with the trailer of what zlib unpacks of them, or if it refuses them with another one."""
    inflater = zlib.decompressobj(-zlib.MAX_WBITS)
    try:
        text = inflater.decompress(packed)
    except zlib.error:
        return packed + end
    if not inflater.eof:
        return packed + end
    return packed[: len(packed) - len(inflater.unused_data)] + trailer(text)


def each_change(packed: bytes) -> Iterator[bytes]:
    """Each cut of a member but the empty one, and each change of one of its bits."""
    for at in range(len(packed)):
        if at:
            yield packed[:at]
        for bit in range(8):
            yield packed[:at] + bytes((packed[at] ^ 1 << bit,)) + packed[at + 1 :]


def try_case(trial: GzTrial, number: int) -> None:
    choice = trial.choice
    if number % 50 == 0:
        text = record(choice)
        packed = list(each_change(header(choice)[:200] + data(choice, text) + trailer(text)))
    else:
        packed = [some_member(choice) for _ in range(FILES)]
    for at in range(0, len(packed), FILES):
        expect_listing(trial, packed[at : at + FILES])


def expect_listing(trial: GzTrial, packed: list[bytes]) -> None:
    """`list` of these files says of each what the reader does that unpacks by zlib."""
    names = [f"{number}.gz" for number in range(len(packed))]
    reports = []
    for name, file in zip(names, packed):
        (trial.folder / name).write_bytes(file)
        read = members.read(file)
        lines = [f"{each.offset} {each.length} {each.kind}\n" for each in read.records]
        if read.fault:
            offset, cause = read.fault
            lines.append(f"fault {offset} {cause}\n")
        trial.tally["members"] += 1
        trial.tally[f"member: {read.fault[1] if read.fault else 'whole'}"] += 1
        reports.append(f"{name}:\n{''.join(lines)}")
    done = trial.run("list", *names)
    for name, wanted, found in zip(names, reports, said_of(names, done.output.decode())):
        trial.check(found == wanted, f"{name}: wanted {wanted!r}, found {found!r}")
    trial.check(done.output.decode() == "".join(reports), "other lines than those of the files")


def said_of(names: list[str], output: str) -> Iterator[str]:
    """What was printed of each of the names, with the line that names it."""
    ends = [output.find(f"{name}:\n") for name in names[1:]] + [len(output)]
    start = 0
    for end in ends:
        yield output[start:end]
        start = end


if __name__ == "__main__":
    sys.exit(run_cases(__doc__, 200, try_case, GzTrial, BUILT_GZ))
