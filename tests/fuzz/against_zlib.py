#!/usr/bin/env python3
"""Compares warcdx-gz with zlib and the plain readers, on compressed archives that are made at random.

usage: against_zlib.py [--cases N | --seconds N | --case NUMBER] [--seed N] [--jobs N] [PROGRAM]

A case is one to three archives: most of them compressed, each record a member of gzip of its own, and some plain. The members are of all levels
and strategies of zlib, of stored blocks, and with the optional fields of a header. Some hold nothing, other bytes than a record, or several records;
some are changed in a bit or a byte, or cut; and some archives end with what is no member. `list` and `verify` have to report what the plain reader
does that unpacks by zlib, `index` has to write the plain index, `scan` the pages of its lines, and `get` the text of a member, or to refuse it.

PROGRAM is warcdx-gz; without it, that of this repository. The output and the exit status are those of against_plain.py.
"""
import pathlib
import random
import sys
from collections.abc import Sequence
from typing import Optional

sys.path.insert(0, str(pathlib.Path(__file__).resolve().parents[1]))

from archive_trials import expect_index, expect_order, expect_reports, expect_scan, some_types
from case_runs import run_cases
from choices import some
from plain import members
from plain.members import Read
from program import BUILT_GZ
from random_archives import archive, record, record_at_fault
from random_members import damaged, far_text, member
from trial import Done, Trial

NAME = b"warcdx-gz: "


class GzTrial(Trial):
    """A trial whose program says another name. What it says is compared under that of warcdx."""

    def ended(self, arguments: Sequence[object], lines: bytes = b"") -> Done:
        done = super().ended(arguments, lines)
        said = done.error.splitlines(keepends=True)
        self.check(all(line.startswith(NAME) for line in said), f"{arguments}: {done}")
        return done._replace(error=b"".join(b"warcdx: " + line[len(NAME) :] for line in said))


def some_archive(choice: random.Random) -> bytes:
    if choice.random() < 0.15:
        return archive(choice, 3, share_at_fault=0.3)
    packed = b"".join(some_member(choice) for _ in range(choice.randint(0, 5)))
    if choice.random() < 0.1:
        packed += choice.choice((b"x", b"\0" * 20, b"\x1f", b"\x1f\x8b", b"\x1f\x8b\x08", b"WARC/1.1\r\n"))
    return packed


def some_member(choice: random.Random) -> bytes:
    packed = member(choice, some_text(choice))
    return damaged(choice, packed) if choice.random() < 0.15 else packed


def some_text(choice: random.Random) -> bytes:
    """Most often a record; or a long one, none, another text, or two records."""
    kind = choice.random()
    if kind < 0.8:
        return record(choice)
    if kind < 0.87:
        block = far_text(choice)
        return b"WARC/1.1\r\nWARC-Type: resource\r\nWARC-Target-URI: http://a.org/%d\r\nWARC-Record-ID: <a:b>\r\nWARC-Date: 2016\r\n" \
            b"Content-Length: %d\r\n\r\n%b\r\n\r\n" % (len(block), len(block), block)
    if kind < 0.92:
        return b""
    return choice.choice((record_at_fault(choice), record(choice) + record(choice), record(choice) + b"\0", choice.randbytes(30)))


def expect_fetches(trial: Trial, name: str, archive: bytes, read: Read) -> None:
    """`get` of a record's offset, of the damage and of any byte. Both its forms write the same of a record."""
    choice = trial.choice
    lengths = {each.offset: each.length for each in read.records}
    for offset in some(choice, sorted(lengths), 1, 2):
        trial.expect(0, read.texts[offset], b"", "get", str(offset), name)
        trial.expect(0, read.texts[offset], b"", "get", "--length", str(lengths[offset]), str(offset), name)
        trial.expect(0, read.texts[offset], b"", "get", str(offset), "-", lines=archive)
        other = lengths[offset] + choice.choice((-1, 1))
        done = trial.run("get", "--length", str(other), str(offset), name)
        is_said = done.status == 1 and done.error == f"warcdx: {name}: NoRecord\n".encode()
        trial.check(is_said and read.texts[offset].startswith(done.output), f"get --length {other} {offset}: {done}")
    if members.is_compressed(archive):
        expect_fetch_anywhere(trial, name, archive, choice.choice((choice.randint(0, len(archive)), read.fault[0] if read.fault else 1)))


def expect_fetch_anywhere(trial: Trial, name: str, archive: bytes, offset: int) -> None:
    """`get` in a compressed archive: what precedes the offset isn't judged."""
    behind = members.read_members(archive[offset:])
    done = trial.run("get", str(offset), name)
    text, fault = behind.texts.get(0), behind.fault
    if text is not None:
        trial.check(done == (0, text, b""), f"get {offset}: {done}")
    elif fault and fault[0] == 0 and fault[1] != "NoMember":
        trial.check(done.status == 1 and done.error == f"warcdx: {name}: fault {offset} {fault[1]}\n".encode(), f"get {offset}: {done}")
    else:
        trial.check(done == (1, b"", f"warcdx: {name}: NoRecord\n".encode()), f"get {offset}: {done}")


def try_case(trial: Trial, number: int) -> None:
    choice = trial.choice
    archives = [some_archive(choice) for _ in range(choice.choice((1, 1, 2, 3)))]
    names = trial.write(archives, "warc.gz")
    reads = [members.read(each) for each in archives]
    for each, read in zip(archives, reads):
        trial.tally["compressed archives" if members.is_compressed(each) else "other archives"] += 1
        trial.tally["records"] += len(read.records)
        trial.tally[f"archive: {read.fault[1] if read.fault else 'whole'}"] += 1
    types: Optional[list[str]] = some_types(choice)
    expect_reports(trial, names, reads)
    index = expect_index(trial, names, reads, types)
    expect_order(trial, index)
    expect_scan(trial, names, reads, types)
    expect_fetches(trial, names[0], archives[0], reads[0])
    said = trial.run(lines=archives[0])
    wanted = trial.run("list", names[0])
    trial.check(said == wanted, f"list of standard input: {said}, and of the file: {wanted}")


if __name__ == "__main__":
    sys.exit(run_cases(__doc__, 1000, try_case, GzTrial, BUILT_GZ))
