"""What a fuzzer compares of archives: what the commands say of them with plain readers, and with each other."""
import json
import posixpath
import random
from collections.abc import Sequence
from typing import Callable, NamedTuple, Optional

from choices import some
from plain import captures, records
from plain import lines as plain_lines
from plain.captures import Capture
from plain.lines import Line
from plain.records import Fault, Record
from random_archives import archive
from random_changes import mutated
from random_queries import query
from trial import Trial

MEMBERS = ["url", "mime", "status", "digest", "length", "offset", "filename"]


class Read(NamedTuple):
    """An archive as the plain reader reads it."""

    records: list[Record]
    fault: Optional[Fault]


def try_archives(trial: Trial) -> None:
    """One to three archives after a few changes."""
    choice = trial.choice
    texts = [changed_archive(choice) for _ in range(choice.choice((1, 1, 1, 2, 3)))]
    names = trial.write(texts, "warc")
    reads = read_all(trial, texts)
    expect_reports(trial, names, reads)
    types = some_types(choice)
    index = expect_index(trial, names, reads, types)
    expect_order(trial, index)
    expect_record(trial, names[0], texts[0], reads[0])
    expect_scan(trial, names, reads, types)
    if choice.random() < 0.2:
        expect_input(trial, texts[0], reads[0])


def changed_archive(choice: random.Random) -> bytes:
    if choice.random() < 0.003:
        return mutated(choice, b"".join(archive(choice) for _ in range(500)))
    if choice.random() < 0.5:
        return archive(choice, 4, share_at_fault=0.8)
    parts = [mutated(choice, archive(choice)) for _ in range(choice.choice((1, 1, 2)))]
    return archive(choice, 3) + b"".join(parts)


def read_all(trial: Trial, texts: Sequence[bytes]) -> list[Read]:
    reads = [Read(*records.read(text)) for text in texts]
    for read in reads:
        trial.tally["archives"] += 1
        trial.tally["records"] += len(read.records)
        trial.tally[f"archive: {read.fault[1] if read.fault else 'whole'}"] += 1
    return reads


def some_types(choice: random.Random) -> Optional[list[str]]:
    """The types of the records that are indexed, or none where they aren't chosen."""
    return some(choice, records.INDEXABLE, 1, 5) if choice.random() < 0.5 else None


def option(types: Optional[Sequence[str]]) -> tuple[str, ...]:
    return ("--types", ",".join(types)) if types else ()


def faults_said(names: Sequence[str], reads: Sequence[Read]) -> list[bytes]:
    return [f"warcdx: {name}: fault {read.fault[0]} {read.fault[1]}\n".encode() for name, read in zip(names, reads) if read.fault]


# ---- reports


def expect_reports(trial: Trial, names: Sequence[str], reads: Sequence[Read]) -> None:
    """`list` and `verify` report the records of the plain reader, and its fault."""
    expect_report(trial, "list", lambda record: f"{record.length} {record.kind}", names, reads)
    expect_report(trial, "verify", lambda record: record.verdict, names, reads)


def expect_report(trial: Trial, command: str, value: Callable[[Record], str], names: Sequence[str], reads: Sequence[Read]) -> None:
    reports = [report(read, value) for read in reads]
    if len(names) > 1:
        reports = [f"{name}:\n{text}" for name, text in zip(names, reports)]
    differs = command == "verify" and any(record.verdict == "differs" for read in reads for record in read.records)
    is_damaged = any(read.fault for read in reads)
    trial.expect(int(differs or is_damaged), "".join(reports).encode(), b"", command, *names)


def report(read: Read, value: Callable[[Record], str]) -> str:
    lines = [f"{record.offset} {value(record)}\n" for record in read.records]
    return "".join(lines) + (f"fault {read.fault[0]} {read.fault[1]}\n" if read.fault else "")


# ---- indexes


def expect_index(trial: Trial, names: Sequence[str], reads: Sequence[Read], types: Optional[Sequence[str]] = None) -> bytes:
    """`index` writes the plain index of the archives. A key that the plain reader doesn't know isn't compared. Returns the index."""
    done = trial.run("index", *option(types), *names)
    errors = faults_said(names, reads)
    trial.check(done.status == int(bool(errors)) and done.error == b"".join(errors), f"index {names}: {done}")
    wanted = captures_of(names, reads, types)
    unknown = sum(each.key is None for each in wanted)
    trial.tally["captures"] += len(wanted)
    trial.tally["captures of which the plain reader doesn't know the key"] += unknown
    trial.tally["indexes of chosen types"] += bool(types)
    if unknown:
        expect_captures(trial, wanted, done.output)
    elif done.output != captures.index(wanted):
        expect_captures(trial, wanted, done.output)
        trial.check(False, f"index {names}: {done.output!r} has its lines in another order than {captures.index(wanted)!r}")
    return done.output


def captures_of(names: Sequence[str], reads: Sequence[Read], types: Optional[Sequence[str]] = None) -> list[Capture]:
    """The captures of archives, each with the last part of the archive's path as the file name."""
    named = [(posixpath.basename(name), read) for name, read in zip(names, reads)]
    return [each for name, read in named for each in captures.captures_of(read.records, name, types or records.USUAL)]


def expect_captures(trial: Trial, wanted: Sequence[Capture], index: bytes) -> None:
    """The lines of an index are those of the captures, in any order."""
    left = {(each.filename, each.offset): each for each in wanted}
    for line in index.splitlines(keepends=True):
        key, _, rest = line.partition(b" ")
        members = json.loads(rest.partition(b" ")[2])
        trial.check(list(members) == MEMBERS, f"members {members}")
        capture = left.pop((members["filename"], int(members["offset"])), None)
        trial.check(capture, f"no record has the capture {line!r}")
        if capture and capture.key is not None:
            trial.check(line == capture.line(), f"capture\nwanted {capture.line()!r}\nfound  {line!r}")
        elif capture:
            trial.check(b" " + rest == capture.line_after_key(), f"capture\nwanted {capture.line_after_key()!r}\nfound  {line!r}")
    trial.check(not left, f"no capture of {list(left)}")


def expect_order(trial: Trial, index: bytes) -> None:
    """What `index` writes rises by place, and is an index for `check` and for `sort`."""
    places = [plain_lines.place(line) for _, line in plain_lines.cut(index)]
    trial.check(all(one < next_one for one, next_one in zip(places, places[1:])), f"places of {index!r} don't rise")
    (trial.folder / "all.cdxj").write_bytes(index)
    trial.expect(0, f"all.cdxj {len(places)}\n".encode(), b"", "check", "all.cdxj")
    if trial.choice.random() < 0.3:
        sorting = trial.ended(("env", "LC_ALL=C", "sort", "-s", "-c", "-k1,2", "all.cdxj"))
        trial.check(sorting == (0, b"", b""), f"sort says {sorting}")


# ---- single records, queries, standard input


def expect_record(trial: Trial, name: str, text: bytes, read: Read) -> None:
    """`get` of each kind of offset: of a record, of the damage, and of any byte. Both its forms write the same of a record."""
    choice, fault = trial.choice, read.fault
    lengths = {record.offset: record.length for record in read.records}
    offsets = some(choice, sorted(lengths), 1, 1) + [choice.choice((choice.randint(0, len(text)), fault[0] if fault else 1))]
    for offset in offsets:
        arguments = ("get", str(offset), name)
        if offset in lengths:
            record = text[offset : offset + lengths[offset]]
            trial.expect(0, record, b"", *arguments)
            expect_record_of_length(trial, name, text, offset, lengths[offset])
        elif not fault or offset < fault[0]:
            trial.expect(1, b"", f"warcdx: {name}: NoRecord\n".encode(), *arguments)
        else:
            done = trial.run(*arguments)
            is_said = done.status == 1 and done.error == b"".join(faults_said([name], [read]))
            front = text[offset:] if offset == fault[0] else b""
            trial.check(is_said and front.startswith(done.output), f"{arguments}: {done}")


def expect_record_of_length(trial: Trial, name: str, text: bytes, offset: int, length: int) -> None:
    """`get --length` writes the record, also from standard input, and whatever precedes it. No other length is accepted."""
    record = text[offset : offset + length]
    trial.expect(0, record, b"", "get", "--length", str(length), str(offset), name)
    trial.expect(0, record, b"", "get", "--length", str(length), str(offset), "-", lines=text)
    trial.expect(0, record, b"", "get", "--length", str(length), str(offset), "-", lines=b"x" * offset + text[offset:])
    other = length + trial.choice.choice((-1, 1, length))
    trial.expect(1, b"", f"warcdx: {name}: NoRecord\n".encode(), "get", "--length", str(other), str(offset), name)


def expect_scan(trial: Trial, names: Sequence[str], reads: Sequence[Read], types: Optional[Sequence[str]]) -> None:
    """`scan` writes what `pages` does over the index, where no archive is damaged."""
    choice = trial.choice
    sizes = ",".join(str(choice.randint(1, 4)) for _ in range(choice.randint(1, 3)))
    text = query(choice, lines_of(trial))
    done = trial.run("pages", sizes, text, "all.cdxj")
    errors = faults_said(names, reads)
    if errors and done.status == 0:
        trial.expect(1, b"", errors[0], "scan", *option(types), sizes, text, *names)
    else:
        trial.expect(*done, "scan", *option(types), sizes, text, *names)


def lines_of(trial: Trial) -> list[Line]:
    return plain_lines.read_lines([(trial.folder / "all.cdxj").read_bytes()])


def expect_input(trial: Trial, text: bytes, read: Read) -> None:
    """Standard input is read as a file is."""
    said = report(read, lambda record: f"{record.length} {record.kind}")
    trial.expect(int(bool(read.fault)), said.encode(), b"", lines=text)
    done = trial.run("index", "-", lines=text)
    trial.check(done.error == b"".join(faults_said(["-"], [read])), f"index -: {done}")
    expect_captures(trial, captures.captures_of(read.records, "-"), done.output)
