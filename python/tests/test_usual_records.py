"""Records that this process reads by itself, and those that it asks of the program."""
import gzip
import os
import pathlib
import random
import threading
import tracemalloc
import unittest
from typing import Optional
from unittest import mock

from warcdx import Archive, Collection, Record, Unreadable, faults, open_archive, payload
from warcdx.usual_records import usual_head, usual_record

from .support import PROGRAM, SAMPLES, Case, packed, resource

HEAD = b"WARC/1.1\r\nWARC-Type: resource\r\nWARC-Record-ID: <urn:x>\r\nWARC-Date: 2016-09-19T17:20:24Z\r\nContent-Length: 3\r\n\r\n"
RECORD = HEAD + b"abc\r\n\r\n"
FOLDED = RECORD.replace(b"WARC-Type: resource", b"WARC-Type:\r\n resource")


class Heads(unittest.TestCase):
    def test_a_usual_record_is_read(self) -> None:
        for head in (
            HEAD,
            HEAD.replace(b"1.1", b"1.0"),
            HEAD.replace(b"WARC-Type: ", b"warc-type:\t ").replace(b": 3", b":003 "),
            HEAD.replace(b"24Z", b"24.123456789Z"),
            HEAD.replace(b"\r\n\r\n", b"\r\nX: \xff:\r\nX:\r\n\r\n"),
        ):
            record = usual_record(head + b"abc\r\n\r\n")
            self.assertEqual(Record.read(head + b"abc\r\n\r\n"), record, head)

    def test_any_other_head_is_left_to_the_program(self) -> None:
        for old, new in (
            (b"1.1", b"1.2"), (b"WARC/", b"warc/"), (b"\r\n", b"\n"), (b"resource", b"re\rsource"), (b"resource", b"re\nsource"),
            (b"resource", b"re\0source"), (b"WARC-Type:", b"WARC-Type :"), (b"WARC-Type:", b":"), (b"WARC-Type", b"X"),
            (b"WARC-Type: resource", b"WARC-Type"), (b"WARC-Type:", b" WARC-Type:"), (b": resource", b":\r\n resource"),
            (b"WARC-Type", b"WARC-Date"), (b"WARC-Record-ID", b"content-length"), (b"WARC-Type:", b"W\xc3\xa4:"),
            (b"2016", b"0000"), (b"09-19", b"02-30"), (b"T17", b"T24"), (b"24Z", b"60Z"), (b"24Z", b"24z"), (b"24Z", b"24"),
            (b"24Z", b"24.Z"), (b"T17:20:24Z", b""), (b"2016", b"\xd9\xa22016"),
            (b": 3", b": -3"), (b": 3", b": +3"), (b": 3", b":"), (b": 3", b": 3 3"), (b": 3", b": " + b"0" * 18 + b"3"),
            (b"\r\n\r\n", b"\r\n"), (b": 3", b": 4"), (b": 3", b": 2"), (b"abc\r\n\r\n", b"abc\r\n\n\r"), (b"abc\r\n\r\n", b"abc\r\n\r"),
            (b"abc\r\n\r\n", b"abc\r\n\r\nx"), (RECORD, b""), (b"WARC-Type", b"X: " + b"x" * 70_000 + b"\r\nWARC-Type"),
        ):  # fmt: skip
            self.assertIn(old, RECORD)
            self.assertIsNone(usual_record(RECORD.replace(old, new)), (old, new))

    def test_a_head_is_found_in_a_longer_text(self) -> None:
        found = usual_head(b"x\r\n\r\n" + RECORD * 2, 5)
        self.assertEqual((Record.read(RECORD).fields, len(HEAD), 3), found)


class Archives(Case):
    """The same records of a plain archive and of a compressed one."""

    def archives(self, *records: bytes, name: str = "a") -> list[Archive]:
        plain, compressed = self.folder / f"{name}.warc", self.folder / f"{name}.warc.gz"
        plain.write_bytes(b"".join(records))
        compressed.write_bytes(b"".join(packed(*records)))
        return [open_archive(path, program=PROGRAM) for path in (plain, compressed)]

    def test_records_are_iterated_over_without_the_program(self) -> None:
        records = [resource(number, bytes(number * 37 % 5000)) for number in range(400)]
        for archive in self.archives(*records):
            with mock.patch("warcdx.archive.running", side_effect=AssertionError), archive as opened:
                self.assertEqual([Record.read(record) for record in records], list(opened))
                self.assertEqual([Record.read(record) for record in records], list(opened))

    def test_records_know_where_they_are(self) -> None:
        records = [RECORD, resource(1, bytes(5000)), RECORD, FOLDED, RECORD]
        for archive in self.archives(*records):
            places: list[tuple[Optional[int], Optional[int]]] = [(each.offset, each.length) for each in archive.list()]
            found = list(archive)
            self.assertEqual(places, [(each.offset, each.length) for each in found])
            self.assertEqual(found[0], found[2])  # wherever they are
            for offset, length in places:
                assert offset is not None
                record = archive.record(offset, length=length)
                self.assertEqual((offset, length), (record.offset, record.length))
        self.assertEqual((None, None), (Record.read(RECORD).offset, Record.read(RECORD).length))

    def test_one_record_is_read_without_the_program(self) -> None:
        records = [resource(number, bytes(number)) for number in range(9)]
        for archive in self.archives(*records):
            places = list(archive.list())
            with mock.patch("warcdx.archive.running", side_effect=AssertionError):
                for place, record in zip(places, records):
                    self.assertEqual(Record.read(record), archive.record(place.offset, length=place.length))
                    with archive.stream(place.offset, length=place.length) as stream:
                        self.assertEqual((record, len(record)), (b"".join(stream.whole()), stream.size))

    def test_what_is_not_usual_is_asked_of_the_program(self) -> None:
        records = [RECORD, FOLDED, RECORD, RECORD.replace(b"T17:20:24Z", b""), FOLDED, RECORD]
        for archive in self.archives(*records):
            self.assertEqual([Record.read(record) for record in records], list(archive))
            for place, record in zip(list(archive.list()), records):
                self.assertEqual(Record.read(record), archive.record(place.offset, length=place.length))

    def test_a_fault_comes_after_the_records_before_it(self) -> None:
        for bad, kind in (
            (RECORD[:-3], faults.Closing), (RECORD.replace(b": 3", b": 99"), faults.ShortBlock), (b"x" * 20, faults.Version),
            (RECORD.replace(b"09-19", b"02-30"), faults.BadDate), (RECORD.replace(b": 3", b": x"), faults.BadLength),
        ):  # fmt: skip
            for first in (RECORD, FOLDED):
                for archive in self.archives(RECORD, first, bad):
                    places = iter(archive.list())
                    end = [next(places) for _ in range(2)][-1]
                    records = iter(archive)
                    self.assertEqual([Record.read(RECORD), Record.read(first)], [next(records), next(records)])
                    fault = self.raises(kind, next, records)
                    self.assertEqual((archive.path, end.offset + end.length), (fault.file, fault.offset))

    def test_faults_of_members_are_raised(self) -> None:
        (member,) = packed(RECORD)
        path = self.folder / "a.warc.gz"
        for end, kind in (
            (member[:-1], faults.CutMember), (member[:-5] + b"x" + member[-4:], faults.BadMember), (b"\0" * 9, faults.NoMember),
            (b"\x1f", faults.CutMember), (gzip.compress(RECORD * 2, mtime=0), faults.SeveralRecords), (gzip.compress(b"x", mtime=0), faults.Version),
        ):  # fmt: skip
            path.write_bytes(member + gzip.compress(b"", mtime=0) + member + end)
            records = iter(open_archive(path, program=PROGRAM))
            self.assertEqual([Record.read(RECORD)] * 2, [next(records), next(records)])
            self.raises(kind, next, records)

    def test_members_without_a_text_are_passed_over(self) -> None:
        (member,) = packed(RECORD)
        empty = gzip.compress(b"", mtime=0)
        path = self.folder / "a.warc.gz"
        path.write_bytes(empty + member + empty * 2 + member + empty)
        archive = open_archive(path, program=PROGRAM)
        self.assertEqual([Record.read(RECORD)] * 2, list(archive))
        self.raises(faults.NoRecord, archive.record, 0)
        path.write_bytes(empty)
        self.assertEqual([], list(archive))

    def test_the_file_decides_what_a_place_in_it_holds(self) -> None:
        """A member in a plain archive is no record, and neither is a record in a compressed one."""
        (member,) = packed(RECORD)
        stored = gzip.compress(resource(1, b"x" + RECORD), 0, mtime=0)
        for archive, offset, length in (
            (self.archives(RECORD)[0], len(RECORD), len(member)), (self.archives(RECORD)[1], stored.index(RECORD), len(RECORD))
        ):  # fmt: skip
            pathlib.Path(archive.path).write_bytes(RECORD + member if archive.path.endswith("c") else stored)
            with self.assertRaises((faults.Version, faults.NoRecord)):
                archive.record(offset, length=length)

    def test_streams_take_little_memory(self) -> None:
        long = resource(2, bytes(1 << 24))
        for archive in self.archives(resource(1), long, resource(3)):
            tracemalloc.start()
            self.addCleanup(tracemalloc.stop)
            sizes = [sum(map(len, stream.whole())) for stream in archive.streams()]
            self.assertLess(tracemalloc.get_traced_memory()[1], 1 << 22)
            tracemalloc.stop()
            self.assertEqual([len(resource(1)), len(long), len(resource(3))], sizes)

    def test_a_record_that_is_too_long_is_read_by_the_program(self) -> None:
        records = [resource(1), resource(2, bytes(5000)), resource(3)]
        with mock.patch.multiple("warcdx.usual_records", MOST=2000), mock.patch("warcdx.archive.MOST", 2000):
            for archive in self.archives(*records):
                self.assertEqual([Record.read(record) for record in records], list(archive))

    def test_heads_and_members_may_lie_anywhere_in_what_is_read_at_once(self) -> None:
        noise = random.Random(1)
        records = [resource(number, noise.randbytes(number)) for number in range(1, 200)]
        with mock.patch.multiple("warcdx.usual_records", _AHEAD=509, _PACKED=101):
            for archive in self.archives(*records):
                self.assertEqual([Record.read(record) for record in records], list(archive))

    def test_a_pipe_is_not_read(self) -> None:
        path = self.folder / "pipe"
        os.mkfifo(path)
        for archive in (open_archive(path, program=PROGRAM), Archive(path, program=PROGRAM)):
            self.assertIn("pipe", str(self.raises(Unreadable, list, archive)))
        writer = threading.Thread(target=path.write_bytes, args=(RECORD,))
        writer.start()
        self.assertEqual(1, len(list(open_archive(path, program=PROGRAM).list())))
        writer.join()

    def test_each_record_of_a_collection(self) -> None:
        with open(self.folder / "index", "wb") as output:
            open_archive(SAMPLES / "wget.warc", program=PROGRAM).index(output)
        with Collection(self.folder / "index", SAMPLES, program=PROGRAM) as collection:
            self.assertEqual(33, len(list(collection.records())))
            (record,) = collection.records("127.0.0.1:8000/odd/gone")
            (capture,) = collection.captures("127.0.0.1:8000/odd/gone")
            self.assertEqual((b"gone\n", record), (payload(record), collection.record(capture)))


if __name__ == "__main__":
    unittest.main()
