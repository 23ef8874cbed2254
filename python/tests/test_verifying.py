"""The verdicts on all records of an archive, whichever way finds them."""
import gzip
import itertools
import os
import pathlib
import random
import tracemalloc
import unittest
from collections.abc import Iterator
from typing import Optional
from unittest import mock

from warcdx import Archive, faults, open_archive, usual_records
from warcdx.record_digests import Verdict
from warcdx.verifying import check_archive

from .support import PROGRAM, Case, packed
from .test_verify import HTTP, OF_ABC, http, record, sha1_of


def places_of(archive: Archive) -> Iterator[tuple[str, Optional[int]]]:
    """Yields the offset of each record that the program lists, and the fault after them with its own."""
    try:
        yield from (("record", each.offset) for each in archive.list())
    except faults.Fault as error:
        yield error.name, error.offset


class Files(Case):
    def test_records_of_the_usual_form_are_read_without_the_program(self) -> None:
        records = [http(HTTP + bytes(size), None, sha1_of(bytes(size))) for size in (0, 9, 5000, 70_000, 3_000_000)] * 2
        self.expect_without_program(records)
        with mock.patch.multiple(usual_records, _AHEAD=509, _PACKED=101):
            self.expect_without_program(records[:4])

    def expect_without_program(self, records: list[bytes]) -> None:
        for name, texts in (("a.warc", records), ("a.warc.gz", packed(*records))):
            (self.folder / name).write_bytes(b"".join(texts))
            ends = list(itertools.accumulate(map(len, texts)))
            with mock.patch("warcdx.archive.running", side_effect=AssertionError):
                found = list(check_archive(open_archive(self.folder / name, program=PROGRAM)))
            self.assertEqual([0, *ends[:-1]], [each.offset for each in found])
            self.assertEqual({(Verdict.ABSENT, Verdict.SAME)}, {each[1:] for each in found})

    def test_what_is_not_usual_or_whole_is_asked_of_the_program(self) -> None:
        """Long records are so only at their ends."""
        long = record(bytes(2_000_000), sha1_of(bytes(2_000_000)))
        folded = long.replace(b"WARC-Type: ", b"WARC-Type:\r\n ")
        last = long[:-1] + b"x"
        for texts, fault in (
            ([long, folded, long], None), ([long, last, long], faults.Closing), ([long, long[:-100]], faults.ShortBlock),
            ([long, long.replace(b": 2000000", b": 1999999"), long], faults.Closing), ([long, long.replace(b": 2000000", b": 2000001")], faults.Fault),
            ([long, long + b"x", long], faults.Fault), ([long, long + long, b"x"], faults.Fault),
        ):  # fmt: skip
            for pieces in (texts, packed(*texts)):
                path = self.folder / "a"
                path.write_bytes(b"".join(pieces))
                archive = open_archive(path, program=PROGRAM)
                found: list[tuple[str, Optional[int]]] = []
                try:
                    for each in check_archive(archive):
                        found.append(("record", each.offset))
                except faults.Fault as error:
                    found.append((error.name, error.offset))
                    self.assertIsInstance(error, fault or ())
                self.assertEqual(list(places_of(archive)), found, texts[1][-9:])
                self.assertIn(len(pieces[0]), [offset for _, offset in found])

    def test_long_records_take_little_memory(self) -> None:
        text = record(bytes(40_000_000), sha1_of(bytes(40_000_000)))
        for name, pieces in (("a.warc", [text]), ("a.warc.gz", packed(text))):
            (self.folder / name).write_bytes(b"".join(pieces))
            tracemalloc.start()
            self.addCleanup(tracemalloc.stop)
            (found,) = check_archive(open_archive(self.folder / name, program=PROGRAM))
            self.assertLess(tracemalloc.get_traced_memory()[1], 6_000_000)
            tracemalloc.stop()
            self.assertEqual((0, Verdict.SAME, Verdict.ABSENT), found)

    def test_a_file_that_is_changed_while_it_is_read(self) -> None:
        text = record(bytes(1_000_000), sha1_of(bytes(1_000_000)))
        longer = text.replace(b"Content-Length: 1000000", b"Content-Length: 1000001")
        for last, name in (
            (text[:50], "ShortHead"), (text[:500_000], "ShortBlock"), (text[:-2], "Closing"), (longer, "Closing")
        ):  # fmt: skip
            self.expect_changed(self.folder / "a.warc", text, last, name)

    def test_a_file_that_is_cut_after_its_records_were_listed(self) -> None:
        folded = record(b"abc").replace(b"WARC-Type:", b"WARC-Type:\r\n")  # which only the program reads
        path = self.folder / "a.warc"
        path.write_bytes(folded * 3)
        checked = check_archive(open_archive(path, program=PROGRAM))
        self.assertEqual(0, next(checked).offset)
        os.truncate(path, len(folded))
        self.assertEqual(str(path), self.raises(faults.Read, next, checked).file)

    def expect_changed(self, path: pathlib.Path, text: bytes, last: bytes, name: str) -> None:
        """Checks three records, of which the last becomes other bytes before it is read. It has the fault of this name then."""
        path.write_bytes(text * 3)
        checked = check_archive(open_archive(path, program=PROGRAM))
        self.assertEqual(0, next(checked).offset)  # the third record isn't read yet
        with open(path, "r+b") as file:
            file.seek(2 * len(text))
            file.write(last)
            file.truncate()
        self.assertEqual(len(text), next(checked).offset)
        found = self.raises(faults.BY_NAME[name], next, checked)
        self.assertEqual((str(path), 2 * len(text)), (found.file, found.offset))

    def test_a_compressed_archive_that_is_changed_meanwhile(self) -> None:
        text = gzip.compress(record(random.Random(1).randbytes(100_000), OF_ABC[0]), mtime=0)
        for last, name in (
            (b"", "ShortHead"),
            (text[:90_000], "CutMember"),
            (text[:90_000] + bytes(len(text)), "BadMember"),
            (b"x" * len(text), "NoMember"),
        ):
            self.expect_changed(self.folder / "a.warc.gz", text, last, name)


if __name__ == "__main__":
    unittest.main()
