"""Heads of any size that the program takes, and records where no record can be."""
import gzip
import io
import pathlib
import random
import subprocess
import unittest
import unittest.mock
import zlib

from warcdx import Archive, Capture, Collection, CompressedArchive, Fault, NoArchive, faults
from warcdx.record import HEAD_LIMIT

from .support import PROGRAM, Case, packed, resource

FRONT = (
    b"WARC/1.0\r\nWARC-Type: resource\r\nWARC-Record-ID: <urn:x>\r\nWARC-Date: 2016-01-01T00:00:00Z\r\n"
    b"WARC-Target-URI: http://example.com/\r\n"
)
NOISE = random.Random(1).randbytes(6 << 20).hex().encode()


def record(head: int, block: int, length: bytes = b"Content-Length: %d", noise: bytes = NOISE) -> bytes:
    """Returns a record with a head and a block of these sizes in bytes. A long field fills the head."""
    front, end = FRONT + b"X: ", b"\r\n" + length % block + b"\r\n\r\n"
    return front + noise[: head - len(front + end)] + end + NOISE[:block] + b"\r\n\r\n"


def with_header_checksum(member: bytes) -> bytes:
    """Returns a member whose header has a checksum."""
    header = member[:3] + b"\2" + member[4:10]
    return header + (zlib.crc32(header) & 0xFFFF).to_bytes(2, "little") + member[10:]


class Heads(Case):
    def listed(self, *members: bytes) -> tuple[list[tuple[int, int]], list[int], str]:
        """Returns the places that `list` and `index` find, and the fault of both."""
        path = self.folder / "a.warc.gz"
        path.write_bytes(b"".join(members))
        archive, places, name = CompressedArchive(path, program=PROGRAM), [], ""
        try:
            for each in archive.list():
                places.append((each.offset, each.length))
        except Fault as fault:
            name = f"{fault.name} {fault.offset}"
        output, of_index = io.BytesIO(), ""
        try:
            archive.index(output)
        except Fault as fault:
            of_index = f"{fault.name} {fault.offset}"
        self.assertEqual(name, of_index)
        return places, [int(line.rpartition(b'"offset": "')[2].partition(b'"')[0]) for line in output.getvalue().splitlines()], name

    def test_heads_up_to_the_limit_of_the_program(self) -> None:
        for head in (3_000, 50_000, 262_143, 262_144, 262_145, HEAD_LIMIT - 1, HEAD_LIMIT):
            for block, length in (
                (5, b"Content-Length: %d"),
                (3 << 20, b"content-LENGTH:\r\n  %d"),
                (5 << 20, b"Content-Length: %d\r\nY:"),
            ):
                for noise in (NOISE, b"a" * HEAD_LIMIT):
                    text = record(head, block, length, noise)
                    done = subprocess.run((PROGRAM, "list", "-"), input=text, stdout=subprocess.PIPE, check=True)
                    self.assertEqual(b"0 %d resource\n" % len(text), done.stdout)
                    members = [gzip.compress(each, 1, mtime=0) for each in (resource(1), text, resource(2))]
                    members[1] = with_header_checksum(members[1]) if block == 5 else members[1]
                    offsets = [sum(map(len, members[:number])) for number in range(3)]
                    places = list(zip(offsets, map(len, members)))
                    self.assertEqual((places, sorted(offsets), ""), (found := self.listed(*members))[:1] + (sorted(found[1]), found[2]))

    def test_a_head_over_the_limit_is_that_of_the_program(self) -> None:
        long = gzip.compress(record(HEAD_LIMIT + 1, 3 << 20), 1, mtime=0)
        first, last = packed(resource(1), resource(2))
        self.assertEqual(([(0, len(first))], [0], f"HeadTooLong {len(first)}"), self.listed(first, long, last))

    def test_a_member_that_is_damaged_in_a_long_head(self) -> None:
        member = gzip.compress(record(500_000, 3 << 20), 1, mtime=0)
        first = packed(resource(1))[0]
        for damaged, name in (
            (member[:200_000], "CutMember"),
            (member[:200_000] + bytes(9_000) + member[209_000:], "BadMember"),
            (member[:-8] + bytes(8), "BadMember"),
        ):
            self.assertEqual(([(0, len(first))], [0], f"{name} {len(first)}"), self.listed(first, damaged))


class Causes(Case):
    def test_a_member_that_ends_in_a_record_has_one_cause(self) -> None:
        """Also if other members follow, with which its record is another fault."""
        one, two = resource(1, bytes(100)), resource(2)
        path = self.folder / "a.warc.gz"
        for cut, name in ((40, "ShortHead"), (len(one) - 20, "ShortBlock"), (len(one) - 1, "Closing"), (len(one) - 150, "ShortHead")):
            path.write_bytes(b"".join(packed(one[:cut], two)))
            archive = CompressedArchive(path, program=PROGRAM)
            reads = (archive.get, archive.verdict, lambda _: list(archive.list()), lambda _: archive.index(io.BytesIO()))
            self.assertEqual([name] * 4, [self.raises(getattr(faults, name), read, 0).name for read in reads])


class Offsets(Case):
    def test_an_offset_where_no_record_can_be(self) -> None:
        plain, compressed = self.folder / "a.warc", self.folder / "a.warc.gz"
        plain.write_bytes(resource(0))
        compressed.write_bytes(packed(resource(0))[0])
        for archive in (Archive(plain, program=PROGRAM), CompressedArchive(compressed, program=PROGRAM)):
            size = pathlib.Path(archive.path).stat().st_size
            self.assertEqual(b"block", archive.get(0, length=size).block)
            for offset in (size, size + 1, 1 << 44, 10**18, (1 << 63) - 1, 1 << 63, 1 << 64, 10**30, -1, -size, -(1 << 64)):
                self.raises(faults.NoRecord, archive.get, offset)
                self.raises(faults.NoRecord, archive.get, offset, length=size)
                self.raises(faults.NoRecord, archive.verdict, offset)
                self.raises(faults.NoRecord, archive.stream(offset).__enter__)
            for length in (size - 1, 0, 1 << 63, 1 << 64, 10**30, -1):
                self.raises(faults.NoRecord, archive.get, 0, length=length)

    def test_a_line_of_an_index_with_such_an_offset(self) -> None:
        self.put("")
        for name in ("a.warc", "a.warc.gz"):
            text = resource(0)
            (self.folder / name).write_bytes(text if name == "a.warc" else packed(text)[0])
            with Collection(self.folder / "index", self.folder, program=PROGRAM) as collection:
                for offset in (10**18, 1 << 63, (1 << 64) - 1):
                    capture = Capture("com,example)/", "20160101000000", "-", "-", "-", "-", 7, offset, name)
                    self.raises(faults.NoRecord, collection.record, capture)
                    self.raises(NoArchive, collection.record, capture._replace(filename="../a.warc"))


if __name__ == "__main__":
    unittest.main()
