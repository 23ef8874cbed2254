"""Records that are read in pieces, and the limits of unpacking."""
import gzip
import itertools
import tracemalloc
import unittest
import zlib
from collections.abc import Iterator

from warcdx import Archive, CompressedArchive, Unreadable, faults, open_archive, payload
from warcdx.codings import UNLIMITED, Limits
from warcdx.http_messages import HttpHead, Message

from .support import PROGRAM, SAMPLES, Case

WGET = SAMPLES / "wget.warc"
GONE = 11387  # the offset of a response in it, whose body is `gone\n`
MEGABYTE = 1 << 20


def record(block: bytes, kind: bytes = b"application/http; msgtype=response", more: bytes = b"") -> bytes:
    head = (
        b"WARC/1.1\r\nWARC-Type: response\r\nWARC-Record-ID: <urn:uuid:a>\r\nWARC-Date: 2016-09-19T17:20:24Z\r\n"
        b"WARC-Target-URI: http://example.com/\r\nContent-Type: %s\r\n%sContent-Length: %d\r\n\r\n"
    )
    return head % (kind, more, len(block)) + block + b"\r\n\r\n"


def pieces(text: bytes, size: int) -> Iterator[bytes]:
    return (text[at : at + size] for at in range(0, len(text), size))


def head(*fields: str) -> bytes:
    return "\r\n".join(("HTTP/1.1 200 OK", *fields)).encode()


def decoded(named: bytes, body: Iterator[bytes], limits: Limits = UNLIMITED) -> Iterator[bytes]:
    return Message(itertools.chain((named + b"\r\n\r\n",), body), True).payload(limits)


class Streams(Case):
    """The same records from a plain archive and a compressed one."""

    def archives(self, *records: bytes) -> list[tuple[Archive, list[int]]]:
        """Returns an archive of these records, plain and compressed, each with the records' offsets."""
        plain, packed = self.folder / "a.warc", self.folder / "a.warc.gz"
        members = [gzip.compress(each, mtime=0) for each in records]
        plain.write_bytes(b"".join(records))
        packed.write_bytes(b"".join(members))
        found: list[tuple[Archive, list[int]]] = []
        for path, parts in ((plain, list(records)), (packed, members)):
            offsets = [0, *itertools.accumulate(map(len, parts))][:-1]
            found.append((open_archive(path, program=PROGRAM), offsets))
        self.assertEqual([Archive, CompressedArchive], [type(archive) for archive, _ in found])
        return found

    def test_a_record_is_read_in_pieces(self) -> None:
        block = head("Content-Type: text/plain") + b"\r\n\r\n" + b"body" * 50_000
        for archive, offsets in self.archives(record(b"first"), record(block), record(b"last")):
            with archive.stream(offsets[1]) as stream:
                self.assertEqual("http://example.com/", stream.head.field("warc-target-uri"))
                self.assertEqual(len(block), stream.length)
                self.assertEqual(block, b"".join(stream.block()))
            with archive.stream(offsets[1]) as stream:
                self.assertEqual(head("Content-Type: text/plain"), stream.http_head)
                self.assertEqual(b"body" * 50_000, b"".join(stream.payload()))
            with archive.stream(offsets[1]) as stream:
                whole = b"".join(stream.whole())
                self.assertEqual((record(block), stream.size), (whole, len(whole)))

    def test_a_record_needn_t_be_read_to_its_end(self) -> None:
        for archive, offsets in self.archives(record(bytes(9 * MEGABYTE), b"a/b"), record(b"last")):
            with archive.stream(offsets[0]) as stream:
                self.assertEqual(65_536, len(next(stream.block())))
            with archive.stream(offsets[0]):
                pass

    def test_what_is_no_record_is_refused(self) -> None:
        for archive, offsets in self.archives(record(b"first"), record(b"last")):
            for offset in (1, offsets[1] - 1, offsets[1] + 1, 1 << 40):
                self.raises(faults.NoRecord, archive.verdict, offset)
                stream = archive.stream(offset)
                self.raises(faults.NoRecord, stream.__enter__)

    def test_damage_in_a_record_is_raised_at_its_end(self) -> None:
        cut = record(b"x" * 100_000)[:-50_000]
        for archive, offsets in self.archives(record(b"first"), cut):
            with self.assertRaises(faults.ShortBlock) as caught:
                with archive.stream(offsets[1]) as stream:
                    self.assertLess(len(b"".join(stream.block())), 100_000)
            self.assertEqual(offsets[1], caught.exception.offset)
            self.raises(faults.ShortBlock, archive.verdict, offsets[1])

    def test_a_damaged_member_is_raised(self) -> None:
        packed = gzip.compress(record(bytes(range(256)) * 4000), mtime=0)
        path = self.folder / "cut.warc.gz"
        path.write_bytes(packed[:-100])
        with self.assertRaises(faults.CutMember):
            with CompressedArchive(path, program=PROGRAM).stream(0) as stream:
                for _ in stream.block():
                    pass

    def test_verdicts_are_those_of_one_record(self) -> None:
        # SHA-1 of `abc` (FIPS 180-4, appendix A.1) in base 32.
        digest = b"WARC-Block-Digest: sha1:%s\r\n"
        records = (
            record(b"abc", more=digest % b"VGMT4NSHA2AWVOR6EVYXQUGCNSONBWE5"),
            record(b"abd", more=digest % b"VGMT4NSHA2AWVOR6EVYXQUGCNSONBWE5"),
            record(b"abc", more=digest % b"a9993e364706816aba3e25717850c26c9cd0d89d"),
            record(b"abc"),
        )
        for archive, offsets in self.archives(*records):
            verdicts = [archive.verdict(offset) for offset in offsets]
            self.assertEqual(["same", "differs", "not-sha1", "absent"], verdicts)

    def test_a_block_of_any_length_takes_bounded_memory(self) -> None:
        path = self.folder / "long.warc"
        with open(path, "wb") as file:
            file.write(record(b"")[:-8].replace(b"Length: 0", b"Length: %d" % (1 << 28)) + b"\r\n\r\n")
            file.truncate(file.tell() + (1 << 28))
            file.seek(0, 2)
            file.write(b"\r\n\r\n")
        tracemalloc.start()
        self.addCleanup(tracemalloc.stop)
        with Archive(path, program=PROGRAM).stream(0) as stream:
            self.assertEqual(1 << 28, sum(map(len, stream.block())))
        self.assertLess(tracemalloc.get_traced_memory()[1], 2 * MEGABYTE)

    def test_files_that_can_not_be_opened_are_named(self) -> None:
        self.raises(faults.CannotOpen, open_archive, self.folder / "nosuch", program=PROGRAM)
        self.raises(faults.CannotOpen, open_archive, self.folder, program=PROGRAM)

    def test_a_sample_is_read_as_get_reads_it(self) -> None:
        archive = Archive(WGET, program=PROGRAM)
        with archive.stream(GONE) as stream:
            self.assertEqual(archive.get(GONE).fields, stream.head.fields)
            self.assertEqual(b"gone\n", b"".join(stream.payload()))


class Codings(unittest.TestCase):
    def test_pieces_of_any_size_give_the_same_body(self) -> None:
        body = bytes(range(256)) * 40
        packed = gzip.compress(body[:5000], mtime=0) + gzip.compress(body[5000:], mtime=0)
        chunked = b"".join(b"%x\r\n%s\r\n" % (len(part), part) for part in pieces(packed, 37)) + b"0\r\n\r\n"
        named = head("Transfer-Encoding: chunked", "Content-Encoding: gzip")
        for size in (1, 2, 3, 7, 64, 1000, len(chunked)):
            self.assertEqual(body, b"".join(decoded(named, pieces(chunked, size))), size)

    def test_the_head_is_found_across_pieces(self) -> None:
        for end in (b"\r\n\r\n", b"\n\n", b"\n\r\n"):
            text = b"HTTP/1.1 200 OK\r\nA: b" + end + b"\r\n\r\nbody"
            for size in range(1, len(text) + 1):
                message = Message(pieces(text, size), True)
                self.assertEqual(b"HTTP/1.1 200 OK\r\nA: b", message.http_head)
                self.assertEqual(b"\r\n\r\nbody", b"".join(message.payload()))

    def test_a_block_without_a_head_has_none(self) -> None:
        for text in (b"", b"abc", b"HTTP/1.1 200 OK\r\n"):
            self.assertIsNone(Message(pieces(text, 2), True).http_head)
        self.assertIsNone(Message(pieces(b"x" * (3 * MEGABYTE), 1 << 16), True).http_head)

    def test_an_empty_body_has_no_coding(self) -> None:
        for coding in ("br", "gzip", "chunked", "deflate"):
            self.assertEqual([], list(decoded(head(f"Content-Encoding: {coding}"), iter(()))))

    def test_a_body_that_unpacks_to_very_much_is_given_up(self) -> None:
        zeros = zlib.compressobj(9, zlib.DEFLATED, 31)
        packed = b"".join(zeros.compress(bytes(MEGABYTE)) for _ in range(200)) + zeros.flush()
        taken = 0
        with self.assertRaises(Unreadable):
            for piece in decoded(head("Content-Encoding: gzip"), iter([packed]), Limits(size=10 * MEGABYTE)):
                taken += len(piece)
        self.assertLessEqual(taken, 10 * MEGABYTE)
        # What is packed twice is bounded too, although nothing comes out at its end.
        twice = gzip.compress(packed, mtime=0)
        named = head("Content-Encoding: deflate, gzip, gzip")
        with self.assertRaises(Unreadable):
            sum(map(len, decoded(named, iter([twice]), Limits(size=10 * MEGABYTE))))

    def test_a_body_that_takes_long_is_given_up(self) -> None:
        members = gzip.compress(b"", mtime=0) * 100_000
        with self.assertRaises(Unreadable):
            list(decoded(head("Content-Encoding: gzip"), itertools.repeat(members), Limits(seconds=0.2)))

    def test_bodies_have_a_few_codings_at_most(self) -> None:
        body = b"body"
        for _ in range(8):
            body = gzip.compress(body, mtime=0)
        self.assertEqual(b"body", b"".join(decoded(head("Content-Encoding: " + ", ".join(["gzip"] * 8)), iter([body]))))
        with self.assertRaisesRegex(Unreadable, "more than 8 codings"):
            decoded(head("Content-Encoding: " + ", ".join(["gzip"] * 9)), iter([body]))

    def test_many_small_chunks_take_time_in_proportion(self) -> None:
        chunked = b"1\r\nx\r\n" * 300_000 + b"0\r\n\r\n"
        self.assertEqual(b"x" * 300_000, payload(record(head("Transfer-Encoding: chunked") + b"\r\n\r\n" + chunked)))


class HttpHeads(unittest.TestCase):
    def test_fields_are_given_as_they_stand(self) -> None:
        text = b"HTTP/1.1 200 OK\r\nA: b\r\n c\nNo colon\r\nX:\x00y\rz\r\nB\xe9: \xe9 "
        found = HttpHead.of(text)
        self.assertEqual("HTTP/1.1 200 OK", found.line)
        fields = (("A", "b c"), ("No colon", ""), ("X", "\x00y\rz"), ("B\udce9", "\udce9"))
        self.assertEqual(fields, found.fields)
        self.assertEqual("b c", found.field("a"))

    def test_no_text_is_refused(self) -> None:
        self.assertEqual(("", ()), (HttpHead.of(b"").line, HttpHead.of(b"").fields))


if __name__ == "__main__":
    unittest.main()
