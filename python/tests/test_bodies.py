"""HTTP bodies as archives have them: with the codings of their heads, without some of them, and damaged."""
import gzip
import hashlib
import importlib.util
import itertools
import random
import tracemalloc
import unittest
import unittest.mock
import zlib
from collections.abc import Iterator
from typing import NamedTuple, Optional

from warcdx import Record, Unreadable, payload
from warcdx.codings import Decoder, Limits
from warcdx.http_messages import Message
from warcdx.record import Head
from warcdx.record_digests import verdicts_of

HAS_BROTLI = importlib.util.find_spec("brotli") is not None
TEXT = b"<p>one</p>\n"
PACKED = gzip.compress(TEXT, mtime=0)
ZLIB = zlib.compress(TEXT)
# `abc` as one block of deflate that isn't compressed (RFC 1951, 3.2.4), in gzip with the CRC-32 of `abc`.
ABC_ALONE = b"\x01\x03\x00\xfc\xffabc"
ABC_GZIP = b"\x1f\x8b\x08\x00\x00\x00\x00\x00\x00\xff" + ABC_ALONE + b"\xc2\x41\x24\x35\x03\x00\x00\x00"
ABC_ZLIB = b"\x78\x01" + ABC_ALONE + b"\x02\x4d\x01\x27"  # with Adler-32 of `abc`
TEXT_BROTLI = b"\x8b\x01\x80text\x03"  # RFC 7932: a block that isn't compressed
NOISE = random.Random(3).randbytes(3000)
LONG_BROTLI = b"\x8b\xdb\x85" + NOISE + b"\x03"  # the same, of 3,000 bytes
CHUNKED, GZIP, DEFLATE = "Transfer-Encoding: chunked", "Content-Encoding: gzip", "Content-Encoding: deflate"


def chunks(body: bytes, size: int = 4, end: bytes = b"0\r\n\r\n") -> bytes:
    parts = (body[at : at + size] for at in range(0, len(body), size))
    return b"".join(b"%x\r\n%b\r\n" % (len(part), part) for part in parts) + end


def deflated(text: bytes) -> bytes:
    """Returns a text of deflate alone."""
    return zlib.compress(text)[2:-4]


class Shape(NamedTuple):
    """The fields of a head, the body as it is stored and as it has to be read, or None, and the codings that it hasn't."""

    fields: str
    stored: bytes
    wanted: Optional[bytes]
    otherwise: tuple[str, ...] = ()

    @property
    def block(self) -> bytes:
        lines = ["HTTP/1.1 200 OK", *(line for line in self.fields.split("\n") if line)]
        return "\r\n".join([*lines, "", ""]).encode() + self.stored


BOTH = f"{CHUNKED}\n{GZIP}"
# The nine shapes that were read otherwise by one of two decoders once, and their kin.
SHAPES = [
    Shape("", TEXT, TEXT),
    Shape(CHUNKED, chunks(TEXT), TEXT),
    Shape(CHUNKED, TEXT, TEXT, ("chunked",)),
    Shape(GZIP, TEXT, TEXT, ("gzip",)),
    Shape(BOTH, TEXT, TEXT, ("chunked", "gzip")),
    Shape(BOTH, PACKED, TEXT, ("chunked",)),
    Shape(BOTH, chunks(TEXT), TEXT, ("gzip",)),
    Shape(BOTH, chunks(PACKED), TEXT),
    Shape(CHUNKED, b"%020x\r\n%s\r\n%020x\r\n\r\n" % (len(TEXT), TEXT, 0), TEXT),
    Shape("Transfer-Encoding:\r\n chunked", chunks(TEXT), TEXT),
    Shape("Transfer-Encoding: \n\tchunked", chunks(TEXT), TEXT),
    Shape("Content-Encoding:\n \n  gzip", PACKED, TEXT),
    Shape("Content-Encoding: UTF-8", TEXT, TEXT, ("utf-8",)),
    Shape("Content-Encoding: none", TEXT, TEXT, ("none",)),
    Shape("Content-Encoding: identity", TEXT, TEXT),
    Shape("Content-Encoding: ", TEXT, TEXT),
    Shape("Content-Encoding", TEXT, TEXT),
    Shape("Content-Encoding: UTF-8, gzip", PACKED, TEXT, ("utf-8",)),
    Shape("Transfer-Encoding: identity, chunked", chunks(TEXT), TEXT),
    Shape("Transfer-Encoding : chunked", chunks(TEXT), TEXT),
    Shape("Transfer-Encoding\t: chunked", chunks(TEXT), TEXT),
    Shape("TRANSFER-ENCODING:CHUNKED", chunks(TEXT), TEXT),
    Shape(f"{CHUNKED}\n{CHUNKED}", chunks(TEXT), TEXT),
    Shape("Transfer-Encoding: gzip\nTransfer-Encoding: chunked", chunks(PACKED), TEXT),
    Shape("Transfer-Encoding: gzip;q=1, chunked;a=b", chunks(PACKED), TEXT),
    Shape("Transfer-Encoding: gzip, chunked\nContent-Encoding: gzip, chunked", chunks(PACKED), TEXT, ("gzip",)),
    Shape("Transfer-Encoding: chunked\nContent-Encoding: chunked", chunks(TEXT), TEXT),
    Shape("Content-Encoding: gzip, chunked", chunks(PACKED), TEXT),
    Shape("Content-Encoding: chunked", chunks(TEXT), TEXT),
]
# Chunks.
SHAPES += [
    Shape(CHUNKED, b"", b""),
    Shape(CHUNKED, b"0\r\n\r\n", b""),
    Shape(CHUNKED, b"3\nabc\n0\n\n", b"abc"),
    Shape(CHUNKED, b"003  \r\nabc\r\n0\r\n\r\n", b"abc"),
    Shape(CHUNKED, b"3;a=b;c\r\nabc\r\n00;d\r\n\r\n", b"abc"),
    Shape(CHUNKED, b"A\r\n0123456789\r\n0\r\nA: b\r\nC: d\r\n\r\nmore", b"0123456789"),
    Shape(CHUNKED, b"3\r\nabc\r\n0\r\n", b"abc"),
    Shape(CHUNKED, b"2\r\n\r\n\r\n0\r\n\r\n", b"\r\n"),
    Shape(CHUNKED, b"0\n", b"0\n", ("chunked",)),
    Shape(CHUNKED, b"0\nabc", b"0\nabc", ("chunked",)),
    Shape(CHUNKED, b"0", b"0", ("chunked",)),
    Shape(CHUNKED, b"12", b"12", ("chunked",)),
    Shape(CHUNKED, b"\r\n" + TEXT, b"\r\n" + TEXT, ("chunked",)),
    Shape(CHUNKED, b"face of\r\n" + TEXT, b"face of\r\n" + TEXT, ("chunked",)),
    Shape(CHUNKED, b"-3\r\nabc", b"-3\r\nabc", ("chunked",)),
    Shape(CHUNKED, b"0x3\r\nabc", b"0x3\r\nabc", ("chunked",)),
    Shape(CHUNKED, b"1" * 20_000 + b"\r\n", b"1" * 20_000 + b"\r\n", ("chunked",)),
    Shape(CHUNKED, b"5\r\nabc", None),
    Shape(CHUNKED, b"3\r\nabc", None),
    Shape(CHUNKED, b"3\r\nabc\r\n", None),
    Shape(CHUNKED, b"3\r\nabc\r\n2\r\na", None),
    *(
        Shape(CHUNKED, plain, plain, ("chunked",))
        for plain in (
            b"3\r\nabcd\r\n0\r\n\r\n",
            b"3\r\nabc0\r\n\r\n",
            b"1\n23\n4\n",
            b"12\r\n" + TEXT * 9,
            b"a\nb\nc\n" * 9,
            b"3f00\n" + NOISE * 6,
        )
    ),
    Shape(CHUNKED, b"ffff\r\n" + NOISE * 2, None),
    Shape(CHUNKED, b"3fff\n" + NOISE * 6, None),  # too long to look behind the first chunk
    Shape(CHUNKED, b"3\r\nabc\r", None),
    Shape(CHUNKED, b"3\r\nabc\r\n3\r\nabcd\r\n0\r\n\r\n", None),
    Shape(CHUNKED, b"3\r\nabc\r\n3\r\nabc0\r\n\r\n", None),
    Shape(CHUNKED, chunks(NOISE * 7, 20_000), NOISE * 7),
    Shape(CHUNKED, b"3\r\nabc\r\nx\r\nabc\r\n0\r\n\r\n", None),
    Shape(CHUNKED, b"3\r\nabc\r\n-3\r\nabc\r\n0\r\n\r\n", None),
    Shape(CHUNKED, b"3\r\nabc\r\n" + b" " * 20_000 + b"0\r\n\r\n", None),
    Shape(CHUNKED, b"3\r\nabc\r\n0;" + b" " * 20_000 + b"\r\n\r\n", None),
    Shape(CHUNKED, b"3\r\nabc\r\n\r\n0\r\n\r\n", None),
]
# Compressed texts.
SHAPES += [
    Shape(GZIP, b"", b""),
    Shape(GZIP, ABC_GZIP, b"abc"),
    Shape("Content-Encoding: X-Gzip", ABC_GZIP, b"abc"),
    Shape(GZIP, ABC_GZIP + gzip.compress(b"", mtime=0) + ABC_GZIP, b"abcabc"),
    Shape(GZIP, ABC_GZIP + bytes(20), b"abc"),
    Shape(GZIP, ABC_GZIP + b"\r\n<!-- more -->", b"abc"),
    Shape(GZIP, ABC_GZIP * 2 + b"x" + ABC_GZIP, b"abcabc"),
    Shape(GZIP, gzip.compress(b"", mtime=0), b""),
    Shape(GZIP, b"\x1f", b"\x1f", ("gzip",)),
    Shape(GZIP, b"\x1fx", b"\x1fx", ("gzip",)),
    Shape(GZIP, gzip.compress(PACKED, mtime=0), PACKED),
    Shape("Content-Encoding: gzip, gzip", gzip.compress(PACKED, mtime=0), TEXT),
    Shape(f"{GZIP}\n{GZIP}", PACKED, TEXT, ("gzip",)),
    Shape("Content-Encoding: deflate, gzip", gzip.compress(ZLIB, mtime=0), TEXT),
    Shape("Content-Encoding: gzip, deflate", deflated(PACKED), TEXT),
    Shape(GZIP, ABC_ZLIB, ABC_ZLIB, ("gzip",)),
    Shape(GZIP, PACKED[:-1], None),
    Shape(GZIP, PACKED[:2], None),
    Shape(GZIP, PACKED[:12], None),
    Shape(GZIP, b"\x1f\x8b" + TEXT, None),
    Shape(GZIP, PACKED[:-8] + bytes(4) + PACKED[-4:], None),
    Shape(GZIP, PACKED[:10] + b"\xff" + PACKED[11:], None),
    Shape(GZIP, PACKED + PACKED[:-1], None),
    Shape(BOTH, chunks(PACKED)[:-9], None),
    Shape(BOTH, chunks(PACKED[:-1]), None),
    Shape(DEFLATE, b"", b""),
    Shape(DEFLATE, ABC_ZLIB, b"abc"),
    Shape(DEFLATE, ABC_ALONE, b"abc"),
    Shape(DEFLATE, ABC_ZLIB + b"more", b"abc"),
    Shape(DEFLATE, deflated(NOISE), NOISE),
    Shape(DEFLATE, zlib.compress(NOISE), NOISE),
    Shape(DEFLATE, deflated(bytes(1 << 20)), bytes(1 << 20)),
    Shape(DEFLATE, deflated(NOISE)[:-1], None),
    Shape(DEFLATE, ABC_ZLIB[:-1], None),
    Shape(DEFLATE, ABC_ZLIB[:-1] + b"x", None),
    *(
        Shape(DEFLATE, plain, plain, ("deflate",))
        for plain in (
            TEXT, b"x", b"{}", b"[]", b'{"a": [1, 2, 3]}', b"[" * 400, b"Kind words @ noon", TEXT * 90, NOISE, b"\0", b"\xff\xd8\xff\xe0\0\x10JFIF",
            ABC_ALONE + TEXT, ABC_ALONE[:-1], b"HTML, too\n" * 90, b"x = 1\n" * 90, PACKED, b'{"name": "value", "other": [true, false]}' * 50,
        )
    ),
    Shape("Content-Encoding: zstd", TEXT, TEXT, ("zstd",)),
    Shape("Content-Encoding: zstd", b"\x28\xb5", b"\x28\xb5", ("zstd",)),
    Shape("Content-Encoding: zstd", b"\x28\xb5\x2f\xfd\x20\x03\x19\x00\x00abc", None),
    Shape("Content-Encoding: compress", b"\x1f\x9d\x90abc", None),
    Shape("Content-Encoding: br", b"", b""),
    Shape("Content-Encoding: " + "gzip, " * 9, PACKED, None),
]  # fmt: skip
OF_BROTLI = [
    Shape("Content-Encoding: br", TEXT_BROTLI, b"text"),
    Shape("Content-Encoding: gzip, br\n" + CHUNKED, chunks(TEXT_BROTLI), b"text", ("gzip",)),
    Shape("Content-Encoding: br", b"\x3b", b""),
    Shape("Content-Encoding: br", LONG_BROTLI, NOISE),
    Shape("Content-Encoding: br", LONG_BROTLI + b"x", None),
    Shape("Content-Encoding: br", LONG_BROTLI[:-1], None),
    Shape("Content-Encoding: br", TEXT_BROTLI[:-1], TEXT_BROTLI[:-1], ("br",)),
    *(
        Shape("Content-Encoding: br", plain, plain, ("br",))
        for plain in (TEXT, TEXT * 90, b"{}", b"[1]", b"1", NOISE, PACKED, b"GIF89a" + bytes(900), b"\x89PNG\r\n\x1a\n" + NOISE)
    ),
]


def read(block: bytes, pieces: Iterator[bytes]) -> tuple[Optional[bytes], tuple[str, ...]]:
    """Returns the payload, or None if it can't be read, and the codings that it hasn't."""
    message = Message(pieces, is_http=True)
    try:
        return b"".join(message.payload()), message.stored_otherwise
    except Unreadable:
        return None, ()


def cut(text: bytes, *places: int) -> Iterator[bytes]:
    """Yields a text in pieces that end at these places. A piece may be empty."""
    ends = (*sorted(places), len(text))
    return (text[start:end] for start, end in zip((0, *ends), ends))


def record_of(block: bytes, *fields: str) -> bytes:
    lines = ["WARC/1.1", "WARC-Type: response", *fields, "Content-Type: application/http", f"Content-Length: {len(block)}"]
    return "\r\n".join([*lines, "", ""]).encode() + block + b"\r\n\r\n"


class Bodies(unittest.TestCase):
    def test_each_shape(self) -> None:
        for shape in SHAPES + OF_BROTLI * HAS_BROTLI:
            with self.subTest(fields=shape.fields, stored=shape.stored[:40]):
                wanted = (shape.wanted, () if shape.wanted is None else shape.otherwise)
                self.assertEqual(wanted, read(shape.block, iter([shape.block])))
                record = Record.read(record_of(shape.block))
                if shape.wanted is None:
                    self.assertRaises(Unreadable, payload, record)
                else:
                    self.assertEqual((shape.wanted, shape.otherwise), (payload(record), record.stored_otherwise))

    def test_pieces_of_any_size_give_the_same(self) -> None:
        choice = random.Random(7)
        for shape in SHAPES + OF_BROTLI * HAS_BROTLI:
            block = shape.block
            whole = read(block, iter([block]))
            ways = [[at] for at in (range(len(block)) if len(block) < 200 else choice.sample(range(len(block)), 8))]
            ways.append(list(range(1, len(block))))
            ways += [choice.sample(range(len(block)), choice.randrange(min(9, len(block)))) for _ in range(5)]
            for places in ways:
                found = read(block, cut(block, *places))
                self.assertEqual(whole, found, (shape.fields, shape.stored[:40], places[:9]))

    def test_bodies_that_are_changed_at_random(self) -> None:
        choice = random.Random(11)
        shapes = [shape for shape in SHAPES + OF_BROTLI * HAS_BROTLI if 0 < len(shape.stored) < 1000]
        for _ in range(2000):
            shape = choice.choice(shapes)
            stored = bytearray(shape.stored)
            for _ in range(choice.randrange(1, 4)):
                stored[choice.randrange(len(stored))] = choice.choice((choice.randrange(256), 10, 13, 48))
            block = shape._replace(stored=bytes(stored[: choice.randrange(len(stored) + 1)])).block
            whole = read(block, iter([block]))
            self.assertEqual(whole, read(block, cut(block, *range(len(block)))), block)
            self.assertEqual(whole, read(block, cut(block, *choice.choices(range(len(block)), k=3))), block)

    def test_what_was_taken_apart_has_the_digest_of_either_form(self) -> None:
        for shape in SHAPES:
            if shape.wanted is None or "Content" in shape.fields:
                continue
            for body in (shape.stored, shape.wanted):
                fields = (("Content-Type", "application/http"), ("WARC-Payload-Digest", f"sha1:{hashlib.sha1(body).hexdigest()}"))
                for size in (1, 7, len(shape.block)):
                    pieces = cut(shape.block, *range(0, len(shape.block), size))
                    found = verdicts_of(Head(fields), len(shape.block), pieces)
                    self.assertEqual("same", found.payload.value, (shape, size))

    def test_the_reason_is_the_same_for_all_pieces(self) -> None:
        for fields, stored, reason in (
            (CHUNKED, b"3\r\nabc\r\n" + b" " * 40_000, "a chunk has a size that is none, or more bytes than its size"),
            (CHUNKED, b"3\r\nabc\r\nx\r\n", "a chunk has a size that is none, or more bytes than its size"),
            (CHUNKED, b"3\r\nabc\r\n", "the body is cut"),
            (GZIP, PACKED[:-1], "the body is cut"),
            ("Content-Encoding: zstd", b"\x28\xb5\x2f\xfd", "the coding 'zstd' can't be undone"),
        ):
            block = Shape(fields, stored, None).block
            for size in (1 if len(block) < 1000 else 1 << 10, len(block)):
                with self.assertRaisesRegex(Unreadable, f"^{reason}$"):
                    list(Message(cut(block, *range(0, len(block), size)), True).payload())

    def test_brotli_may_be_missing(self) -> None:
        with unittest.mock.patch.dict("sys.modules", {"brotli": None}):
            record = Record.read(record_of(Shape("Content-Encoding: br", TEXT_BROTLI, None).block))
            with self.assertRaisesRegex(Unreadable, "'br' needs the module brotli .Debian's package python3-brotli."):
                record.payload()
            self.assertEqual((), record.stored_otherwise)
            self.assertEqual(b"", Record.read(record_of(Shape("Content-Encoding: br", b"", None).block)).payload())

    def test_a_truncated_record_says_so(self) -> None:
        block = Shape(GZIP, PACKED[:-1], None).block
        with self.assertRaisesRegex(Unreadable, "the body is cut; the record is truncated: 'length'"):
            payload(record_of(block, "WARC-Truncated: length"))
        with self.assertRaisesRegex(Unreadable, "the body is cut$"):
            payload(record_of(block))


class Bounds(unittest.TestCase):
    def test_size_and_time_are_those_of_all_codings(self) -> None:
        named = {"chunked": chunks(bytes(1000)), "gzip": gzip.compress(bytes(1000), mtime=0), "deflate": deflated(bytes(1000))}
        for name, stored in named.items():
            taken = len(stored) + 1000
            self.assertEqual(bytes(1000), b"".join(Decoder([name], Limits(size=taken)).over([stored])))
            with self.assertRaisesRegex(Unreadable, "longer than is allowed"):
                list(Decoder([name], Limits(size=taken - 1)).over([stored]))
            with self.assertRaisesRegex(Unreadable, "takes longer"):
                list(Decoder([name], Limits(seconds=0)).over([stored]))

    @unittest.skipUnless(HAS_BROTLI, "the module brotli is missing")
    def test_a_bomb_of_brotli_is_given_up(self) -> None:
        import brotli

        bomb = brotli.compress(bytes(128 << 20), quality=5)
        self.assertLess(len(bomb), 2000)
        tracemalloc.start()
        self.addCleanup(tracemalloc.stop)
        with self.assertRaisesRegex(Unreadable, "longer than is allowed"):
            for piece in Decoder(["br"], Limits(size=1 << 20)).over([bomb]):
                self.assertLessEqual(len(piece), 1 << 16)
        self.assertLess(tracemalloc.get_traced_memory()[1], 64 << 20)

    def test_a_body_of_any_length_takes_bounded_memory(self) -> None:
        member = gzip.compress(bytes(8 << 20), mtime=0)
        head = Shape(BOTH, b"", None).block
        chunk = b"%x\r\n%b\r\n" % (len(member), member)
        tracemalloc.start()
        self.addCleanup(tracemalloc.stop)
        message = Message(itertools.chain((head,), itertools.repeat(chunk, 20), (b"0\r\n\r\n",)), True)
        self.assertEqual(20 * 8 << 20, sum(map(len, message.payload())))
        self.assertLess(tracemalloc.get_traced_memory()[1], 1 << 20)

    def test_pieces_are_short(self) -> None:
        cases: tuple[tuple[list[str], bytes], ...] = (
            ([], bytes(1 << 20)), (["chunked"], chunks(bytes(1 << 20), 1 << 19)), (["gzip"], gzip.compress(bytes(1 << 20), mtime=0)),
        )  # fmt: skip
        for names, stored in cases:
            sizes = [len(piece) for piece in Decoder(names).over([stored])]
            self.assertEqual((1 << 20, 1 << 16), (sum(sizes), max(sizes)))


if __name__ == "__main__":
    unittest.main()
