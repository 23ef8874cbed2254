"""Heads of HTTP messages, and what can be known of their bodies before they are read."""
import gzip
import unittest
import unittest.mock
from typing import Optional

from warcdx import Record, Unreadable
from warcdx.http_messages import HttpHead, Message

from .test_bodies import (
    ABC_ALONE, BOTH, DEFLATE, GZIP, HAS_BROTLI, PACKED, TEXT, TEXT_BROTLI, Shape, chunks, cut, read, record_of,
)  # fmt: skip


class Heads(unittest.TestCase):
    def http(self, block: bytes) -> Optional[HttpHead]:
        found = {Message(cut(block, *range(0, len(block), size)), True).http for size in (1 if len(block) < 1000 else 1 << 12, 1 << 16)}
        self.assertEqual(1, len(found), block[:60])
        return found.pop()

    def test_status_and_reason(self) -> None:
        for line, status, reason in (
            ("HTTP/1.1 200 OK", 200, "OK"), ("HTTP/1.0  404  Not  Found ", 404, "Not  Found"), ("HTTP/2 204", 204, ""),
            ("http/1.1 301 Moved", 301, "Moved"), ("ICY 200 OK", 200, "OK"), ("HTTP/1.1 999 No", 999, "No"),
            ("HTTP/1.1 200OK", 200, "OK"), ("HTTP/1.1 2000 OK", None, ""), ("HTTP/1.1 20 OK", None, ""),
            ("HTTP/1.1 099 OK", None, ""), ("GET / HTTP/1.1", None, ""), ("HTTP/1.1", None, ""), ("HTTP/1.1 OK", None, ""),
        ):  # fmt: skip
            head = self.http(f"{line}\r\nA: b\r\n\r\n".encode())
            assert head is not None
            self.assertEqual((line, status, reason), (head.line, head.status, head.reason))

    def test_what_ends_and_precedes_a_head(self) -> None:
        for before in (b"", b"\r\n", b"\n\n\r\n"):
            for end in (b"\r\n\r\n", b"\n\n", b"\n\r\n", b"\r\n\n"):
                block = before + b"HTTP/1.1 200 OK\r\nA : b\r\n c\nB: d" + end + b"\r\nbody"
                head = self.http(block)
                assert head is not None
                self.assertEqual((("A", "b c"), ("B", "d")), head.fields)
                self.assertEqual((b"\r\nbody", ()), read(block, iter([block])))

    def test_a_block_without_a_head_is_a_body(self) -> None:
        for block in (
            b"",
            b"\r\n\r\n",
            TEXT,
            b"<html>\n\n<p>text",
            b"\r\n<p>",
            b"a: b\r\n\r\nc",
            b"http://a/\n\n",
            b"\0" * 9,
            b"x" * 2_000_000,
        ):
            self.assertIsNone(self.http(block))
            self.assertEqual((block, ()), read(block, iter([block])))
            self.assertEqual((block, ()), read(block, cut(block, *range(0, len(block), 65_536))))

    def test_a_head_that_does_not_end_has_no_body(self) -> None:
        long = b"HTTP/1.1 200 OK\r\nA: " + b"a" * (1 << 20) + b"\r\n\r\nbody"
        for block in (b"HTTP/1.1 200 OK", b"HTTP/1.1 200 OK\r\nA: b\r\n", b"\r\nGET / HTTP/1.1\r\n", long):
            self.assertIsNone(Message(cut(block, *range(0, len(block), 4096)), True).http)
            with self.assertRaisesRegex(Unreadable, "the HTTP head doesn't end"):
                Record.read(record_of(block)).payload()
            self.assertEqual(((), None), (Record.read(record_of(block)).stored_otherwise, Record.read(record_of(block)).http))

    def test_the_limit_of_a_head_is_the_same_for_all_pieces(self) -> None:
        for size, is_head in ((1 << 20, True), ((1 << 20) + 1, False)):
            head = b"HTTP/1.1 200 OK\r\nA: "
            block = head + b"a" * (size - len(head) - 4) + b"\r\n\r\nbody"
            for piece in (len(block), 1 << 16, 1000):
                message = Message(cut(block, *range(0, len(block), piece)), True)
                self.assertEqual(is_head, message.http is not None)

    def test_requests_have_bodies_too(self) -> None:
        block = b"POST /a HTTP/1.1\r\nHost: a\r\nTransfer-Encoding: chunked\r\n\r\n3\r\na=b\r\n0\r\n\r\n"
        self.assertEqual((b"a=b", ()), read(block, iter([block])))


class Streams(unittest.TestCase):
    def test_content_codings_that_are_there(self) -> None:
        brotli = [("Content-Encoding: br", TEXT_BROTLI, True), ("Content-Encoding: br", TEXT, False)] * HAS_BROTLI
        for fields, stored, is_there in (
            ("", TEXT, True), (GZIP, PACKED, True), (GZIP, TEXT, False), (GZIP, b"", False), (BOTH, chunks(PACKED), True),
            (BOTH, PACKED, True), (BOTH, chunks(TEXT), False), (f"{GZIP}\n{GZIP}", PACKED, False), (DEFLATE, ABC_ALONE, True),
            (DEFLATE, TEXT, False), ("Content-Encoding: utf-8", TEXT, False), (GZIP, PACKED[:-3], True),
            ("Content-Encoding: zstd", b"\x28\xb5\x2f\xfd", True), ("Content-Encoding: zstd", TEXT, False),
            ("Content-Encoding: gzip, gzip", gzip.compress(b"", mtime=0) * 100_000, False), *brotli,
            ("Content-Encoding: " + "gzip, " * 9, PACKED, False),
        ):  # fmt: skip
            block = Shape(fields, stored, None).block
            for size in (1 if len(block) < 1000 else 1 << 12, 1 << 16):
                message = Message(cut(block, *range(0, len(block), size)), True)
                self.assertEqual(is_there, message.has_content_codings(), (fields, stored[:20]))
                kept = b"".join(message.stored_payload())
                self.assertEqual(b"".join(Message(iter([block]), True).stored_payload()), kept)

    def test_without_brotli_its_coding_is_not_known_to_be_there(self) -> None:
        with unittest.mock.patch.dict("sys.modules", {"brotli": None}):
            for stored in (TEXT, TEXT_BROTLI):
                block = Shape("Content-Encoding: br", stored, None).block
                self.assertFalse(Message(iter([block]), True).has_content_codings())


if __name__ == "__main__":
    unittest.main()
