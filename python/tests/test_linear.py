"""What archived bytes may cost: a million of them take a few seconds of the processor, whatever they are."""
import contextlib
import io
import itertools
import os
import re
import resource
import unittest
import unittest.mock
from collections.abc import Callable
from typing import NamedTuple

from warcdx.cdx import BadRow, _cdx_line, _rows
from warcdx.codings import Unreadable
from warcdx.reported import error_of
from warcdx.http_messages import HttpHead, Message
from warcdx.record import Head, Record, payload
from warcdx.serve import refusal_of, text_of
from warcdx.url_keys import _LINE

SIZE = 1_000_000  # bytes of an input
# Seconds of the processor. Each input takes one or two on a busy host. One that costs the square of its size takes minutes:
# 5 * 10^11 steps of an expression, or as many bytes that are copied.
MOST_SECONDS = 30
FIRST = b"WARC/1.1\r\n"
# How heads were unfolded once. These are quadratic in runs of blanks.
FOLD = re.compile(r"[ \t]*\r\n[ \t]+")
HTTP_FOLD = re.compile(r"[ \t]*\r?\n[ \t]+")


class Shape(NamedTuple):
    """What reads an input, and the texts before, within and after its repeated part."""

    read: Callable[[bytes], object]
    before: bytes
    repeated: bytes
    after: bytes = b""


def body_of(head: bytes) -> Callable[[bytes], object]:
    return lambda body: b"".join(Message(iter((head + b"\r\n\r\n", body)), True).payload())


def codings_of(head: bytes) -> list[str]:
    found = HttpHead.of(head)
    return [*found.transfer_codings, *found.content_codings, found.reason]


def head_of(block: bytes) -> object:
    return Message(iter((block,)), True).http


def rows_of(text: bytes) -> None:
    with contextlib.suppress(BadRow):
        list(_rows(io.BytesIO(text)))


CHUNKED = body_of(b"HTTP/1.1 200\r\nTransfer-Encoding: chunked")
GZIP, DEFLATE, BR = (body_of(b"HTTP/1.1 200\r\nContent-Encoding: " + each) for each in (b"gzip", b"deflate", b"br"))
LINE_BREAKS = (b" \r\n", b"\r\n ", b"\r\n \r\n", b"\n", b"\n ", b" \n", b"\r", b"\r\r\n ")
BLANKS = (b" ", b"\t", b" \t", b"a ", *LINE_BREAKS, b":", b"x: y\r\n")
CODINGS = (b",", b" ", b"Content-Encoding: a,\n", b"Content-Encoding:,\n", b":\n")
SAID = (b": fault 1 ", b": ", b": fault ", b"1", b": BadLine 1", b": fault 1 X\n  ", b"\n  ")
SHAPES = (
    *(Shape(Head.fields_of, FIRST + b"X: a", each, after) for each in BLANKS for after in (b"", b"b")),
    *(Shape(HttpHead.of, b"HTTP/1.1 200\r\nX: a", each, after) for each in BLANKS for after in (b"", b"b")),
    *(Shape(Record.read, FIRST + b"X: a", each, b"\r\n\r\nblock\r\n\r\n") for each in BLANKS),
    *(Shape(payload, FIRST + b"Content-Type: application/http\r\n\r\n", each, b"\r\n\r\n") for each in BLANKS),
    *(Shape(codings_of, b"HTTP/1.1 200\r\n", each) for each in CODINGS),
    *(Shape(codings_of, b"HTTP/1.1", each, b" 200") for each in (b" ", b" 2", b"1", b"\t2000", b"/")),
    *(Shape(codings_of, b"HTTP/1.1 200\r\nTransfer-Encoding: ", each) for each in (b"chunked,", b"gzip ,", b";", b"a;", b" ,")),
    *(
        Shape(head_of, before, each, b"x")
        for before in (b"", b"HTTP/1.1 200\r\n")
        for each in (b"\r\n", b"\n", b"\r", b"a", b" ", b" HTTP/", b"\r\na", b"HTTP ", b"ICY ")
    ),
    *(Shape(CHUNKED, b"", each) for each in (b" ", b"1", b"1 ", b"1;", b"1\r", b"1\r\na\r\n", b"1;;\r\na\r\n", b"0")),
    *(Shape(CHUNKED, b"1 ", each, b"x") for each in (b" ", b";", b"\r")),
    *(Shape(CHUNKED, b"1\r\na", each) for each in (b"\r\n", b"\n", b"\r", b"1", b" ", b"\r\n1", b"\r\n1;")),
    Shape(GZIP, b"", bytes.fromhex("1f8b08000000000000030300000000000000000000")[:20]),
    *(
        Shape(read, b"", each)
        for read in (GZIP, DEFLATE, BR)
        for each in (b"\x1f", b"\x1f\x8b", b"\x78\x9c", b"\x03\x00", b"\x00", b"[", b"\x3b", b"a")
    ),
    Shape(GZIP, bytes.fromhex("1f8b08000000000000030300000000000000000000")[:20], b"x"),
    *(Shape(lambda text: error_of(3, text.decode()), b"warcdx: ", each, b"\n\n") for each in SAID),
    *(Shape(rows_of, b" CDX a b g V", each, b"\n") for each in (b" ", b" a")),
    *(Shape(rows_of, b"k 20160101000000 http://a/ t 200 - - - - 0 ", each, b"\n") for each in (b" ", b"a", b"%", b"\xff")),
    *(Shape(_cdx_line, b'k 20160101000000 {"offset": "0", "filename": "', each, b'"}\n') for each in (b"a", b"\\t", b" ")),
    *(Shape(_LINE.fullmatch, b'k 20000101000000 {"url": "', each) for each in (b'", "mime": "-"', b'"', b'", "mime')),
    *(Shape(refusal_of, b"refused ", each) for each in (b"a", b"\n")),
    *(Shape(lambda text: text_of(text, False, ()), b"fault ", each) for each in (b"1", b"\n", b"1 ")),
)


def expect_little(case: unittest.TestCase, read: Callable[[bytes], object], text: bytes) -> None:
    """Reads an input in a process of its own, which the system ends if it takes too long."""
    process = os.fork()
    if not process:
        try:
            resource.setrlimit(resource.RLIMIT_CORE, (0, 0))
            resource.setrlimit(resource.RLIMIT_CPU, (MOST_SECONDS, MOST_SECONDS))
            with contextlib.suppress(Unreadable):
                read(text)
            os._exit(0)
        finally:
            os._exit(1)
    case.assertEqual(0, os.waitstatus_to_exitcode(os.waitpid(process, 0)[1]))


class Costs(unittest.TestCase):
    def test_a_million_bytes_of_each_shape(self) -> None:
        for shape in SHAPES:
            with self.subTest(before=shape.before, repeated=shape.repeated, after=shape.after):
                text = shape.before + shape.repeated * (SIZE // len(shape.repeated)) + shape.after
                expect_little(self, shape.read, text)

    def test_heads_and_bodies_with_a_million_blanks(self) -> None:
        for blanks in (b" " * SIZE, b"\t" * SIZE, b"\r\n " * (SIZE // 3), b" \n" * (SIZE // 2)):
            http = b"HTTP/1.1 200\r\nX: a" + blanks + b"b"
            block = http + b"\r\n\r\nbody"
            record = FIRST + b"Content-Type: application/http\r\nX: a" + blanks + b"b\r\n\r\n" + block + b"\r\n\r\n"
            for read, text in ((Head.fields_of, record), (HttpHead.of, http), (Record.read, record), (payload, record), (CHUNKED, blanks)):
                with self.subTest(read=read, blanks=blanks[:3]):
                    expect_little(self, read, text)

    @unittest.mock.patch(f"{__name__}.MOST_SECONDS", 1)
    def test_what_costs_the_square_is_found(self) -> None:
        for read in (lambda text: FOLD.sub(" ", f"{text.decode()}b"), lambda text: [text[at:] for at in range(len(text))][:0]):
            with self.assertRaises(AssertionError):
                expect_little(self, read, b" " * SIZE)


def field_of(line: str) -> tuple[str, str]:
    name, _, value = line.partition(":")
    return name, value.strip(" \t")


def http_field_of(line: str) -> tuple[str, str]:
    name, value = field_of(line)
    return name.strip(" \t"), value


class Folds(unittest.TestCase):
    def test_heads_are_unfolded_as_by_the_expressions(self) -> None:
        for length in range(8):
            for letters in itertools.product("a: \t\r\n" if length < 6 else "a \r\n", repeat=length):
                text = "".join(letters)
                _, *lines = FOLD.sub(" ", f"WARC/1.1\r\n{text}").split("\r\n")
                self.assertEqual(tuple(map(field_of, lines)), Head.fields_of(FIRST + text.encode()), repr(text))
                line, *lines = re.split(r"\r?\n", HTTP_FOLD.sub(" ", text))
                self.assertEqual(HttpHead(tuple(map(http_field_of, lines)), line), HttpHead.of(text.encode()), repr(text))


if __name__ == "__main__":
    unittest.main()
