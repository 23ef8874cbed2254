"""Compressed archives, of which each record is a member of gzip of its own.

The members of PAGE and TEXT, their lengths, and what they list and index are those that were made by zlib and read by hand.
"""
import gzip
import io
import itertools
import json
import os
import pathlib
import shutil
import subprocess
import sys
import unittest
import unittest.mock
import zlib
from collections.abc import Callable
from typing import Optional

from warcdx import (
    Archive,
    CompressedArchive,
    Fault,
    Listed,
    ProgramEnded,
    ProgramMissing,
    ReplyTooLate,
    Verified,
    faults,
    open_archive,
    update_command,
)
from warcdx.program import find_packed_program, find_program
from warcdx.record import RecordStream

from .support import PROGRAM, SAMPLES, WAIT, Case, packed

FOLDER = pathlib.Path(__file__).resolve().parents[1]
SAMPLE = SAMPLES / "wget.warc"
PAGE = (
    b"WARC/1.1\r\nWARC-Type: response\r\nWARC-Record-ID: <urn:x:1>\r\nWARC-Date: 2016-09-19T17:20:24Z\r\n"
    b"WARC-Target-URI: http://example.com/\r\nContent-Type: application/http; msgtype=response\r\nContent-Length: 59\r\n\r\n"
    b"HTTP/1.1 200 OK\r\nContent-Type: text/html; charset=utf-8\r\n\r\n\r\n\r\n"
)
TEXT = (
    b"WARC/1.1\r\nWARC-Type: resource\r\nWARC-Record-ID: <urn:x:3>\r\nWARC-Date: 2016-09-19T17:20:24Z\r\n"
    b"WARC-Target-URI: http://example.com/r\r\nContent-Type: text/plain\r\nContent-Length: 3\r\n\r\nabc\r\n\r\n"
)
PAGE_LINE = (
    b'com,example)/ 20160919172024 {"url": "http://example.com/", "mime": "text/html", "status": "200", '
    b'"digest": "3I42H3S6NNFQ2MSVX7XZKYAYSCX5QBYJ", "length": "207", "offset": "0", "filename": "%s"}\n'
)
TEXT_LINE = (
    b'com,example)/r 20160919172024 {"url": "http://example.com/r", "mime": "text/plain", "status": "-", '
    b'"digest": "VGMT4NSHA2AWVOR6EVYXQUGCNSONBWE5", "length": "165", "offset": "207", "filename": "%s"}\n'
)


def member(text: bytes, strategy: int = zlib.Z_DEFAULT_STRATEGY, level: int = 9) -> bytes:
    """Returns a member with a header of no fields."""
    deflater = zlib.compressobj(level, zlib.DEFLATED, -15, 9, strategy)
    packed = deflater.compress(text) + deflater.flush()
    return (
        bytes.fromhex("1f8b0800000000000203") + packed + b"".join(number.to_bytes(4, "little") for number in (zlib.crc32(text), len(text)))
    )


PACKED_PAGE, PACKED_TEXT = member(PAGE), member(TEXT)
BOTH = PACKED_PAGE + PACKED_TEXT
EMPTY = bytes.fromhex("1f8b080000000000020303000000000000000000")
PLACES = [Listed(0, 207, "response"), Listed(207, 165, "resource")]


class Packed(Case):
    def archive(self, text: bytes, name: str = "a.warc.gz") -> CompressedArchive:
        path = self.folder / name
        path.write_bytes(text)
        return CompressedArchive(path, program=PROGRAM)

    def listed(self, archive: Archive) -> tuple[list[Listed], str]:
        """Returns the records, and the name and offset of the fault."""
        found = []
        try:
            for each in archive.list():
                found.append(each)
        except Fault as fault:
            self.assertEqual(archive.path, fault.file)
            return found, f"{fault.name} {fault.offset}"
        return found, ""

    def index(self, archive: Archive, name: Optional[str] = None) -> tuple[bytes, str]:
        """Returns the index, and the name and offset of the fault."""
        output = io.BytesIO()
        try:
            archive.index(output, name=name)
        except Fault as fault:
            self.assertEqual(archive.path, fault.file)
            return output.getvalue(), f"{fault.name} {fault.offset}"
        return output.getvalue(), ""

    def expect(self, text: bytes, records: int, fault: str = "") -> None:
        """Checks how many records of BOTH are listed and indexed before a fault."""
        archive = self.archive(text)
        lines = b"".join(line % b"a.warc.gz" for line in (PAGE_LINE, TEXT_LINE)[:records])
        self.assertEqual((PLACES[:records], fault), self.listed(archive))
        self.assertEqual((lines, fault), self.index(archive))


class Good(Packed):
    def test_records_are_listed_and_indexed_at_the_places_of_their_members(self) -> None:
        self.expect(BOTH, 2)

    def test_a_record_is_that_of_the_member_at_an_offset(self) -> None:
        archive, output = self.archive(BOTH), io.BytesIO()
        self.assertEqual(b"abc", archive.get(207).block)
        self.assertEqual(b"abc", archive.get(207, length=165).block)
        archive.copy(207, output)
        archive.copy(0, output, length=207)
        self.assertEqual(TEXT + PAGE, output.getvalue())
        for offset, length in ((1, None), (206, None), (372, None), (373, None), (1 << 40, None), (207, 164), (207, 166), (0, 264)):
            self.raises(faults.NoRecord, archive.get, offset, length=length)
            self.raises(faults.NoRecord, archive.copy, offset, output, length=length)
        for offset in (-1, 1 << 63, 10**30):
            self.raises(faults.NoRecord, archive.copy, offset, output)

    def test_each_kind_of_block_and_members_without_text(self) -> None:
        archive = self.archive(member(PAGE, zlib.Z_FIXED) + member(PAGE, level=0) + EMPTY + PACKED_TEXT)
        wanted = [Listed(0, 222, "response"), Listed(222, 287, "response"), Listed(529, 165, "resource")]
        self.assertEqual((wanted, ""), self.listed(archive))
        self.raises(faults.NoRecord, archive.get, 509)
        self.expect(BOTH + EMPTY, 2)
        for text in (b"", EMPTY, EMPTY * 2):
            self.expect(text, 0)

    def test_a_member_may_have_the_fields_of_gzip(self) -> None:
        output = io.BytesIO()
        with gzip.GzipFile("a name", "wb", 9, output, 1) as file:
            file.write(PAGE)
        self.assertEqual(([Listed(0, len(output.getvalue()), "response")], ""), self.listed(self.archive(output.getvalue())))

    def test_verdicts(self) -> None:
        # SHA-1 of `abc` (FIPS 180-4, appendix A.1) in base 32, and another one.
        digests = (b"VGMT4NSHA2AWVOR6EVYXQUGCNSONBWE5", b"AGMT4NSHA2AWVOR6EVYXQUGCNSONBWE5")
        texts = [TEXT.replace(b"Content-Length", b"WARC-Block-Digest: sha1:%s\r\nContent-Length" % digest) for digest in digests]
        members = packed(*texts, TEXT)
        offsets = [0, len(members[0]), len(members[0]) + len(members[1])]
        archive = self.archive(b"".join(members))
        wanted = ["same", "differs", "absent"]
        self.assertEqual([Verified(*each) for each in zip(offsets, wanted)], list(archive.verify()))
        self.assertEqual(wanted, [archive.verdict(offset) for offset in offsets])

    def test_an_index_of_another_name_and_of_other_types(self) -> None:
        archive = self.archive(BOTH)
        for name, shown in (
            ("b.warc.gz", b"b.warc.gz"), ("2016/c.warc.gz", b"c.warc.gz"), ("-x", b"-x"), ("\u00e9", b"\xc3\xa9"), ("-", b"-")
        ):  # fmt: skip
            self.assertEqual((PAGE_LINE % shown + TEXT_LINE % shown, ""), self.index(archive, name))
        for name in ("n" * 256, "a/", ""):
            self.assertEqual((b"", "BadName None"), self.index(archive, name))
        output = io.BytesIO()
        archive.index(output, types="resource")
        self.assertEqual(TEXT_LINE % b"a.warc.gz", output.getvalue())
        self.assertEqual(2, self.raises(ProgramEnded, archive.index, output, types="nosuch").status)

    def test_a_real_crawl_is_that_of_the_plain_archive(self) -> None:
        text, plain = SAMPLE.read_bytes(), Archive(SAMPLE, program=PROGRAM)
        listed = list(plain.list())
        members = packed(*(text[each.offset : each.offset + each.length] for each in listed))
        offsets = [0, *itertools.accumulate(map(len, members))][:-1]
        archive = self.archive(b"".join(members), "wget.warc")
        wanted = [Listed(offset, len(each), old.kind) for offset, each, old in zip(offsets, members, listed)]
        self.assertEqual(wanted, list(archive.list()))
        self.assertEqual([each.verdict for each in plain.verify()], [each.verdict for each in archive.verify()])
        places = {str(old.offset): new for old, new in zip(listed, wanted)}
        found, lines = self.index(archive)[0].splitlines(), self.index(plain)[0].splitlines()
        for line, other in zip(lines, found):
            capture = json.loads(line.split(b" ", 2)[2])
            place = places[capture["offset"]]
            self.assertEqual({**capture, "offset": str(place.offset), "length": str(place.length)}, json.loads(other.split(b" ", 2)[2]))
        self.assertEqual(33, len(found))
        self.assertEqual(33, len(lines))
        for old, new in zip(listed, wanted):
            self.assertEqual(plain.get(old.offset), archive.get(new.offset, length=new.length))


class Bad(Packed):
    def test_a_member_that_is_cut(self) -> None:
        self.expect(BOTH[:-1], 1, "CutMember 207")
        self.expect(BOTH[:208], 1, "CutMember 207")
        self.expect(BOTH[:207], 1)

    def test_a_member_that_is_changed(self) -> None:
        text = BOTH[:364] + bytes([BOTH[364] ^ 1]) + BOTH[365:]
        self.expect(text, 1, "BadMember 207")
        archive, output = self.archive(text), io.BytesIO()
        self.assertEqual(207, self.raises(faults.BadMember, archive.copy, 207, output).offset)
        self.assertTrue(TEXT.startswith(output.getvalue()))
        self.raises(faults.BadMember, archive.get, 207)
        self.raises(faults.BadMember, archive.verdict, 207)
        for pieces in (RecordStream.whole, RecordStream.block, RecordStream.payload):
            with self.assertRaises(faults.BadMember), archive.stream(207) as stream:
                list(pieces(stream))

    def test_a_member_is_judged_behind_the_last_chunk(self) -> None:
        block = b"HTTP/1.1 200 OK\r\nTransfer-Encoding: chunked\r\n\r\n3\r\nabc\r\n0\r\n\r\n"
        front = PAGE[: PAGE.index(b"Content-Length")]
        good = member(front + b"Content-Length: %d\r\n\r\n%b\r\n\r\n" % (len(block), block))
        with self.archive(good).stream(0) as stream:
            self.assertEqual([b"abc"], list(stream.payload()))
        wrong = good[:-8] + bytes(4) + good[-4:]  # its CRC-32
        with self.assertRaises(faults.BadMember), self.archive(wrong).stream(0) as stream:
            list(stream.payload())

    def test_a_program_that_is_silent_is_ended(self) -> None:
        archive = self.archive(member(PAGE + bytes(256 << 20)))
        with self.assertRaises(ReplyTooLate), archive.stream(0, seconds=0.01):
            pass
        with self.assertRaises(faults.SeveralRecords), archive.stream(0, seconds=WAIT) as stream:
            list(stream.whole())

    def test_what_is_no_member(self) -> None:
        for text in (b"x", bytes(512), PAGE, b"\x8b"):
            self.expect(PACKED_PAGE + text, 1, "NoMember 207")

    def test_several_records_in_a_member(self) -> None:
        for text in (PAGE + TEXT, PAGE + b"x", PAGE + bytes(64 << 20)):
            self.expect(member(text), 0, "SeveralRecords 0")
            archive = self.archive(member(text))
            self.raises(faults.SeveralRecords, archive.get, 0)
            self.raises(faults.SeveralRecords, archive.verdict, 0)

    def test_a_record_that_its_member_cuts(self) -> None:
        self.expect(member(PAGE[:100]) + member(PAGE[100:]), 0, "ShortHead 0")
        self.expect(PACKED_PAGE + member(TEXT[:-6]), 1, "ShortBlock 207")
        self.expect(member(PAGE[:-2]) + PACKED_TEXT, 0, "Closing 0")
        self.expect(member(b"WARC/2.0\r\n"), 0, "Version 0")

    def test_files_that_can_not_be_read_are_named(self) -> None:
        missing = CompressedArchive(self.folder / "nosuch", program=PROGRAM)
        output = io.BytesIO()
        for call in (lambda: list(missing.list()), lambda: list(missing.verify()), lambda: missing.get(0), lambda: missing.index(output)):
            self.raises(faults.CannotOpen, call)
        self.raises(faults.CannotOpen, missing.index, output, name="a")
        self.raises(faults.CannotOpen, open_archive, self.folder / "nosuch", program=PROGRAM)
        self.raises(faults.CannotOpen, open_archive, self.folder, program=PROGRAM)
        self.raises(faults.CannotOpen, open_archive, "a\0b", program=PROGRAM)

    def test_a_program_that_is_killed_has_ended(self) -> None:
        packed_program = find_packed_program(PROGRAM)
        path = self.archive(BOTH).path
        killed = self.script(f'[ "$1" != --help ] || exec "{packed_program}" "$@"\nprintf "0 207 response\\n207 16"; kill -9 $$')
        archive = CompressedArchive(path, program=killed)
        listed = archive.list()
        self.assertEqual(PLACES[0], next(listed))
        self.assertEqual(-9, self.raises(ProgramEnded, next, listed).status)
        for call in (archive.index, lambda output: archive.copy(0, output)):
            self.assertEqual(-9, self.raises(ProgramEnded, call, io.BytesIO()).status)


class Forms(Packed):
    """The first two bytes of a file say its form, and not its name."""

    def test_an_archive_of_either_form_is_opened(self) -> None:
        for name, text, kind, length in (
            ("a.warc.gz", PAGE, Archive, 264),
            ("a.warc", PACKED_PAGE, CompressedArchive, 207),
            ("-b", PACKED_PAGE, CompressedArchive, 207),
            ("c\nd", PACKED_PAGE, CompressedArchive, 207),
        ):
            (self.folder / name).write_bytes(text)
            archive = open_archive(self.folder / name, program=PROGRAM)
            self.assertIs(kind, type(archive))
            self.assertEqual(([Listed(0, length, "response")], ""), self.listed(archive))
        for text, kind in ((b"", Archive), (b"\x1f", CompressedArchive), (b"x", Archive)):
            (self.folder / "short").write_bytes(text)
            self.assertIs(kind, type(open_archive(self.folder / "short", program=PROGRAM)))

    def test_a_plain_archive_may_be_read_by_the_program_for_compressed_ones(self) -> None:
        archive = self.archive(PAGE + TEXT)
        self.assertEqual(([Listed(0, 264, "response"), Listed(264, 184, "resource")], ""), self.listed(archive))
        self.assertEqual(b"abc", archive.get(264, length=184).block)

    def read_pipe(self, text: bytes, read: "Callable[[Archive], object]", shell: str) -> object:
        (self.folder / "text").write_bytes(text)
        with subprocess.Popen(("sh", "-c", shell), cwd=self.folder) as writer:
            found = read(open_archive(self.folder / "pipe", program=PROGRAM))
            self.assertEqual(0, writer.wait(WAIT))
        return found

    def test_a_pipe_is_read_once(self) -> None:
        os.mkfifo(self.folder / "pipe")
        slow = "exec 3> pipe; head -c 1 text >&3; sleep 0.1; tail -c +2 text >&3"
        for text, lengths in ((BOTH, [207, 165]), (PAGE + TEXT, [264, 184])):
            for shell in ("cat text > pipe", slow):
                found = self.read_pipe(text, lambda archive: [each.length for each in archive.list()], shell)
                self.assertEqual(lengths, found)
        found = self.read_pipe(BOTH, lambda archive: self.index(archive), "cat text > pipe")
        self.assertEqual((PAGE_LINE % b"pipe" + TEXT_LINE % b"pipe", ""), found)
        found = self.read_pipe(BOTH, lambda archive: archive.get(207).block, "cat text > pipe")
        self.assertEqual(b"abc", found)

    def test_standard_input_has_a_path(self) -> None:
        code = (
            "import sys, warcdx\n"
            "archive = warcdx.open_archive('/dev/stdin', program=sys.argv[1])\n"
            "print(*(each.length for each in archive.list()))\n"
        )
        command = (sys.executable, "-c", code, PROGRAM)
        for text, wanted in ((BOTH, "207 165\n"), (PAGE + TEXT, "264 184\n")):
            (self.folder / "text").write_bytes(text)
            with open(self.folder / "text", "rb") as file:
                done = subprocess.run(command, cwd=FOLDER, stdin=file, stdout=subprocess.PIPE, text=True, check=True)
            self.assertEqual(wanted, done.stdout)
            done = subprocess.run(command, cwd=FOLDER, input=text, stdout=subprocess.PIPE, check=True)  # type: ignore[assignment]
            self.assertEqual(wanted.encode(), done.stdout)

    def test_a_name_that_is_not_utf_8_is_refused_by_the_program(self) -> None:
        for name in ("\udcff.warc", "\udcff"):
            (self.folder / name).write_bytes(BOTH)
            archive = open_archive(self.folder / name, program=PROGRAM)
            self.assertEqual(2, self.raises(ProgramEnded, list, archive.list()).status)


class Programs(Case):
    """The program for compressed archives is found from the other one."""

    def program(self, name: str, says: str) -> pathlib.Path:
        path = self.folder / name
        path.parent.mkdir(exist_ok=True)
        path.write_text(f"#!/bin/sh\necho {says}\n")
        path.chmod(0o755)
        return path

    def test_it_stands_in_the_same_folder(self) -> None:
        plain, beside = self.program("one/warcdx", "warcdx 0.1.0: x"), self.program("one/warcdx-gz", "warcdx-gz 0.1.0: x")
        self.assertEqual(str(beside), find_packed_program(str(plain)))
        self.assertEqual(str(plain), find_program(str(plain)))
        unused = self.program("two/warcdx", "x; touch $0.run")
        beside = self.program("two/warcdx-gz", "warcdx-gz 0.1.0: x")
        self.assertEqual(str(beside), find_packed_program(str(unused)))
        self.assertEqual([], list(self.folder.rglob("*.run")))

    def test_it_may_be_given_itself_by_any_name(self) -> None:
        self.program("one/warcdx-gz", "warcdx-gz 0.1.0: x")
        given = self.program("one/packed", "warcdx-gz 0.1.0: x")
        self.assertEqual(str(given), find_packed_program(str(given)))

    def test_else_it_is_on_the_path(self) -> None:
        plain, other = self.program("one/warcdx", "warcdx 0.1.0: x"), self.program("two/warcdx-gz", "warcdx-gz 0.1.0: x")
        with unittest.mock.patch.dict(os.environ, PATH=f"{other.parent}:{os.environ['PATH']}"):
            self.assertEqual(str(other), find_packed_program(str(plain)))

    def test_a_release_has_it_in_its_own_folder(self) -> None:
        shutil.copytree(FOLDER / "warcdx", self.folder / "share/warcdx/python/warcdx")
        own, other = self.program("bin/warcdx", "warcdx 0.1.0: x"), self.program("other/warcdx", "warcdx 0.1.0: x")
        code = "from warcdx.program import find_program; print(find_program('warcdx'))"
        for path, wanted in (("/nosuch", own), (str(other.parent), other)):
            command = (sys.executable, "-S", "-c", code)
            folder = self.folder / "share/warcdx/python"
            found = subprocess.run(command, env={"PATH": path}, cwd=folder, stdout=subprocess.PIPE, text=True, check=True)
            self.assertEqual(f"{wanted}\n", found.stdout)

    def test_it_may_be_missing_or_another_program(self) -> None:
        plain = self.program("one/warcdx", "warcdx 0.1.0: x")
        with unittest.mock.patch.dict(os.environ, PATH=str(self.folder)):
            error = self.raises(ProgramMissing, find_packed_program, str(plain))
        self.assertEqual("warcdx-gz: no such program on the PATH", str(error))
        beside = self.program("one/warcdx-gz", "usage: warcdx-gz")
        error = self.raises(ProgramMissing, find_packed_program, str(plain))
        self.assertEqual(f"{beside}: not the program warcdx", str(error))

    def test_the_tasks_of_warcdx_update_run_it(self) -> None:
        plain, beside = self.program("one/warcdx", "warcdx 0.1.0: x"), self.program("one/warcdx-gz", "warcdx-gz 0.1.0: x")
        named = ("--program", str(plain))
        for words, wanted in (
            (named, str(beside)),
            ((*named, "--scheduler", "x"), str(beside)),
            (("--scheduler", "x"), "warcdx-gz"),
            (("--jobs", "1"), str(beside)),
            (("--program", "warcdx-gz"), str(beside)),
        ):
            with unittest.mock.patch.dict(os.environ, PATH=str(plain.parent)):
                found = update_command.program_of(update_command.read_arguments([*words, "folder", "index"]))
            self.assertEqual(wanted, found, words)

    def test_a_plain_archive_needs_it_not(self) -> None:
        plain = self.program("one/warcdx", "warcdx 0.1.0: x")
        path = self.put("WARC/1.0")
        with unittest.mock.patch.dict(os.environ, PATH=str(self.folder)):
            self.assertIs(Archive, type(open_archive(path, program=str(plain))))


if __name__ == "__main__":
    unittest.main()
