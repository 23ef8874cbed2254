"""Archives and records."""
import gzip
import hashlib
import io
import os
import pickle
import signal
import subprocess
import unittest
import zlib
from collections.abc import Callable, Iterator
from unittest import mock

from warcdx import Archive, Listed, ProgramEnded, Record, Unreadable, Verified, faults, open_archive, payload
from warcdx.record import RecordStream
from warcdx.usual_records import ArchiveFile
from warcdx.verifying import check_archive

from .support import PROGRAM, SAMPLES, WAIT, Case, resource

HEAD = b"WARC/1.0\r\nWARC-Type: response\r\nX: a\r\n  b\r\nContent-Type: application/http; msgtype=response\r\n\r\n"


def response(fields: bytes, body: bytes) -> bytes:
    return HEAD + b"HTTP/1.1 200 OK\r\n" + fields + b"\r\n" + body + b"\r\n\r\n"


class Archives(Case):
    def test_list_and_verify_have_the_lines_of_the_program(self) -> None:
        archive = Archive(SAMPLES / "wget.warc", program=PROGRAM)
        for command, found in (
            ("list", [f"{each.offset} {each.length} {each.kind}" for each in archive.list()]),
            ("verify", [f"{each.offset} {each.verdict}" for each in archive.verify()]),
        ):
            done = subprocess.run((PROGRAM, command, SAMPLES / "wget.warc"), stdout=subprocess.PIPE, check=True)
            self.assertEqual(done.stdout.decode().splitlines(), found)

    def test_what_is_before_damage_is_given(self) -> None:
        archive = Archive(SAMPLES / "damaged.warc", program=PROGRAM)
        listed, verified = archive.list(), archive.verify()
        self.assertEqual([Listed(0, 264, "response"), Listed(264, 184, "resource")], [next(listed), next(listed)])
        self.assertEqual([Verified(0, "absent"), Verified(264, "absent")], [next(verified), next(verified)])
        for iterator in (listed, verified):
            found = self.raises(faults.ShortBlock, next, iterator)
            self.assertEqual((str(SAMPLES / "damaged.warc"), 448), (found.file, found.offset))

    def test_a_digest_that_differs_is_a_verdict(self) -> None:
        path = self.folder / "changed.warc"
        path.write_bytes((SAMPLES / "wget.warc").read_bytes().replace(b"gone\n", b"Gone\n", 1))
        found = [each.verdict for each in Archive(path, program=PROGRAM).verify()]
        self.assertEqual((1, 67), (found.count("differs"), found.count("same")))

    def test_get_returns_the_record(self) -> None:
        archive = Archive(SAMPLES / "wget.warc", program=PROGRAM)
        self.assertEqual(f"Archive('{SAMPLES}/wget.warc')", repr(archive))
        archive.close()
        record = archive.get(11387)
        self.assertEqual(("response", "http://127.0.0.1:8000/odd/gone"), (record.kind, str(record.field("warc-target-uri")).strip("<>")))
        self.assertEqual(b"gone\n", payload(record))
        self.raises(faults.NoRecord, archive.get, 11388)
        self.assertEqual(448, self.raises(faults.ShortBlock, Archive(SAMPLES / "damaged.warc", program=PROGRAM).get, 448).offset)

    def test_files_that_are_no_archives_are_named(self) -> None:
        self.raises(faults.CannotOpen, list, Archive(self.folder / "nosuch", program=PROGRAM).list())
        self.raises(faults.CannotOpen, Archive(self.folder / "nosuch", program=PROGRAM).get, 0)
        self.raises(faults.Read, list, Archive(self.folder, program=PROGRAM).list())
        found = self.raises(faults.Read, open_archive, "/proc/self/mem", program=PROGRAM)
        self.assertEqual(("Input/output error", "/proc/self/mem: Read (Input/output error)"), (found.reason, str(found)))
        self.assertEqual(str(found), str(pickle.loads(pickle.dumps(found))))
        self.assertIn("Read at 0 (It is a folder: ", str(self.raises(faults.Read, Archive(self.folder, program=PROGRAM).get, 0)))
        self.raises(faults.Version, list, Archive(self.put("x" * 20), program=PROGRAM).verify())
        unsized = Archive("/proc/self/maps", program=PROGRAM)  # of which the system gives no size
        for records in (iter(unsized), check_archive(unsized), unsized.streams()):
            self.raises(faults.Version, next, records)
        self.assertEqual([], list(Archive(self.put(""), program=PROGRAM)))
        self.assertEqual([], list(Archive(self.put("", "empty"), program=PROGRAM).list()))
        self.assertEqual(2, self.raises(ProgramEnded, list, Archive(os.fsdecode(b"\xff"), program=PROGRAM).list()).status)

    def test_a_pipe_is_not_read_by_what_would_read_it_again(self) -> None:
        os.mkfifo(self.folder / "pipe")  # which nobody writes, so that reading it doesn't end
        archive = open_archive(self.folder / "pipe", program=PROGRAM)
        for records in (iter(archive), archive.streams()):
            self.assertIn("a pipe can be read only once", str(self.raises(Unreadable, next, records)))

    def test_a_fault_has_the_advice_of_the_program(self) -> None:
        for text, advice in (("<p>", "It seems to be an HTML or XML file, and not a WARC file."), ("x", "No record begins there: ")):
            found = self.raises(faults.Version, Archive(self.put(text), program=PROGRAM).get, 0)
            self.assertTrue(found.advice.startswith(advice), found.advice)
            self.assertEqual(found.advice, pickle.loads(pickle.dumps(found)).advice)
        found = self.raises(faults.CannotOpen, Archive(self.folder / "nosuch", program=PROGRAM).get, 0)
        self.assertEqual("", found.advice)
        archive = Archive(self.put("x", "a\n  b"), program=PROGRAM)  # a line of the name reads like a second line of the message
        found = self.raises(faults.Version, archive.get, 0)
        self.assertEqual((archive.path, "No record begins there: "), (found.file, found.advice[:24]))

    def test_a_program_that_is_killed_has_ended(self) -> None:
        text = f'[ "$1" = list ] || exec "{PROGRAM}" "$@"\nprintf "0 264 response\\n264 18"; kill -9 $$'
        listed = Archive("any", program=self.script(text)).list()
        self.assertEqual(Listed(0, 264, "response"), next(listed))
        self.assertEqual(-9, self.raises(ProgramEnded, next, listed).status)

    def test_an_iterator_that_is_left_ends_the_program(self) -> None:
        text = f'[ "$1" = list ] || exec "{PROGRAM}" "$@"\necho $$ > "$0.pid"; echo 0 264 response; exec sleep 60'
        listed = Archive("any", program=self.script(text)).list()
        next(listed)
        listed.close()  # type: ignore[attr-defined]
        process = int((self.folder / "program.pid").read_text())
        self.assertRaises(ProcessLookupError, os.kill, process, 0)


class Records(Case):
    def test_dates(self) -> None:
        for text, wanted in (
            ("2016-09-19T17:20:24Z", "2016-09-19T17:20:24+00:00"),
            ("2016-09-19T17:20:24.5Z", "2016-09-19T17:20:24.500000+00:00"),
            ("2016-09-19T17:20:24.123456789Z", "2016-09-19T17:20:24.123456+00:00"),
        ):
            date = Record((("WARC-Date", text),), b"").date
            self.assertEqual(wanted, date and date.isoformat())
        for text in (
            "",
            "2016",
            "2016-02-30T00:00:00Z",
            "2016-09-19T17:20:24",
            "2016-09-19T17:20:24.Z",
            "20160919172024",
            "2016-09-19T25:00:00Z",
            "٢٠١٦-09-19T17:20:24Z",
        ):
            self.assertIsNone(Record((("WARC-Date", text),), b"").date, text)

    def test_a_record_of_http_has_its_head(self) -> None:
        record = Record.read(response(b"A: b\r\n", b"body"))
        assert record.http is not None
        self.assertEqual((200, "OK", "b", b"body"), (record.http.status, record.http.reason, record.http.field("a"), record.payload()))
        other = Record((("WARC-Type", "resource"), ("Content-Type", "text/plain")), b"HTTP/1.1 200 OK\r\n\r\nbody")
        self.assertEqual((None, other.block, ()), (other.http, other.payload(), other.stored_otherwise))

    def test_a_block_is_not_printed(self) -> None:
        record = Record((("WARC-Type", "resource"), ("WARC-Target-URI", "<http://a/>")), bytes(60_000_000))
        self.assertEqual("Record((('WARC-Type', 'resource'), ('WARC-Target-URI', '<http://a/>')), <60,000,000 bytes>)", repr(record))
        self.assertEqual(("http://a/", record.fields), (record.url, record.headers))
        self.assertIsNone(Record((), b"").url)

    def test_a_pipe_that_takes_the_place_of_an_archive(self) -> None:
        """It does so after its name was looked at."""
        path = self.folder / "a.warc"
        path.write_bytes(resource(1))
        found = os.stat(path)
        path.unlink()
        os.mkfifo(path)
        signal.alarm(WAIT)
        self.addCleanup(signal.alarm, 0)
        with mock.patch.object(os, "stat", return_value=found):
            open_archive(path, program=PROGRAM)
            self.assertRaises(OSError, ArchiveFile, str(path))

    def test_a_record_in_pieces_is_read_once(self) -> None:
        def opened() -> RecordStream:
            stream = RecordStream.read(io.BytesIO(HEAD[:-2] + b"Content-Length: 23\r\n\r\nHTTP/1.1 200 OK\r\n\r\nbody\r\n\r\n"))
            assert stream is not None
            return stream

        for first, second, wanted in (
            ("payload", "payload", b"body"),
            ("payload", "block", b"body"),
            ("block", "stored_payload", b"HTTP/1.1 200 OK\r\n\r\nbody"),
        ):
            stream = opened()
            self.assertEqual(wanted, b"".join(getattr(stream, first)()))
            with self.assertRaises(ValueError):
                list(getattr(stream, second)())
        stream = opened()
        self.assertEqual(200, stream.http and stream.http.status)
        with self.assertRaises(ValueError):  # its beginning was read
            list(stream.block())
        self.assertEqual(b"body", b"".join(stream.payload()))
        with Archive(SAMPLES / "wget.warc", program=PROGRAM).stream(11387) as stream:
            pass
        for call in (stream.payload, stream.stored_payload, stream.block, stream.whole):
            self.assertIn("within its `with`", str(self.raises(ValueError, list, self.raises_late(call))))

    def raises_late(self, call: Callable[[], Iterator[bytes]]) -> Iterator[bytes]:
        yield from call()

    def test_a_field_may_be_continued(self) -> None:
        record = Record.read(response(b"", b"body"))
        self.assertEqual(("a b", None, "response", "response"), (record.field("x"), record.field("y"), record.kind, record.type))

    def test_codings_are_undone(self) -> None:
        body = bytes(range(256)) * 99
        deflater = zlib.compressobj(wbits=-15)
        alone = deflater.compress(body) + deflater.flush()
        chunked = b"10;x=y\r\n" + body[:16] + b"\r\n" + b"%x\r\n" % (len(body) - 16) + body[16:] + b"\r\n0\r\n\r\n"
        packed = gzip.compress(body, mtime=0)
        for fields, stored in (
            (b"", body),
            (b"Transfer-Encoding: chunked\r\n", chunked),
            (b"Content-Encoding: gzip\r\n", packed),
            (b"content-encoding:X-GZIP\r\n", gzip.compress(body[:99], mtime=0) + gzip.compress(body[99:], mtime=0)),
            (b"Content-Encoding: deflate\r\n", zlib.compress(body)),
            (b"Content-Encoding: deflate\r\n", alone),
            (b"Content-Encoding: identity\r\n", body),
            (b"Content-Encoding: deflate, gzip\r\n", gzip.compress(alone, mtime=0)),
            (b"Transfer-Encoding: chunked\r\nContent-Encoding: gzip\r\n", b"%x\r\n%s\r\n0\r\n\r\n" % (len(packed), packed)),
        ):
            self.assertEqual(hashlib.sha1(body).digest(), hashlib.sha1(payload(response(fields, stored))).digest(), fields)

    def test_what_can_not_be_read_is_refused(self) -> None:
        for record in (
            b"",
            b"WARC/1.0\r\n\r\n",
            response(b"Transfer-Encoding: chunked\r\n", b"5\r\nabc"),
            response(b"Content-Encoding: gzip\r\n", gzip.compress(b"body", mtime=0)[:-1]),
            HEAD + b"HTTP/1.1 200 OK\r\nA: b\r\n\r\n",
        ):
            self.raises(Unreadable, payload, record)


if __name__ == "__main__":
    unittest.main()
