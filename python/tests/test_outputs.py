"""Copies and outputs are whole, or fail, also where a system call writes or reads a part."""
import io
import itertools
import os
import pathlib
import random
import subprocess
import sys
import time
import unittest
from typing import IO, Any

from warcdx import CompressedArchive
from warcdx.cdx import write_cdx
from warcdx.merging import merge

from .support import PROGRAM, WAIT, Case, lines, packed, resource

FOLDER = pathlib.Path(__file__).resolve().parents[1]
CDX = "com,example)/ 20160919172024 http://example.com/ text/html 200 - - - 1 0 a.warc"


class Pipes(Case):
    def test_a_copy_of_a_pipe_that_ends_with_a_member_is_not_taken_for_the_archive(self) -> None:
        """The file that a pipe is copied to may not grow behind the end of each member, or in one."""
        noise = random.Random(1)
        members = packed(*(resource(number, noise.randbytes(700)) for number in range(5)))
        archive = self.folder / "a.warc.gz"
        archive.write_bytes(b"".join(members))
        os.mkfifo(self.folder / "pipe")
        ends = list(itertools.accumulate(map(len, members)))
        for size in (64, ends[0] - 1, *ends[:-1], ends[2] + 100):
            command = f"prlimit --fsize={size} {sys.executable} {FOLDER}/bin/warcdx-verify --program {PROGRAM}"
            for shell in (f"cat a.warc.gz > pipe & {command} pipe", f"cat a.warc.gz | {command} /dev/stdin"):
                done = subprocess.run(("sh", "-c", shell), cwd=self.folder, capture_output=True, timeout=WAIT)
                self.assertEqual((3, b""), (done.returncode, done.stdout), (size, shell))
                self.assertEqual(b"warcdx-verify: File too large\n", done.stderr, (size, shell))

    def test_a_pipe_is_verified_in_either_form(self) -> None:
        """The name that is shown is the one that was given."""
        os.mkfifo(self.folder / "pipe")
        texts = [resource(0), resource(1)]
        for text, second in ((b"".join(texts), len(texts[0])), (b"".join(packed(*texts)), len(packed(texts[0])[0]))):
            (self.folder / "text").write_bytes(text)
            command = f"{sys.executable} {FOLDER}/bin/warcdx-verify --program {PROGRAM}"
            for shell in (f"cat text > pipe & {command} pipe", f"cat text | {command} /dev/stdin", f"{command} /dev/stdin < text"):
                done = subprocess.run(("sh", "-c", shell), cwd=self.folder, capture_output=True, timeout=WAIT)
                self.assertEqual(f"0 absent absent\n{second} absent absent\n".encode(), done.stdout, shell)
                self.assertRegex(done.stderr, rb"\Awarcdx-verify: (pipe|/dev/stdin): no digest was compared\n\Z")
            (self.folder / "text").write_bytes(text[:-1])
            done = subprocess.run(("sh", "-c", f"cat text > pipe & {command} pipe"), cwd=self.folder, capture_output=True, timeout=WAIT)
            self.assertRegex(done.stdout, rf"\A0 absent absent\nfault {second} [A-Za-z]+\n\Z".encode())


class Limits(Case):
    def limited(self, limit: str, *words: str, given: bytes = b"") -> "tuple[int, bytes, list[str]]":
        """Returns the status, what was said, and what is left in the folder for temporary files."""
        temporary = self.folder / "temporary"
        temporary.mkdir(exist_ok=True)
        command = ("prlimit", limit, str(FOLDER / "bin" / words[0]), "--program", PROGRAM, *words[1:])
        environment = {**os.environ, "TMPDIR": str(temporary)}
        done = subprocess.run(command, cwd=self.folder, input=given, capture_output=True, timeout=WAIT, env=environment)
        return done.returncode, done.stderr, os.listdir(temporary)

    def test_temporary_files_that_can_not_grow_are_said(self) -> None:
        """Only what can be read once is copied to one."""
        self.put(f"{CDX}\n" * 300, "a.cdx")
        for size in (64, 1000, 4096):
            found = self.limited(f"--fsize={size}", "warcdx-cdx", "to", given=lines(100).encode())
            self.assertEqual((3, b"warcdx-cdx: File too large\n", []), found, size)
            self.assertEqual((0, b"", []), self.limited(f"--fsize={size}", "warcdx-cdx", "from", "a.cdx"))

    def test_few_open_files_leave_no_folder(self) -> None:
        for name in ("a.warc.gz", "b.warc.gz"):
            (self.folder / name).write_bytes(b"".join(packed(resource(0), resource(1))))
        index = self.put(lines(3))
        for words in (("warcdx-verify", "--jobs", "2", "a.warc.gz", "b.warc.gz"), ("warcdx-cdx", "to", str(index), "/dev/null")):
            for files in range(5, 20):
                status, said, left = self.limited(f"--nofile={files}", *words)
                self.assertEqual([], left, (words, files))
                self.assertNotIn(b"Traceback", said)


class Partial(io.RawIOBase):
    """An unbuffered file that takes at most seven bytes at a time, and after `most` of them none."""

    def __init__(self, most: int = 1 << 30) -> None:
        self.text, self._most = bytearray(), most

    def writable(self) -> bool:
        return True

    def write(self, data: Any) -> int:
        piece = bytes(data[: min(7, self._most - len(self.text))])
        self.text += piece
        return len(piece)


class Given(Case):
    """Outputs that the package is given may be unbuffered, as that of a process with PYTHONUNBUFFERED is."""

    def written(self, output: "IO[bytes] | Partial", number: int) -> None:
        """Writes what each call writes, by its number."""
        index, archive = self.put(lines(3)), self.folder / "a.warc.gz"
        archive.write_bytes(b"".join(packed(resource(0, bytes(9000)), resource(1))))
        calls = (
            lambda given: merge([index, index], given, program=PROGRAM),
            lambda given: write_cdx([index], given, PROGRAM),
            lambda given: CompressedArchive(archive, program=PROGRAM).index(given),
            lambda given: CompressedArchive(archive, program=PROGRAM).copy(0, given),
        )
        calls[number](output)

    def test_all_is_written(self) -> None:
        for number in range(4):
            wanted, found = io.BytesIO(), Partial()
            self.written(wanted, number)
            self.written(found, number)
            self.assertEqual(wanted.getvalue(), found.text)
            self.assertGreater(len(found.text), 100)
            self.assertRaises(BlockingIOError, self.written, Partial(100), number)

    def test_an_output_stays_open(self) -> None:
        found = Partial()
        self.written(found, 0)
        self.assertFalse(found.closed)


class Waiting(Case):
    """Standard streams that don't wait are waited for, so that a pause isn't taken for the end."""

    def ended(self, words: "tuple[object, ...]", **streams: Any) -> "subprocess.Popen[bytes]":
        return subprocess.Popen((sys.executable, *map(str, words)), cwd=self.folder, **streams)

    def test_an_input_that_pauses_is_read_to_its_end(self) -> None:
        for words, pieces, wanted in (
            ((FOLDER / "bin/warcdx-cdx", "--program", PROGRAM, "from"), [f"{CDX}\n".encode()] * 3, 3),
            ((FOLDER / "bin/warcdx-cdx", "--program", PROGRAM, "to"), [line.encode() for line in lines(3).splitlines(True)], 4),
        ):
            reading_end, writing_end = os.pipe()
            os.set_blocking(reading_end, False)
            process = self.ended(words, stdin=reading_end, stdout=subprocess.PIPE, stderr=subprocess.PIPE)
            os.close(reading_end)
            with open(writing_end, "wb", buffering=0) as pipe:
                for piece in pieces:
                    time.sleep(0.1)
                    pipe.write(piece)
            output, error = process.communicate(timeout=WAIT)
            self.assertEqual((0, b""), (process.returncode, error), words)
            self.assertEqual(wanted, output.count(b"\n"), output)

    def test_an_output_that_is_read_slowly_gets_all(self) -> None:
        (self.folder / "a.warc.gz").write_bytes(b"".join(packed(*map(resource, range(8000)))))
        reading_end, writing_end = os.pipe()
        os.set_blocking(writing_end, False)
        words = (FOLDER / "bin/warcdx-verify", "--program", PROGRAM, "a.warc.gz")
        process = self.ended(words, stdout=writing_end, stderr=subprocess.PIPE)
        os.close(writing_end)
        with open(reading_end, "rb") as pipe:
            time.sleep(0.5)
            output = pipe.read()
        self.assertEqual(b"warcdx-verify: a.warc.gz: no digest was compared\n", process.communicate(timeout=WAIT)[1])
        self.assertEqual((1, 8000), (process.returncode, output.count(b"\n")))


if __name__ == "__main__":
    unittest.main()
