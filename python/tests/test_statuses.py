"""The exit statuses of programs where the system keeps none: SIGCHLD is ignored, or another part of a process takes them."""
import os
import pathlib
import pickle
import signal
import subprocess
import sys
import textwrap
import threading
import unittest
from collections.abc import Callable

from warcdx import Archive, CompressedArchive, ProgramEnded
from warcdx.errors import NO_STATUS
from warcdx.program import Process, find_program

from .support import PROGRAM, WAIT, Case, lines, packed, resource

FOLDER = pathlib.Path(__file__).resolve().parents[1]
CUT = resource(1, bytes(100))[:-20]


def ignore_children() -> None:
    signal.signal(signal.SIGCHLD, signal.SIG_IGN)


class Commands(Case):
    """What a command says and how it ends are the same if its starter ignores SIGCHLD."""

    def test_no_fault_is_lost_if_the_starter_ignores_ended_children(self) -> None:
        for name, text in (
            ("cut.warc", resource(0) + CUT),
            ("cut.warc.gz", b"".join(packed(resource(0), CUT))),
            ("good.warc.gz", b"".join(packed(resource(0), resource(1)))),
            ("bad.cdxj", b"com,example)/ x\n"),
            ("bad.cdx", b"x y\n"),
        ):
            (self.folder / name).write_bytes(text)
        for words, wanted in (
            (("warcdx-cdx", "to", "bad.cdxj"), 1),
            (("warcdx-cdx", "from", "bad.cdx"), 1),
            (("warcdx-verify", "cut.warc"), 1),
            (("warcdx-verify", "cut.warc.gz"), 1),
            (("warcdx-verify", "--jobs", "2", "cut.warc", "good.warc.gz"), 1),
        ):
            usual = self.ended(words, None)
            self.assertEqual(wanted, usual.returncode, (words, usual.stderr))
            ignored = self.ended(words, ignore_children)
            for each in ("returncode", "stdout", "stderr"):
                self.assertEqual(getattr(usual, each), getattr(ignored, each), words)

    def ended(self, words: "tuple[str, ...]", before: "Callable[[], None] | None") -> "subprocess.CompletedProcess[bytes]":
        command = (FOLDER / "bin" / words[0], "--program", PROGRAM, *words[1:])
        return subprocess.run(command, cwd=self.folder, preexec_fn=before, capture_output=True, timeout=WAIT)

    def test_processes_that_the_command_has_not_started_do_not_concern_it(self) -> None:
        """A shell that becomes the command leaves it what it has started."""
        for name in ("a.warc.gz", "b.warc.gz"):
            (self.folder / name).write_bytes(b"".join(packed(resource(0))))
        shell = f'sleep 0.2 & sleep 0 & exec {FOLDER}/bin/warcdx-verify --program "$0" --jobs 2 a.warc.gz b.warc.gz'
        done = subprocess.run(("sh", "-c", shell, PROGRAM), cwd=self.folder, capture_output=True, timeout=WAIT)
        self.assertEqual(b"a.warc.gz:\n0 absent absent\nb.warc.gz:\n0 absent absent\n", done.stdout)
        self.assertEqual((1, 2), (done.returncode, done.stderr.count(b"\n")), done.stderr)


class Package(Case):
    """In a process that ignores SIGCHLD nothing succeeds whose success isn't known."""

    def ended_without_status(self, code: str, *paths: object) -> str:
        """Returns what each line of code raises in such a process."""
        text = (
            "import io, os, signal, sys\n"
            "import warcdx\n"
            "from warcdx import Archive, CompressedArchive, Index\n"
            "from warcdx.cdx import write_cdx\n"
            "from warcdx.merging import merge\n"
            "signal.signal(signal.SIGCHLD, signal.SIG_IGN)\n"
            "program, path, out = sys.argv[1], sys.argv[2], io.BytesIO()\n"
            "try:\n"
            f"{textwrap.indent(code, '    ')}\n"
            "except warcdx.Error as error:\n"
            "    print(type(error).__name__, getattr(error, 'status', ''))\n"
            "else:\n"
            "    print('success')\n"
        )
        command = (sys.executable, "-c", text, PROGRAM, *map(str, paths))
        return subprocess.run(command, cwd=FOLDER, stdout=subprocess.PIPE, text=True, timeout=WAIT, check=True).stdout.rstrip()

    def test_success_is_never_taken_for_granted(self) -> None:
        good, packed_good = self.folder / "good.warc", self.folder / "good.warc.gz"
        good.write_bytes(resource(0) + resource(1))
        packed_good.write_bytes(b"".join(packed(resource(0), resource(1))))
        index = self.put(lines(3))
        lost = f"ProgramEnded {NO_STATUS}"
        for code, path in (
            ("list(Archive(path, program=program).list())", good),
            ("Archive(path, program=program).get(0)", good),
            ("Archive(path, program=program).verdict(0)", good),
            ("list(CompressedArchive(path, program=program).list())", packed_good),
            ("CompressedArchive(path, program=program).index(out)", packed_good),
            ("CompressedArchive(path, program=program).verdict(0)", packed_good),
            ("merge([path], out, program=program)", index),
            ("write_cdx([path], out, program)", index),
        ):
            self.assertEqual(lost, self.ended_without_status(code, path), code)

    def test_faults_and_answers_are_as_usual(self) -> None:
        cut, index, bad = self.folder / "cut.warc", self.put(lines(3)), self.put("com,example)/ x\n", "bad")
        cut.write_bytes(resource(0) + CUT)
        for code, path, wanted in (
            ("list(Archive(path, program=program).list())", cut, "ShortBlock"),
            ("Archive(path, program=program).get(7)", cut, "NoRecord"),
            ("merge([path], out, program=program)", bad, "BadLine"),
            ("Index(path, program=program).count('key=&matchType=prefix')", bad, "BadLine"),
            ("assert Index(path, program=program).count('key=&matchType=prefix') == 3", index, "success"),
        ):
            self.assertEqual(wanted, self.ended_without_status(code, path).strip(), code)

    def test_a_status_that_another_part_of_the_process_has_taken_is_not_0(self) -> None:
        process = Process(("true",))
        os.waitpid(process.pid, 0)
        self.assertEqual((NO_STATUS, NO_STATUS), (process.poll(), process.wait()))

    def test_a_status_is_taken_once_by_one_of_several_threads(self) -> None:
        for number in range(50):
            process, found = Process(("sh", "-c", f"exit {number}")), []
            threads = [threading.Thread(target=lambda: found.append(process.wait())) for _ in range(3)]
            for thread in threads:
                thread.start()
            process.kill()
            for thread in threads:
                thread.join(WAIT)
            self.assertIn(set(found), ({number}, {-signal.SIGKILL}))
            self.assertEqual(3, len(found))

    def test_the_message_says_what_is_missing(self) -> None:
        self.assertEqual(
            "warcdx has ended, and the system has no exit status of it, as if SIGCHLD is ignored", str(ProgramEnded(NO_STATUS, ""))
        )
        self.assertEqual("warcdx has ended with exit status 3: x", str(ProgramEnded(3, "x\n")))

    def test_the_message_names_the_program(self) -> None:
        for name, kind in (("warcdx", Archive), ("warcdx-gz", CompressedArchive)):
            program = os.path.join(os.path.dirname(find_program(PROGRAM)), name)
            killed = self.script(f'[ "$1" != --help ] || exec {program} "$@"; kill -9 $$')
            os.rename(killed, self.folder / f"{name}-1")  # whatever the name of its file is
            archive = kind(self.put("x"), program=str(self.folder / f"{name}-1"))
            ended = self.raises(ProgramEnded, list, archive.list())
            self.assertEqual(f"{name} has ended with signal 9", str(ended))
            self.assertEqual((-9, name), (ended.status, ended.program))
            self.assertEqual(str(ended), str(pickle.loads(pickle.dumps(ended))))


if __name__ == "__main__":
    unittest.main()
