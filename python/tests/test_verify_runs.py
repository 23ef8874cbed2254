"""Runs of warcdx-verify over many archives: --quiet, --resume, and what a terminal shows."""
import gzip
import importlib.util
import json
import os
import pathlib
import pty
import resource
import signal
import subprocess
import sys
import threading
import time
import unittest
from typing import Any

from warcdx.resuming import CannotResume, Notes

from .support import PROGRAM, WAIT, Case, children_of, is_running
from .test_verify import COMMAND, OF_ABC, record

GOOD, BAD = record(b"abc", OF_ABC[5]), record(b"abd", OF_ABC[5])
WARCDX = os.path.abspath(PROGRAM)
FORM = "warcdx-verify --resume 1"


class Runs(Case):
    def put_bytes(self, name: str, text: bytes) -> str:
        (self.folder / name).write_bytes(text)
        return name

    def command(self, *arguments: str) -> tuple[str, ...]:
        return (sys.executable, str(COMMAND), "--program", WARCDX, *arguments)

    def run_command(self, *arguments: str, **more: Any) -> tuple[list[str], list[str], int]:
        """Returns the lines of the output, those of standard error, and the exit status."""
        done = subprocess.run(self.command(*arguments), cwd=self.folder, capture_output=True, text=True, timeout=WAIT, **more)
        return done.stdout.splitlines(), done.stderr.splitlines(), done.returncode

    def noted(self, name: str = "notes") -> list[str]:
        """Returns the names of the archives that are noted."""
        head, *lines = filter(None, (self.folder / name).read_text().splitlines())
        self.assertEqual(FORM, json.loads(head))
        notes = dict(json.loads(line) for line in lines if line.endswith("]"))
        return [os.path.relpath(path, self.folder) for path, note in notes.items() if note is not None]

    def has_noted(self, name: str) -> bool:
        """Returns whether an archive is noted already. The file may not be there, or have a part of a line."""
        try:
            return name in self.noted()
        except (OSError, ValueError):
            return False


def started_below(number: int) -> list[int]:
    """Returns the process IDs of what a process has started, and of what these have."""
    return [each for child in children_of(number) for each in (child, *started_below(child))]


def name_of(number: int) -> str:
    """Returns the name of a process, or an empty text if it has ended (Linux)."""
    try:
        return pathlib.Path(f"/proc/{number}/comm").read_text().strip()
    except OSError:
        return ""


def kill(number: int) -> None:
    if is_running(number):
        os.kill(number, signal.SIGKILL)


class Quiet(Runs):
    def test_nothing_is_said_of_what_is_good(self) -> None:
        names = [self.put_bytes(f"{number}.warc", GOOD * 3) for number in range(3)]
        names.append(self.put_bytes("3.warc.gz", gzip.compress(GOOD, mtime=0) * 3))
        for words in (("--quiet",), ("--quiet", "--jobs", "3"), ("--quiet", "--resume", "notes")):
            self.assertEqual(([], [], 0), self.run_command(*words, *names), words)

    def test_each_fault_is_on_a_line_with_the_name_of_its_file(self) -> None:
        member = gzip.compress(GOOD, mtime=0)
        for name, text in (
            ("good.warc", GOOD), ("bad.warc", GOOD + BAD + GOOD + BAD), ("cut.warc.gz", member + member[:-1]),
            ("a\nb.warc", BAD), ("none.warc", record(b"abc")),
        ):  # fmt: skip
            self.put_bytes(name, text)
        names = ("good.warc", "bad.warc", "cut.warc.gz", "a\nb.warc", "none.warc", "nosuch\n")
        second = len(GOOD)
        found = [
            f"bad.warc: {second} differs absent", f"bad.warc: {second * 3} differs absent",
            f"cut.warc.gz: fault {len(member)} CutMember", '"a\\nb.warc": 0 differs absent',
        ]  # fmt: skip
        said = [
            "warcdx-verify: none.warc: no digest was compared", 'warcdx-verify: "nosuch\\n": cannot open (No such file or directory)',
            "warcdx-verify: 6 archives: 4 at fault, 1 not read",
        ]  # fmt: skip
        self.assertEqual((found, said, 3), self.run_command("--quiet", *names))
        lines, errors, status = self.run_command("--quiet", "--jobs", "4", *names)
        self.assertEqual((sorted(found), sorted(said), 3), (sorted(lines), sorted(errors), status))
        self.assertEqual(said[-1], errors[-1])
        self.assertEqual((found[:2], ["warcdx-verify: 1 archive: 1 at fault"], 1), self.run_command("--quiet", "bad.warc"))

    def test_a_fault_is_printed_while_other_archives_are_read(self) -> None:
        os.mkfifo(self.folder / "pipe")  # which nobody writes
        self.put_bytes("bad.warc", BAD)
        with subprocess.Popen(
            self.command("--quiet", "--jobs", "2", "pipe", "bad.warc"), cwd=self.folder, stdout=subprocess.PIPE
        ) as process:
            assert process.stdout is not None
            timer = threading.Timer(WAIT, process.terminate)
            timer.start()
            self.addCleanup(timer.cancel)
            self.assertEqual(b"bad.warc: 0 differs absent\n", process.stdout.readline())
            process.send_signal(signal.SIGTERM)
            self.assertEqual((b"", -signal.SIGTERM), (process.stdout.read(), process.wait(timeout=WAIT)))

    def test_a_process_that_is_killed_is_said(self) -> None:
        killed = self.script(f'[ "$1" != --help ] || exec {WARCDX} "$@"; kill -9 $$')
        folded = GOOD.replace(b"WARC-Type:", b"WARC-Type:\r\n")  # which only the program reads
        names = [self.put_bytes(f"{number}.warc", folded) for number in range(4)]
        for jobs in ("1", "2"):
            found = self.run_command("--program", killed, "--quiet", "--resume", "notes", "--jobs", jobs, *names)
            said = ["warcdx-verify: warcdx has ended with signal 9", "warcdx-verify: 4 archives: 4 not read"]
            self.assertEqual(([], said, 3), found)
            self.assertEqual([], self.noted())

    def test_a_pipe_that_takes_the_place_of_an_archive(self) -> None:
        """It does so after the archive was opened. That one is read to its end, by this process or by the program."""
        swapping = self.script(f'[ "$1" != --help ] || {{ rm a.warc && mkfifo a.warc; }}; exec {WARCDX} "$@"')
        for text in (GOOD, GOOD.replace(b"WARC-Type:", b"WARC-Type:\r\n")):
            for end, said, status in (
                (b"", ["0 same absent"], 0), (b"WARC/1.0\r\n", ["0 same absent", f"fault {len(text)} ShortHead"], 1),
            ):  # fmt: skip
                self.put_bytes("a.warc", text + end)
                self.assertEqual((said, [], status), self.run_command("--program", swapping, "a.warc"))
                os.remove(self.folder / "a.warc")

    def test_processes_end_with_a_command_that_is_killed(self) -> None:
        """One copies a pipe, and one waits for the program. They leave no file."""
        temporary = self.folder / "temporary"
        temporary.mkdir()
        os.mkfifo(self.folder / "pipe")
        self.put_bytes("a.warc", GOOD.replace(b"WARC-Type:", b"WARC-Type:\r\n"))  # which only the program reads
        waiting = self.script(f'[ "$1" != --help ] || exec {WARCDX} "$@"; exec sleep {2 * WAIT}')
        command = self.command("--program", waiting, "--jobs", "2", "pipe", "a.warc", "pipe")
        with subprocess.Popen(command, cwd=self.folder, env={**os.environ, "TMPDIR": str(temporary)}) as process:
            self.wait_for(lambda: "sleep" in map(name_of, started_below(process.pid)))
            self.addCleanup(os.close, os.open(self.folder / "pipe", os.O_WRONLY))
            started = started_below(process.pid)
            for each in started:
                self.addCleanup(kill, each)
            process.kill()
        self.assertEqual(3, len(started))
        self.wait_for(lambda: not any(map(is_running, started)))
        self.assertEqual([], os.listdir(temporary))

    def test_more_archives_than_files_may_be_open(self) -> None:
        """All but the first one are read before it, and their lines wait for its lines."""
        text = GOOD.replace(b"WARC-Type:", b"WARC-Type:\r\n")
        names = [self.put_bytes(f"{number}.warc", GOOD if number else text) for number in range(150)]
        slow = self.script(f'[ "$1" = --help ] || sleep 2; exec {WARCDX} "$@"')
        limit = {"preexec_fn": lambda: resource.setrlimit(resource.RLIMIT_NOFILE, (100, 100))}
        wanted = [line for name in names for line in (f"{name}:", "0 same absent")]
        self.assertEqual((wanted, [], 0), self.run_command("--program", slow, "--jobs", "4", *names, **limit))

    def test_a_message_that_is_longer_than_a_pipe_holds(self) -> None:
        """So is that of the names of many files, if they are in quotes."""
        names = ["n" * 70_000, "\1" * 20_000]
        lines, said, status = self.run_command("--jobs", "2", *names)
        self.assertEqual(([], 3), (lines, status))
        self.assertEqual([f"warcdx-verify: {name}: cannot open (File name too long)" for name in (names[0], json.dumps(names[1]))], said)

    def on_terminal(self, *arguments: str) -> tuple[str, int]:
        """Returns what a terminal shows, and the exit status."""
        terminal, end = pty.openpty()
        environment = {**os.environ, "PYTHONPATH": str(self.folder)}  # where a test may put another tqdm
        process = subprocess.Popen(self.command(*arguments), cwd=self.folder, stdout=end, stderr=end, env=environment)
        os.close(end)
        shown = b""
        try:
            while piece := os.read(terminal, 1 << 16):
                shown += piece
        except OSError:  # so ends a terminal
            os.close(terminal)
        return shown.decode(), process.wait(timeout=WAIT)

    @unittest.skipIf(importlib.util.find_spec("tqdm") is None, "the module tqdm is missing")
    def test_a_terminal_shows_how_far_it_is(self) -> None:
        names = [self.put_bytes(f"{number}.warc", GOOD) for number in range(2)]
        names.append(self.put_bytes("bad.warc", BAD))
        for jobs in ("1", "2"):
            shown, status = self.on_terminal("--quiet", "--jobs", jobs, *names)
            self.assertEqual(1, status)
            self.assertIn("\rbad.warc: 0 differs absent\r\n", shown)  # the bar isn't before it
            self.assertTrue(shown.endswith("\rwarcdx-verify: 3 archives: 1 at fault\r\n"), shown)
            self.assertIn("3 archives:   0%", shown)

    def test_a_terminal_shows_lines_without_tqdm(self) -> None:
        self.put("raise ImportError", "tqdm.py")
        names = [self.put_bytes("0.warc", GOOD), self.put_bytes("1.warc", GOOD)]
        found = "warcdx-verify: 1 of 2 archives, 50 %\r\nwarcdx-verify: 2 of 2 archives, 100 %\r\n"
        self.assertEqual((found, 0), self.on_terminal("--quiet", "--resume", "notes", *names))
        self.assertEqual(("", 0), self.on_terminal("--quiet", "--resume", "notes", *names))

    def test_a_terminal_that_shows_each_record_has_no_bar(self) -> None:
        names = [self.put_bytes("0.warc", GOOD), self.put_bytes("1.warc", GOOD), self.put_bytes("bad.warc", BAD)]
        self.assertEqual(
            ("bad.warc: 0 differs absent\r\nwarcdx-verify: 1 archive: 1 at fault\r\n", 1), self.on_terminal("--quiet", names[2])
        )
        shown, status = self.on_terminal("--jobs", "2", *names)
        self.assertEqual("0.warc:\r\n0 same absent\r\n1.warc:\r\n0 same absent\r\nbad.warc:\r\n0 differs absent\r\n", shown)


class Resume(Runs):
    def test_good_archives_are_passed_over_until_they_change(self) -> None:
        for name, text in (("a.warc", GOOD), ("b.warc", BAD), ("c.warc", record(b"abc")), ("d.warc.gz", gzip.compress(GOOD, mtime=0))):
            self.put_bytes(name, text)
        words = ("--resume", "notes", "a.warc", "b.warc", "c.warc", "d.warc.gz")
        first = self.run_command(*words)
        self.assertEqual((["a.warc", "d.warc.gz"], 1), (self.noted(), first[2]))
        rest = ["b.warc:", "0 differs absent", "c.warc:", "0 absent absent"]
        said = ["warcdx-verify: c.warc: no digest was compared", "warcdx-verify: 4 archives: 2 at fault, 2 known to be good"]
        self.assertEqual((rest, said, 1), self.run_command(*words))
        self.assertEqual((["0 same absent"], [], 0), self.run_command("a.warc"))
        self.assertEqual(([], ["warcdx-verify: 1 archive: 1 known to be good"], 0), self.run_command("--resume", "notes", "a.warc"))
        self.assertEqual(([], [], 0), self.run_command("--quiet", "--resume", "notes", "a.warc", "./d.warc.gz"))
        times = os.stat(self.folder / "a.warc").st_mtime_ns
        self.put_bytes("a.warc", GOOD[:-20] + b"X" * 16 + GOOD[-4:])
        os.utime(self.folder / "a.warc", ns=(times, times + 4_000_000_000))  # a difference that any file system keeps
        self.assertEqual(1, self.run_command(*words)[2])
        self.assertEqual(["d.warc.gz"], self.noted())
        self.put_bytes("a.warc", GOOD)
        self.run_command("--jobs", "3", *words)
        self.assertEqual(["a.warc", "d.warc.gz"], sorted(self.noted()))

    def test_notes_of_other_archives_stay(self) -> None:
        for name in ("a.warc", "b.warc"):
            self.put_bytes(name, GOOD)
            self.assertEqual(0, self.run_command("--resume", "notes", name)[2])
        os.remove(self.folder / "a.warc")
        self.assertEqual(0, self.run_command("--resume", "notes", "b.warc")[2])
        self.assertEqual(["a.warc", "b.warc"], self.noted())

    def test_a_worker_that_is_killed_is_said_and_the_others_are_noted(self) -> None:
        os.mkfifo(self.folder / "pipe")  # which nobody writes
        self.put_bytes("a.warc", GOOD)
        command = self.command("--quiet", "--resume", "notes", "--jobs", "2", "a.warc", "pipe")
        with subprocess.Popen(command, cwd=self.folder, stdout=subprocess.PIPE, stderr=subprocess.PIPE) as process:
            self.wait_for(lambda: self.has_noted("a.warc") and len(children_of(process.pid)) == 1)
            for child in children_of(process.pid):
                os.kill(child, signal.SIGKILL)
            found, said = process.communicate(timeout=WAIT)
        self.assertEqual((b"", 3), (found, process.returncode))
        lines = said.decode().splitlines()
        self.assertEqual(["warcdx-verify: a process has ended with signal 9", "warcdx-verify: 2 archives: 1 not read"], lines)
        self.assertEqual(["a.warc"], self.noted())

    def test_archives_that_are_given_twice(self) -> None:
        self.put_bytes("a.warc", GOOD)
        for jobs in ("1", "3"):
            self.assertEqual(
                ([], [], 0), self.run_command("--quiet", "--resume", f"notes{jobs}", "--jobs", jobs, *["a.warc", "./a.warc"] * 3)
            )
            self.assertEqual(["a.warc"], self.noted(f"notes{jobs}"))

    def test_a_run_that_is_broken_off_has_noted_what_it_has_read(self) -> None:
        os.mkfifo(self.folder / "pipe")  # which nobody writes
        self.put_bytes("a.warc", GOOD)
        for words in (("a.warc", "pipe"), ("--jobs", "2", "pipe", "a.warc")):
            process = subprocess.Popen(self.command("--quiet", "--resume", "notes", *words), cwd=self.folder)
            self.wait_for(lambda: self.has_noted("a.warc"))
            time.sleep(0.2)  # so that it waits for the pipe
            process.terminate()
            self.assertEqual(-signal.SIGTERM, process.wait(timeout=WAIT))
            self.assertEqual(["a.warc"], self.noted())
            self.assertEqual({"a.warc", "notes", "pipe"}, set(os.listdir(self.folder)))
            os.remove(self.folder / "notes")

    def test_other_files_stay_as_they_are(self) -> None:
        self.put_bytes("a.warc", GOOD)
        self.put_bytes("b.warc", GOOD)
        for text in (GOOD, b"x" * 200_000, b"[" * 60_000, b"[1, 2]\n", f'["{FORM}"]\n'.encode(), f'"{FORM}"'.encode(), b"\n"):
            self.put_bytes("notes", text)
            with self.assertRaisesRegex(CannotResume, "isn't a file of --resume"):
                Notes(str(self.folder / "notes"))
            self.assertEqual(text, (self.folder / "notes").read_bytes())
        found = self.run_command("--resume", "b.warc", "a.warc")
        self.assertEqual(([], ["warcdx-verify: b.warc isn't a file of --resume, and stays as it is: give another name"], 3), found)
        self.assertEqual({"a.warc", "b.warc", "notes"}, set(os.listdir(self.folder)))
        self.assertEqual(GOOD, (self.folder / "b.warc").read_bytes())

    def test_damaged_notes_are_passed_over(self) -> None:
        """Those after them count, also if one was cut."""
        names = [str(self.folder / self.put_bytes(name, GOOD)) for name in ("a.warc", "b.warc")]
        first = Notes(str(self.folder / "notes"))
        for number, name in enumerate(names):
            first.begin(number, name)
            first.end(number, name, True)
            first.save()
        head, _, *notes = (self.folder / "notes").read_bytes().split(b"\n")
        wrong = (
            b"",
            b"[" * 60_000,
            b"\xff",
            b"1",
            b"null",
            b"{}",
            b'["/a", 1]',
            b"[[], null]",
            b'["/a", [1, 2]]',
            b"[1, [1, 2, 3]]",
            b"[]",
        )
        for note in (*wrong, notes[0][:-1], b"x" * 200_000):
            (self.folder / "notes").write_bytes(b"\n".join((head, note, notes[1])))
            found = Notes(str(self.folder / "notes"))
            self.assertEqual([False, True], list(map(found.has, names)), note[:40])

    def test_what_can_not_hold_notes_is_said_before_anything_is_read(self) -> None:
        self.put_bytes("a.warc", GOOD)
        os.mkfifo(self.folder / "pipe")
        for name, said in (
            (".", ". isn't a regular file"), ("pipe", "pipe isn't a regular file"),
            ("nosuch/notes", "nosuch/notes: No such file or directory"), ("a.warc/notes", "a.warc/notes: Not a directory"),
            ("/proc/notes\n", '"/proc/notes\\n": No such file or directory'), ("n" * 300, f"{'n' * 300}: File name too long"),
            ("/dev/full", "/dev/full isn't a regular file"),
        ):  # fmt: skip
            self.assertEqual(([], [f"warcdx-verify: {said}"], 3), self.run_command("--resume", name, "a.warc"), name)
        limit = {"preexec_fn": lambda: resource.setrlimit(resource.RLIMIT_FSIZE, (0, 0))}
        self.assertEqual(
            ([], ["warcdx-verify: notes: File too large"], 3), self.run_command("--quiet", "--resume", "notes", "a.warc", **limit)
        )
        self.assertEqual({"a.warc", "pipe", "notes"}, set(os.listdir(self.folder)))
        self.assertEqual(0, self.run_command("--quiet", "--resume", "notes", "a.warc")[2])

    def test_a_disk_that_gets_full_loses_notes_and_no_verdict(self) -> None:
        names = [self.put_bytes(f"{number}.warc", GOOD) for number in range(5)] + [self.put_bytes("bad.warc", BAD)]
        limit = {"preexec_fn": lambda: resource.setrlimit(resource.RLIMIT_FSIZE, (40, 40))}
        found = self.run_command("--quiet", "--resume", "notes", *names[:-1], **limit)
        self.assertEqual(([], ["warcdx-verify: notes: File too large"], 3), found)
        for jobs in ("1", "2"):
            found = self.run_command("--quiet", "--resume", "notes", "--jobs", jobs, *names, **limit)
            said = ["warcdx-verify: notes: File too large", "warcdx-verify: 6 archives: 1 at fault"]
            self.assertEqual((["bad.warc: 0 differs absent"], said, 3), found)
            self.assertEqual([], self.noted())

    def test_nothing_is_noted_of_an_archive_that_was_changed_while_it_was_read(self) -> None:
        path = self.folder / "a.warc"
        path.write_bytes(GOOD)
        notes = Notes(str(self.folder / "notes"))
        for change in (
            lambda: path.write_bytes(GOOD * 2), lambda: os.utime(path, ns=(1, 1)), lambda: path.unlink(),
            lambda: path.write_bytes(GOOD), lambda: (path.rename(self.folder / "b"), path.write_bytes(GOOD)),
            lambda: (path.write_bytes(GOOD[:-1]), os.utime(path, ns=(1, 1)), path.write_bytes(GOOD), os.utime(path, ns=(1, 1))),
        ):  # fmt: skip
            self.wait_for_a_later_time()
            notes.begin(0, str(path))
            change()
            notes.end(0, str(path), True)
            self.assertFalse(notes.has(str(path)))
        os.utime(path, ns=(1, 1))
        self.wait_for_a_later_time()
        notes.begin(0, str(path))
        path.write_bytes(BAD)
        os.utime(path, ns=(1, 1))  # so that only the time of the inode differs
        notes.end(0, str(path), True)
        self.assertFalse(notes.has(str(path)))
        notes.begin(0, str(path))
        notes.end(0, str(path), True)
        self.assertTrue(notes.has(str(path)))

    def test_what_others_write_meanwhile_stays(self) -> None:
        path = str(self.folder / "notes")
        names = [str(self.folder / self.put_bytes(name, GOOD)) for name in ("a.warc", "b.warc")]
        runs = [Notes(path), Notes(path)]
        for notes, name in zip(runs, names):
            notes.begin(0, name)
            notes.end(0, name, True)
            notes.save()
        self.assertEqual(["a.warc", "b.warc"], sorted(self.noted()))
        runs[1].begin(0, names[0])
        runs[1].end(0, names[0], False)
        runs[1].save()
        self.assertEqual(["b.warc"], self.noted())

    def test_an_archive_that_stays_at_fault_adds_no_line(self) -> None:
        self.put_bytes("a.warc", GOOD)
        self.put_bytes("b.warc", BAD)
        for _ in range(3):
            self.assertEqual(1, self.run_command("--quiet", "--resume", "notes", "a.warc", "b.warc")[2])
            self.assertEqual(3, len((self.folder / "notes").read_text().splitlines()))

    def test_a_link_to_notes_stays_one(self) -> None:
        os.symlink("notes", self.folder / "link")
        self.put_bytes("a.warc", GOOD)
        for _ in range(2):
            self.assertEqual(0, self.run_command("--resume", "link", "a.warc")[2])
            self.assertEqual(["a.warc"], self.noted())
            self.assertTrue((self.folder / "link").is_symlink())


if __name__ == "__main__":
    unittest.main()
