"""Programs that end, threads, and clients that take their time."""
import gzip
import os
import pathlib
import queue
import select
import signal
import subprocess
import sys
import threading
import time
import unittest
from types import FrameType
from typing import Any

from warcdx import Index, ProgramEnded, ProgramError, ProgramMissing, ProgramTooOld, ReplyTooLate
from warcdx.query import Query

from .support import ALL, PROGRAM, SAMPLES, WAIT, Case, children_of, is_running, lines, processes_of, resource

ROOT = pathlib.Path(__file__).resolve().parents[1]
# Asks an index again and again, and is interrupted as often, at any place.
INTERRUPTED = """
import random, signal, sys
sys.path.insert(0, sys.argv[1])
import warcdx

def interrupt(number, frame):
    raise KeyboardInterrupt

signal.signal(signal.SIGALRM, interrupt)
choice, index = random.Random(1), warcdx.Index(sys.argv[2], program=sys.argv[3])
for _ in range(150):
    try:
        signal.setitimer(signal.ITIMER_REAL, choice.uniform(0.0002, 0.004))
        while True:
            index.count(limit=1)
    except KeyboardInterrupt:
        pass
assert index.count() == 3
index.close()
"""


class Programs(Case):
    def test_a_missing_program_is_named(self) -> None:
        for name in (str(self.folder / "nosuch"), "warcdx-nosuch", str(self.folder)):
            self.assertIn(name, str(self.raises(ProgramMissing, Index, "index", program=name)))

    def test_another_program_is_not_taken(self) -> None:
        for text in ("echo another 1.0.0", "exit 1", "echo xwarcdx 1.0.0"):
            self.raises(ProgramMissing, Index, "index", program=self.script(text))

    def test_a_program_that_can_not_run_is_named(self) -> None:
        path = self.script("")
        with open(path, "w") as file:
            file.write("#!/nosuch\n")
        self.raises(ProgramMissing, Index, "index", program=path)

    def test_an_old_program_is_named(self) -> None:
        path = self.script("echo 'warcdx 0.0.9: of old'")
        self.assertIn("0.0.9", str(self.raises(ProgramTooOld, Index, "index", program=path)))
        newer = self.script(f'exec "{PROGRAM}" "$@"')
        self.assertEqual(0, len(processes_of(self.open(self.put(""), program=newer))))

    def test_a_program_that_is_killed_while_idle_is_started_again(self) -> None:
        index = self.open(self.put(lines(3)))
        self.assertEqual(3, index.count(ALL))
        for _ in range(3):
            os.kill(processes_of(index)[0], signal.SIGKILL)
            time.sleep(0.05)
            self.assertEqual(3, index.count(ALL))

    def test_a_program_that_is_killed_in_a_reply_has_ended(self) -> None:
        """The program writes a part of a page, and waits."""
        text = '[ "$1" = serve ] || exec "%s" "$@"\nread query\nprintf \'[["offset"],\\n["1"],\\n["2\'\nkill -9 $$'
        index = self.open(self.put(lines(3)), program=self.script(text % PROGRAM))
        for _ in range(3):
            self.assertEqual(-signal.SIGKILL, self.raises(ProgramEnded, index.count, ALL).status)

    def test_a_query_whose_program_is_killed_is_asked_once_more(self) -> None:
        """The first run writes a part of a page. The second one answers."""
        text = '[ "$1" = serve ] || exec "%s" "$@"\nmkdir "$0.first" 2> /dev/null || exec "%s" "$@"\n'
        ends = ('read query\nprintf \'[["offset"],\\n["1"],\'\nkill -9 $$', "kill -9 $$", "read query; exit 0")
        for number, end in enumerate(ends):
            folder = self.folder / str(number)
            folder.mkdir()
            program = folder / "program"
            program.write_text("#!/bin/sh\n" + text % (PROGRAM, PROGRAM) + end)
            program.chmod(0o755)
            index = self.open(self.put(lines(3)), program=str(program))
            with self.subTest(end):
                self.assertEqual([0, 1, 2], [capture.offset for capture in index.captures(ALL)])
                self.assertTrue((folder / "program.first").exists())

    def test_each_page_of_an_iterator_survives_a_killed_program(self) -> None:
        index = self.open(self.put(lines(3000)))
        found: list[int] = []
        for capture in index.captures(ALL, page_size=100):
            if len(found) % 100 == 50:
                os.kill(processes_of(index)[0], signal.SIGKILL)
            found.append(capture.offset)
        self.assertEqual(list(range(3000)), found)

    def test_a_program_ends_with_the_process_that_started_it(self) -> None:
        """One that is idle, one in a long reply, and two that list an archive and wait until more is read."""
        index = self.put(lines(20_000))
        plain, packed = self.folder / "a.warc", self.folder / "a.warc.gz"
        plain.write_bytes(resource(1) * 20_000)
        packed.write_bytes(gzip.compress(resource(1), mtime=0) * 20_000)
        opened = f"index = warcdx.Index({str(index)!r}, program={PROGRAM!r})\n"
        for text in (
            f"{opened}index.count({ALL!r})",
            f"{opened}reply = index.stream({ALL!r}); next(reply)",
            f"listed = warcdx.open_archive({str(plain)!r}, program={PROGRAM!r}).list(); next(listed)",
            f"listed = warcdx.open_archive({str(packed)!r}, program={PROGRAM!r}).list(); next(listed)",
        ):
            code = f"import sys, warcdx\n{text}\nprint(flush=True)\nsys.stdin.read()"
            command = (sys.executable, "-c", code)
            with subprocess.Popen(command, cwd=ROOT, stdin=subprocess.PIPE, stdout=subprocess.PIPE) as asking:
                assert asking.stdout is not None
                self.assertEqual(b"\n", asking.stdout.readline(), text)
                (program,) = children_of(asking.pid)
                self.assertTrue(is_running(program), text)
                asking.kill()
            self.wait_for(lambda: not is_running(program))

    def test_an_index_that_is_not_closed_leaves_nothing(self) -> None:
        path = self.put(lines(3000))
        before = len(os.listdir("/proc/self/fd")), children_of(os.getpid())
        for _ in range(20):
            index = Index(path, program=PROGRAM)
            next(index.captures(ALL))
            del index
        self.assertEqual(before, (len(os.listdir("/proc/self/fd")), children_of(os.getpid())))

    def test_a_program_outlives_a_forked_process_that_drops_the_index(self) -> None:
        index = Index(self.put(lines(3)), program=PROGRAM)
        self.addCleanup(index.close)
        self.assertEqual(3, index.count(ALL))
        (program,) = processes_of(index)
        forked = os.fork()
        if not forked:
            index._idle.pop()
            os._exit(0)
        self.assertEqual(0, os.waitpid(forked, 0)[1])
        self.assertEqual(3, index.count(ALL))
        self.assertEqual([program], processes_of(index))

    def test_an_index_answers_however_often_it_was_interrupted(self) -> None:
        words = (sys.executable, "-c", INTERRUPTED, ROOT, self.put(lines(3)), os.path.abspath(PROGRAM))
        self.assertEqual(0, subprocess.run(words, timeout=WAIT).returncode)

    def test_standard_streams_may_be_closed(self) -> None:
        """As in a service: the files of an index have the numbers of these then."""
        (self.folder / "archives").mkdir()
        (self.folder / "archives/a.warc").write_bytes(resource(0) + resource(1))
        update = (sys.executable, ROOT / "bin/warcdx-update", "--program", os.path.abspath(PROGRAM), "--quiet")
        subprocess.run((*update, self.folder / "archives", self.folder / "index.d"), check=True)
        code = (
            "import os, sys\nsys.path.insert(0, sys.argv[1])\nimport warcdx\nos.closerange(0, 3)\n"
            "with warcdx.Collection(sys.argv[2], sys.argv[3], program=sys.argv[4]) as collection:\n"
            "    found = len(list(collection.records())), collection.index.count()\n"
            "os._exit(found != (2, 2))\n"
        )
        names = (self.folder / "index.d", self.folder / "archives", os.path.abspath(PROGRAM))
        self.assertEqual(0, subprocess.call((sys.executable, "-c", code, ROOT, *names), timeout=WAIT))

    def test_a_program_has_no_descriptor_of_who_started_this_process(self) -> None:
        """Else the reader of a pipe, or the client of a connection, would wait for the end of the program too."""
        reading_end, writing_end = os.pipe()
        os.set_inheritable(writing_end, True)
        with open(reading_end, "rb") as pipe:
            index = self.open(self.put(lines(3)))
            self.assertEqual(3, index.count(ALL))
            os.close(writing_end)
            self.assertEqual([pipe], select.select([pipe], [], [], WAIT)[0])
            self.assertEqual(b"", pipe.read())
            self.assertEqual(1, len(processes_of(index)))

    def test_a_query_needs_no_temporary_file_and_no_module_of_a_command(self) -> None:
        code = (
            f"import sys, warcdx\nindex = warcdx.Index({str(self.put(lines(3)))!r}, program={PROGRAM!r})\n"
            f"assert index.count({ALL!r}) == 3\n"
            f"list(warcdx.open_archive({str(SAMPLES / 'wget.warc')!r}, program={PROGRAM!r}))\n"
            "print(*sorted({'argparse', 'ctypes', 'pathlib', 'tempfile', 'warcdx.command'} & set(sys.modules)))"
        )
        done = subprocess.run((sys.executable, "-c", code), cwd=ROOT, stdout=subprocess.PIPE, check=True)
        self.assertEqual(b"\n", done.stdout)

    def test_a_late_reply_ends_its_program(self) -> None:
        text = f'[ "$1" = serve ] || exec "{PROGRAM}" "$@"\nread query\necho "["\nexec sleep {WAIT}'
        index = self.open(self.put(lines(3)), program=self.script(text), seconds=0.2)
        start = time.monotonic()
        for _ in range(2):
            self.raises(ReplyTooLate, index.text, ALL)
        self.raises(ReplyTooLate, index.count, ALL)
        self.assertLess(time.monotonic() - start, WAIT)

    def test_what_is_called_while_a_reply_is_waited_for_can_end_it(self) -> None:
        text = f'[ "$1" = serve ] || exec "{PROGRAM}" "$@"\nread query\nexec sleep {WAIT}'
        index = self.open(self.put(lines(3)), program=self.script(text), seconds=WAIT)
        calls: list[None] = []

        def waits() -> None:
            calls.append(None)
            if len(calls) == 2:
                raise KeyError

        index.waits = waits
        start = time.monotonic()
        self.raises(KeyError, index.text, ALL)
        self.assertLess(time.monotonic() - start, WAIT / 2)
        self.assertEqual([], children_of(os.getpid()))

    def test_a_program_that_reads_no_query_is_late(self) -> None:
        text = f'[ "$1" = serve ] || exec "{PROGRAM}" "$@"\nexec sleep {WAIT}'
        index = self.open(self.put(lines(3)), program=self.script(text), seconds=0.2)
        self.raises(ReplyTooLate, index.text, "url=" + "a" * 200_000)

    def test_a_program_that_closes_its_pipes_has_ended(self) -> None:
        for closed in ("exec <&-; sleep 0.1; exit 7", "exec >&-; cat > /dev/null; exit 7", "exit 7"):
            text = f'[ "$1" = serve ] || exec "{PROGRAM}" "$@"\n{closed}'
            index = self.open(self.put(lines(3)), program=self.script(text))
            self.assertEqual(7, self.raises(ProgramEnded, index.count, ALL).status)

    def test_a_reply_that_is_none_is_an_error_of_the_program(self) -> None:
        text = f'[ "$1" = serve ] || exec "{PROGRAM}" "$@"\nread query; read end; printf "nothing\\n.\\nrefused NoUrl\\n.\\n"; cat'
        index = self.open(self.put(lines(3)), program=self.script(text))
        self.assertIn("has replied b'nothing'", str(self.raises(ProgramError, index.count, ALL)))

    def test_what_an_ended_program_has_said_is_kept(self) -> None:
        text = f'[ "$1" = serve ] || exec "{PROGRAM}" "$@"\nhead -c 200000 /dev/zero | tr "\\0" x >&2; exit 4'
        index = self.open(self.put(lines(3)), program=self.script(text))
        self.assertEqual("x" * 200_000, self.raises(ProgramEnded, index.count, ALL).said)

    def test_an_index_answers_after_an_interrupt_before_its_turn(self) -> None:
        """The interrupt comes between any two lines with which a query waits for its turn, as in a notebook."""
        index, points, at = self.open(self.put(lines(3))), 0, 1

        def trace(frame: FrameType, event: str, argument: Any) -> Any:
            nonlocal points
            is_waiting = frame.f_code is waiting or frame.f_code.co_filename in (queue.__file__, threading.__file__)
            points += event == "line" and is_waiting
            if points == at:
                raise KeyboardInterrupt
            return trace if is_waiting else None

        waiting = Index._turn.__wrapped__.__code__  # type: ignore[attr-defined]
        while at < 100:
            points, usual, is_whole = 0, sys.gettrace(), False
            sys.settrace(trace)
            try:
                with index._turn(Query(())):
                    sys.settrace(usual)
                    is_whole = True
            except KeyboardInterrupt:
                pass
            finally:
                sys.settrace(usual)
            found = list[int]()
            thread = threading.Thread(target=lambda: found.append(index.count(ALL)), daemon=True)
            thread.start()
            thread.join(WAIT)
            self.assertEqual([3], found, at)
            if is_whole:
                break
            at += 1
        self.assertGreater(at, 5)

    def test_an_interrupted_reply_is_not_in_the_next(self) -> None:
        index = self.open(self.put(lines(3000)))
        self.assertEqual(3000, index.count(ALL))
        serve: Any = index._idle[0]

        class Failing:
            """An output whose second piece can't be read, as if there were no memory for it."""

            def __init__(self, output: Any) -> None:
                self.output, self.pieces = output, 0

            def fileno(self) -> int:
                self.pieces += 1
                if self.pieces == 2:
                    raise KeyboardInterrupt
                return int(self.output.fileno())

            def close(self) -> None:
                self.output.close()

        serve._process.stdout = Failing(serve._process.stdout)
        self.raises(KeyboardInterrupt, index.text, ALL)
        self.assertEqual(list(range(3000)), [capture.offset for capture in index.captures(ALL)])

    def test_a_closed_index_is_refused(self) -> None:
        with Index(self.put(lines(3)), program=PROGRAM) as index:
            self.assertEqual(3, index.count(ALL))
            process = processes_of(index)[0]
        self.raises(ValueError, index.count, ALL)
        self.assertRaises(ProcessLookupError, os.kill, process, 0)
        index.close()

    def test_arguments_are_checked(self) -> None:
        self.raises(ValueError, Index, [], program=PROGRAM)
        self.raises(ValueError, Index, "index", program=PROGRAM, processes=0)


class Threads(Case):
    def test_threads_get_their_own_replies(self) -> None:
        for processes in (1, 3):
            index = self.open(self.put(lines(500)), processes=processes)
            found: list[tuple[int, int]] = []

            def ask(first: int) -> None:
                for number in range(first, 500, 8):
                    (capture,) = index.captures(url=f"example.com/{number:07}")
                    found.append((number, capture.offset))

            threads = [threading.Thread(target=ask, args=(first,)) for first in range(8)]
            for thread in threads:
                thread.start()
            for thread in threads:
                thread.join(WAIT)
            self.assertEqual([(number, number) for number in range(500)], sorted(found))
            self.assertLessEqual(len(processes_of(index)), processes)

    def test_a_pool_answers_while_a_reply_is_read(self) -> None:
        """Of the two programs one waits until the other has answered."""
        text = f'[ "$1" = serve ] || exec "{PROGRAM}" "$@"\n' + (
            'mkdir "$0.first" 2> /dev/null && { read query; while [ ! -e "$0.done" ]; do sleep 0.01; done; }\n'
            f'[ -e "$0.done" ] && {{ read end; printf "[[]]\\n.\\nrefused NoUrl\\n.\\n"; }}\nexec "{PROGRAM}" "$@"'
        )
        index = self.open(self.put(lines(3)), program=self.script(text), processes=2)
        slow: list[int] = []
        thread = threading.Thread(target=lambda: slow.append(index.count(ALL)))
        thread.start()
        end = time.monotonic() + WAIT
        while not (self.folder / "program.first").exists() and time.monotonic() < end:
            time.sleep(0.01)
        self.assertEqual(3, index.count(ALL))
        self.assertEqual([], slow)
        (self.folder / "program.done").touch()
        thread.join(WAIT)
        self.assertEqual([0], slow)

    def test_a_slow_reader_delays_no_other(self) -> None:
        """One that has taken a capture, and stops, holds no process."""
        index = self.open(self.put(lines(20_000)))
        slow = index.captures(ALL)
        self.assertEqual(0, next(slow).offset)
        self.assertEqual(20_000, index.count(ALL))
        self.assertEqual(1, next(slow).offset)
        self.assertEqual(19_998, sum(1 for _ in slow))

    def test_an_iterator_may_be_left(self) -> None:
        index = self.open(self.put(lines(20_000)))
        for _ in range(50):
            next(index.captures(ALL))
        self.assertEqual(1, len(processes_of(index)))


if __name__ == "__main__":
    unittest.main()
