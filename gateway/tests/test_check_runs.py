"""The runs of the check of indexes: how many there are, what they hold up, and how they fail."""
import contextlib
import os
import pathlib
import signal
import socket
import subprocess
import time
import unittest

from .check_support import HOLD, PAGES, Checked, disorders
from .support import COMMAND, WAIT, children, lines

ALL = "/cdx?url=example.com/*"


class Runs(Checked):
    """The runs of the check."""

    def test_each_index_is_checked_once(self) -> None:
        """By one process for all workers, and not with others that are in use."""
        for name in ("index", "b", "c"):
            self.put(lines(PAGES), name)
        settings = '[collections.main]\nindexes = ["index", "b", "c"]\n'
        program = self.noted()
        server = self.start(settings, head="workers = 8\n", program=program)
        for _ in range(30):
            server.ask(ALL)
        self.assertEqual(["1"] * 3, self.checks())
        self.replace(lines(PAGES, 404).replace("a.warc", "b.warc"), "b")
        self.wait_for(lambda: b" 404 " in server.ask(ALL).body, "the index isn't seen")
        for worker in server.workers():
            os.kill(worker, signal.SIGKILL)
        self.wait_for(lambda: len(server.workers()) == 8, "no workers")
        server.process.send_signal(signal.SIGHUP)
        time.sleep(1.5)
        for _ in range(30):
            with contextlib.suppress(EOFError, ConnectionError):
                server.ask(ALL)
        self.assertEqual(["1"] * 4, self.checks())
        self.assertNotIn("old", server.said.read_text())

    def test_a_check_that_goes_on_keeps_nobody_waiting(self) -> None:
        """Requests are answered from the old index, and workers are started."""
        self.put(lines(PAGES))
        server = self.start(program=self.noted(HOLD))
        workers = server.workers()
        hold = self.put("", "hold")
        self.replace(lines(PAGES, size=5))
        self.wait_for(lambda: len(self.checks()) == 2, "no check")
        for _ in range(5):
            self.assertEqual([], self.ask_pages(server))
        before = server.workers()
        os.kill(workers[0], signal.SIGKILL)
        self.wait_for(lambda: set(server.workers()) - set(before), "no worker is started")
        self.assertEqual([], self.ask_pages(server))
        self.assertNotIn(b"xxxxx", server.ask(ALL).body)
        hold.unlink()
        self.wait_for(lambda: b"xxxxx" in server.ask(ALL).body, "the index isn't used")
        self.assertEqual(2, len(self.checks()))

    def test_an_index_that_is_replaced_while_it_is_checked(self) -> None:
        """It comes into use, and then the one that has replaced it."""
        self.put(lines(PAGES))
        server = self.start(program=self.noted(HOLD))
        hold = self.put("", "hold")
        self.replace(lines(PAGES, size=5))
        self.wait_for(lambda: len(self.checks()) == 2, "no check")
        self.replace(lines(PAGES, size=9))
        time.sleep(1.5)
        self.assertEqual(2, len(self.checks()))
        hold.unlink()
        self.wait_for(lambda: len(self.checks()) == 3, "no further check")
        self.wait_for(lambda: b"x" * 9 in server.ask(ALL).body, "the index isn't used")
        self.assertEqual(2, server.metric('index_renewals_total{collection="main",result="done"}'))
        self.assertEqual([], self.ask_pages(server))

    def test_an_index_that_is_changed_while_it_is_checked(self) -> None:
        self.put(lines(PAGES))
        server = self.start(program=self.noted(HOLD))
        hold = self.put("", "hold")
        self.replace(lines(PAGES, size=5))
        self.wait_for(lambda: len(self.checks()) == 2, "no check")
        self.write_in_place(disorders()["shuffled"])
        self.wait_for(lambda: len(self.checks()) == 3, "no further check")
        self.assertEqual([], self.ask_pages(server))
        hold.unlink()
        self.wait_for(lambda: "OutOfOrder" in server.said.read_text(), "it is in use")
        self.assertEqual([], self.ask_pages(server))

    def test_what_could_not_be_checked_is_not_used(self) -> None:
        """The program is killed, has no memory, says nothing, or is gone."""
        index = self.put(lines(PAGES))
        for rule, words in (
            ("kill -KILL $$", "warcdx has ended with signal 9"),
            ("echo warcdx: Memory >&2; exit 3", "Memory"),
            ("exit 0", "warcdx has ended with exit status 0"),
            ("exit 1", "warcdx has ended with exit status 1"),
            ("exit 4", "warcdx has ended with exit status 4"),
            ('shift; echo "$1"; exit 0', "warcdx has ended with exit status 0"),
        ):
            program = self.program(f"[ $1 != check ] || {{ {rule}; }}")
            said = self.refused_start("--program", str(program), "--indexes", str(index), status=3)
            self.assertIn(f"the indexes couldn't be checked: {words}", said)
            program = self.program(f"[ $1 != check ] || [ ! -e '{self.folder}/bad' ] || {{ {rule}; }}")
            server = self.start(program=program)
            bad = self.put("", "bad")
            self.replace(lines(PAGES, size=5))
            self.wait_for_failure(server)
            self.assertEqual([], self.ask_pages(server))
            self.assertNotIn(b"xxxxx", server.ask(ALL).body)
            said = server.said.read_text()
            self.assertIn(f"the old indexes stay in use: the indexes couldn't be checked: {words}", said)
            bad.unlink()
            self.replace(lines(PAGES, size=6))
            self.wait_for(lambda: b"x" * 6 in server.ask(ALL).body, "the index isn't used")
            self.assertEqual(0, server.end())
            server.said.unlink()
            self.replace(lines(PAGES))

    def test_a_program_that_is_gone(self) -> None:
        self.put(lines(PAGES))
        program = self.program()
        server = self.start(program=program)
        self.assertEqual([], self.ask_pages(server))
        hidden = program.rename(self.folder / "hidden")
        self.replace(lines(PAGES, size=5))
        self.wait_for_failure(server)
        hidden.rename(program)
        self.assertEqual([], self.ask_pages(server))
        self.replace(lines(PAGES, size=6))
        self.wait_for(lambda: b"x" * 6 in server.ask(ALL).body, "the index isn't used")

    def test_a_killed_check_is_no_success(self) -> None:
        self.put(lines(PAGES))
        server = self.start(program=self.noted(HOLD))
        hold = self.put("", "hold")
        self.replace(disorders()["reversed"])
        self.wait_for(lambda: len(self.checks()) == 2, "no check")
        (program,) = server.checks()
        os.kill(program, signal.SIGKILL)
        self.wait_for_failure(server)
        self.assertFalse(pathlib.Path(f"/proc/{program}").exists())
        self.assertEqual([], self.ask_pages(server))
        self.assertIn("the indexes couldn't be checked: warcdx has ended with signal 9", server.said.read_text())
        hold.unlink()

    def test_checks_end_with_the_gateway(self) -> None:
        self.put(lines(PAGES))
        for number in (signal.SIGTERM, signal.SIGINT, signal.SIGKILL):
            (self.folder / "hold").unlink(missing_ok=True)
            server = self.start(program=self.noted(HOLD))
            begun = len(self.checks())
            self.put("", "hold")
            self.replace(lines(PAGES, size=number))
            self.wait_for(lambda: len(self.checks()) > begun, "no check")
            (program,) = server.checks()
            server.process.send_signal(number)
            server.process.wait(WAIT)
            self.wait_for(lambda: not pathlib.Path(f"/proc/{program}").exists(), "a process is left")

    def test_a_start_can_be_ended_while_indexes_are_checked(self) -> None:
        """Nobody can connect meanwhile."""
        self.put(lines(PAGES))
        self.put("", "hold")
        program = self.noted(HOLD)
        address = ("127.0.0.1", self.hold_port())
        for number in (signal.SIGTERM, signal.SIGINT, signal.SIGKILL):
            begun, words = len(self.checks()), ("--program", program, "--indexes", self.folder / "index")
            process = subprocess.Popen((COMMAND, "--port", str(address[1]), *words))
            self.wait_for(lambda: len(self.checks()) > begun, "no check")
            with self.assertRaises(ConnectionRefusedError):
                socket.create_connection(address)
            (check,) = children(process.pid)
            process.send_signal(number)
            self.assertEqual(-number, process.wait(WAIT))
            self.wait_for(lambda: not pathlib.Path(f"/proc/{check}").exists(), "a process is left")


class Settings(Checked):
    """Settings that are read again, with indexes that aren't in use."""

    def setUp(self) -> None:
        super().setUp()
        self.put(lines(PAGES))
        self.put(lines(PAGES, size=5).replace("a.warc", "b.warc"), "other")
        self.server = self.start(program=self.noted(HOLD))
        self.settings = self.folder / "settings.toml"
        self.first = self.settings.read_text()

    def read_again(self, text: str) -> None:
        self.settings.write_text(text)
        self.server.process.send_signal(signal.SIGHUP)

    def test_they_are_used_when_all_indexes_are_checked(self) -> None:
        hold = self.put("", "hold")
        self.read_again(self.first.replace('["index"]', '["index", "other"]'))
        self.wait_for(lambda: len(self.checks()) == 2, "no check")
        for _ in range(3):
            self.assertEqual([], self.ask_pages(self.server))
        self.assertEqual(PAGES, len(self.server.ask(ALL).text.splitlines()))
        hold.unlink()
        self.wait_for(lambda: len(self.server.ask(ALL).text.splitlines()) == 2 * PAGES, "they aren't used")
        self.assertEqual(["1", "1"], self.checks())
        self.assertEqual("", self.server.said.read_text())

    def test_another_program_checks_all_indexes(self) -> None:
        program = self.folder / "program"
        other = self.put(program.read_text(), "other_program")
        other.chmod(0o755)
        self.read_again(self.first.replace(f'"{program}"', f'"{other}"'))
        self.wait_for(lambda: len(self.checks()) == 2, "no check")
        self.assertEqual([], self.ask_pages(self.server))

    def test_those_that_are_read_last_are_used(self) -> None:
        hold = self.put("", "hold")
        self.read_again(self.first.replace('["index"]', '["other"]'))
        self.wait_for(lambda: len(self.checks()) == 2, "no check")
        self.read_again(self.first + "usual = 3\n")
        self.wait_for(lambda: len(self.server.ask(ALL).text.splitlines()) == 3, "they aren't used")
        hold.unlink()
        time.sleep(1.5)
        self.assertNotIn("xxxxx", self.server.ask(ALL).text)
        self.assertEqual("", self.server.said.read_text())

    def test_an_index_that_is_not_in_order_keeps_the_old_ones(self) -> None:
        for number, text in enumerate(disorders().values(), 1):
            self.put(text, f"bad{number}")
            self.read_again(self.first.replace('["index"]', f'["other", "bad{number}"]'))
            self.wait_for(lambda: self.server.said.read_text().count("the old settings stay in use") == number, "nothing is said")
            self.assertEqual([], self.ask_pages(self.server))
        self.assertEqual(number, self.server.said.read_text().count("OutOfOrder"))
        self.read_again(self.first.replace('["index"]', '["other"]'))
        self.wait_for(lambda: "xxxxx" in self.server.ask(ALL).text, "they aren't used")


if __name__ == "__main__":
    unittest.main()
