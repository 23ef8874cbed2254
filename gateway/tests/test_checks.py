"""Indexes are checked before they are used, and no answer is of one that isn't in order."""
import contextlib
import os
import random
import re
import signal
import threading
import time
import unittest

from warcdx import states

from .check_support import PAGES, Checked, disorders
from .support import connected, lines

ALL = "/cdx?url=example.com/*"


class Orders(Checked):
    def test_no_start_over_an_index_that_is_not_in_order(self) -> None:
        """The line has the path, and what the program says."""
        for name, text in disorders().items():
            path = self.put(text)
            said = self.refused_start("--program", str(self.program()), "--indexes", str(path))
            self.assertRegex(said, rf"^warcdx-gateway: {re.escape(str(path))}: OutOfOrder \d+: The index ", name)

    def test_no_start_over_what_is_no_index(self) -> None:
        good = self.put(lines(PAGES), "good")
        for text in ("a text\n", lines(PAGES)[:-5], "\0" * 1000, lines(PAGES) + "\n", "\x1f\x8b\x08"):
            path = self.put(text)
            words = ("--program", str(self.program()), "--indexes", str(good), str(path))
            self.assertIn(f"{path}: BadLine ", self.refused_start(*words))

    def test_an_index_that_is_not_in_order_replaces_none(self) -> None:
        self.put(lines(PAGES))
        server = self.start()
        texts = disorders()
        for number, (name, text) in enumerate(texts.items(), 1):
            self.replace(text)
            while self.failed(server) < number:
                self.assertEqual([], self.ask_pages(server), name)
            for worker in server.workers()[:1]:
                os.kill(worker, signal.SIGKILL)
            with contextlib.suppress(EOFError, ConnectionError):
                server.ask(ALL)
            for _ in range(3):
                self.assertEqual([], self.ask_pages(server), name)
            wanted = (200, b"ok\nmain: the old indexes are in use\n")
            self.wait_for(lambda: server.ask("/health")[::2] == wanted, "nothing is told")
            self.assertEqual(1, server.metric("old_indexes"))
        said = [line for line in server.said.read_text().splitlines() if "OutOfOrder" in line]
        self.assertEqual(len(texts), len(said), said)
        self.assertTrue(all("the old indexes stay in use: /" in line for line in said), said)
        self.replace(lines(PAGES, size=9))
        self.wait_for(lambda: b"xxxxxxxxx" in server.ask(ALL).body, "the index isn't seen")
        self.wait_for(lambda: server.ask("/health").text == "ok\n", "it is still an old one")
        self.assertEqual(0, server.metric("old_indexes"))

    def test_indexes_are_replaced_and_changed_at_random(self) -> None:
        """Each answer is right, or refused, or seen to be broken."""
        self.put(lines(PAGES))
        server = self.start()
        chance, wrong, texts = random.Random(3), list[str](), [lines(PAGES), *disorders().values()]
        is_over = threading.Event()

        def ask() -> None:
            while not is_over.is_set():
                with contextlib.suppress(EOFError, ConnectionError):
                    wrong.extend(self.ask_pages(server))

        threads = [threading.Thread(target=ask) for _ in range(3)]
        for thread in threads:
            thread.start()
        for _ in range(40):
            change = self.write_in_place if chance.random() < 0.3 else self.replace
            change(chance.choice(texts))
            if chance.random() < 0.3:
                server.process.send_signal(signal.SIGHUP)
            time.sleep(chance.random() / 4)
        is_over.set()
        for thread in threads:
            thread.join()
        self.assertEqual([], [each for each in wrong if not each.startswith("503 refused Changed")])
        self.replace(lines(PAGES))
        self.wait_for(lambda: not self.ask_pages(server), "it doesn't answer again")


class Changes(Checked):
    """Indexes that are changed in place, while they are in use."""

    def test_nothing_is_answered_from_a_changed_index(self) -> None:
        self.put(lines(PAGES))
        server = self.start()
        self.assertEqual([], self.ask_pages(server))
        for text in disorders().values():
            self.write_in_place(text)
            for _ in range(3):
                self.assertEqual(PAGES, len(self.ask_pages(server)))
                found = server.ask("/cdx?url=example.com/0000001")
                self.assertEqual(503, found.status)
                self.assertIn("refused Changed: ", found.text)
                self.assertEqual(503, server.ask("/health").status)
        self.write_in_place(lines(PAGES))
        self.wait_for(lambda: not self.ask_pages(server), "it isn't used again")
        self.assertIn("an index in use was changed: replace indexes by mv", server.said.read_text())

    def test_a_worker_that_had_no_request_answers_from_no_earlier_index(self) -> None:
        """It was told to end while it was stopped."""
        self.put(lines(PAGES))
        server = self.start()
        idle, *busy = server.workers()
        os.kill(idle, signal.SIGSTOP)
        self.addCleanup(self.go_on, idle)
        self.replace(lines(PAGES, size=9))
        self.wait_for(lambda: b"xxxxxxxxx" in server.ask(ALL).body, "the index isn't seen")
        self.write_in_place(disorders()["reversed"])
        self.wait_for(lambda: server.ask(ALL).status == 503, "it is used")
        self.wait_for(lambda: not set(busy) & set(server.workers()), "the others weren't told")
        self.assertIn(idle, server.workers())
        self.go_on(idle)
        for path in (ALL, "/cdx?url=example.com/0000001") * 9:
            found = server.ask(path)
            self.assertEqual(503, found.status)
            self.assertIn("refused Changed: ", found.text)
        self.assertEqual(503, server.ask("/health").status)
        self.wait_for(lambda: idle not in server.workers(), "it goes on")
        self.replace(lines(PAGES))
        self.wait_for(lambda: not self.ask_pages(server), "it doesn't answer again")

    def go_on(self, worker: int) -> None:
        with contextlib.suppress(ProcessLookupError):
            os.kill(worker, signal.SIGCONT)

    def test_a_change_whose_time_is_set_back_is_found(self) -> None:
        path = self.put(lines(PAGES))
        found = path.stat()
        server = self.start()
        self.write_in_place(disorders()["reversed"])
        os.utime(path, ns=(found.st_atime_ns, found.st_mtime_ns))
        self.wait_for_failure(server)
        self.wait_for(lambda: len(self.ask_pages(server)) == PAGES, "it is used")
        self.assertIn("no index is in use: ", server.said.read_text())
        for worker in server.workers()[:1]:
            os.kill(worker, signal.SIGKILL)
        self.wait_for(lambda: server.ask(ALL).status == 503, "it is used")
        self.replace(lines(PAGES))
        self.wait_for(lambda: not self.ask_pages(server), "the index isn't seen")

    def test_a_long_answer_is_broken_off(self) -> None:
        self.put(lines(200_000, size=100))
        server = self.start()
        with connected(server) as client:
            client.begin(ALL)
            self.write_in_place(lines(200_000, 404, size=100))
            with self.assertRaises((EOFError, ConnectionError)):
                client.response()

    def test_a_link_or_another_name_changes_nothing(self) -> None:
        """The time of the inode is another one, so the file is checked again."""
        path = self.put(lines(PAGES))
        server = self.start(program=self.noted())
        os.link(path, self.folder / "link")
        self.wait_for(lambda: len(self.checks()) == 2, "it isn't checked")
        self.wait_for(lambda: server.metric("old_indexes") == 0, "it isn't in use")
        self.assertEqual([], self.ask_pages(server))
        path.rename(self.folder / "other")
        self.wait_for_failure(server)
        self.assertEqual([], self.ask_pages(server))
        (self.folder / "other").rename(path)
        self.wait_for(lambda: server.metric("old_indexes") == 0, "it isn't in use")
        self.assertEqual([], self.ask_pages(server))
        self.assertEqual(["1"] * 3, self.checks())


class Folders(Checked):
    """An index may be a folder of runs, whose state is replaced at once."""

    def show(self, number: int, *runs: tuple[str, str]) -> None:
        """Makes a state of runs, which have names and texts."""
        index = self.folder / "index"
        for name in states.FOLDERS:
            (index / name).mkdir(parents=True, exist_ok=True)
        listed = []
        for name, text in runs:
            path = index / states.RUNS / f"{name}.cdxj"
            if not path.exists():
                path.write_text(text)
            listed.append(states.Listed(path.name, len(text), text.count("\n")))
        states.show(index, number, listed, {"captures": PAGES})

    def test_new_runs_are_checked_and_no_others(self) -> None:
        rows = lines(PAGES).splitlines(keepends=True)
        front, back, last = "".join(rows[:-2]), rows[-2], rows[-1]
        self.show(1, ("1", lines(PAGES)))
        server = self.start(program=self.noted())
        self.assertEqual([], self.ask_pages(server))
        self.show(2, ("2", front), ("3", back + last))
        self.wait_for(lambda: len(self.checks()) == 3, "they aren't checked")
        self.wait_for(lambda: server.metric("old_indexes") == 0, "it isn't in use")
        self.assertEqual([], self.ask_pages(server))
        self.show(3, ("2", front), ("4", back), ("5", last))
        self.wait_for(lambda: len(self.checks()) == 5, "they aren't checked")
        self.wait_for(lambda: server.metric("old_indexes") == 0, "it isn't in use")
        self.assertEqual([], self.ask_pages(server))
        self.assertEqual(["1"] * 5, self.checks())

    def test_no_start_over_another_folder(self) -> None:
        (self.folder / "index").mkdir()
        said = self.refused_start("--program", str(self.program()), "--indexes", str(self.folder / "index"), status=3)
        why = "cannot open (Is a directory); a folder is an index if warcdx-update has made it"
        self.assertEqual(said, f"warcdx-gateway: {self.folder}/index: {why}\n")


if __name__ == "__main__":
    unittest.main()
