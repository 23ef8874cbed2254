"""The workers: limits of each, how they are replaced, and signals."""
import contextlib
import gc
import os
import pathlib
import signal
import socket
import time
import types
import unittest
from unittest import mock

from gunicorn.errors import HaltServer
from warcdx_gateway import checking
from warcdx_gateway.renewing import TICK, Opening
from warcdx_gateway.settings import CollectionSettings
from warcdx_gateway.waiting import QUEUES
from warcdx_gateway.workers import Master, Sign, Worker

from .support import LINE, PROGRAM, SAMPLE, WAIT, Case, connected, lines

EXACT = "/cdx?url=example.com/0000007&fl=length"
ALL = "/cdx?url=example.com/*"


class Workers(Case):
    def test_a_worker_that_is_stuck_is_replaced(self) -> None:
        """A client takes nothing of a long answer."""
        self.put(lines(200_000, size=100))
        server = self.start(head="workers = 2\ntimeout = 8\n", query=7, wait=1)
        with connected(server) as client:
            client.begin(ALL)
            workers = server.workers()
            self.assertEqual(503, server.ask(ALL).status)
            self.assertEqual(b"8\n", server.ask(EXACT).body)
            self.wait_for(lambda: set(server.workers()) != set(workers), "no worker is ended")
            self.wait_for(lambda: len(server.workers()) == 2, "no worker is back")
            with self.assertRaises((EOFError, ConnectionError)):
                client.response()
        self.assertEqual(10, len(server.ask(f"{ALL}&limit=10").text.splitlines()))
        self.assertNotIn("Traceback", server.said.read_text())

    def test_a_client_may_read_slowly(self) -> None:
        """All of an answer may take longer than the time for a piece."""
        self.put(lines(60_000, size=100))
        server = self.start(head="workers = 2\ntimeout = 8\n", query=7)
        wanted = self.page("url=example.com/*")
        with connected(server) as client:
            client.send(f"GET {ALL} HTTP/1.0\r\nHost: localhost\r\n\r\n".encode())
            found, start = b"", time.monotonic()
            while piece := client.socket.recv(len(wanted) // 30, socket.MSG_WAITALL):
                found += piece
                time.sleep(0.4)
        self.assertGreater(time.monotonic() - start, 10)
        self.assertTrue(found.partition(b"\r\n\r\n")[2] == wanted)
        self.assertEqual("", server.said.read_text())

    def test_killed_workers_are_replaced(self) -> None:
        self.put(lines(1000))
        server = self.start()
        wanted = server.ask(ALL).body
        for _ in range(10):
            for worker in server.workers()[:1]:
                os.kill(worker, signal.SIGKILL)
            with contextlib.suppress(EOFError, ConnectionError):
                found = server.ask(ALL)
                self.assertEqual((200, wanted), (found.status, found.body))
        self.wait_for(lambda: len(server.workers()) == 3, "the workers aren't back")
        self.assertGreater(server.metric("ended_workers_total"), 5)
        files = list(pathlib.Path(f"/proc/{server.process.pid}/fd").iterdir())
        self.assertLess(len(files), 60 + 2 * QUEUES)

    def test_a_slot_of_a_killed_worker_is_free(self) -> None:
        self.put(lines(200_000, size=100))
        server = self.start(head="workers = 3\nwide = 1\n", wait=1)
        with connected(server) as client:
            client.begin(ALL)
            found = server.ask(ALL)
            self.assertEqual((503, "1"), (found.status, found.fields["retry-after"]))
            self.assertIn("refused TooBusy", found.text)
            self.assertEqual(b"8\n", server.ask(EXACT).body)
            for worker in server.workers():
                os.kill(worker, signal.SIGKILL)
        self.wait_for(lambda: server.ask(EXACT).status == 200, "no worker is back")
        self.assertEqual(200, server.ask(f"{ALL}&limit=5").status)

    def test_memory_of_a_worker_is_limited(self) -> None:
        """An answer that takes more is refused, and the next one is answered."""
        text = "".join(LINE % ("a", 20160101000000 + n, "x" * 30_000, "-", "-", "-", 1, n, "a.warc") for n in range(15_000))
        self.put(text)
        memory = 256 << 20
        server = self.start(head=f"workers = 3\nwide = 2\nmemory = {memory}\n")
        found = server.ask("/cdx?key=a&sort=reverse&fl=original")
        self.assertEqual(400, found.status)
        self.assertIn("refused TooLarge", found.text)
        self.assertEqual((200, b"14999\n"), server.ask("/cdx?key=a&sort=reverse&limit=1&fl=offset")[::2])
        self.assertLess(server.memory(), 3 * memory)
        self.assertNotIn("Traceback", server.said.read_text())


class Scarce(unittest.TestCase):
    def test_workers_that_fail_after_a_change_replace_none(self) -> None:
        """There is no memory for new ones, say. The others go on, one line says so, and one is tried from time to time."""
        master, old = Master.__new__(Master), mock.Mock(state=1, age=1, is_told=False)
        app = types.SimpleNamespace(state=1, look=lambda: False)
        master.__dict__.update(WORKERS={1: old}, _num_workers=3, app=app, log=mock.Mock())
        with mock.patch.multiple(Master, reap_workers=mock.DEFAULT, spawn_worker=mock.DEFAULT, kill_worker=mock.DEFAULT) as done:
            with mock.patch("time.monotonic", return_value=1000.0) as clock:
                old.tmp.has_begun, master.has_failed = False, True
                with self.assertRaises(HaltServer):  # at the start
                    master.manage_workers()
                old.tmp.has_begun, app.state = True, 2
                for seconds, started in ((0, 0), (1, 0), (10, 1), (0, 2)):
                    clock.return_value += seconds
                    master.manage_workers()
                    self.assertEqual(started, done["spawn_worker"].call_count)
                done["kill_worker"].assert_not_called()
                master.WORKERS[2] = mock.Mock(state=2, age=2)  # which has begun
                for _ in range(2):
                    master.manage_workers()
                self.assertEqual(6, done["spawn_worker"].call_count)
            done["kill_worker"].assert_called_once_with(old.pid, signal.SIGTERM)
        master.log.error.assert_called_once()

    def test_a_worker_that_can_not_be_started_is_tried_again(self) -> None:
        """The system may have no process or no memory for it now. One line says so, and no file stays open."""
        master = Master.__new__(Master)
        cfg, log = types.SimpleNamespace(max_requests=0, pre_fork=lambda *arguments: None), mock.Mock()
        master.__dict__.update(pid=os.getpid(), worker_age=0, LISTENERS=[], WORKERS={}, timeout=1, app=None, cfg=cfg, log=log)
        before = os.listdir("/proc/self/fd")
        with mock.patch("gunicorn.workers.base.WorkerTmp", Sign), mock.patch.object(Master, "worker_class", Worker, create=True):
            for process, count in ((None, 1), (None, 1), (12345, 1), (None, 2)):
                with mock.patch("os.fork", side_effect=[process or BlockingIOError(11, "Resource temporarily unavailable")]):
                    self.assertEqual(process, master.spawn_worker())
                self.assertEqual(count, log.error.call_count)
                for worker in master.WORKERS.values():
                    worker.tmp.close()
                master.WORKERS.clear()
        gc.collect()  # the exceptions of a mock are in circles
        self.assertEqual(before, os.listdir("/proc/self/fd"))


class Clocks(Case):
    """The clock of the machine is set, by an hour, while the gateway runs."""

    def at(self, hours: int) -> "contextlib.AbstractContextManager[object]":
        plain = time.time
        return mock.patch("time.time", lambda: plain() + 3600 * hours)

    def test_no_worker_is_taken_for_stuck(self) -> None:
        sign = Sign(None)
        self.addCleanup(sign.close)
        for hours in (0, 1, -1):
            with self.at(hours):
                self.assertLess(abs(time.time() - sign.last_update()), 60)
        with mock.patch("time.monotonic", return_value=time.monotonic() + 100):
            self.assertGreater(time.time() - sign.last_update(), 60)
            sign.notify()
            self.assertLess(time.time() - sign.last_update(), 60)

    def test_a_check_begins_soon(self) -> None:
        settings = CollectionSettings("main", "Main", (self.put(SAMPLE),))
        for first, then in ((0, -1), (1, 0), (-1, 0)):
            with self.at(first):
                opening = Opening(settings, PROGRAM, 1 << 29, ())
            self.addCleanup(opening.close)
            time.sleep(2 * TICK)
            with self.at(then), mock.patch.object(checking.Check, "is_done", return_value=True):
                self.assertTrue(opening.advance())


class Ends(Case):
    def test_an_ended_worker_has_no_alarm(self) -> None:
        """Python takes the handler away before the process has ended, and the alarm would end it, as by a fault."""
        worker = object.__new__(Worker)
        worker.alive, worker.sockets, worker.app, worker.PIPE = False, [], mock.MagicMock(), list(os.pipe())
        worker.app.waiting.descriptors = worker.app.waiting.rest.return_value = []
        signal.alarm(WAIT)
        worker.run()
        self.assertEqual((0.0, 0.0), signal.getitimer(signal.ITIMER_REAL))
        for end in worker.PIPE:
            os.close(end)

    def test_sigterm_waits_for_running_answers(self) -> None:
        self.put(lines(60_000, size=100))
        server = self.start()
        wanted = self.page("url=example.com/*")
        with connected(server) as client:
            client.begin(ALL)
            server.process.send_signal(signal.SIGTERM)
            with self.assertRaises((ConnectionError, EOFError)):
                self.wait_for(lambda: not server.ask(EXACT), "it still listens")
            self.assertIsNone(server.process.poll())
            self.assertTrue(client.response().body == wanted)
        self.assertEqual(0, server.process.wait(WAIT))
        self.assertEqual("", server.said.read_text())

    def test_sigterm_answers_those_that_wait_for_a_slot(self) -> None:
        self.put(lines(60_000, size=100))
        server = self.start(head="workers = 2\nwide = 1\n", wait=60)
        wanted = self.page("url=example.com/*")
        with connected(server) as first, connected(server) as second:
            first.begin(ALL)
            second.send(f"GET {ALL}&collapse=digest HTTP/1.1\r\nHost: localhost\r\n\r\n".encode())
            self.assertEqual(b"8\n", server.ask(EXACT).body)  # by the worker of the second, which is free once that waits
            server.process.send_signal(signal.SIGTERM)
            found = second.response()
            self.assertEqual((503, "1"), (found.status, found.fields["retry-after"]))
            self.assertTrue(first.response().body == wanted)
        self.assertEqual(0, server.process.wait(WAIT))

    def test_sigterm_does_not_wait_for_silent_clients(self) -> None:
        """They have sent nothing, or a part of a request."""
        self.put(lines(10))
        server = self.start(head="timeout = 1000\n", drain=1000)
        with connected(server) as first, connected(server) as second:
            second.send(b"GET /cdx?url=")
            time.sleep(0.5)
            self.assertEqual(b"8\n", server.ask(EXACT).body)
            self.assertEqual(0, server.end())
            self.assertEqual(b"", first.input.read())

    def test_sigterm_waits_no_longer_than_it_is_told(self) -> None:
        self.put(lines(100_000, size=100))
        server = self.start(head="timeout = 1000\n", drain=1)
        with connected(server) as client:
            client.begin(ALL)
            server.process.send_signal(signal.SIGTERM)
            self.assertEqual(0, server.process.wait(WAIT))

    def test_sighup_reads_the_settings_again(self) -> None:
        """Running answers go on, and bad settings change nothing."""
        self.put(lines(60_000, size=100))
        self.put(lines(10), "other")
        server = self.start()
        wanted = self.page("url=example.com/*")
        settings = self.folder / "settings.toml"
        good = settings.read_text()
        with connected(server) as client:
            client.begin(ALL)
            settings.write_text(good.replace('["index"]', '["other"]'))
            server.process.send_signal(signal.SIGHUP)
            self.wait_for(lambda: len(server.ask(ALL).body) < 10_000, "the settings aren't read")
            self.assertTrue(client.response().body == wanted)
        for bad in ("x = 1\n" + good, good.replace('["index"]', '["nosuch"]'), "["):
            before = server.said.read_text().count("\n")
            settings.write_text(bad)
            server.process.send_signal(signal.SIGHUP)
            self.wait_for(lambda: server.said.read_text().count("\n") == before + 1, f"it says {server.said.read_text()}")
            self.assertLess(len(server.ask(ALL).body), 10_000)
        self.assertEqual(3, server.said.read_text().count("the old settings stay in use"))
        self.assertEqual(0, server.end())

    def test_an_output_that_is_gone_ends_no_gateway(self) -> None:
        """Workers that end have lines of the access log that they couldn't write."""
        self.put(lines(10))
        server = self.start(head='access_log = "-"\n')
        assert server.process.stdout is not None
        server.process.stdout.close()
        for _ in range(9):
            self.assertEqual(200, server.ask(EXACT).status)
        before = server.workers()
        server.process.send_signal(signal.SIGHUP)
        self.wait_for(lambda: server.workers() and not set(before) & set(server.workers()), "the workers are the old ones")
        self.assertEqual(200, server.ask(EXACT).status)
        self.assertEqual((0, ""), (server.end(), server.said.read_text()))

    def test_nothing_is_left(self) -> None:
        """Neither a program nor a folder, however the gateway ends."""
        self.put(lines(10))
        for number in (signal.SIGTERM, signal.SIGINT, signal.SIGQUIT, signal.SIGKILL):
            os.environ["TMPDIR"] = str(self.folder)
            self.addCleanup(os.environ.pop, "TMPDIR", None)
            server = self.start()
            for _ in range(10):
                server.ask("/health")
            processes = server.workers() + server.programs()
            self.assertGreater(len(processes), 3)
            server.process.send_signal(number)
            server.process.wait(WAIT)
            self.wait_for(lambda: not any(pathlib.Path(f"/proc/{each}").exists() for each in processes), "processes are left")
            self.wait_for(lambda: not list(self.folder.glob("warcdx-gateway-*")), "a folder is left")


if __name__ == "__main__":
    unittest.main()
