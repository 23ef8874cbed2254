"""What takes long needs a slot, whatever it is; what waits for one keeps no worker."""
import contextlib
import os
import pathlib
import random
import signal
import socket
import threading
import time
import unittest
from typing import Optional
from unittest import mock

from warcdx_gateway.refusal import Refusal
from warcdx_gateway.waiting import MOST_LEVEL, QUEUES, Costs, Shares, Waiting, address_of, queue_of
from warcdx_gateway.workers import Worker
from warcdx_gateway.work import FREE, MOST_FREE, PATIENCE, Connection, Lease, NeedsSlot, Work

from . import attacks, browse_support
from .attacks import DEAR, SMALL, SMALL_BODY
from .costs import is_idle
from .support import Case, connected, lines

MANY = 100_000  # captures of one key
ALL = "/cdx?url=example.com/*"


def pair(lease: Lease, arrived: Optional[float] = None, heard: bytes = b"") -> tuple[Connection, socket.socket]:
    """Returns the connection of a client, and the client."""
    here, there = socket.socketpair()
    moment = time.monotonic() if arrived is None else arrived
    return Connection(here.detach(), lease, moment, heard), there


class Working(unittest.TestCase):
    def work(self, lease: Lease, longest: float = 60, arrived: Optional[float] = None) -> tuple[Work, socket.socket]:
        client, there = pair(lease, arrived)
        self.addCleanup(client.close)
        self.addCleanup(there.close)
        work = Work(longest)
        work.begin(client)
        return work, there

    def test_a_free_moment_ends_with_time_of_the_processor(self) -> None:
        work, _ = self.work(Lease.FREE)
        work.go_on()
        end = time.thread_time() + FREE
        while time.thread_time() <= end:
            pass
        with self.assertRaises(NeedsSlot):
            work.go_on()

    def test_or_with_time_of_the_clock(self) -> None:
        with mock.patch("warcdx_gateway.work.LONGEST", 0.02):
            work, _ = self.work(Lease.FREE)
            self.assertLessEqual(work.seconds(30), 0.02)
            time.sleep(0.03)
            with self.assertRaises(NeedsSlot):
                work.go_on()

    def test_or_before_a_long_answer(self) -> None:
        work, _ = self.work(Lease.FREE)
        work.expect_slot(MOST_FREE)
        for size in (MOST_FREE + 1, 1 << 30):
            with self.assertRaises(NeedsSlot):
                work.expect_slot(size)
        with self.assertRaises(NeedsSlot):
            work.expect_slot()

    def test_an_answer_that_has_begun_does_not_begin_anew(self) -> None:
        with mock.patch("warcdx_gateway.work.LONGEST", 0.0):
            work, _ = self.work(Lease.FREE)
            work.settle()
            work.expect_slot()
            work.go_on()

    def test_a_request_has_its_time_in_all(self) -> None:
        work, _ = self.work(Lease.SLOT, longest=0.02)
        work.expect_slot()
        work.go_on()
        time.sleep(0.03)
        with self.assertRaises(Refusal) as caught:
            work.go_on()
        self.assertEqual(("TooSlow", 503), (caught.exception.name, caught.exception.status))

    def test_without_a_slot_in_time_it_is_refused(self) -> None:
        work, _ = self.work(Lease.NONE)
        with self.assertRaises(Refusal) as caught:
            work.go_on()
        self.assertEqual(("TooBusy", 503), (caught.exception.name, caught.exception.status))

    def test_a_client_that_has_left(self) -> None:
        """One that has closed its own side isn't known from one that has left, and has a moment."""
        work, there = self.work(Lease.SLOT)
        there.send(b"x")
        work.go_on()
        there.shutdown(socket.SHUT_WR)
        work.go_on()
        work, there = self.work(Lease.SLOT, arrived=time.monotonic() - PATIENCE - 1)
        work.go_on()
        there.close()
        with self.assertRaises(ConnectionResetError):
            work.go_on()

    def test_a_killed_master_ends_the_work(self) -> None:
        worker = object.__new__(Worker)
        worker.tmp, worker.ppid = mock.Mock(), os.getppid()
        worker.beat()
        worker.ppid = 1 << 30
        with self.assertRaises(ConnectionResetError):
            worker.beat()
        self.assertEqual(2, worker.tmp.notify.call_count)

    def test_a_connection_is_read_again(self) -> None:
        client, there = pair(Lease.FREE)
        with client, there:
            there.sendall(b"GET / HTTP")
            self.assertEqual(b"GET", client.recv(3))
            self.assertEqual(b" ", client.recv(1, socket.MSG_PEEK))
            self.assertEqual(b" / HTTP", client.recv(100))
            again = client.passed_on(Lease.SLOT)
            self.assertEqual(-1, client.fileno())
            with again:
                there.sendall(b"/1.1")
                self.assertEqual(b"GET /", again.recv(5))
                self.assertEqual(b" HTTP", again.recv(100))
                self.assertEqual(b"/1.1", again.recv(100))
                self.assertEqual(b"GET / HTTP/1.1", bytes(again.heard))


class Waits(unittest.TestCase):
    def setUp(self) -> None:
        self.waiting = Waiting()
        self.addCleanup(self.waiting.close)
        self.stack = contextlib.ExitStack()
        self.addCleanup(self.stack.close)
        self.shares = Shares(self.waiting, wide=3, wait=10)

    def put(self, queue: int, heard: bytes = b"GET", arrived: Optional[float] = None) -> bool:
        client, there = pair(Lease.FREE, arrived)
        client.heard += heard
        self.stack.enter_context(there)
        with client:
            return self.waiting.put(queue, client)

    def taken(self) -> Optional[bytes]:
        """Takes a slot, and returns what was read of the request that has it."""
        client = self.stack.enter_context(self.shares.next())
        if client is None:
            return None
        self.stack.enter_context(client)
        self.assertEqual(Lease.SLOT, client.lease)
        return bytes(client.heard)

    def test_requests_of_a_queue_are_answered_in_their_order(self) -> None:
        for text in (b"first", b"second" * 100_000, b"third"):
            self.assertTrue(self.put(0, text))
        self.assertEqual(b"first", self.taken())
        self.assertEqual(b"second" * 100_000, self.taken())
        self.assertEqual(b"third", self.taken())
        self.assertIsNone(self.taken())

    def test_one_for_which_there_is_no_file_is_answered_at_once(self) -> None:
        with mock.patch("os.memfd_create", side_effect=OSError(24, "Too many open files")):
            self.assertFalse(self.put(0))
        self.assertIsNone(self.taken())

    def test_an_address_leaves_a_slot_to_others(self) -> None:
        for _ in range(4):
            self.put(7, b"greedy")
        self.assertEqual([b"greedy", b"greedy", None], [self.taken() for _ in range(3)])
        self.put(8, b"other")
        self.assertEqual([b"other", None], [self.taken() for _ in range(2)])

    def test_queues_are_answered_in_turn(self) -> None:
        for queue, text in ((3, b"a"), (3, b"b"), (9, b"c"), (QUEUES - 1, b"d")):
            self.put(queue, text)
        self.assertEqual({b"a", b"c", b"d"}, {self.taken() for _ in range(3)})

    def test_a_slot_is_free_again(self) -> None:
        for _ in range(5):
            self.put(0)
        for _ in range(3):
            self.taken()
        self.assertIsNone(self.taken())
        self.stack.pop_all().close()
        self.assertEqual(b"GET", self.taken())

    def test_a_killed_worker_has_no_slot_and_no_share(self) -> None:
        self.put(5)
        self.put(5)
        process = os.fork()
        if not process:
            self.taken()
            self.taken()
            signal.pause()
        self.addCleanup(os.waitpid, process, 0)
        end = time.monotonic() + 60
        while self.waiting.arrived(5) is not None and time.monotonic() < end:
            time.sleep(0.01)
        time.sleep(0.05)
        self.put(5, b"later")
        self.assertIsNone(self.taken())
        os.kill(process, signal.SIGKILL)
        while (found := self.taken()) is None and time.monotonic() < end:
            time.sleep(0.01)
        self.assertEqual(b"later", found)

    def test_who_has_waited_too_long_is_told(self) -> None:
        for _ in range(3):
            self.put(0)
            self.taken()
        self.put(0, b"late", time.monotonic() - 11)
        self.put(0, b"soon")
        with self.shares.next() as client:
            assert client is not None
            self.assertEqual((Lease.NONE, b"late"), (client.lease, bytes(client.heard)))
            client.close()
        self.assertIsNone(self.taken())

    def test_a_queue_has_a_bound(self) -> None:
        count = 0
        while self.put(4) and count < 1000:
            count += 1
        self.assertGreaterEqual(count, 20)
        self.assertLess(count, 100)
        self.assertTrue(self.put(5))

    def test_a_request_for_metrics_needs_no_slot(self) -> None:
        """The next worker wouldn't know that it came by their address."""
        worker = object.__new__(Worker)
        worker.sockets = [mock.MagicMock(FAMILY=socket.AF_INET), mock.MagicMock(FAMILY=socket.AF_INET)]
        for listener in worker.sockets:
            listener.accept.return_value = socket.socket(), None
        with mock.patch.object(Worker, "handle") as handle:
            for listener in worker.sockets:
                worker.accept(listener)
        work = Work(10)
        for number, call in enumerate(handle.call_args_list):
            with call.args[1] as client, self.assertRaises(NeedsSlot) if number == 0 else contextlib.nullcontext():
                work.begin(client)
                work.expect_slot()
            self.assertEqual(number == 1, client.is_for_metrics)

    def test_costs_are_remembered_for_a_time(self) -> None:
        costs = Costs()
        with mock.patch("time.monotonic", return_value=1000.0) as clock:
            self.assertEqual(0, costs.level("GET /a"))
            for _ in range(2 * MOST_LEVEL):
                costs.note("GET /a")
            self.assertEqual(MOST_LEVEL, costs.level("GET /a"))
            self.assertEqual(0, costs.level("GET /b"))
            clock.return_value = 1010.0
            self.assertEqual(MOST_LEVEL - 1, costs.level("GET /a"))
            clock.return_value = 2000.0
            self.assertEqual(0, costs.level("GET /a"))

    def test_the_address_of_a_client(self) -> None:
        for peer, forwarded, wanted in (
            ("198.51.100.7", "", "198.51.100.7"),
            ("127.0.0.1", "8.8.8.8", "8.8.8.8"),
            ("10.0.0.7", "8.8.8.8", "8.8.8.8"),  # nginx on another machine
            ("8.8.4.4", "8.8.8.8", "8.8.4.4"),  # whoever it is says it of itself
            ("127.0.0.1", "203.0.113.9, 8.8.8.8", "8.8.8.8"),
            ("::1", "2001:db8:1:2:3:4:5:6", "2001:db8:1:2::/64"),
            ("2001:db8:1:2::9", "", "2001:db8:1:2::/64"),
            ("", "8.8.8.8", "8.8.8.8"),
            ("127.0.0.1", "", None),
            ("127.0.0.1", "unknown", None),
            ("", "", None),
        ):
            self.assertEqual(wanted, address_of(peer, forwarded), (peer, forwarded))
        self.assertEqual(0, queue_of(None))
        self.assertNotEqual(0, queue_of("8.8.8.8"))


class Served(Case):
    """A key of many captures, which one query reads."""

    def setUp(self) -> None:
        super().setUp()
        self.put(attacks.captures(MANY))

    def test_dear_queries_of_one_key_leave_workers_for_others(self) -> None:
        """Each is another one, so that none is known to be dear before it begins."""
        server = self.start(head="workers = 4\nwide = 2\n", wait=60)
        for address in ("192.0.2.1", ""):
            with attacks.clients(server, 16, [DEAR], address) as answered:
                self.wait_for(lambda: answered().all, "no other is answered")  # what is free is over
                before = answered()
                attacks.probe(server, 50)
                after = answered()
            # A small query waits for no dear one, so few of these end meanwhile. On a busy machine both take longer.
            self.assertLess(after.all - after.busy - (before.all - before.busy), 50)

    def test_an_address_leaves_a_slot_to_another(self) -> None:
        """The clients of one take nothing of long answers."""
        server = self.start(head="workers = 4\nwide = 2\n", wait=60)
        with attacks.taking_nothing(server, 8, "/cdx?url=example.com/", "192.0.2.1"):
            time.sleep(1)
            for _ in range(2):  # on a busy machine it waits too long at first
                with connected(server) as client:
                    found = client.ask("/cdx?url=example.com/&collapse=digest&fl=offset&limit=20000", X_Forwarded_For="192.0.2.2")
                if found.status != 503:
                    break
            self.assertEqual((200, 20_000), (found.status, found.body.count(b"\n")))

    def test_cheap_requests_are_not_refused(self) -> None:
        """More clients than workers, and a browser's connections that read captures."""
        folder = self.folder / "pages"
        folder.mkdir()
        archives = browse_support.Archives(folder)
        noise = random.Random(1)
        pages = [noise.randbytes(10_000) for _ in range(60)]
        archives.add("a.warc.gz", [
            browse_support.response(f"http://example.net/{n}", "2016-03-03T09:34:31Z", body, "image/png")
            for n, body in enumerate(pages)
        ])  # fmt: skip
        indexes = [str(self.folder / "index"), *map(str, archives.indexes)]
        server = self.start(f'[collections.main]\nindexes = {indexes}\narchives = ["{archives.archives}"]\n',
                            head="workers = 3\nwide = 1\n")  # fmt: skip
        with attacks.clients(server, 20, ["/cdx?url=example.com/&limit=10"]) as answered:
            failed: list[object] = []

            def browse(first: int) -> None:
                for number in range(first, len(pages), 6):
                    with connected(server) as client:
                        target = f"/web/20160303093431id_/http://example.net/{number}"
                        found = client.ask(target, X_Forwarded_For="192.0.2.9")
                    if (found.status, found.body) != (200, pages[number]):
                        failed.append((number, found.status, found.body[:80]))

            threads = [threading.Thread(target=browse, args=(first,)) for first in range(6)]
            for thread in threads:
                thread.start()
            for thread in threads:
                thread.join()
            self.assertEqual([], failed)
            self.wait_for(lambda: answered().all > 20, "the others aren't answered")
            found = answered()
        self.assertEqual((0, 0), (found.busy, found.failed), found)

    def test_the_work_for_clients_that_have_left_ends(self) -> None:
        server = self.start(head="workers = 3\nwide = 1\n")
        with attacks.clients(server, 3, [DEAR], leaves=0.5):
            time.sleep(4)
        self.wait_for(lambda: is_idle(server), "the work goes on")
        self.assertEqual(SMALL_BODY, server.ask(SMALL).body)
        self.assertEqual("", server.said.read_text())

    def test_a_program_that_is_slow_to_start_is_waited_for(self) -> None:
        """Also for a client that has the answer already. Of one query, the second request would wait at once."""
        server = self.start(head="workers = 3\nwide = 2\n", program=self.program('[ "$1" != serve ] || sleep 1'))
        tag = server.ask(SMALL).fields["etag"]
        self.assertEqual([304] * 6, [server.ask(f"{SMALL}&limit={number}", If_None_Match=tag).status for number in range(1, 7)])

    def test_a_disk_that_is_full_ends_nothing(self) -> None:
        """No process makes a file."""
        with mock.patch.dict(os.environ, {"TMPDIR": str(self.folder)}):
            server = self.start(head="workers = 3\nwide = 2\n")
        before = sorted(self.folder.rglob("*"))
        self.assertEqual(200, server.ask(DEAR).status)
        for worker in server.workers():
            os.kill(worker, signal.SIGKILL)
        self.wait_for(lambda: len(server.workers()) == 3, "no workers")
        self.assertEqual(200, server.ask(DEAR).status)
        old = server.workers()
        server.process.send_signal(signal.SIGHUP)
        self.wait_for(lambda: server.workers() and not set(old) & set(server.workers()), "the workers are the old ones")
        self.assertEqual(200, server.ask(DEAR).status)
        self.assertEqual(before, sorted(self.folder.rglob("*")))

    def test_a_request_that_waits_keeps_its_body(self) -> None:
        """Also if a part of it is sent later."""
        server = self.start(head="workers = 2\nwide = 1\n")
        body = b"url=example.org\n" * 40 + b"url=example.com&timestamp=2016\n"
        with connected(server) as first, connected(server) as second:
            for client in (first, second):
                head = f"POST /wayback/available HTTP/1.1\r\nHost: localhost\r\nContent-Length: {len(body)}\r\n\r\n"
                client.send(head.encode() + body[:100])
                time.sleep(0.1)
                client.send(body[100:])
                found = client.response()
                self.assertEqual(200, found.status)
                self.assertEqual(41, found.text.count("archived_snapshots"))

    def test_workers_end_with_a_killed_master(self) -> None:
        """Also one whose client takes nothing, and one that reads on."""
        self.put(lines(200_000, size=100))
        server = self.start(head="workers = 3\nwide = 2\n")
        with attacks.taking_nothing(server, 1, ALL, ""):
            workers = server.workers()
            time.sleep(0.5)
            server.process.kill()
            server.process.wait()
            self.wait_for(lambda: not any(pathlib.Path(f"/proc/{each}").exists() for each in workers), "workers live on")


if __name__ == "__main__":
    unittest.main()
