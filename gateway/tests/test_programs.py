"""Programs that end while they answer, and indexes that are replaced."""
import contextlib
import os
import signal
import subprocess
import threading
import time
import unittest

from .support import ALL_IN_ORDER, LINE, PROGRAM, SAMPLE, WAIT, Case, Server, connected, lines

from warcdx_gateway.workers import SILENCE

EXACT = "/cdx?url=example.com/0000007&fl=length"
ALL = "/cdx?url=example.com/*"
REVISITS = 2000


class Programs(Case):
    def kill_meanwhile(self, server: Server, targets: dict[str, bytes], seconds: float) -> None:
        """Asks while programs are killed. Each answer with status 200 is whole and right."""
        is_over = threading.Event()
        results: list[tuple[int, bool]] = []

        def ask() -> None:
            while not is_over.is_set():
                for target, body in targets.items():
                    with contextlib.suppress(EOFError, ConnectionError):
                        found = server.ask(target)
                        results.append((found.status, found.body == body))

        threads = [threading.Thread(target=ask) for _ in range(3)]
        for thread in threads:
            thread.start()
        killed, answered, end = 0, list[bool](), time.monotonic() + seconds
        while time.monotonic() < end or killed < 12 or len(answered) < 30:
            for process in server.programs()[:1]:
                with contextlib.suppress(ProcessLookupError):
                    os.kill(process, signal.SIGKILL)
                    killed += 1
            time.sleep(0.05)
            answered = [is_right for status, is_right in results if status == 200]
            if time.monotonic() > end + WAIT:
                break
        is_over.set()
        for thread in threads:
            thread.join()
        self.assertEqual({True}, set(answered))
        self.assertGreaterEqual(killed, 12)
        self.assertGreaterEqual(len(answered), 30)
        self.assertLessEqual({status for status, _ in results}, {200, 500, 503})

    def test_a_killed_program_loses_no_answer(self) -> None:
        self.put(lines(20_000))
        server = self.start()
        self.kill_meanwhile(server, {EXACT: b"8\n", ALL: server.ask(ALL).body}, 2)

    def test_a_killed_program_changes_no_revisit(self) -> None:
        first = LINE % ("a", "20160101000000", "a", "text/html", "200", "AAAA", 1, 0, "a.warc")
        others = (LINE % ("a", 20160102000000 + n, "a", "warc/revisit", "-", "AAAA", 1, n, "a.warc") for n in range(REVISITS))
        self.put(first + "".join(others))
        server = self.start()
        targets = {
            f"/cdx?key=a&resolveRevisits=true&fl=statuscode{rest}": b"200\n" * count
            for rest, count in (
                ("", REVISITS + 1),
                ("&limit=-5", 5),
                ("&sort=reverse&limit=50", 50),
                ("&filter=statuscode:2..", REVISITS + 1),
            )
        }
        self.kill_meanwhile(server, targets, 2)

    def test_a_fault_of_an_index_is_status_500(self) -> None:
        first = LINE % ("b", "20160101000000", "b", "-", "-", "-", 1, 0, "a.warc")
        last = LINE % ("c", "20160101000000", "c", "-", "-", "-", 1, 0, "a.warc")
        self.put(first + first.replace("b", "a", 1) + last * 50)
        server = self.start(program=self.program(ALL_IN_ORDER))
        for rest in ("", "&output=json", "&output=cdxj", "&filter=offset:.*", "&limit=-1"):
            found = server.ask(f"/cdx?key=&matchType=prefix{rest}")
            self.assertEqual((500, f"fault OutOfOrder 0 {len(first)}\n"), (found.status, found.text))
        self.assertEqual((200, b""), server.ask("/cdx?key=d")[::2])

    def test_lines_out_of_order_are_found_where_query_finds_them(self) -> None:
        """An answer isn't searched for piece by piece, as a search may end behind the lines.

        The search for the last captures finds others of these lines.
        """
        text = lines(500).splitlines(keepends=True)
        moved = text[124:245]
        del text[124:245]
        text[206:206] = moved
        index = self.put("".join(text))
        command = (PROGRAM, "query", "url=example.com/*", index)
        done = subprocess.run(command, stdout=subprocess.DEVNULL, stderr=subprocess.PIPE, text=True)
        name, offset = done.stderr.splitlines()[0].split()[-2:]
        self.assertEqual("OutOfOrder", name)
        server = self.start(program=self.program(ALL_IN_ORDER))
        for rest in ("", "&filter=statuscode:2..", "&collapse=digest"):
            found = server.ask(ALL + rest)
            self.assertEqual((500, f"fault OutOfOrder 0 {offset}\n"), (found.status, found.text), rest)
        for rest in ("&limit=-3", "&sort=reverse", "&page=0", "&showNumPages=true"):
            found = server.ask(ALL + rest)
            self.assertEqual(500, found.status, rest)
            self.assertTrue(found.text.startswith("fault OutOfOrder 0 "), found.text)

    def test_a_fault_in_a_long_answer_breaks_it_off(self) -> None:
        """The client sees that the answer isn't whole, and a line says so."""
        middle = LINE % ("com,example)/0", "20160101000000", "a", "-", "-", "-", 1, 0, "a.warc")
        self.put(lines(30_000) + middle + lines(30_000).replace("com,", "dom,"))
        server = self.start(program=self.program(ALL_IN_ORDER))
        for query in ("", "&filter=statuscode:.*"):
            target = f"/cdx?key=&matchType=prefix{query}"
            with connected(server) as client, self.assertRaises((EOFError, ConnectionError)):
                client.ask(target)
            with connected(server) as client:
                client.send(f"GET {target} HTTP/1.0\r\nHost: localhost\r\n\r\n".encode())
                with self.assertRaises(ConnectionError):
                    client.input.read()
            command = ("curl", "--silent", "--output", "/dev/null", server.url + target)
            self.assertEqual(18, subprocess.run(command).returncode)  # CURLE_PARTIAL_FILE
        said = server.said.read_text().splitlines()
        self.assertEqual(6, len(said), said)
        self.assertTrue(all("an answer was broken off: " in line for line in said))
        self.assertEqual(6, server.metric("broken_answers_total"))

    def test_a_query_that_takes_too_long_is_ended(self) -> None:
        self.put(SAMPLE)
        answers = "case $line in *example.com*) exec sleep 600;; esac; echo refused NoUrl; echo ."
        rule = f'[ "$1" != serve ] || {{ while read -r line; do {answers}; done; exit; }}'
        server = self.start(program=self.program(rule), query=1)
        found = server.ask("/cdx?url=example.com")
        self.assertEqual((503, "1"), (found.status, found.fields["retry-after"]))
        self.assertIn("refused TooSlow", found.text)

    def test_a_client_that_leaves_is_noticed_while_the_program_is_silent(self) -> None:
        self.put(SAMPLE)
        rule = '[ "$1" != serve ] || { while read -r line; do : > "$0.asked"; exec sleep 600; done; exit; }'
        server = self.start(head="timeout = 600\n", program=self.program(rule), query=599)
        with connected(server) as client:
            client.send(b"GET /cdx?url=example.com HTTP/1.1\r\nHost: localhost\r\n\r\n")
            self.wait_for((self.folder / "program.asked").exists, "the program isn't asked")
            self.assertTrue(server.programs())
        self.wait_for(lambda: not server.programs(), "the program goes on")  # long before limits.query ends it


class Indexes(Case):
    def replace(self, text: str) -> None:
        os.replace(self.put(text, "new"), self.folder / "index")

    def renewals(self, server: Server, result: str) -> float:
        return server.metric(f'index_renewals_total{{collection="main",result="{result}"}}')

    def test_indexes_are_replaced_under_load(self) -> None:
        """Each answer is that of one of the two indexes, and none is lost."""
        self.put(lines(3000))
        server = self.start()
        texts = {status: lines(3000, status) for status in (200, 404)}
        wanted = {self.page("url=example.com/*", self.put(text, str(status))) for status, text in texts.items()}
        wrong: list[tuple[int, bytes]] = []
        asked: list[str] = []
        is_over = threading.Event()

        def ask() -> None:
            while not is_over.is_set():
                for target, bodies in ((ALL, wanted), (EXACT, {b"8\n"})):
                    found = server.ask(target)
                    if found.status != 503 and found.body not in bodies:
                        wrong.append((found.status, found.body[:200]))
                    asked.append(target)

        threads = [threading.Thread(target=ask) for _ in range(4)]
        for thread in threads:
            thread.start()
        for number in range(6):
            self.replace(texts[200 if number % 2 else 404])
            time.sleep(0.5)
        is_over.set()
        for thread in threads:
            thread.join()
        self.assertEqual([], wrong)
        self.assertTrue(asked)
        self.wait_for(lambda: self.renewals(server, "done") >= 2, "the renewals aren't counted")

    def test_what_is_no_index_does_not_come_into_use(self) -> None:
        """The old one stays in use, also in workers that are started then."""
        self.put(lines(10))
        server = self.start()
        first = server.ask(ALL)
        bad = ("a text\n", lines(20) + '{"url"', lines(20)[:-5], "\0" * 1000)
        for number, text in enumerate(bad, 1):
            self.replace(text)
            self.wait_for(lambda: self.renewals(server, "failed") == number, "no look at the files")
            for worker in server.workers()[:2]:
                os.kill(worker, signal.SIGKILL)
            for _ in range(20):
                self.assertEqual(first[::2], server.ask(ALL)[::2])
        (self.folder / "index").unlink()
        self.wait_for(lambda: self.renewals(server, "failed") == len(bad) + 1, "no look")
        self.assertEqual(b"8\n", server.ask(EXACT).body)
        (self.folder / "index").mkdir()
        self.wait_for(lambda: self.renewals(server, "failed") == len(bad) + 2, "no look")
        self.assertEqual(b"8\n", server.ask(EXACT).body)
        (self.folder / "index").rmdir()
        self.put(lines(10, size=5))
        self.wait_for(lambda: b"xxxxx" in server.ask(ALL).body, "the index isn't seen")
        said = [line for line in server.said.read_text().splitlines() if "old indexes" in line]
        self.assertEqual(len(bad) + 2, len(said), said)

    def test_an_older_index_that_comes_back_is_answered_anew(self) -> None:
        """Its time is that of before, and no client is told that nothing has changed."""
        self.put(lines(20))
        server = self.start()
        self.wait_for(lambda: "last-modified" in server.ask(ALL).fields, "there is no time")
        first = server.ask(ALL).fields
        old = self.put(lines(5), "old")
        os.utime(old, (10**9, 10**9))
        os.replace(old, self.folder / "index")
        wanted = self.page("url=example.com/*")
        self.wait_for(lambda: server.ask(ALL).body == wanted, "the index isn't seen")
        time.sleep(0.5)  # by all workers
        for fields in (
            {"If_Modified_Since": first["last-modified"]},
            {"If_None_Match": first["etag"]},
            {"If_None_Match": '"x"', "If_Modified_Since": first["last-modified"]},
        ):
            for _ in range(5):
                self.assertEqual((200, wanted), server.ask(ALL, **fields)[::2])

    def test_a_request_that_comes_slowly_has_the_new_index(self) -> None:
        """The worker that reads it has the old one, and gives it to another worker when it is read."""
        self.put(lines(10))
        server = self.start()
        for rest in ("", "&collapse=digest"):
            with connected(server) as client:
                client.send(b"GET /cdx?url=exam")
                time.sleep(0.3)
                self.replace(lines(10, size=9 + len(rest)))
                wanted = self.page("url=example.com/*")
                self.wait_for(lambda: server.ask(ALL).body == wanted, "the index isn't seen")
                time.sleep(SILENCE + 1)
                client.send(f"ple.com/*{rest} HTTP/1.1\r\nHost: localhost\r\n\r\n".encode())
                found = client.response()
                self.assertEqual((200, wanted), (found.status, found.body))
        self.wait_for(lambda: len(server.workers()) == 3, "old workers go on")

    def test_limits_of_the_settings_change_the_tag(self) -> None:
        self.put(lines(20))
        tags = {self.start(usual=usual).ask(ALL).fields["etag"] for usual in (0, 5)}
        self.assertEqual(2, len(tags))

    def test_a_running_answer_is_of_the_old_index(self) -> None:
        """Also if its program is killed after the index was replaced."""
        self.put(lines(100_000))
        server = self.start()
        wanted = self.page("url=example.com/*")
        with connected(server) as client:
            client.begin(ALL)
            self.replace(lines(100))
            self.wait_for(lambda: len(server.ask(ALL).body) < len(wanted), "the index isn't seen")
            for program in server.programs():
                with contextlib.suppress(ProcessLookupError):
                    os.kill(program, signal.SIGKILL)
            self.assertTrue(client.response().body == wanted)


if __name__ == "__main__":
    unittest.main()
