"""Requests and clients that are made to cost much, and what another client has meanwhile."""
import contextlib
import os
import socket
import struct
import subprocess
import sys
import tempfile
import unittest
from collections.abc import Callable, Iterator

from .costs import is_idle, processor_time
from .support import LINE, PROGRAM, SAMPLE, Case, Client, Server, connected, lines

EXACT = "/cdx?url=example.com/0000007&fl=length"
ALL = "/cdx?url=example.com/*"
EXPLODES = "filter=original:(x|xx)%2B[yz]"
PROBES = 200
MOST_OTHERS = 2  # costly answers that end while a small query is answered
OTHERS = 16  # clients, twice as many as workers
MOST_TIME = 5  # seconds of processors for what takes less than one
USUAL = "workers = 8\n"  # as on four processors
LOAD = """
import os, socket, sys, threading, time
host, port, count, target, counts = sys.argv[1:]
answered = os.open(counts, os.O_WRONLY | os.O_APPEND)
def run():
    while True:
        try:
            with socket.create_connection((host, int(port)), timeout=60) as client:
                client.sendall(f"GET {target} HTTP/1.1\\r\\nHost: localhost\\r\\n\\r\\n".encode())
                begun = client.recv(1 << 20)
                while client.recv(1 << 20):
                    pass
            if begun.startswith((b"HTTP/1.1 200", b"HTTP/1.1 400")):
                os.write(answered, b".")
            else:
                time.sleep(0.01)
        except OSError:
            pass
for _ in range(int(count)):
    threading.Thread(target=run).start()
"""


@contextlib.contextmanager
def clients(server: Server, target: str) -> Iterator[Callable[[], int]]:
    """Asks again and again, by clients that are a process of their own. Yields how many answers have ended."""
    with tempfile.NamedTemporaryFile() as counts:
        words = (*map(str, server.address), str(OTHERS), target, counts.name)
        process = subprocess.Popen((sys.executable, "-c", LOAD, *words))
        try:
            yield lambda: os.stat(counts.name).st_size
        finally:
            process.kill()
            process.wait()


def leave(server: Server, target: str) -> None:
    """Sends a request, and leaves without a word."""
    with connected(server) as client:
        client.send(f"GET {target} HTTP/1.1\r\nHost: localhost\r\n\r\n".encode())
        reset(client)


def reset(client: Client) -> None:
    """Lets a connection end by a reset when it is closed."""
    client.socket.setsockopt(socket.SOL_SOCKET, socket.SO_LINGER, struct.pack("ii", 1, 0))


class Isolated(Case):
    """Another client is answered as if it were alone, and what is answered is right."""

    def compare(self, server: Server, target: str, body: bytes, other: str) -> None:
        """A small query waits for no answers of others, so few of these end while it is answered.

        On a busy machine both take longer.
        """
        with clients(server, other) as count:
            self.wait_for(count, "no other is answered")
            before = count()
            for _ in range(PROBES):
                found = server.ask(target)
                self.assertEqual((200, body), (found.status, found.body))
                self.assertLess(count() - before, PROBES * MOST_OTHERS)
        self.assertLess(server.memory(), 2 << 30)

    @contextlib.contextmanager
    def bounded(self, server: Server) -> Iterator[None]:
        """What is answered in a block takes little of the processors."""
        before = processor_time(server)
        yield
        self.assertLess(processor_time(server) - before, MOST_TIME)

    def test_keys_that_are_too_long_for_a_query(self) -> None:
        for size in (61_000, 66_000):
            text = "".join(LINE % (f"a{n:03}" + "x" * size, "20160101000000", "a", "-", "200", "-", 1, n, "a.warc") for n in range(100))
            self.put(text + SAMPLE)
            server = self.start(head=USUAL)
            wanted = b"".join(b"%d\n" % n for n in range(100))
            for rest in ("", "&filter=statuscode:2.*", "&collapse=offset", "&limit=-100"):
                with self.bounded(server):
                    found = server.ask(f"/cdx?key=a&matchType=prefix&fl=offset{rest}")
                self.assertEqual((200, wanted), (found.status, found.body))
            other = "/cdx?key=a&matchType=prefix&filter=statuscode:2.*"
            self.compare(server, "/cdx?url=example.com/a&fl=length", b"300\n", other)
            server.end()

    def test_many_fields_conditions_and_collapses(self) -> None:
        self.put(lines(1000))
        server = self.start()
        for query, name in (
            ("fl=" + "original," * 3000 + "original", "fl"),
            ("collapse=" + "offset," * 9000 + "offset", "collapse"),
            ("&".join(["collapse=offset"] * 17), "collapse"),
            ("&".join(["filter=original:x"] * 65), "filter"),
            ("&".join([f"filter=original:(?:{n}x?){{9000}}" for n in range(70)]), "filter"),
        ):
            found = server.ask(f"{ALL}&{query}")
            self.assertEqual(400, found.status)
            self.assertIn(f"refused TooMany: {name}: there are at most ", found.text)

    def test_held_answers(self) -> None:
        """At most as many are held at a time as there are slots."""
        self.put(lines(150_000, size=100))
        server = self.start(head=USUAL)
        wanted = self.page(f"{ALL[5:]}&fl=offset").splitlines(keepends=True)[::-1]
        target = f"{ALL}&sort=reverse&limit=100000&fl=offset"
        for _ in range(2):
            self.assertEqual(b"".join(wanted[:100_000]), server.ask(target).body)
        self.compare(server, EXACT, b"8\n", target)

    def test_clients_that_leave(self) -> None:
        """Their work ends, and no line is written for them."""
        self.put(lines(150_000))
        server = self.start(head=USUAL, pattern=1000)
        costly = f"{ALL}&collapse=statuscode" + "".join(f"&filter=original:.*{n}?" for n in range(20))
        before = processor_time(server)
        self.assertEqual(200, server.ask(costly).status)
        whole = processor_time(server) - before
        for _ in range(3):
            with connected(server) as client:
                client.send(f"GET {costly} HTTP/1.1\r\nHost: localhost\r\n\r\n".encode())
                self.wait_for(lambda: not is_idle(server), "no work")
                reset(client)
        self.wait_for(lambda: is_idle(server), "the work goes on")
        self.assertLess(processor_time(server) - before - whole, whole)
        for _ in range(150):
            leave(server, costly)
            leave(server, ALL)
        self.assertEqual(b"8\n", server.ask(EXACT).body)
        self.wait_for(lambda: is_idle(server), "the work goes on")
        self.assertEqual("", server.said.read_text())

    def test_fields_and_queries_that_take_long_to_read(self) -> None:
        self.put(SAMPLE)
        server = self.start()
        blanks = "a" + " " * 8000 + "b"
        with self.bounded(server):
            for _ in range(60):
                self.assertEqual(b"300\n", server.ask("/cdx?url=example.com/a&fl=length", If_None_Match=blanks, Accept=blanks).body)
                found = server.ask("/__wb/sparkline?url=example.com/a" + "&a=1" * 16_000)
                self.assertEqual((400, "refused TooMany: a query has at most 1000 parameters\n"), (found.status, found.text))
        captured = "/web/timegate/http://example.com/nosuch?a" + "&a=1" * 5000  # which may have more
        self.assertEqual(404, server.ask(captured).status)

    def test_revisits_of_one_key(self) -> None:
        """The originals of a key are read once."""
        original = LINE % ("a", "20160101000000", "a", "text/html", "200", "AAAA", 1, 0, "a.warc")
        text = "".join(LINE % ("a", 20160102000000 + n, "a", "warc/revisit", "-", "AB"[n % 2] * 4, 1, n, "a.warc") for n in range(50_000))
        self.put(original + text + SAMPLE)
        server = self.start(head=USUAL)
        with self.bounded(server):
            found = server.ask("/cdx?key=a&limit=1001&resolveRevisits=true&fl=statuscode")
        self.assertEqual(b"200\n" + b"200\n-\n" * 500, found.body)
        other = "/cdx?key=a&resolveRevisits=true"
        self.compare(server, "/cdx?url=example.com/a&fl=length", b"300\n", other)

    def test_patterns_that_explode(self) -> None:
        texts = (LINE % (f"a{n}", "20160101000000", "x" * 60, "-", "-", "-", 1, n, "a.warc") for n in range(5))
        self.put("".join(texts) + SAMPLE)
        server = self.start(head=USUAL, pattern=2)
        target = f"/cdx?key=a&matchType=prefix&{EXPLODES}"
        with self.bounded(server):
            found = server.ask(target)
        self.assertEqual(400, found.status, found.text)
        self.assertIn("refused TooSlow: filter=", found.text)
        self.compare(server, "/cdx?url=example.com/a&fl=length", b"300\n", target)


class Patterns(Case):
    def test_a_pattern_is_not_tried_on_a_value_that_is_too_long(self) -> None:
        self.put(
            LINE % ("a", "20160101000000", "x" * 65_536, "-", "-", "-", 1, 0, "a.warc")
            + LINE % ("b", "20160101000000", "x" * 65_537, "-", "-", "-", 1, 0, "a.warc")
        )
        server = self.start()
        self.assertEqual((200, b"a\n"), server.ask("/cdx?key=a&filter=original:(.)*&fl=urlkey")[::2])
        found = server.ask("/cdx?key=b&filter=original:(.)*&fl=urlkey")
        self.assertEqual((400, "refused TooSlow: filter=(.)*: a value has more than 65536 characters\n"), (found.status, found.text))
        self.assertEqual((200, b"b\n"), server.ask("/cdx?key=b&filter=urlkey:(.)*&fl=urlkey")[::2])

    def test_a_pattern_that_would_fill_the_memory_is_refused(self) -> None:
        self.put(SAMPLE)
        server = self.start()
        before = server.memory()
        nested = "(?:" * 90 + "a|b" + "){9}" * 90
        for pattern in (
            "a{1000000000}",
            "(?:ab){1000000000}",
            "((a|b){1000}){1000}",
            nested,
            "(" * 400 + ")*" * 400,
            "(?x)a{1 0 0 0 0 0 0}",
            "(?:(?R)|x)*",
            "((?1)|x)*",
            "(?P<a>(?%26a)|x)*",
            "(?P<a>(?P>a)|x)*",
            "a{²}",
            "a{1²}",
            ".\\G{e<=3}\\G",
        ):
            found = server.ask(f"/cdx?url=example.com&filter=original:{pattern.replace(' ', '%20').replace('²', '%C2%B2')}")
            self.assertEqual(400, found.status, pattern)
            self.assertIn("refused BadFilter: filter=", found.text)
        self.assertEqual(200, server.ask("/cdx?url=example.com&filter=timestamp:[0-9]{4}0101[0-9]{6}&filter=digest:[A-Z2-7]{4}").status)
        self.assertLess(server.memory() - before, 100 << 20)

    def test_patterns_are_kept_nowhere(self) -> None:
        self.put(SAMPLE)
        server = self.start(head="workers = 2\n")
        server.ask("/cdx?url=example.com&filter=original:(?:001[a-c]x?){9000}")
        before = server.memory()
        for number in range(400):
            pattern = f"(?:{number:03}[a-c]x?){{9000}}"
            found = server.ask(f"/cdx?url=example.com&filter=original:{pattern}")
            self.assertEqual((200, b""), (found.status, found.body))
        self.assertLess(server.memory() - before, 100 << 20)


class Requests(Case):
    def setUp(self) -> None:
        super().setUp()
        self.put(SAMPLE)
        self.server = self.start()

    def test_what_is_not_utf_8_is_refused(self) -> None:
        for query in (b"url=a&filter=original:\xff", b"url=%FF", b"url=a&is=digest:%E9", b"%FF=a", b"url=a&resumeKey=%FF"):
            with connected(self.server) as client:
                client.send(b"GET /cdx?" + query + b" HTTP/1.1\r\nHost: localhost\r\n\r\n")
                found = client.response()
            self.assertEqual(400, found.status, query)
            self.assertIn("refused NotText", found.text)

    def test_a_resume_key_of_many_parts_is_refused_at_once(self) -> None:
        """Each part may be read in two ways."""
        for key in ("a%2520" * 10_000 + "!", "a%252520" * 7000 + "%20", "+" * 60_000, "a%2B" * 10_000 + "!"):
            self.assertIn("refused BadResume", self.server.ask(f"/cdx?url=example.com&resumeKey={key}").text, key[:20])

    def test_requests_that_can_not_be_read_leave_no_line(self) -> None:
        for request in (
            b"GET http://[ HTTP/1.1\r\nHost: localhost\r\n\r\n",
            b"GET http://[::1 HTTP/1.1\r\n\r\n",
            b"GET /cdx?url=a HTTP/1.1\r\nHost: [\r\n\r\n",
            b"GET /cdx?url=a HTTP/1.1\r\nHost: localhost\r\nContent-Encoding: gzip\r\nContent-Length: 4\r\n\r\nabcd",
            b"GET /cdx?url=a HTTP/1.1\r\nHost: localhost\r\nTransfer-Encoding: chunked\r\n\r\nx\r\n",
            b"\x16\x03\x01\x00\n\r\n",
            b"GET /cdx?url=a\r\n",
            b"GET",
        ):
            with connected(self.server) as client, contextlib.suppress(EOFError, ConnectionError):
                client.send(request)
                client.socket.shutdown(socket.SHUT_WR)
                found = client.response()
                self.assertNotIn("gunicorn", str(found).lower())
                self.assertNotIn("python", str(found).lower())
                self.assertNotEqual(500, found.status, request)
        self.assertEqual(b"300\n", self.server.ask("/cdx?url=example.com/a&fl=length").body)
        self.assertEqual("", self.server.said.read_text())

    def test_a_body_that_is_not_one_of_http_is_refused(self) -> None:
        for field, body in (("Transfer-Encoding: chunked", b"xyz\r\n"), ("Transfer-Encoding: chunked", b"3\r\nabcdef\r\n0\r\n\r\n")):
            with connected(self.server) as client:
                head = f"POST /wayback/available HTTP/1.1\r\nHost: localhost\r\n{field}\r\n\r\n"
                client.send(head.encode() + body)
                found = client.response()
            self.assertEqual((400, "refused BadBody: the body of the request can't be read\n"), (found.status, found.text))
        self.assertEqual("", self.server.said.read_text())

    def test_a_body_in_chunks_that_ends_too_early_or_never(self) -> None:
        """None keeps a worker, though gunicorn would ask for ever for the end of a chunk, and hold any size of one."""
        body = b"url=example.com/a&fl=length"
        for sent in (
            b"1b\r\n" + body, b"1b\r\n" + body + b"\r", b"\r\n", b"1b\r\n" + body + b"\r\n0\r\nbad\r\n\r\n",
            b"1b;" + b"x" * (3 << 20), b"1" * 5000,
        ):  # fmt: skip
            with connected(self.server) as client:
                client.send(b"POST /cdx HTTP/1.1\r\nHost: localhost\r\nContent-Type: application/x-www-form-urlencoded\r\n")
                with contextlib.suppress(ConnectionError):  # it is answered before it is taken
                    client.send(b"Transfer-Encoding: chunked\r\n\r\n" + sent)
                    client.socket.shutdown(socket.SHUT_WR)
                client.socket.settimeout(20)
                with contextlib.suppress(ConnectionResetError):
                    found = client.response()
                    self.assertEqual(
                        (400, "refused BadBody: the body of the request can't be read\n"), (found.status, found.text), sent[:40]
                    )
        self.assertEqual("", self.server.said.read_text())

    def test_what_servers_read_in_different_ways_is_refused(self) -> None:
        """So a server in front and the gateway never see two requests in one, or other fields."""
        query, body = b"/cdx?url=example.com/a&fl=length", b"url=example.com/a&fl=length"
        form = (
            b"POST /cdx HTTP/1.1\r\nHost: localhost\r\nContent-Type: application/x-www-form-urlencoded\r\nContent-Length:%s\r\n\r\n" + body
        )
        get = b"GET %s HTTP/%s\r\n%s\r\n\r\n"
        for status, request in (
            *((200, form % length) for length in (b"27", b" 27", b"\t27 ", b"0027")),
            *((400, form % length) for length in (b"+27", b"-0", b"2_7", b"27,27", b"0x1b", b"\x0b27", b"\xa027", b"27\x0c", b"")),
            *((200, get % (query, version, b"Host: localhost")) for version in (b"1.1", b"1.0")),
            *((400, get % (query, version, b"Host: localhost")) for version in (b"0.9", b"1.2", b"2.0", b"1" * 5000 + b".1", b"1.1\t")),
            (400, get % (query, b"1.1", b"A: b")), (200, get % (query, b"1.0", b"A: b")),
            (400, get % (query, b"1.1", b"Host: localhost\r\nHost: localhost")),
            *((400, get % (query, b"1.1", b"Host: localhost\r\nA: b" + end + b"B: c")) for end in (b"\n", b"\r", b"\0", b"\r\r")),
            (400, get % (query, b"1.1", b"Host: localhost\nA: b")), (400, get % (query, b"1.1", b"Host: localhost\r\nA\n: b")),
            *((400, get % (query[:5] + each + query[5:], b"1.1", b"Host: localhost")) for each in (b"\n", b"\r", b"\0", b"\t", b"\x1b")),
            (200, get % (query, b"1.1", b"Host: localhost\r\nScript_Name: /x\r\nX_Forwarded_For: 1.2.3.4\r\nContent_Length: 9")),
        ):  # fmt: skip
            with connected(self.server) as client:
                client.send(request)
                with self.subTest(request[-100:]):
                    self.assertEqual(status, client.response().status)
        with connected(self.server) as client:  # without CR there is no line
            client.send(b"GET " + query + b" HTTP/1.1\nHost: localhost\n\n")
            client.socket.shutdown(socket.SHUT_WR)
            self.assertEqual(b"", client.input.read())
        self.assertEqual("", self.server.said.read_text())

    def test_a_line_of_the_access_log_has_no_controls(self) -> None:
        log = self.folder / "log"
        server = self.start(head=f'access_log = "{log}"\nworkers = 2\n')
        with connected(server) as client:
            client.send(b"GET /cdx?url=a\x1b[31m\x9b HTTP/1.1\r\nHost: localhost\r\nReferer: \x1b]0;x\x07\r\n\r\n")
            client.response()
        self.wait_for(lambda: log.read_text().count("\n") == 1, "no line is written")
        self.assertTrue(log.read_text().rstrip("\n").isprintable(), log.read_text())

    def test_of_two_parameters_at_fault_the_first_is_named(self) -> None:
        """As `warcdx query` names it."""
        for query, name in (
            ("matchType=x&from=y", "matchType=x"),
            ("from=y&matchType=x", "from=y"),
            ("resumeKey=x&from=y", "resumeKey=x"),
            ("resumeKey=x&matchType=y", "resumeKey=x"),
            ("matchType=y&resumeKey=x", "matchType=y"),
            ("fl=x&output=y", "fl=x"),
            ("url=a&url=b&limit=x", "url"),
            ("limit=x&url=a&url=b", "limit=x"),
            ("nosuch=1&from=y", "nosuch"),
            ("from=y", "from=y"),
        ):
            found = self.server.ask(f"/cdx?{query}")
            self.assertEqual(400, found.status)
            self.assertIn(f": {name}: ", found.text)
            done = subprocess.run((PROGRAM, "query", query, self.folder / "index"), stderr=subprocess.PIPE, text=True)
            said = done.stderr.splitlines()
            self.assertEqual(f"warcdx: query: {found.text.split()[1].rstrip(':')}", said[0])

    def test_an_answer_that_is_known(self) -> None:
        """A query that is refused has none, and one that came back before isn't taken for known."""
        first = self.server.ask("/cdx?url=example.com")
        for fields in ({"If_None_Match": "*"}, {"If_None_Match": first.fields["etag"]}):
            for query in ("url=a&from=x", "url=*", "url=a&resumeKey=x", ""):
                self.assertEqual(400, self.server.ask(f"/cdx?{query}", **fields).status)

    def test_a_host_of_another_name_is_refused(self) -> None:
        for host, status in (
            ("localhost", 200), ("localhost:80", 200), ("127.0.0.1", 200), ("[::1]:8080", 200), ("LOCALHOST.", 200),
            ("", 421), ("evil.example", 421), ("evil.example\\@localhost", 421), ("localhost/x", 421), ("localhost#x", 421),
            ("localhost?x", 421), ("x@localhost", 421), ("localhost:x", 421), ("localhost.evil.example", 421), ("127.0.0.1.evil.example", 421), ("[", 421),
        ):  # fmt: skip
            with connected(self.server) as client:
                client.send(f"GET /cdx?url=a HTTP/1.1\r\nHost: {host}\r\n\r\n".encode())
                self.assertEqual(status, client.response().status, host)
        server = self.start(head='hosts = ["CDX.example.org", "[2001:DB8::1]"]\nworkers = 2\n')
        for host, status in (("cdx.example.org", 200), ("CDX.Example.org:443", 200), ("[2001:db8::1]:80", 200), ("a.cdx.example.org", 421)):
            with connected(server) as client:
                client.send(f"GET /cdx?url=a HTTP/1.1\r\nHost: {host}\r\n\r\n".encode())
                self.assertEqual(status, client.response().status, host)


if __name__ == "__main__":
    unittest.main()
