"""HTTP: keep-alive, HEAD, OPTIONS, CORS, tags, limits, health and metrics."""
import contextlib
import os
import re
import shutil
import socket
import subprocess
import unittest
from unittest import mock

from . import browse_support
from .support import SAMPLE, WAIT, Case, Shared, connected, lines

from warcdx_gateway.application import FORM
from warcdx_gateway.shared import ROOM


class Http(Shared):
    def test_paths_that_there_are_not(self) -> None:
        for target in ("/nosuch", "/nosuch/cdx", "/cdx/", "/main/"):
            found = self.server.ask(target + "?url=example.com/a")
            self.assertEqual(404 if "nosuch" in target else 200, found.status, target)
        for path, what in (("/x", "collection"), ("/main/x/y", "path")):
            text = f"refused NotFound: there is no such {what}\n"
            self.assertEqual(text, self.server.ask(path).text)

    def test_a_connection_ends_with_its_answer(self) -> None:
        """Further requests on it aren't read, so that none costs the others anything."""
        with connected(self.server) as client:
            client.send(b"GET /cdx?url=example.com/a&fl=length HTTP/1.1\r\nHost: localhost\r\n\r\n" * 1000)
            found = client.response()
            self.assertEqual((200, b"300\n"), found[::2])
            self.assertEqual("close", found.fields["connection"])

    def test_http_1_0_is_answered(self) -> None:
        for fields in (b"", b"Expect: 100-continue\r\n"):
            with connected(self.server) as client:
                client.send(b"GET /cdx?url=example.com/a&fl=length HTTP/1.0\r\n%s\r\n" % fields)
                self.assertEqual((200, b"300\n"), client.response()[::2])
                self.assertEqual(b"", client.input.read())

    def test_a_field_of_a_client_does_not_change_its_path(self) -> None:
        for value in ("/x", "/cdx", ""):
            found = self.server.ask("/cdx?url=example.com/a&fl=length", **{"SCRIPT_NAME": value})
            self.assertEqual((200, "300\n"), (found.status, found.text))

    def test_a_client_may_close_its_side_after_the_request(self) -> None:
        for query in ("url=example.com/a", "url=example.com&sort=reverse&limit=1"):
            with connected(self.server) as client:
                client.send(f"GET /cdx?{query}&fl=length HTTP/1.1\r\nHost: localhost\r\n\r\n".encode())
                client.socket.shutdown(socket.SHUT_WR)
                self.assertEqual(200, client.response().status)

    def test_a_body_is_whole_and_short(self) -> None:
        """What is left of a query that was cut would be another one."""
        form = "POST /cdx HTTP/1.1\r\nHost: localhost\r\nContent-Type: application/x-www-form-urlencoded\r\n"
        body = b"url=example.com/a&fl=length&filter=length:300"
        chunk = b"%x\r\n%s\r\n" % (1 << 16, b"&" * (1 << 16))
        for field, sent, status in (
            (f"Content-Length: {len(body)}", body, 200), (f"Content-Length: {len(body) + 1}", body, 400),
            (f"Content-Length: {len(body) + 9}", b"", 400), ("Transfer-Encoding: chunked", b"2d\r\n" + body + b"\r\n0\r\n\r\n", 200),
            ("Transfer-Encoding: chunked", b"2d\r\n" + body[:9], 400), ("Transfer-Encoding: chunked", b"2d\r\n" + body + b"\r\n", 400),
            ("Content-Length: 131073", b"", 413), (f"Content-Length: {'9' * 30}", body, 413), ("Transfer-Encoding: chunked", chunk * 3, 413),
            *((f"Transfer-Encoding: {coding}", body, 400) for coding in ("xchunked", "gzip, chunked", "chunked, identity", "\x0bchunked")),
        ):  # fmt: skip
            with connected(self.server) as client:
                client.send(f"{form}{field}\r\n\r\n".encode() + sent)
                with contextlib.suppress(OSError):  # it is answered before all of it is read
                    client.socket.shutdown(socket.SHUT_WR)
                self.assertEqual(status, client.response().status, (field, sent[:50]))
        with connected(self.server) as client:
            client.send(b"POST /wayback/available HTTP/1.1\r\nHost: localhost\r\nContent-Length: 40\r\n\r\nurl=example.com")
            client.socket.shutdown(socket.SHUT_WR)
            self.assertEqual(400, client.response().status)
        self.assertEqual("", self.server.said.read_text())

    def test_the_parameters_of_a_media_type_mean_nothing(self) -> None:
        body = b"url=example.com/a&fl=length"
        for kind, status in (
            (FORM, 200), (FORM.upper(), 200), (f"{FORM} ; charset=utf-8", 200), (f"{FORM}; a*0*=''; a*0*=''", 200), (f"{FORM}; a*=nosuch'x'%ff", 200),
            (f"{FORM};" + " ;=" * 2000, 200), (f"x{FORM}", 400), ("text/plain; a*0*='';" * 9, 400), ("", 400),
        ):  # fmt: skip
            with connected(self.server) as client:
                head = f"POST /cdx HTTP/1.1\r\nHost: localhost\r\nContent-Type: {kind}\r\nContent-Length: {len(body)}\r\n\r\n"
                client.send(head.encode() + body)
                self.assertEqual(status, client.response().status, kind[:99])

    def test_a_server_in_front_says_which_scheme_links_have(self) -> None:
        """It may be on another machine."""
        for address in ("127.0.0.1", "127.0.0.2"):
            with socket.create_connection(self.server.address, WAIT, (address, 0)) as client:
                client.sendall(b"GET /collinfo.json HTTP/1.0\r\nHost: localhost\r\nX-Forwarded-Proto: https\r\n\r\n")
                self.assertIn('"https://localhost/main/"', client.makefile().read(), address)

    def test_a_target_may_name_the_server(self) -> None:
        for scheme in ("http", "HTTP", "Https"):
            for path, status in (
                ("/cdx?url=example.com/a", 200),
                ("/web/2016/http://example.com/", 302),
                ("/web/timemap/link/example.com", 200),
            ):
                found = self.server.ask(f"{scheme}://localhost{path}")
                self.assertEqual(status, found.status, (scheme, path))

    def test_head_has_the_fields_of_get(self) -> None:
        for target in ("/cdx?url=example.com", "/cdx?url=example.com&filter=statuscode:2..", "/cdx?url=a&x=1"):
            found, wanted = self.server.ask(target, "HEAD"), self.server.ask(target)
            self.assertEqual({**wanted.fields, "date": ""}, {**found.fields, "date": ""})
            self.assertEqual((wanted.status, b""), (found.status, found.body))

    def test_no_answer_is_kept_without_a_question(self) -> None:
        """A cache may otherwise choose for how long it gives what isn't shown any more."""
        for target in (
            "/cdx?url=example.com", "/cdx?url=a&x=1", "/web/timegate/http://example.com/", "/web/timemap/link/http://example.com/",
            "/web/timegate/http://nosuch.example/", "/wayback/available?url=example.com", "/__wb/sparkline?url=example.com",
            "/main?q=url:example.com", "/collinfo.json", "/main/browse", "/main/browse/search?url=example.com", "/", "/nosuch",
        ):  # fmt: skip
            self.assertEqual("no-cache", self.server.ask(target).fields["cache-control"], target)

    def test_pages_of_other_origins_may_not_read_answers(self) -> None:
        found = self.server.ask("/cdx?url=example.com", Origin="https://example.net")
        self.assertNotIn("access-control-allow-origin", found.fields)
        self.assertEqual("nosniff", found.fields["x-content-type-options"])
        found = self.server.ask("/cdx", "OPTIONS", Origin="https://example.net")
        self.assertNotIn("access-control-allow-origin", found.fields)

    def test_other_methods_are_refused(self) -> None:
        for method in ("PUT", "DELETE", "TRACE"):
            found = self.server.ask("/cdx?url=example.com", method)
            self.assertEqual((405, "GET, HEAD, POST"), (found.status, found.fields["allow"]))

    def test_an_answer_that_is_known_is_not_sent(self) -> None:
        target = "/cdx?url=example.com"
        # A time of the last two seconds isn't sent, as other files may get it.
        self.wait_for(lambda: "last-modified" in self.server.ask(target).fields, "there is no Last-Modified")
        first = self.server.ask(target)
        tag, time = first.fields["etag"], first.fields["last-modified"]
        for fields in ({"If_None_Match": tag}, {"If_None_Match": f'"x", W/{tag}'}, {"If_None_Match": "*"}, {"If_Modified_Since": time}):
            found = self.server.ask(target, **fields)
            self.assertEqual((304, b"", tag), (found.status, found.body, found.fields["etag"]))
        for fields in ({"If_None_Match": '"x"'}, {"If_Modified_Since": "Mon, 01 Jan 2001 00:00:00 GMT"}, {"If_Modified_Since": "x"}):
            self.assertEqual(first.body, self.server.ask(target, **fields).body)
        self.assertEqual(400, self.server.ask("/cdx?url=a&x=1", If_None_Match=tag).status)

    def test_health_and_metrics(self) -> None:
        self.assertEqual("ok\n", self.server.ask("/health").text)
        names = ("requests_total", 'refusals_total{cause="Unknown"}')
        before = [self.server.metric(name) for name in names]
        for _ in range(20):  # by each worker
            self.server.ask("/cdx?url=example.com")
        self.server.ask("/cdx?url=example.com&x=1")
        after = [self.server.metric(name) for name in names]
        # A request for the counts is counted after its answer was made.
        self.assertEqual([20 + 1 + 2, 1], [new - old for new, old in zip(after, before)])
        self.assertGreater(self.server.metric("request_seconds_sum"), 0)

    def test_metrics_are_for_this_machine(self) -> None:
        """A server in front passes requests of others on, and says whose they are."""
        for path in ("/metrics", "/metrics/"):
            self.assertEqual(200, self.server.ask(path).status)
            self.assertEqual(404, self.server.ask(path, X_Forwarded_For="192.0.2.1").status)

    def test_bad_requests_are_refused(self) -> None:
        for request, statuses in (
            (b"GET /cdx?url=a b HTTP/1.1\r\nHost: localhost\r\n\r\n", (400,)),
            (b"GET /cdx?url=\xff HTTP/1.1\r\nHost: localhost\r\n\r\n", (400,)),
            (b"GET /cdx?url=" + b"a" * 65_000 + b" HTTP/1.1\r\nHost: localhost\r\n\r\n", (200,)),
            (b"GET /cdx?url=" + b"a" * 65_533 + b" HTTP/1.1\r\nHost: localhost\r\n\r\n", (400,)),
            (b"GET /cdx?url=" + b"a" * 80_000 + b" HTTP/1.1\r\nHost: localhost\r\n\r\n", (400,)),
            (b"GET /cdx?url=a HTTP/1.1\r\nHost: localhost\r\nX: " + b"a" * 9000 + b"\r\n\r\n", (400,)),
            (b"GET /cdx?url=a HTTP/1.1\r\nHost: localhost\r\n" + b"X: a\r\n" * 200 + b"\r\n", (400,)),
            (b"GET /cdx?url=a HTTP/9.9\r\nHost: localhost\r\n\r\n", (400,)),
            (b"\x16\x03\x01\x00\n\r\n", (400,)),
        ):
            with self.subTest(request[:30]), connected(self.server) as client:
                client.send(request)
                self.assertIn(client.response().status, statuses)
        for nothing in (b"", b"\r\n\r\n", b"\0" * 100_000, b"GET /cdx HTTP/1.1\r\nX: " + b"a" * 200_000):
            with connected(self.server) as client:
                try:
                    client.send(nothing)
                    client.socket.shutdown(1)
                    client.input.read()
                except OSError:
                    pass
        self.assertEqual(b"300\n", self.server.ask("/cdx?url=example.com/a&fl=length").body)


class Origins(Case):
    def test_pages_of_the_origins_of_the_settings_may_read_answers(self) -> None:
        self.put(SAMPLE)
        server = self.start(head='origins = ["https://example.net"]\n')
        for target in (
            "/cdx?url=example.com", "/cdx?url=a&x=1", "/main/index?url=example.com", "/wayback/available?url=example.com",
            "/__wb/sparkline?url=example.com",
        ):  # fmt: skip
            found = server.ask(target, Origin="https://example.net")
            self.assertEqual("https://example.net", found.fields["access-control-allow-origin"], target)
            self.assertEqual("Origin", found.fields["vary"])
            found = server.ask(target, Origin="https://example.org")
            self.assertNotIn("access-control-allow-origin", found.fields)
            self.assertEqual("Origin", found.fields["vary"])  # else a cache could give this answer to the other one
        found = server.ask("/cdx", "OPTIONS", Origin="https://example.net", Access_Control_Request_Method="GET")
        self.assertEqual(204, found.status)
        self.assertEqual("https://example.net", found.fields["access-control-allow-origin"])
        self.assertEqual("GET, HEAD, OPTIONS, POST", found.fields["access-control-allow-methods"])
        found = server.ask("/metrics", Origin="https://example.net")
        self.assertNotIn("access-control-allow-origin", found.fields)


class Limits(Case):
    def test_a_usual_and_a_largest_limit(self) -> None:
        self.put(lines(100))
        server = self.start(usual=10, largest=50, held=20)
        self.assertEqual(10, len(server.ask("/cdx?url=example.com/*").text.splitlines()))
        self.assertEqual(50, len(server.ask("/cdx?url=example.com/*&limit=50").text.splitlines()))
        self.assertEqual(50, len(server.ask("/cdx?url=example.com/*&limit=51").text.splitlines()))
        found = server.ask("/cdx?url=example.com/*&limit=51&showResumeKey=true").text.splitlines()
        self.assertEqual(("", 52), (found[50], len(found)))
        self.assertEqual(20, len(server.ask("/cdx?url=example.com/*&limit=-20").text.splitlines()))
        self.assertIn("in this order it is at most 20", server.ask("/cdx?url=example.com/*&limit=-21").text)
        for query, count in (("", 10), ("&page=0", 100), ("&page=0&limit=2", 2), ("&page=0&filter=length:.*", 100)):
            self.assertEqual(count, len(server.ask(f"/cdx?url=example.com/*{query}").text.splitlines()), query)

    def test_what_would_hold_too_much_is_refused(self) -> None:
        self.put(lines(100))
        server = self.start(held=99)
        for query, name in (("sort=reverse", "sort"), ("showDupeCount=true", "showDupeCount")):
            found = server.ask(f"/cdx?url=example.com/*&{query}")
            self.assertEqual((400, f"refused TooMany: {name}: without limit it is for at most 99 captures\n"), (found.status, found.text))
            found = server.ask(f"/cdx?url=example.com/*&{query}&limit=99")
            self.assertEqual(99, len(found.text.splitlines()))

    def test_pages_joined_are_the_answer(self) -> None:
        index = self.put(lines(10_000))
        server = self.start()
        for rest in ("", "&filter=statuscode:2..", "&collapse=digest:2"):
            target = f"/cdx?url=example.com/*&pageSize=1&fl=offset{rest}"
            whole = server.ask(target).body
            count = int(server.ask(f"{target}&showNumPages=true").body)
            pages = [server.ask(f"{target}&page={number}").body for number in (*range(count), count)]
            self.assertEqual((whole, b""), (b"".join(pages), pages[-1]))
            self.assertEqual(-(-index.stat().st_size // 900_000), count)
            backwards = [server.ask(f"{target}&page={number}&filter=length:.*").body for number in reversed(range(count))]
            self.assertEqual(whole, b"".join(reversed(backwards)))
        self.assertEqual(self.page("url=example.com/*&fl=offset", index), server.ask("/cdx?url=example.com/*&fl=offset").body)


class Counts(unittest.TestCase):
    def test_statuses_that_only_archives_have_are_counted_together(self) -> None:
        """Otherwise who asks for an archive's pages could make many counts."""
        metrics = browse_support.metrics()
        for status in (200, 404, 418, 421, *range(520, 600), *range(230, 290)):
            metrics.count("counted", status)
        found = [line for line in metrics.text().decode().splitlines() if 'requests_total{collection="counted"' in line]
        statuses = {re.findall('status="(...)"', line)[0]: float(line.rpartition(" ")[2]) for line in found}
        self.assertEqual({"200": 1, "404": 1, "418": 1, "421": 1, "5xx": 80, "2xx": 60}, statuses)

    def test_counts_for_which_there_is_no_room_are_lost(self) -> None:
        """Answers go on, and so do the other counts."""
        metrics = browse_support.metrics()
        with mock.patch("warcdx_gateway.shared.MOST_ADDED", ROOM):
            for number in range(100):
                metrics.count(f"lost{number}", 200)
        metrics.count("kept", 200)
        found = metrics.text()
        self.assertEqual((False, True), (b"lost" in found, b'"kept"' in found))

    def test_the_counts_of_a_process_go_on_with_its_successor(self) -> None:
        metrics = browse_support.metrics()
        for _ in range(3):
            process = os.fork()
            if not process:
                with contextlib.suppress(BaseException):
                    metrics.sit()
                    metrics.count("seated", 200)
                    os._exit(0)
                os._exit(1)
            self.assertEqual(0, os.waitpid(process, 0)[1])
        found = [line for line in metrics.text().decode().splitlines() if '"seated"' in line]
        self.assertEqual(['warcdx_gateway_requests_total{collection="seated",status="200"} 3.0'], found)


class Browsers(Case):
    def test_a_page_of_another_origin_reads_json(self) -> None:
        """By Chromium, if it is installed: a page from a file fetches an answer and shows it."""
        chromium = shutil.which("chromium")
        if chromium is None:
            self.skipTest("Debian's package chromium is missing")
        self.put(SAMPLE)
        server = self.start(head='origins = ["null"]\n')
        page = self.put(
            f"<script>fetch('{server.url}/cdx?url=example.com/a&output=json').then(r => r.json())"
            ".then(rows => document.title = document.body.innerText = rows[1].join('|'))</script><body></body>",
            "page.html",
        )
        command = (
            chromium,
            "--headless",
            "--no-sandbox",
            "--disable-gpu",
            "--virtual-time-budget=5000",
            f"--user-data-dir={self.folder}/profile",
            "--dump-dom",
            page.as_uri(),
        )
        found = subprocess.run(command, stdout=subprocess.PIPE, stderr=subprocess.DEVNULL, timeout=120).stdout.decode()
        self.assertIn("com,example)/a|20150101000000|http://example.com/a|text/plain|503|DDDD|300", found)


if __name__ == "__main__":
    unittest.main()
