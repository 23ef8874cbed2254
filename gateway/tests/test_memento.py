"""Memento: the requests and answers of RFC 7089, over the captures of the RFC's examples."""
import random
import re
import unittest
from collections import Counter
from typing import Optional
from unittest import mock

from werkzeug.test import Client, TestResponse

from . import browse_support as support
from .browse_support import Archives

from warcdx import Capture
from warcdx_gateway import history as histories
from warcdx_gateway.history import History, nearest_of
from warcdx_gateway.memento import timestamp_of

ORIGINAL = "http://a.example.org/"
ROOT = "http://localhost/web"
# The mementos of the examples of sections 4.2.1 and 5.
FIRST, SECOND, CHOSEN, NEXT, LAST = (
    "20000620180259", "20000621011731", "20010321203610", "20010911203610", "20091027204954",
)  # fmt: skip


DATES = {
    FIRST: "Tue, 20 Jun 2000 18:02:59 GMT",
    SECOND: "Wed, 21 Jun 2000 01:17:31 GMT",
    CHOSEN: "Wed, 21 Mar 2001 20:36:10 GMT",
    NEXT: "Tue, 11 Sep 2001 20:36:10 GMT",
    LAST: "Tue, 27 Oct 2009 20:49:54 GMT",
}


def memento(root: str, timestamp: str, relation: str) -> str:
    """Returns the link of a memento, as the examples have it."""
    url = f"{root}/{timestamp}id_/{ORIGINAL}"
    return f'<{url}>; rel="{relation}"; datetime="{DATES[timestamp]}"'


class Dates(unittest.TestCase):
    def test_a_datetime_is_one_of_rfc_1123(self) -> None:
        for date, timestamp in (
            ("Thu, 31 May 2007 20:35:00 GMT", "20070531203500"),  # section 2.1.1
            ("Tue, 11 Sep 2001 20:35:00 GMT", "20010911203500"),
            ("Wed, 21 Mar 2001 20:36:10 GMT", "20010321203610"),
            ("2007-05-31T20:35:00Z", None),
            ("Thu, 31 May 2007 20:35:00", None),
            ("Thu, 31 May 2007 20:35:00 +0000", None),
            ("Thursday, 31-May-07 20:35:00 GMT", None),
            ("Thu May 31 20:35:00 2007", None),
            ("Thu, 32 May 2007 20:35:00 GMT", None),
            ("", None),
            ("Thu, 31 May 2007 20:35:00 GMT" * 1000, None),
        ):
            self.assertEqual(timestamp, timestamp_of(date), date)


def capture(timestamp: int) -> Capture:
    return Capture("k", f"{timestamp:014}", "-", "-", "-", "-", None, timestamp, "a.warc")


class Histories(unittest.TestCase):
    """A history against a list of all captures."""

    def test_captures_are_found_as_in_a_list(self) -> None:
        rng = random.Random(5)
        for most in (3, 200):
            for _ in range(300):
                times = sorted(20160101000000 + rng.randrange(rng.choice((50, 10**6))) for _ in range(rng.randrange(12)))
                all_captures = [each for each in map(capture, times) if each.datetime]
                times = sorted({int(each.timestamp) for each in all_captures})
                asked = 0

                def ask(query: str, limit: int) -> list[Capture]:
                    nonlocal asked
                    asked += 1
                    after = re.search("resumeKey=k\\+([0-9]{14})", query)
                    last = int(after[1]) if after else -1
                    chosen = [each for each in all_captures if int(each.timestamp) > last]
                    return chosen[:limit]

                with mock.patch.object(histories, "MOST", most):
                    history = History(ask, key="k")
                    self.assertEqual(times[0] if times else None, time_of(history.first()))
                    self.assertEqual(times[-1] if times else None, time_of(history.last()))
                    for _ in range(4):
                        moment = rng.choice(times or [20160101000000]) + rng.choice((-1, 0, 1))
                        before = max((each for each in times if each < moment), default=None)
                        after = min((each for each in times if each > moment), default=None)
                        self.assertEqual(before, time_of(history.before(f"{moment:014}")))
                        self.assertEqual(after, time_of(history.after(f"{moment:014}")))
                self.assertLess(asked, 600)

    def test_the_nearest_is_the_earlier_of_two(self) -> None:
        early, late, far = map(capture, (20160101000010, 20160101000030, 20160102000000))
        for given, wanted in (
            ((early, late), early),
            ((late, None, early), early),
            ((far, late), late),
            ((None, far), far),
            ((None,), None),
        ):
            self.assertEqual(wanted, nearest_of(given, "20160101000020"))


def time_of(found: Optional[Capture]) -> Optional[int]:
    return None if found is None else int(found.timestamp)


class Examples(support.Pages):
    def fill(self, archives: Archives) -> None:
        lines = [
            archives.line(ORIGINAL, timestamp, "a.warc", number, key="org,example,a)/")
            for number, timestamp in enumerate((FIRST, SECOND, CHOSEN, NEXT, LAST))
        ]
        archives.put("index", b"".join(lines))

    def asked(self, path: str, **headers: str) -> TestResponse:
        fields = {name.replace("_", "-"): each for name, each in headers.items()}
        return self.client.get(path, headers=fields)

    def test_a_time_gate_chooses_the_nearest_memento(self) -> None:
        """Section 4.2.1: the client wants 11 September 2001, 20:35, and is sent to a memento."""
        for path in ("/web/timegate/", "/crawl/timegate/", "/web/", "/crawl/"):
            root = f"http://localhost/{path.split('/')[1]}"
            answer = self.asked(path + ORIGINAL, Accept_Datetime="Tue, 11 Sep 2001 20:35:00 GMT")
            self.assertEqual(302, answer.status_code)
            self.assertEqual("accept-datetime", answer.headers["Vary"])
            self.assertEqual(f"{root}/{NEXT}id_/{ORIGINAL}", answer.headers["Location"])
            self.assertNotIn("Memento-Datetime", answer.headers)
            self.assertEqual(b"", answer.data)
            wanted = [
                f'<{ORIGINAL}>; rel="original"',
                f'<{root}/timegate/{ORIGINAL}>; rel="timegate"',
                f'<{root}/timemap/link/{ORIGINAL}>; rel="timemap"; type="application/link-format"',
                memento(root, FIRST, "first memento"),
                memento(root, CHOSEN, "prev memento"),
                memento(root, NEXT, "memento"),
                memento(root, LAST, "next last memento"),
            ]
            self.assertEqual(", ".join(wanted), answer.headers["Link"])

    def test_a_time_gate_has_the_first_or_last_memento_for_other_times(self) -> None:
        """Section 4.5.3: times before the first memento and after the last, and no time at all."""
        for headers, timestamp in (
            ({"Accept_Datetime": "Mon, 31 May 1999 00:00:00 GMT"}, FIRST),
            ({"Accept_Datetime": "Thu, 01 Jan 2099 00:00:00 GMT"}, LAST),
            ({}, LAST),
        ):
            answer = self.asked(f"/web/timegate/{ORIGINAL}", **headers)
            self.assertEqual(f"{ROOT}/{timestamp}id_/{ORIGINAL}", answer.headers["Location"])
            self.assertEqual("accept-datetime", answer.headers["Vary"])

    def test_what_can_not_be_negotiated_has_a_status(self) -> None:
        """Sections 4.5.3 and 4.5.7."""
        for path, date, status in (
            (f"/web/timegate/{ORIGINAL}", "yesterday", 400),
            (f"/web/timegate/{ORIGINAL}", "Wed, 31 Feb 2001 00:00:00 GMT", 400),
            ("/web/timegate/http://b.example.org/", "Tue, 11 Sep 2001 20:35:00 GMT", 404),
        ):
            answer = self.asked(path, Accept_Datetime=date)
            self.assertEqual(status, answer.status_code)
            self.assertEqual("accept-datetime", answer.headers["Vary"])
        for path in ("/web/timemap/link/http://b.example.org/", "/none/timegate/http://a.example.org/", "/web/2000id_/x"):
            self.assertEqual(404, self.asked(path).status_code, path)
        self.assertEqual(405, self.client.post(f"/web/timegate/{ORIGINAL}").status_code)

    def test_a_time_map_lists_all_mementos(self) -> None:
        """Section 5."""
        answer = self.asked(f"/web/timemap/link/{ORIGINAL}")
        self.assertEqual(200, answer.status_code)
        self.assertEqual("application/link-format", answer.headers["Content-Type"])
        wanted = [
            f'<{ORIGINAL}>; rel="original"',
            f'<{ROOT}/timemap/link/{ORIGINAL}>; rel="self"; type="application/link-format"; '
            f'from="{DATES[FIRST]}"; until="{DATES[LAST]}"',
            f'<{ROOT}/timegate/{ORIGINAL}>; rel="timegate"',
            memento(ROOT, FIRST, "first memento"),
            *(memento(ROOT, timestamp, "memento") for timestamp in (SECOND, CHOSEN, NEXT)),
            memento(ROOT, LAST, "last memento"),
        ]
        self.assertEqual(",\n".join(wanted) + "\n", answer.text)

    def test_a_time_map_has_pages(self) -> None:
        """Section 5.1.1: a page links the one that follows it."""
        path, seen = f"/web/timemap/link/{ORIGINAL}", []
        with mock.patch("warcdx_gateway.memento.MOST_MEMENTOS", 2):
            for number in range(3):
                text = self.asked(path).text
                seen += re.findall('<([^>]*)>; rel="[a-z ]*memento"', text)
                self.assertEqual(number == 0, '"first memento"' in text)
                self.assertEqual(number == 2, '"last memento"' in text)
                following = re.search('<http://localhost([^>]*)>; rel="timemap"', text)
                self.assertEqual(number == 2, following is None)
                path = following[1] if following else ""
        times = (FIRST, SECOND, CHOSEN, NEXT, LAST)
        self.assertEqual([f"{ROOT}/{timestamp}id_/{ORIGINAL}" for timestamp in times], seen)

    def test_a_raw_capture_is_near_or_exact(self) -> None:
        for timestamp, wanted in (("2000", CHOSEN), ("200006", SECOND), ("20010911", NEXT), ("20200101000000", LAST), ("2", LAST)):
            for front in ("web", "crawl"):
                answer = self.asked(f"/{front}/{timestamp}id_/{ORIGINAL}")
                self.assertEqual(302, answer.status_code)
                location = f"http://localhost/{front}/{wanted}id_/{ORIGINAL}"
                self.assertEqual(location, answer.headers["Location"])
                self.assertNotIn("Memento-Datetime", answer.headers)

    def test_a_url_is_taken_in_several_spellings(self) -> None:
        for url in ("a.example.org", "http:/a.example.org/", "http%3A%2F%2Fa.example.org%2F", "https://A.example.org"):
            answer = self.asked(f"/web/timegate/{url}")
            self.assertEqual(f"{ROOT}/{LAST}id_/{ORIGINAL}", answer.headers["Location"], url)

    def test_links_begin_with_the_host_as_it_was_sent(self) -> None:
        """A name in another script has one form in ASCII, and what is no name of a host begins none."""
        client = Client(self.serve(self.archives.collection(), hosts=("*",)))
        for path in (f"/web/timegate/{ORIGINAL}", f"/web/timemap/link/{ORIGINAL}", f"/wayback/available?url={ORIGINAL}", "/collinfo.json"):
            answer = client.get(path, headers={"Host": "xn--bcher-kva.example"})
            hosts = re.findall("http://([^/]*)/(?:web|crawl)", f"{answer.headers} {answer.text}")
            self.assertEqual({"xn--bcher-kva.example"}, set(hosts), path)
            for host in ('a"b', "a/b", "a#"):
                self.assertEqual(421, client.get(path, headers={"Host": host}).status_code)


class Seconds(support.Pages):
    """Many captures of one second."""

    def fill(self, archives: Archives) -> None:
        lines = [
            archives.line("http://example.com/", f"2016030309343{1 + (number > 20) + (number > 470)}", "a.warc", number)
            for number in range(500)
        ]
        archives.put("index", b"".join(lines))

    def test_a_time_map_has_pages_within_a_second(self) -> None:
        for most in (7, 100, 450):
            path: Optional[str] = "/web/timemap/link/http://example.com/"
            seen, pages = list[str](), 0
            with mock.patch("warcdx_gateway.memento.MOST_MEMENTOS", most):
                while path:
                    text = self.client.get(path).text
                    found = re.findall("/web/([0-9]{14})id_/", text)
                    self.assertLessEqual(len(found), most)
                    seen, pages = seen + found, pages + 1
                    following = re.search('<http://localhost([^>]*)>; rel="timemap"', text)
                    path = following[1] if following else None
            self.assertEqual(500, len(seen))
            self.assertEqual(sorted(seen), seen)
            self.assertEqual({"20160303093431": 21, "20160303093432": 450, "20160303093433": 29}, Counter(seen))


if __name__ == "__main__":
    unittest.main()
