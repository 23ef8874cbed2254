"""The pages in headless Chromium: the way to a payload, the keyboard, names, hostile pages."""
import asyncio
import contextlib
import html
import socket
import unittest
from collections.abc import Sequence
from unittest import mock
from urllib.parse import urlencode

from werkzeug.wrappers import Request, Response

from . import browse_support as support
from . import chromium
from .browse_support import Archives, page, response, revisit
from .chromium import Tab, browser

HOME = "http://example.com/"
FIRST = page("The library", "Open from 9 to 17.", "The same.")
SECOND = page("The library", "Open from 9 to 18.", "The same.")
WIDTHS = ((360, 800), (1100, 900))
OVERFLOW = "document.documentElement.scrollWidth - document.documentElement.clientWidth"


@unittest.skipIf(chromium.PROGRAM is None, "chromium is missing (Debian's package chromium)")
class Browsing(support.Pages, unittest.IsolatedAsyncioTestCase):
    def setUp(self) -> None:
        super().setUp()
        self.root = self.enterContext(support.served(self.gateway))

    def fill(self, archives: Archives) -> None:
        archives.add("a.warc", [
            response(HOME, "2016-03-03T09:34:31Z", FIRST),
            response(HOME, "2016-03-03T10:00:00Z", SECOND),
            revisit(HOME, "2016-12-31T23:59:59Z", SECOND, "2016-03-03T10:00:00Z"),
            response(HOME, "2018-07-01T00:00:00Z", b"gone", "text/plain", status="410 Gone"),
            response(HOME + "a-long-address/" * 12, "2016-04-01T00:00:00Z", FIRST),
            *(response(HOME + "years", f"{year}-04-01T00:00:00Z", FIRST) for year in range(1998, 2024)),
        ])  # fmt: skip

    def address(self, path: str = "/browse") -> str:
        return self.root + path

    async def test_a_reader_comes_from_the_search_to_a_payload(self) -> None:
        async with browser() as tab:
            await tab.send("Emulation.setScriptExecutionDisabled", value=True)
            await tab.open(self.address())
            self.assertIn("Search for a URL or a host", await tab.text())
            await tab.press_mouse("#url")
            await tab.type("example.com")
            await tab.click("button")
            self.assertIn("4 captures between 3 March 2016 and 1 July 2018.", await tab.text())
            await tab.click(".years a[aria-label^='2016']")
            self.assertIn("2016: 3 captures", await tab.text())
            await tab.click("svg.month a[aria-label^='Thursday, 3 March']")
            self.assertIn("Captures on 3 March 2016", await tab.text())
            await tab.click("td:has(+ td), th a")
            self.assertIn("The block is as it was recorded", await tab.text())
            await tab.evaluate("document.querySelector('iframe').scrollIntoView()")
            self.assertEqual("The library Open from 9 to 17. The same.", await self.frame_text(tab))
            self.assertEqual([], self.complaints(tab))

    async def test_two_captures_are_chosen_and_compared(self) -> None:
        async with browser() as tab:
            await tab.open(self.address("/crawl/browse/captures?url=example.com&from=2016&to=2016"))
            await tab.press_mouse("tbody tr:nth-child(3) input[name=second]")
            await tab.click("form:not([role=search]) button")
            self.assertIn("1 line differs.", await tab.text())
            self.assertEqual(["17", "18"], await tab.evaluate("[...document.querySelectorAll('del, ins')].map(e => e.innerText)"))

    async def test_the_keyboard_reaches_everything_in_order(self) -> None:
        async with browser() as tab:
            await tab.open(self.address("/crawl/browse/search?url=example.com&year=2016"))
            self.assertEqual(
                [
                    "Skip to the content", "A crawl", "URL or host", "Search", "Match and times",
                    "2016: 3 captures", "2018: 1 capture",
                    "The years as a table",
                    "Thursday, 3 March 2016: 2 captures", "Saturday, 31 December 2016: 1 capture",
                    "The days as a table",
                    "Record of 3 March 2016, 09:34:31",
                ],
                [await tab.tab() for _ in range(12)],
            )  # fmt: skip
            await tab.open(self.address("/crawl/browse/search?url=example.com&year=2016"))
            while await tab.tab() != "Saturday, 31 December 2016: 1 capture":
                pass
            self.assertEqual("3px", await tab.evaluate("getComputedStyle(document.activeElement.querySelector('rect')).strokeWidth"))
            await tab.enter()
            self.assertIn("Captures on 31 December 2016", await tab.text())
            await tab.tab()
            await tab.key("Enter", 13, "\r")
            self.assertEqual("content", await tab.evaluate("document.activeElement.id"))

    async def test_a_screen_reader_has_names(self) -> None:
        async with browser() as tab:
            await tab.open(self.address("/crawl/browse/search?url=example.com&year=2016"))
            links = await tab.named("link")
            for name in ("2016: 3 captures", "Thursday, 3 March 2016: 2 captures", "Record of 3 March 2016, 09:34:31"):
                self.assertEqual(1, links.count(name), links)
            groups = await tab.named("group")
            for name in ("Captures of each year", "March 2016: 2 captures", "December 2016: 1 capture"):
                self.assertIn(name, groups)
            self.assertIn("April 2016: no captures", await tab.named("image"))
            self.assertEqual(["Captures in 2016"], await tab.named("table"))
            self.assertEqual(["URL or host"], await tab.named("textbox"))
            self.assertEqual(["first: 3 March 2016, 09:34:31", "second: 3 March 2016, 09:34:31"], (await tab.named("radio"))[:2])
            for names in (links, await tab.named("button"), await tab.named("heading"), await tab.named("columnheader")):
                self.assertNotIn("", names)
            await tab.evaluate("document.querySelectorAll('details').forEach(e => e.open = true)")
            self.assertIn("Captures of each day of 2016", await tab.named("table"))
            self.assertEqual(["URL or host", "From", "To"], await tab.named("textbox"))

    async def test_the_chosen_year_is_seen_in_a_narrow_window(self) -> None:
        place = "e => { const at = e.getBoundingClientRect(); return [at.left, at.right]; }"
        places = f"['.scroll', 'svg.chosen'].map(name => document.querySelector(name)).map({place})"
        scrolled = "document.querySelector('.scroll').scrollLeft"
        async with browser() as tab:
            await tab.window(400, 800, "light")
            for year in (1998, 2010, 2023):
                await tab.open(self.address(f"/crawl/browse/search?url=example.com/years&year={year}"))
                (left, right), (first, last) = await tab.evaluate(places)
                self.assertTrue(left <= first < last <= right + 1, (year, left, right, first, last))
            await asyncio.sleep(0.2)
            await tab.evaluate(f"{scrolled} = 100")
            self.assertEqual(100, await tab.evaluate(scrolled))

    async def test_the_form_is_one_line(self) -> None:
        tops = "['#url', 'form button', 'form details'].map(e => document.querySelector(e).getBoundingClientRect().bottom)"
        async with browser() as tab:
            await tab.window(1280, 900, "light")
            await tab.open(self.address("/crawl/browse/"))
            found = await tab.evaluate(tops)
            self.assertLess(max(found) - min(found), 20, found)
            self.assertFalse(await tab.evaluate("document.querySelector('form details').open"))
            await tab.open(self.address("/crawl/browse/search?url=example.com&from=2016"))
            self.assertTrue(await tab.evaluate("document.querySelector('form details').open"))

    async def test_the_pages_fit_and_follow_the_scheme_of_colours(self) -> None:
        offsets = {"first": 0, "second": self.offset_of_second()}
        pairs = {name: self.pair("a.warc", offset) for name, offset in offsets.items()}
        paths = [
            "/browse",
            "/crawl/browse/",
            "/crawl/browse/search?url=example.com&year=2016",
            "/crawl/browse/search?url=*.example.com",
            "/crawl/browse/search?url=",
            f"/crawl/browse/record?{urlencode(self.place_at('a.warc', 0))}",
            f"/crawl/browse/compare?{urlencode(pairs)}",
        ]
        async with browser() as tab:
            for width, height in WIDTHS:
                backgrounds = set()
                for scheme in ("light", "dark"):
                    await tab.window(width, height, scheme)
                    for path in paths:
                        await tab.open(self.address(path))
                        self.assertLessEqual(await tab.evaluate(OVERFLOW), 0, (path, width))
                    backgrounds.add(await tab.evaluate("getComputedStyle(document.body).backgroundColor"))
                self.assertEqual(2, len(backgrounds))

    def offset_of_second(self) -> int:
        return (self.archives.archives / "a.warc").read_bytes().index(b"WARC/1.1", 1)

    async def frame_text(self, tab: Tab) -> str:
        for _ in range(100):
            if text := await tab.frame_text():
                return text
            await asyncio.sleep(0.05)
        return ""

    def complaints(self, tab: Tab) -> Sequence[str]:
        return [event["entry"]["text"] for event in tab.events("Log.entryAdded")]


@unittest.skipIf(chromium.PROGRAM is None, "chromium is missing (Debian's package chromium)")
class Hostile(support.Pages, unittest.IsolatedAsyncioTestCase):
    """Pages of an archive that try to act, against a server that counts what reaches it."""

    def setUp(self) -> None:
        self.reached: list[str] = []
        self.is_attacking = False
        self.evil = self.enterContext(support.served(self.trap))
        self.listener = self.enterContext(socket.create_server(("127.0.0.1", 0)))
        self.listener.setblocking(False)
        self.deaf = "http://127.0.0.1:%d" % self.listener.getsockname()[1]  # counts connections
        super().setUp()
        self.root = self.enterContext(support.served(self.gateway))

    def connections(self) -> int:
        """Returns how many connections there were, also without a request."""
        count = 0
        with contextlib.suppress(BlockingIOError):
            while True:
                self.listener.accept()[0].close()
                count += 1
        return count

    @Request.application
    def trap(self, request: Request) -> Response:
        self.reached.append(request.path)
        if self.is_attacking and request.path == "/attack":
            return Response(self.attacks().replace(b"0;url", b"2;url"), content_type="text/html")
        return Response("<script>top.hacked = 1</script>", content_type="text/html")

    @property
    def hidden(self) -> list[tuple[bytes, str]]:
        """Pages with tags that only some readers see, as by the character set or a comment, and the types of the pages."""
        tag = f"<!DOCTYPE html><title>x</title><link rel=preconnect href={self.deaf}><p>x"
        escapes = tag.replace("<link", "<li\x1b(Bnk").encode()
        return [
            (tag.encode(), "text/html"), (tag.encode("utf-16"), "text/html"), (tag.encode("utf-16-le"), "text/html; charset=utf-16"),
            (tag.encode("utf-16-be"), "text/html; charset=utf-16be"), (escapes, "text/html; charset=iso-2022-jp"),
            (b"<meta charset=iso-2022-jp>" + escapes, "text/html"), (escapes + "\x1b$B".encode() * 200, "text/html"),
            (tag.replace("<link", "<link title='>'").encode(), "text/html"), (tag.encode(), "application/xhtml+xml"),
            (tag.replace("rel=", "rel=alternate rel=").encode(), "text/html"), (tag.replace("rel", "&#114;el").encode(), "text/html"),
            (tag.replace("preconnect", "pre&#99;onnect").encode(), "text/html"), (tag.replace("<link ", "<link\x0c").encode(), "text/html"),
            (f"<html xmlns='http://www.w3.org/1999/xhtml'><link rel='preconnect' href='{self.deaf}'/></html>".encode(), "text/xml"),
            (tag.encode(), "text/plain, text/html"), (tag.encode(), "text/ht\x01ml"), (tag.encode(), "text/html\udce9"),
            *((f"<!DOCTYPE html>{body}".encode(), "text/html") for body in self.misread(f"<link rel=preconnect href={self.deaf}>")),
        ]  # fmt: skip

    def misread(self, link: str) -> list[str]:
        return [
            f"<textarea><style></textarea>{link}</style>", f"<!-- <style> -->{link}</style>", f"<svg><style><p>{link}</style>",
            link.replace("<link", "<li<link>nk"), link.replace(">", " rel=stylesheet>"), link.replace(">", " title=' rel=stylesheet '>"),
            f"<iframe srcdoc='{html.escape(link)}'></iframe>", f"<iframe src={self.deaf}></iframe>",
            f"<frameset><frame src={self.deaf}></frameset>", f"<iframe title='>' src={self.deaf}></iframe>",
        ]  # fmt: skip

    def fill(self, archives: Archives) -> None:
        attacks = self.attacks()
        date, self.names = "2016-03-03T00:00:00Z", ("html", "image", "svg", "xml", "split")
        archives.add("hostile.warc", [
            response(HOME + "html", date, attacks),
            response(HOME + "image", date, attacks, "image/png"),
            response(HOME + "svg", date, self.svg(), "image/svg+xml"),
            response(HOME + "xml", date, self.svg(), "application/xhtml+xml"),
            response(HOME + "linked", date, f"<p><a target=_blank href={HOME}hidden0>A link</a>".encode()),
            *(
                response(f"{HOME}hidden{number}", date, body, kind)
                for number, (body, kind) in enumerate(self.hidden)
            ),
            response(
                HOME + "split",
                date,
                attacks,
                f"text/html\r\n\r\n<script>top.hacked=1</script>\r\nLocation: {self.evil}/split",
            ),
        ])  # fmt: skip

    def attacks(self) -> bytes:
        """Returns a page that tries to run scripts, to fetch, to send and to go elsewhere."""
        evil = self.evil
        return f"""<!DOCTYPE html><base href="{evil}/base/">
<meta http-equiv=refresh content="0;url={evil}/refresh">
<meta http-equiv=Content-Security-Policy content="default-src * 'unsafe-inline'">
<link rel=stylesheet href={evil}/style><link rel=icon href={evil}/icon>
<link rel=prefetch href={evil}/prefetch><link rel=preconnect href={evil}>
<link rel=preconnect href={self.deaf}><LINK/REL='preconnect'/HREF={self.deaf}>
<link rel="stylesheet preconnect" href={evil}/both><link x='>' rel=preconnect href={self.deaf}>
<svg><link rel=preconnect href={self.deaf}></svg>
<link rel=dns-prefetch href=//evil.example>
<style>@import url({evil}/import); @font-face {{ font-family: f; src: url({evil}/font) }}
p {{ font-family: f; background: url({evil}/background) }}
a {{ position: fixed; left: 0; right: 0 }}
#upper {{ top: 0; bottom: 50% }} #lower {{ top: 50%; bottom: 0 }}</style>
<script>top.hacked = 1; parent.document.title = "hacked"; fetch("{evil}/fetch");
setTimeout(() => {{ top.location = "{evil}/top" }}, 5000)</script>
<script src={evil}/script></script><body onload="top.hacked = 1" onpageshow="top.hacked = 1">
<p>Some text<img src={evil}/image onerror="top.hacked = 1"><img src=/browse/style.css>
<video src={evil}/video autoplay poster={evil}/poster></video>
<iframe src={evil}/frame></iframe><iframe srcdoc="<script>top.hacked = 1</script>"></iframe>
<object data={evil}/object></object><embed src={evil}/embed>
<svg onload="top.hacked = 1"><use href={evil}/use#a /><image href={evil}/svgimage /></svg>
<form id=f action={evil}/form method=post><button autofocus formtarget=_top>go</button></form>
<input form=f type=submit><a id=upper target=_top href={evil}/upper ping={evil}/ping>Link</a>
<a id=lower href={evil}/lower>Link</a>
""".encode()

    def svg(self) -> bytes:
        return (
            f"<?xml version='1.0'?><?xml-stylesheet href='{self.evil}/xsl' type='text/xsl'?>"
            "<svg xmlns='http://www.w3.org/2000/svg' onload='top.hacked=1'>"
            "<script>top.hacked=1</script>"
            "<script xmlns='http://www.w3.org/1999/xhtml'>top.hacked=1</script>"
            f"<image href='{self.evil}/image'/></svg>"
        ).encode()

    def address(self, name: str, page: str = "record") -> str:
        return f"{self.root}/crawl/browse/{page}?{urlencode(self.place(HOME + name))}"

    async def test_hostile_pages_get_nowhere(self) -> None:
        async with browser() as tab:
            for name in self.names:
                await tab.open(self.address(name))
                await tab.evaluate("document.querySelector('iframe').scrollIntoView()")
                await asyncio.sleep(0.5)
                await self.check_nowhere(tab, name, self.address(name))

    async def test_links_in_a_payload_lead_nowhere(self) -> None:
        async with browser() as tab:
            await tab.open(self.address("html"))
            await asyncio.sleep(0.3)
            for height in (0.25, 0.75):
                await tab.press_mouse("iframe", 0.5, height)
                await asyncio.sleep(0.5)
            await tab.key("Enter", 13, "\r")
            await asyncio.sleep(0.5)
            await self.check_nowhere(tab, "html", self.address("html"))

    async def test_a_payload_opened_by_itself_is_its_record(self) -> None:
        async with browser() as tab:
            for name in ("html", "svg"):
                await tab.open(self.address(name, "payload"))
                await asyncio.sleep(0.3)
                await self.check_nowhere(tab, name, self.address(name))

    async def test_the_policy_alone_holds_a_payload_in_a_window(self) -> None:
        """Without the header that browsers send about the window, the policy is what is left."""
        async with browser() as tab:
            with mock.patch("warcdx_gateway.browse.routes.WINDOW", "none"):
                await tab.open(self.address("html", "payload"))
            await asyncio.sleep(1)
            self.assertIn("payload?", await tab.evaluate("location.href"))
            self.assertEqual("null", await tab.evaluate("self.origin"))
            self.assertIsNone(await tab.evaluate("window.hacked"))
            self.assertEqual(([], 0), (self.reached, self.connections()))

    async def test_a_capture_as_it_was_archived_gets_nowhere(self) -> None:
        async with browser() as tab:
            for name in ("html", "svg", "xml"):
                url = f"{self.root}/crawl/20160303000000id_/{HOME}{name}"
                await tab.open(url)
                await asyncio.sleep(0.5)
                shown = url if name == "svg" else url.replace("id_/", "/")
                self.assertEqual(shown, await tab.evaluate("location.href"))
                self.assertEqual("null", await tab.evaluate("self.origin"))
                self.assertIsNone(await tab.evaluate("window.hacked"), name)
                self.assertEqual(([], 0), (self.reached, self.connections()), name)

    async def test_pages_connect_to_no_server(self) -> None:
        """Whatever character set hides their tags."""
        async with browser() as tab:
            for number in range(len(self.hidden)):
                for mark in ("id_", ""):
                    await tab.open(f"{self.root}/crawl/20160303000000{mark}/{HOME}hidden{number}")
                    await asyncio.sleep(0.4)
                    self.assertEqual(([], 0), (self.reached, self.connections()), self.hidden[number][1])

    async def test_a_link_of_a_capture_leads_to_a_capture(self) -> None:
        async with browser() as tab:
            await tab.open(f"{self.root}/crawl/2016/{HOME}linked")
            await tab.press_mouse("a", 0.5, 0.5)
            wanted = f"{self.root}/crawl/20160303000000/{HOME}hidden0"
            for _ in range(50):
                if await tab.evaluate("location.href") == wanted:
                    break
                await asyncio.sleep(0.1)
            self.assertEqual(wanted, await tab.evaluate("location.href"))
            self.assertEqual(([], 0), (self.reached, self.connections()))

    async def test_the_same_pages_act_without_the_policy(self) -> None:
        """Shows that the attacks of these tests work, if nothing holds them."""
        self.is_attacking = True
        async with browser() as tab:
            await tab.open(self.evil + "/attack")
            await chromium.until(lambda: {"/script", "/fetch", "/image", "/style", "/frame", "/refresh"} <= set(self.reached))
            self.assertGreater(self.connections(), 0)
            for link in ("upper", "lower"):
                await tab.open(self.evil + "/attack")
                self.assertEqual(1, await tab.evaluate("window.hacked"))
                await tab.press_mouse(f"#{link}")
                await chromium.until(lambda: f"/{link}" in self.reached)

    async def check_nowhere(self, tab: Tab, name: str, address: str) -> None:
        self.assertEqual(address, await tab.evaluate("location.href"), name)
        self.assertIsNone(await tab.evaluate("window.hacked"), name)
        self.assertTrue((await tab.evaluate("document.title")).startswith("Record of 3 March 2016"), name)
        self.assertEqual(([], 0), (self.reached, self.connections()), name)
        sent = {event["request"]["url"].partition("?")[0] for event in tab.events("Network.requestWillBeSent")}
        self.assertEqual([], [each for each in sent if not each.startswith((self.root, "data:", "about:"))])


if __name__ == "__main__":
    unittest.main()
