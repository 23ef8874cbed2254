"""The images and style sheets that are put into a payload."""
import base64
import time
import tracemalloc
import unittest
from typing import Any, Optional
from unittest import mock

from . import browse_support as support
from .browse_support import Archives, response, revisit

from warcdx_gateway.browse import embedding, reading
from warcdx_gateway.browse.charsets import charset_of, text_of
from warcdx_gateway.browse.embedding import MOST_BYTES, PIECE, styled
from warcdx_gateway.browse.places import Place
from warcdx_gateway.work import Lease, NeedsSlot

HOME = "http://example.com/a/page"
DATE, OLD = "2016-03-03T09:34:31Z", "2010-01-01T00:00:00Z"
PNG = b"\x89PNG\r\n\x1a\n"
LONG = 10**6


def url_of(kind: str, content: bytes) -> str:
    return f"data:{kind};base64,{base64.b64encode(content).decode()}"


def named(url: str, kind: str) -> Optional[str]:
    """Stands for an archive that has each URL of example.com."""
    return f"data:{kind or 'image'},{url}" if url.startswith("http://example.com/") else None


def filled(*arguments: Any) -> bytes:
    return b"".join(embedding.filled(*arguments))


class Filling(unittest.TestCase):
    def test_images_and_style_sheets_are_those_of_the_archive(self) -> None:
        base, image, style = "http://example.com", "data:image", "data:text/css"
        for given, wanted in (
            ("<img src=b.png>", f'<img src="{image},{base}/a/b.png">'),
            ("<IMG alt='>' SRC='/b.png'>", f'<IMG alt=\'>\' src="{image},{base}/b.png">'),
            ("<IMG SRC = '/b.png' >", f'<IMG src="{image},{base}/b.png" >'),
            ('<img src="//example.com/b?c&amp;d">', f'<img src="{image},{base}/b?c&d">'),
            ("<img src=http://evil.example/x>", "<img src=http://evil.example/x>"),
            ("<img src=b srcset='c 2x'>", f'<img src="{image},{base}/a/b" srcset="">'),
            ("<link rel=stylesheet href=s>", f'<link rel="stylesheet" href="{style},{base}/a/s">'),
            ("<link href='s' title='a \"x\" src=c' MEDIA=print rel='Alternate stylesheet' onload=x>",
             f'<link rel="alternate stylesheet" href="{style},{base}/a/s" media="print" title="a &quot;x&quot; src=c">'),
            ("<link rel=next href=s.css>", "<meta>"),
            ("a<LINK/rel=preconnect href=//evil.example>b", "a<meta>b"),
            ("<link rel=\"stylesheet preload\" href=s>c", "<meta>c"),
            ("<link rel=preconnect x=" + "y" * 70_000 + ">d", "<meta>d"),
            ("<img alt='x src=c href=d' src=b>", f"<img alt='x src=c href=d' src=\"{image},{base}/a/b\">"),
            ("<a href=b.png>", "<a href=b.png>"),
            ("<script src=b.js>", "<script src=b.js>"),
            ("<base href='/c/'><img src=b>", f"<base href='/c/'><img src=\"{image},{base}/c/b\">"),
            ("<base href=/c/><base href=/d/><img src=b>",
             f'<base href=/c/><base href=/d/><img src="{image},{base}/c/b">'),
            ("<td background=b>", f'<td background="{image},{base}/a/b">'),
            ("<style>p { background: url( 'b' ) }</style>",
             f"<style>p {{ background: url({image},{base}/a/b) }}</style>"),
            ('<table style="background:url(&quot;b&quot;)">',
             f'<table style="background:url({image},{base}/a/b)">'),
        ):  # fmt: skip
            self.assertEqual(wanted.encode(), filled(given.encode(), HOME, named), given)

    def test_tags_are_those_that_a_browser_finds(self) -> None:
        """What isn't a tag there stays as it is."""
        image, made = "<img src=b>", '<img src="data:image,http://example.com/a/b">'
        for before in ("<p title='>'>", '<p title=">">', "<!-- > -->", "<!-->", "<!--->", "<!-- --!>", "<!x '>", "<?x>", "</p title='>'>", "</>",
                       "<title><img></title >", "<textarea></style></TEXTAREA>", "<script>'<img>'</script>", "<svg><title/></svg>", "<a =' >",
                       "<p x=y'>", "<p\fx='>'>", "<style>b { a: '<img>' }</style>", "<xmp><img></xmp\t>", "< img src=b>", "<!-- -- > -->"):  # fmt: skip
            self.assertEqual(f"{before}{made}".encode(), filled(f"{before}{image}".encode(), HOME, named), before)
        for before in (
            "<p title='",
            "<!-- ",
            "<!-- >-- >",
            "<title>",
            "<script></scripts>",
            "<!x '",
            "<p x=",
            "</p x='>",
            "<plaintext>",
            "<textarea/>",
        ):
            self.assertEqual(f"{before}{image}".encode(), filled(f"{before}{image}".encode(), HOME, named), before)
        for given, wanted in (
            ("<img src=b src=c>", f"{made[:-1]} src=c>"), ("<img src src=b>", '<img src src=b>'), ("<img src = b/>", made.replace('b"', 'b/"')),
            ('<img src="b"alt=x>', made[:-1] + "alt=x>"), ("<img/src=b>", made.replace(" ", "/")), ("<img\nsrc\f=\t'b'/>", made.replace(" ", "\n")[:-1] + "/>"),
            ("<img src=b?c&copy=d&reg;&amp=e>", made.replace('b"', 'b?c&copy=d®&amp=e"')), 
            ("<div style='x: url(b)'>", '<div style="x: url(data:image,http://example.com/a/b)">'),
        ):  # fmt: skip
            self.assertEqual(wanted.encode(), filled(given.encode(), HOME, named), given)

    def test_what_a_page_says_in_place_of_http_is_left_out(self) -> None:
        """Its own policy would forbid the images that were put into it."""
        for given, wanted in (
            ("<meta http-equiv=Content-Security-Policy content=\"img-src 'none'\">", "<meta>"),
            ("<META x='>' HTTP-EQUIV='refresh' content='0; url=//evil.example'>", "<META>"),
            ("<meta charset=utf-8><meta name=viewport content=x>", "<meta charset=utf-8><meta name=viewport content=x>"),
        ):
            self.assertEqual(wanted.encode(), filled(given.encode(), HOME, named), given)

    def test_no_element_makes_a_browser_connect(self) -> None:
        """Whatever a browser takes for a tag, a text or a comment."""
        link, evil = "<link rel=preconnect href=//evil.example>", "//evil.example"
        for given, wanted in (
            (f"<textarea><style></textarea>{link}</style>", "<textarea><style></textarea><meta></style>"),
            (f"<!-- <style> -->{link}</style>", "<!-- <style> --><meta></style>"),
            (f"<svg><style><p>{link}</style>", "<svg><style><p><meta></style>"),
            (f"<style>{link}", "<style><meta>"),
            (f"<img alt='<style>'>{link}</style>", "<img alt='<style>'><meta></style>"),
            (f"<li<link>nk rel=preconnect href={evil}>", f"<li<meta>nk rel=preconnect href={evil}>"),
            (f"<link rel=preconnect href={evil} rel=stylesheet>", "<meta>"),
            (f"<link rel=preconnect href={evil} title=' rel=stylesheet '>", "<meta>"),
            (f"<link title=' rel=stylesheet ' rel=preconnect href={evil}>", "<meta>"),
            (f"<link title='>' rel=preconnect href={evil}>", f"<meta>' rel=preconnect href={evil}>"),
            (f"<iframe srcdoc='&lt;link rel=preconnect href={evil}&gt;'></iframe>", "<iframe hidden></iframe>"),
            (f"<IFRAME\tsrc={evil}/x>a", "<iframe hidden>a"),
            (f"<iframe title='>' src={evil}>", f"<iframe hidden>' src={evil}>"),
            (f"<frameset><frame src={evil}><frame/src={evil}></frameset>", "<frameset><frame><frame></frameset>"),
            (f"<ifr<iframe>ame src={evil}>", f"<ifr<iframe hidden>ame src={evil}>"),
            ("<p>a <linked> b", "<p>a <linked> b"),
        ):
            self.assertEqual(wanted.encode(), filled(given.encode(), HOME, lambda url, kind: None), given)

    def test_links_lead_to_captures(self) -> None:
        def linked(url: str) -> str:
            return f"/web/2016/{url}"

        front = "/web/2016/http://example.com"
        for given, wanted in (
            ("<a href=b>", f'<a href="{front}/a/b">'),
            ("<A class=x HREF='/b?c&amp;d#e' target=_blank>", f'<A class=x href="{front}/b?c&amp;d#e" >'),
            ("<area href=//example.com/>", f'<area href="{front}/">'),
            ("<a href='#part'>", "<a href='#part'>"),
            ("<base target=_top href=/c/><a href=b>", f'<base  href=/c/><a href="{front}/c/b">'),
            ("<abbr href=b>", "<abbr href=b>"),
            ("<a name=b>", "<a name=b>"),
            *[(f"<a href='{each}'>", f"<a href='{each}'>") for each in (
                "javascript:a(1)", " JavaScript:a", "java\nscript:a", "mailto:a@example.com", "tel:1", "data:text/html,a", "blob:http://a/b", "about:blank",
                "x-y:z", "")],
            ("<a href=HTTPS://Example.org/>", '<a href="/web/2016/HTTPS://Example.org/">'),
            ("<a title='<a href=b>' href=c>", f"<a title='<a href=b>' href=\"{front}/a/c\">"),
            ("<a href=?b&section=1&amp;c>", f'<a href="{front}/a/page?b&amp;section=1&amp;c">'),
        ):  # fmt: skip
            found = filled(given.encode(), HOME, lambda url, kind: None, linked)
            self.assertEqual(wanted.encode(), found, given)
        self.assertEqual(b"<a href=b target=c>", filled(b"<a href=b target=c>", HOME, named))

    def test_a_page_is_read_as_a_browser_reads_it(self) -> None:
        """Otherwise a tag may be one that only the browser sees."""
        for content, kind, wanted in (
            ("<p>é".encode(), "", "<p>é"), ("<p>é".encode()[:-1], "", "<p>Ã"), ("<p>é€".encode("windows-1252"), "", "<p>é€"),
            ("<p>€".encode("windows-1252"), "iso-8859-1", "<p>€"), ("<p>€".encode("windows-1252"), "x-user-defined", "<p>€"),
            ("<p>é".encode(), "UTF8", "<p>é"), ("<p>é".encode(), "nosuch", "<p>é"), ("<p>я".encode("koi8-r"), "koi8-r", "<p>я"),
            ("<meta charset=koi8-r><p>я".encode("koi8-r"), "", "<meta charset=koi8-r><p>я"), ("<p>ก".encode("cp874"), "windows-874", "<p>ก"),
            ("<meta charset=utf-8><p>я".encode("cp1251"), "cp1251", "<meta charset=utf-8><p>я"), ("<p>①".encode("cp932"), "Shift_JIS", "<p>①"),
            ("<p>镕".encode("gbk"), "gb2312", "<p>镕"), ("<p>똠".encode("cp949"), "euc-kr", "<p>똠"), ("<p>ğ".encode("cp1254"), "iso-8859-9", "<p>ğ"),
            ("<link>".encode("utf-16"), "", "<link>"), ("<link>".encode("utf-16"), "koi8-r", "<link>"), ("<link>".encode("utf-16-le"), "utf-16", "<link>"),
            ("<link>".encode("utf-16-be"), "utf-16be", "<link>"), ("<link>".encode("utf-16-be"), "", "\0<\0l\0i\0n\0k\0>"),
            ("\ufeff<link>".encode("utf-16-be"), "utf-16le", "<link>"), (b"<li\x1b(Bnk>", "iso-2022-jp", "<link>"),
            (b"<meta charset=punycode><p>\xff", "", "<meta charset=punycode><p>ÿ"), (b"<meta charset=hex>61", "rot13", "<meta charset=hex>61"),
            (b"<meta charset=utf-16><p>", "", "<meta charset=utf-16><p>"), (b"<meta charset=x-user-defined>\x80", "", "<meta charset=x-user-defined>€"),
            (b"\xef\xbb\xbf<p>", "koi8-r", "<p>"), (b"<link>\0", "utf-16", "\u6c3c\u6e69\u3e6b\ufffd"),
        ):  # fmt: skip
            self.assertEqual(wanted, text_of(content, charset_of(f"text/html; Charset='{kind}'"), True), content)
        for is_whole, wanted in ((True, "Ã"), (False, "\ufffd")):
            self.assertEqual(wanted, text_of("é".encode()[:-1], None, True, is_whole))
        self.assertEqual("<meta charset=koi8-r>Á", text_of(b"<meta charset=koi8-r>\xc1", None, False))

    def test_a_style_sheet_has_its_imports(self) -> None:
        for given, wanted in (
            (b'@import "s.css";', b'@import "data:text/css,http://example.com/a/s.css";'),
            (b"@import url(s.css);", b"@import url(data:text/css,http://example.com/a/s.css);"),
            (b"a{b:url(http://evil.example/)}", b"a{b:url(http://evil.example/)}"),
            (b"a{b:url(data:image/png;base64,AA)}", b"a{b:url(data:image/png;base64,AA)}"),
        ):
            self.assertEqual(wanted, styled(given, HOME, named), given)

    def test_hostile_pages_take_linear_time(self) -> None:
        for part in (
            b"<img", b"<img ", b"<img src=", b"<img src=a ", b"<img src=a>", b"<style>", b"url(",
            b"<link rel=stylesheet ", b"<style>url(", b"<img src='", b'<img src="',
            b"<base href=a/>",
            b"<table style=url(", b"<td style='url(a", b"&#", b" src", b" src ", b'@import "',
            b"@import  ", b"<a href=b>", b"<a ", b"<link rel=", b"<a href='", b"<link ", b"<iframe ", b"<iframe>",
            b"<link>", b"<li<link>nk ", b"a=", b" a =", b"' ",
        ):  # fmt: skip
            for before in (b"", b"<style>", b"<img "):
                start, steps = time.process_time(), mock.Mock()
                filled(before + part * (LONG // len(part)), HOME, lambda url, kind: None, str, steps)
                self.assertLess(time.process_time() - start, 5, (before, part))
                if part.endswith(b">") and part != b"<style>" and not before:
                    self.assertGreater(steps.call_count, LONG // PIECE - 2, part)

    def test_a_page_of_many_links_takes_little_memory(self) -> None:
        page, size = b"<a href=b>" * 50_000, 0
        tracemalloc.start()
        self.addCleanup(tracemalloc.stop)
        for piece in embedding.filled(page, HOME, named, lambda url: f"/web/20160303000000/{url}"):
            size += len(piece)
            self.assertLess(len(piece), 2 * PIECE)
        self.assertGreater(size, 5 * len(page))
        self.assertLess(tracemalloc.get_traced_memory()[1], 4 * len(page))
        tracemalloc.reset_peak()
        list(embedding.filled(b"<style>" + b"url()" * 100_000, HOME, named))
        self.assertLess(tracemalloc.get_traced_memory()[1], 8 * len(page))


class Parts(support.Pages):
    def fill(self, archives: Archives) -> None:
        page = b"<link rel=stylesheet href=/s.css><img src=b.png><img src=c.png><img src=d.png>"
        style = b"p { background: url(a/b.png) } @import '/s.css';"
        archives.add("a.warc", [
            response(HOME, DATE, page),
            response("http://example.com/a/b.png", "2010-01-01T00:00:00Z", b"old", "image/png"),
            response("http://example.com/a/b.png", "2016-04-01T00:00:00Z", PNG, "image/png"),
            response("http://example.com/a/c.png", "2010-01-01T00:00:00Z", PNG, "image/png"),
            revisit("http://example.com/a/c.png", "2016-04-01T00:00:00Z", PNG, OLD),
            response("http://example.com/a/d.png", DATE, b"<p>no image</p>", "text/html"),
            response("http://example.com/s.css", DATE, style, "text/css"),
            response("http://example.com/many", DATE, b"<img src=/a/b.png>" * 200_000),
            response("http://example.com/links", DATE, b"<a href=b>" * 400_000),
        ])  # fmt: skip

    def test_a_payload_has_the_nearest_captures_of_its_parts(self) -> None:
        found = self.ask("payload", **self.place(HOME)).data
        image = url_of("image/png", PNG).encode()
        style = b"p { background: url(" + image + b") } @import '/s.css';"
        self.assertIn(b'<img src="' + image + b'"><img src="' + image + b'"><img src=d.png>', found)
        self.assertIn(url_of("text/css", style).encode(), found)

    def test_a_page_of_many_links_waits_for_a_slot(self) -> None:
        """Otherwise a few of them would keep all workers from others."""
        collection, work = self.gateway.main, self.gateway.work
        capture = Place.of({name: str(value) for name, value in self.place("http://example.com/links").items()}).capture(collection)
        read = reading.read(collection, capture)
        work.begin(mock.Mock(lease=Lease.FREE))
        self.addCleanup(work.begin, None)
        with self.assertRaises(NeedsSlot):
            list(embedding.embedded(collection, capture, read, str))

    def test_what_parts_add_is_bounded(self) -> None:
        content = b"\0" * 100_000
        made = url_of("image/png", content)
        with mock.patch.object(embedding.Parts, "_make", return_value=made):
            found = self.ask("payload", **self.place("http://example.com/many")).data
        self.assertLess(len(found), MOST_BYTES + 5_000_000)


if __name__ == "__main__":
    unittest.main()
