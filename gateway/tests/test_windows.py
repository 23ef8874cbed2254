"""Captures that a browser asks for in a window, of archives that an attacker has written."""
import unittest

from werkzeug.test import TestResponse

from . import browse_support as support
from .browse_support import Archives, response

DATE, STAMP = "2016-03-03T09:34:31Z", "20160303093431"
HOST = "http://example.com/"
PAGE = b"<link rel=preconnect href=//evil.example><p>a page"
SHOWN, TEXT, OTHER = "text/html; charset=utf-8", "text/plain; charset=utf-8", "application/octet-stream"
# The types of captures, of which a browser may find others than are found here, and those with which a window gets them.
TYPES = (
    ("text/html", SHOWN), ("TEXT/HTML ; charset=koi8-r", SHOWN), ("application/xhtml+xml", SHOWN),
    ("text/plain, text/html", TEXT), ("text/ht\x01ml", TEXT), ("text/html\udce9", TEXT), ("text/html, image/png", TEXT),
    ("image/svg+xml", TEXT), ("text/xsl", TEXT), ("text/xml; charset=koi8-r", "text/plain; charset=koi8-r"), ("application/rss+xml", TEXT),
    ("application/json", TEXT), ("text/css", TEXT), ("text/javascript; charset=utf-7", TEXT), ("text/calendar", TEXT),
    ("image/png, text/html", OTHER), ("image/png\x00, text/html", OTHER), ("*/*", OTHER), ("", OTHER), ("text", OTHER), (None, OTHER),
    ("multipart/x-mixed-replace; boundary=x", OTHER), ("message/rfc822", OTHER), ("application/x-x509-ca-cert", OTHER),
    ("application/x-xpinstall", OTHER), ("application/signed-exchange;v=b3", OTHER), ("application/webbundle", OTHER),
    ("image/png", "image/png"), ("Image/GIF; x=\x1b", "image/gif"), ("video/mp4", "video/mp4"), ("audio/mpeg", "audio/mpeg"),
    ("application/pdf", "application/pdf"),
)  # fmt: skip
# Redirects that lead nowhere: a browser shows their pages.
NOWHERE = ("", "ftp://evil.example/", "javascript:alert(1)", "http://[", f"{HOST}nowhere6")
WINDOWS = (
    {"Sec-Fetch-Dest": "document"}, {"Sec-Fetch-Dest": "iframe", "Upgrade-Insecure-Requests": "1"},
    {"Upgrade-Insecure-Requests": "1"},  # a host without TLS has no other word of it
)  # fmt: skip


class Windows(support.Pages):
    def fill(self, archives: Archives) -> None:
        moved = [f"Location: {HOST}type0"]
        archives.add("a.warc", [
            *(response(f"{HOST}type{number}", DATE, PAGE, kind) for number, (kind, _) in enumerate(TYPES)),
            *(
                response(f"{HOST}nowhere{number}", DATE, PAGE, status="302 Found", http=[f"Location: {target}"])
                for number, target in enumerate(NOWHERE)
            ),
            response(f"{HOST}multiple", DATE, PAGE, status="300 Multiple Choices"),
            response(f"{HOST}moved", DATE, PAGE, status="301 Moved", http=moved),
        ])  # fmt: skip

    def window(self, name: str, mark: str = "", **headers: str) -> TestResponse:
        return self.client.get(f"/crawl/{STAMP}{mark}/{HOST}{name}", headers=headers)

    def test_a_window_gets_a_type_of_a_list(self) -> None:
        for number, (kind, wanted) in enumerate(TYPES):
            for headers in WINDOWS:
                answer = self.window(f"type{number}", **headers)
                self.assertEqual((200, wanted), (answer.status_code, answer.headers["Content-Type"]), kind)
                self.assertEqual(b"<meta><p>a page" if wanted == SHOWN else PAGE, answer.data, kind)
                answer = self.window(f"type{number}", "id_", **headers)
                self.assertEqual((302, 200)[wanted != SHOWN], answer.status_code, kind)
                self.assertNotEqual("text/html", answer.headers["Content-Type"].partition(";")[0])

    def test_other_clients_get_the_type_that_was_archived(self) -> None:
        for headers in ({}, {"Sec-Fetch-Dest": "empty", "Upgrade-Insecure-Requests": "1"}, {"Upgrade-Insecure-Requests": "0"}):
            answer = self.window("type1", "id_", **headers)
            self.assertEqual((200, "TEXT/HTML ; charset=koi8-r"), (answer.status_code, answer.headers["Content-Type"]))
            self.assertEqual(PAGE, answer.data)

    def test_a_redirect_that_leads_nowhere_is_a_page(self) -> None:
        for name in (*(f"nowhere{number}" for number in range(len(NOWHERE) - 1)), "multiple"):
            for headers in WINDOWS:
                answer = self.window(name, **headers)
                self.assertEqual((SHOWN, b"<meta><p>a page"), (answer.headers["Content-Type"], answer.data), name)
                self.assertNotIn("Location", answer.headers)

    def test_a_redirect_has_no_page(self) -> None:
        for headers in WINDOWS:
            answer = self.window("moved", **headers)
            self.assertEqual((301, TEXT), (answer.status_code, answer.headers["Content-Type"]))
            self.assertEqual(f"http://localhost/crawl/{STAMP}id_/{HOST}type0", answer.headers["Location"])


if __name__ == "__main__":
    unittest.main()
