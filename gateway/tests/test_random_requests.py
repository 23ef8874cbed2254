"""Requests made of hostile parts at random: none is answered by a fault, or breaks a field."""
import io
import random
import sys
import unittest
from typing import Any
from urllib.parse import unquote_to_bytes

from werkzeug.test import run_wsgi_app

from . import browse_support as support
from .browse_support import Archives, page, response, revisit

HOME, DATE = "http://example.com/", "2016-03-03T09:34:31Z"
COUNT = 4000
RECORD = "/crawl/browse/record?archive=%s&offset=%s&timestamp=%s&key=%s"
PATHS = (
    "/%s", "/%s/cdx", "/web/%s", "/crawl/%s", "/web/timegate/%s", "/web/timemap/link/%s",
    "/web/timemap/json/%s", "/crawl/timemap/json/%s", "/web/20160303093431id_/%s",
    "/web/2016id_/%s",
    "/crawl/%sid_/http://example.com/", "/web/%s/http://example.com/", "/web/*/%s", "/crawl?url=%s",
    "/crawl?q=%s", "/crawl?q=type:urlquery+url:%s",
    "/crawl?q=type:prefixquery+url:example.com&count=%s",
    "/wayback/available?url=%s", "/wayback/available?url=example.com&timestamp=%s",
    "/__wb/sparkline?url=%s", "/crawl-index?url=%s&output=link", "/cdx?url=example.com&offset=%s",
    "/cdx?url=example.com&collapseTime=%s", "/cdx?url=example.com&closest=%s",
    "/cdx?url=example.com&collapse=urlkey&fl=%s", "/crawl/browse/%s", RECORD,
    RECORD.replace("record", "download", 1), "/crawl/browse/compare?first=%s&second=%s",
    "/crawl/browse/search?url=%s", "/crawl/browse/search?url=example.com&after=%s",
    "/crawl/browse/captures?key=%s", "/crawl/browse/payload?%s",
)  # fmt: skip
PARTS = (
    HOME, "example.com", "a.warc", "0", "20160303093431", "com,example)/", "%00", "%ff",
    "%E2%80%AE", "\xff", "é", "http:/", "//", "/", "?", "&", "=", "+", "%", "%zz", "[",
    "http://[::1", "..",
    "http%3A%2F%2F", "../..", "a" * 5000, "9" * 14, "9" * 30, "0" * 14, "-1", "\u0660", "id_",
    "im_", "*", "20160231", "javascript:alert(1)", "dns:example.com", " ", "%20", "%0d%0aX:1",
    "<script>",
    "urlkey", "groupcount", "type:", "url:", ":", "http://a:99999/", "timemap/link/",
)  # fmt: skip
FIELDS = (
    {},
    {"HTTP_ACCEPT_DATETIME": "x"},
    {"HTTP_ACCEPT_DATETIME": "Thu, 03 Mar 2016 09:34:31 GMT"},
    {"HTTP_ACCEPT_DATETIME": "Fri, 31 Dec 9999 23:59:59 GMT"},
    {"HTTP_ACCEPT": "text/html"},
    {"HTTP_ACCEPT_ENCODING": "gzip;q=0, *"},
    {"HTTP_IF_NONE_MATCH": "*"},
)


def environment(rng: random.Random) -> dict[str, Any]:
    """Returns a request as gunicorn gives it to the gateway."""
    target = rng.choice(PATHS)
    while "%s" in target:
        target = target.replace("%s", "".join(rng.choices(PARTS, k=rng.randrange(1, 4))), 1)
    target = target.encode().decode("latin-1")
    path, _, query = target.partition("?")
    return {
        "REQUEST_METHOD": rng.choice(("GET", "GET", "GET", "HEAD", "POST")),
        "SCRIPT_NAME": "",
        "PATH_INFO": unquote_to_bytes(path.encode("latin-1")).decode("latin-1"),
        "QUERY_STRING": query,
        "RAW_URI": target,
        "SERVER_NAME": "localhost",
        "SERVER_PORT": "80",
        "HTTP_HOST": "localhost",
        "SERVER_PROTOCOL": "HTTP/1.1",
        "wsgi.url_scheme": "http",
        "wsgi.input": io.BytesIO(),
        "wsgi.errors": sys.stderr,
        **rng.choice(FIELDS),
    }


class Random(support.Pages):
    def fill(self, archives: Archives) -> None:
        moved = response(HOME + "r", DATE, b"", status="302 Found", http=["Location: http://[bad"])
        archives.add("a.warc", [
            response(HOME, DATE, page("a")),
            moved,
            response(HOME + "é\u202e<>\"'", DATE, page("a")),
            revisit(HOME, "2017-03-03T09:34:31Z", page("a")),
        ])  # fmt: skip

    def test_none_is_a_fault(self) -> None:
        rng = random.Random(61)
        for _ in range(COUNT):
            asked = environment(rng)
            pieces, status, fields = run_wsgi_app(self.gateway, asked, buffered=True)
            self.assertLess(int(status[:3]), 500, asked["RAW_URI"])
            for name, value in fields:
                self.assertTrue(value.isprintable() and value.isascii(), (name, asked["RAW_URI"]))
            self.assertNotIn(b"Traceback", b"".join(pieces))


if __name__ == "__main__":
    unittest.main()
