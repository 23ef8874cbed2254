"""Makes crawls of many pages at random, but the same each time, and the lines of their indexes. The scripts of this folder import this file."""
import itertools
import random
from typing import NamedTuple

from make_archives import CLOSING, digest_of

PAGES = 500
RECORD_HEAD = """\
WARC/1.0
WARC-Type: response
WARC-Record-ID: <urn:uuid:%08x-53ae-4e7a-a4ff-4e5d5a8a0d3f>
WARC-Warcinfo-ID: <urn:uuid:79d1d009-6a49-4111-b3e3-b8dc210c5228>
WARC-Concurrent-To: <urn:uuid:0b6bd9ac-1d52-4f4b-8d1c-8f7c4ac5a4a4>
WARC-Target-URI: <http://www.example.com/articles/%07d/index.html>
WARC-Date: 2016-09-19T17:20:24Z
WARC-IP-Address: 192.0.2.7
WARC-Block-Digest: sha1:%s
%s: sha1:%s
Content-Type: application/http;msgtype=response
Content-Length: %d

""".replace(
    "\n", "\r\n"
)
HTTP_HEAD = """\
HTTP/1.1 200 OK
Server: Apache
Date: Mon, 19 Sep 2016 17:20:24 GMT
Content-Type: text/html; charset=utf-8
Content-Length: %d
Last-Modified: Mon, 02 May 2016 03:04:05 GMT

""".replace(
    "\n", "\r\n"
)
LINE = (
    "com,example)/articles/%07d/index.html 20160919172024 "
    '{"url": "http://www.example.com/articles/%07d/index.html", "mime": "text/html", "status": "200", "digest": "%s", '
    '"length": "%d", "offset": "%d", "filename": "%s"}\n'
)


class Page(NamedTuple):
    block: bytes
    block_digest: str
    payload_digest: str


class Crawl:
    """Response records as wget writes them, each of another URL, in no order of their URLs. The payload's digest stands in a
    field of this name. Pages are random bytes, half to one and a half times as many as the length. `pages` is how many there
    are, which come again and again.
    """

    def __init__(self, captures, page_length, digest_name="WARC-Payload-Digest", pages=PAGES):
        choice = random.Random(page_length)
        self.digest_name = digest_name
        self.numbers = choice.sample(range(captures), captures)
        self.pages = [make_page(choice, page_length) for _ in range(pages)]

    @property
    def pieces(self):
        """The records."""
        return (self.record(number, page) for number, page in self.captures())

    def index(self, filename):
        """The lines of the index, in the order of the records."""
        offset = 0
        for number, page in self.captures():
            length = len(self.record(number, page))
            yield (LINE % (number, number, page.payload_digest, length, offset, filename)).encode()
            offset += length

    def captures(self):
        return zip(self.numbers, itertools.cycle(self.pages))

    def record(self, number, page):
        digests = page.block_digest, self.digest_name, page.payload_digest
        return (RECORD_HEAD % (number, number, *digests, len(page.block))).encode() + page.block + CLOSING


def make_page(choice, length):
    payload = choice.randbytes(choice.randint(length // 2, length * 3 // 2))
    block = (HTTP_HEAD % len(payload)).encode() + payload
    return Page(block, digest_of([block]), digest_of([payload]))
