#!/usr/bin/env python3
"""Serves a folder and some unusual pages at 127.0.0.1, for crawl.sh.

usage: serve_pages.py [--port PORT] FOLDER

Prints the port once the server listens. Without --port it is a free one. The server runs until it is killed.

/files/    the files of FOLDER and its subfolders. By a checksum of its name, a file is sent with a length, in chunks, or up to the end of the
           connection
/unusual/  pages without a type, without a body, with many fields, with a record's text in the body, and others
"""
import http.server
import mimetypes
import pathlib
import sys
import urllib.parse
import zlib
from collections.abc import Sequence
from typing import Optional

sys.path.insert(0, str(pathlib.Path(__file__).resolve().parents[1]))

from program import parser_of

HTML = "text/html; charset=utf-8"
Fields = Sequence[tuple[str, str]]

# Of each page the status, the fields and the body.
UNUSUAL: dict[str, tuple[int, Fields, bytes]] = {
    "no-type": (200, (), b"no type\n"),
    "empty-type": (200, (("Content-Type", ""),), b"empty type\n"),
    "type-in-capitals": (200, (("CONTENT-TYPE", "TEXT/HTML; CHARSET=UTF-8"),), b"<p>capitals</p>\n"),
    "empty": (200, (("Content-Type", "text/plain"),), b""),
    "moved": (302, (("Content-Type", HTML), ("Location", "/unusual/empty")), b"<p>moved</p>\n"),
    "gone": (410, (("Content-Type", "text/plain"),), b"gone\n"),
    "broken": (500, (("Content-Type", "text/plain"),), b"broken\n"),
    "300-fields": (200, tuple((f"X-{number}", "value") for number in range(300)), b"300 fields\n"),
    "long-field": (200, (("X-Long", "a" * 60_000),), b"long field\n"),
    "many-fields": (200, tuple((f"X-{number}", "value") for number in range(60)), b"60 fields\n"),
    "record": (200, (("Content-Type", "text/plain"),), b"\r\n\r\nWARC/1.0\r\nWARC-Type: response\r\n\r\n"),
    "zeros": (200, (("Content-Type", "application/octet-stream"),), bytes(20_000)),
    "a b/\u00e9~": (200, (("Content-Type", "text/plain; charset=utf-8"),), "\u00e9\n".encode()),
}
QUERIES = ("empty?", "empty?a=1&B=2", "empty?B=2&a=1", "empty?a=%41+b%20c")


class Handler(http.server.BaseHTTPRequestHandler):
    protocol_version = "HTTP/1.1"
    folder = pathlib.Path()

    def log_message(self, *_: object) -> None:
        """Prints nothing."""

    def do_GET(self) -> None:
        path = urllib.parse.unquote(self.path.partition("?")[0])
        if path == "/":
            self.send_links(["/files/", *("/unusual/" + name for name in (*map(urllib.parse.quote, UNUSUAL), *QUERIES)), "/missing"])
        elif path.startswith("/unusual/") and path[9:] in UNUSUAL:
            self.send_page(*UNUSUAL[path[9:]])
        elif path.startswith("/files/"):
            self.send_file(path[7:])
        else:
            self.send_page(404, (("Content-Type", HTML),), b"<p>missing</p>\n")

    def send_links(self, links: Sequence[str]) -> None:
        body = "".join(f'<a href="{link}">link</a>\n' for link in links)
        self.send_page(200, (("Content-Type", HTML),), body.encode())

    def send_file(self, name: str) -> None:
        path = (self.folder / name).resolve()
        if path.is_dir() and self.folder in (path, *path.parents):
            start = "/files/" + urllib.parse.quote(name.strip("/")) + "/" * bool(name.strip("/"))
            self.send_links([start + urllib.parse.quote(each.name) + "/" * each.is_dir() for each in sorted(path.iterdir())])
        elif path.is_file() and self.folder in path.parents:
            kind = mimetypes.guess_type(path)[0] or "application/octet-stream"
            self.send_page(200, (("Content-Type", kind),), path.read_bytes(), zlib.crc32(name.encode()) % 3)
        else:
            self.send_page(404, (("Content-Type", HTML),), b"<p>no such file</p>\n")

    def send_page(self, status: int, fields: Fields, body: bytes, way: int = 0) -> None:
        """Sends a page with its length (0), in chunks (1), or up to the end of the connection (2)."""
        self.send_response(status)
        for field in fields:
            self.send_header(*field)
        if way == 0:
            self.send_header("Content-Length", str(len(body)))
        elif way == 1:
            self.send_header("Transfer-Encoding", "chunked")
            chunks = [body[start : start + 5000] for start in range(0, len(body), 5000)]
            body = b"".join(b"%x\r\n%b\r\n" % (len(chunk), chunk) for chunk in (*chunks, b""))
        else:
            self.send_header("Connection", "close")
            self.close_connection = True
        self.end_headers()
        self.wfile.write(body)


def main(arguments: Optional[Sequence[str]] = None) -> None:
    parser = parser_of(__doc__)
    parser.add_argument("--port", metavar="PORT", type=int, default=0, help="the port to listen at")
    parser.add_argument("folder", metavar="FOLDER", type=pathlib.Path, help="the folder to serve")
    parsed = parser.parse_args(arguments)
    Handler.folder = parsed.folder.resolve()
    server = http.server.ThreadingHTTPServer(("127.0.0.1", parsed.port), Handler)
    server.daemon_threads = True
    print(server.server_address[1], flush=True)
    server.serve_forever()


if __name__ == "__main__":
    main()
