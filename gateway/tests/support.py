"""What the tests share.

They run the program that the variable WARCDX names, or else `warcdx` of the PATH.
"""
import contextlib
import gzip
import json
import os
import pathlib
import re
import shutil
import signal
import socket
import subprocess
import tempfile
import time
import unittest
from collections.abc import Iterator, Mapping
from typing import Any, NamedTuple, Optional

from . import ROOT as ROOT

signal.signal(signal.SIGINT, signal.default_int_handler)  # a job in the background ignores it, and so would its gateways

PROGRAM = os.path.abspath(shutil.which(os.environ.get("WARCDX", "warcdx")) or "warcdx")
COMMAND = ROOT / "gateway/bin/warcdx-gateway"
WAIT = 120  # seconds for what takes a few milliseconds, also on a busy machine
# A rule of a program to which every file is an index in order.
ALL_IN_ORDER = '[ "$1" != check ] || { shift; for file; do echo "$file 1"; done; exit; }'
LINE = '%s %s {"url": "%s", "mime": "%s", "status": "%s", "digest": "%s", "length": "%d", "offset": "%d", ' '"filename": "%s"}\n'
CAPTURES = (
    ("com,example)/", "20140101000000", "http://example.com/", "text/html", "200", "AAAA", 1000, 0, "a.warc"),
    ("com,example)/", "20150101000000", "http://example.com/", "text/html", "200", "AAAA", 1001, 1000, "a.warc"),
    ("com,example)/", "20160101000000", "http://example.com/", "warc/revisit", "-", "AAAA", 500, 2001, "a.warc"),
    ("com,example)/", "20160601000000", "http://example.com/", "text/html", "404", "BBBB", 700, 2501, "a.warc"),
    ("com,example)/", "20170101000000", "https://example.com/", "text/html", "200", "CCCC", 1100, 0, "b.warc"),
    ("com,example)/a", "20150101000000", "http://example.com/a", "text/plain", "503", "DDDD", 300, 1100, "b.warc"),
    ("com,example)/b.png", "20150101000000", "http://example.com/b.png", "image/png", "200", "EEEE", 400, 1400, "b.warc"),
    ("com,example,sub)/", "20160101000000", "http://sub.example.com/", "text/html", "200", "AAAA", 1000, 1800, "b.warc"),
    ("org,example)/", "20200101000000", "http://example.org/", "text/html", "301", "FFFF", 300, 2800, "b.warc"),
)
SAMPLE = "".join(LINE % capture for capture in CAPTURES)


def lines(count: int, status: int = 200, size: int = 0) -> str:
    """Returns an index of `count` captures, each of another page and with a URL that is longer by
    `size`.
    """
    end, kind = "x" * size, ("text/html", str(status))
    return "".join(
        LINE % (f"com,example)/{n:07}", "20160101000000", f"http://example.com/{n:07}{end}", *kind,
                f"D{n}", n + 1, n, "a.warc")
        for n in range(count)
    )  # fmt: skip


class Response(NamedTuple):
    """A response: its status, its fields with their names in lower case, and its body without
    chunks.
    """

    status: int
    fields: dict[str, str]
    body: bytes

    @property
    def text(self) -> str:
        is_compressed = self.fields.get("content-encoding") == "gzip"
        return (gzip.decompress(self.body) if is_compressed else self.body).decode()


class Client:
    """A plain socket that sends literal requests, one after another on one connection."""

    def __init__(self, address: tuple[str, int], timeout: float = WAIT) -> None:
        self.socket = socket.create_connection(address, timeout=timeout)
        self.input = self.socket.makefile("rb")

    def send(self, request: bytes) -> None:
        self.socket.sendall(request)

    def response(self, is_head: bool = False) -> Response:
        """Returns the next response. Raises EOFError if the connection ends before it is whole."""
        status = self._line().split(b" ", 2)
        fields: dict[str, str] = {}
        while line := self._line():
            name, _, value = line.decode("latin-1").partition(":")
            fields[name.lower()] = value.strip()
        body = b"" if is_head or int(status[1]) in (204, 304) else self._body(fields)
        return Response(int(status[1]), fields, body)

    def ask(self, target: str, method: str = "GET", **fields: str) -> Response:
        fields = {"Host": "localhost", **fields}
        head = "".join(f"{name.replace('_', '-')}: {value}\r\n" for name, value in fields.items())
        self.send(f"{method} {target} HTTP/1.1\r\n{head}\r\n".encode())
        return self.response(method == "HEAD")

    def begin(self, target: str) -> None:
        """Sends a request, and takes no more of the answer than the system holds for it."""
        self.send(f"GET {target} HTTP/1.1\r\nHost: localhost\r\n\r\n".encode())
        self.socket.recv(1, socket.MSG_PEEK)

    def close(self) -> None:
        self.input.close()
        self.socket.close()

    def _line(self) -> bytes:
        line = self.input.readline()
        if not line.endswith(b"\n"):
            raise EOFError
        return line.rstrip(b"\r\n")

    def _body(self, fields: Mapping[str, str]) -> bytes:
        if "content-length" in fields:
            return self._bytes(int(fields["content-length"]))
        if fields.get("transfer-encoding") != "chunked":
            return self.input.read()
        body = b""
        while size := int(self._line(), 16):
            body += self._bytes(size)
            self._line()
        self._line()
        return body

    def _bytes(self, size: int) -> bytes:
        found = self.input.read(size)
        if len(found) < size:
            raise EOFError
        return found


class Server:
    """A gateway that runs."""

    def __init__(self, process: "subprocess.Popen[str]", said: pathlib.Path) -> None:
        assert process.stdout is not None
        self.process = process
        self.said = said
        self.url = process.stdout.readline().strip().rstrip("/")
        host, _, port = self.url.removeprefix("http://").rpartition(":")
        self.address = (host.strip("[]"), int(port) if port else 0)

    def ask(self, target: str, method: str = "GET", **fields: str) -> Response:
        with contextlib.closing(Client(self.address)) as client:
            return client.ask(target, method, **fields)

    def metric(self, name: str) -> float:
        """Returns the sum of a metric over its labels."""
        found = self.ask("/metrics").text.splitlines()
        return sum(float(line.rpartition(" ")[2]) for line in found if line.startswith(f"warcdx_gateway_{name}"))

    def workers(self) -> list[int]:
        """Returns the process IDs of the workers."""
        own = file_of(self.process.pid)
        return [child for child in children(self.process.pid) if file_of(child) == own]

    def checks(self) -> list[int]:
        """Returns the process IDs of the checks of indexes, which run another file than the master does."""
        own = file_of(self.process.pid)
        return [child for child in children(self.process.pid) if file_of(child) not in ("", own)]

    def programs(self) -> list[int]:
        """Returns the process IDs of the runs of the program."""
        return [program for worker in self.workers() for program in children(worker)]

    def memory(self) -> int:
        """Returns the resident memory of the workers in bytes."""
        return sum(map(resident, self.workers()))

    def end(self) -> int:
        if self.process.poll() is None:
            self.process.send_signal(signal.SIGTERM)
        try:
            return self.process.wait(WAIT)
        finally:
            self.process.kill()
            if self.process.stdout is not None:
                self.process.stdout.close()


def bound_socket() -> socket.socket:
    """Returns a socket at a port of 127.0.0.1 that the system gives to nobody else while the socket is open.

    Nothing listens there. A server that sets SO_REUSEADDR, as servers do, can share the port, and then listens alone.
    """
    bound = socket.socket()
    bound.setsockopt(socket.SOL_SOCKET, socket.SO_REUSEADDR, 1)
    bound.bind(("127.0.0.1", 0))
    return bound


def children(process: int) -> list[int]:
    try:
        found = pathlib.Path(f"/proc/{process}/task/{process}/children").read_text()
    except FileNotFoundError:
        return []
    return list(map(int, found.split()))


def file_of(process: int) -> str:
    """Returns the path of the file that a process runs, or an empty text if it has ended."""
    try:
        return os.readlink(f"/proc/{process}/exe")
    except FileNotFoundError:
        return ""


def resident(process: int) -> int:
    try:
        status = pathlib.Path(f"/proc/{process}/status").read_text()
    except FileNotFoundError:
        return 0
    found = status.partition("VmRSS:")[2].split()
    return int(found[0]) * 1024 if found else 0


class Case(unittest.TestCase):
    """A test with a temporary folder."""

    def setUp(self) -> None:
        folder = tempfile.TemporaryDirectory()
        self.addCleanup(folder.cleanup)
        self.folder = pathlib.Path(folder.name)

    def put(self, text: str, name: str = "index") -> pathlib.Path:
        path = self.folder / name
        path.write_text(text)
        return path

    def hold_port(self) -> int:
        """Returns a port for a server of this test, which no other program gets meanwhile."""
        return int(self.enterContext(bound_socket()).getsockname()[1])

    def start(self, settings: Optional[str] = None, head: str = "", program: "str | pathlib.Path" = PROGRAM, **limits: int) -> Server:
        """Starts a gateway over the file `index`, or with these settings, with `head` before them."""
        if settings is None:
            settings = '[collections.main]\nindexes = ["index"]\n'
        settings = head + settings
        table = "".join(f"{name} = {value}\n" for name, value in limits.items())
        workers = "" if "workers" in settings else "workers = 3\n"
        path = self.put(f'port = 0\nprogram = "{program}"\n{workers}{settings}[limits]\n{table}', "settings.toml")
        server = self.run_command(str(path))
        found = re.search("workers = ([0-9]+)", path.read_text())
        assert found is not None
        self.assertTrue(server.url, server.said.read_text())
        self.wait_for(lambda: len(server.workers()) == int(found[1]), "no workers")
        return server

    def program(self, *rules: str) -> pathlib.Path:
        """Returns a program that is warcdx, but for what these lines of sh do with its arguments."""
        path = self.put("\n".join(("#!/bin/sh", *rules, f'exec "{PROGRAM}" "$@"\n')), "program")
        path.chmod(0o755)
        return path

    def run_command(self, *arguments: str) -> Server:
        server = Server(self.run_later(*arguments), self.folder / "said")
        self.addCleanup(server.end)
        return server

    def run_later(self, *arguments: str) -> "subprocess.Popen[str]":
        """Starts a gateway that may not answer yet."""
        with open(self.folder / "said", "ab") as file:
            return subprocess.Popen(("/usr/bin/python3", COMMAND, *arguments), stdout=subprocess.PIPE, stderr=file, text=True)

    def page(self, query: str, *indexes: pathlib.Path) -> bytes:
        """Returns what `warcdx query` writes."""
        command = (PROGRAM, "query", query, *(indexes or (self.folder / "index",)))
        return subprocess.run(command, stdout=subprocess.PIPE, check=True).stdout

    def wait_for(self, condition: Any, what: str) -> None:
        end = time.monotonic() + WAIT
        while not condition():
            self.assertLess(time.monotonic(), end, what)
            time.sleep(0.02)


class Shared(Case):
    """Tests that share one gateway over the sample."""

    server: Server
    captures = SAMPLE
    settings: Optional[str] = None

    @classmethod
    def setUpClass(cls) -> None:
        folder = tempfile.TemporaryDirectory()
        cls.addClassCleanup(folder.cleanup)
        case = cls()
        case.folder = pathlib.Path(folder.name)
        case.put(cls.captures)
        cls.shared = case.folder
        cls.server = case.start(cls.settings)
        cls.addClassCleanup(case.doCleanups)

    def setUp(self) -> None:
        self.folder = self.shared

    def lines(self, target: str, **fields: str) -> list[str]:
        """Returns the lines of an answer, which has status 200."""
        found = self.server.ask(target, **fields)
        self.assertEqual(200, found.status, found.body)
        return found.text.splitlines()

    def rows(self, target: str) -> list[list[str]]:
        found = self.server.ask(target)
        self.assertEqual(200, found.status, found.body)
        return list(json.loads(found.body))

    def refused(self, target: str) -> str:
        found = self.server.ask(target)
        self.assertEqual(400, found.status, found.body)
        return found.text.rstrip("\n")


@contextlib.contextmanager
def connected(server: Server) -> Iterator[Client]:
    with contextlib.closing(Client(server.address)) as client:
        yield client
