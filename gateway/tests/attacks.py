"""What clients do together that may stop others, and how late another client's small query is meanwhile."""
import contextlib
import os
import socket
import subprocess
import sys
import tempfile
import time
from collections.abc import Callable, Iterator, Sequence
from typing import NamedTuple

from .support import LINE, Server, connected

SMALL = "/cdx?url=example.org/&fl=offset"
SMALL_BODY = b"5\n"
DEAR = "/cdx?url=example.com/&collapse=digest:1&filter=!digest:%d"
# Each client asks for the targets in turn. A byte of the file of counts is for each answer: its
# status, 200 or 400 as `+`, 503 as `-`, and another one, or a connection that has ended, as `?`.
CLIENTS = """
import os, socket, sys, threading, time
host, port, counts, address, count, leaves, *targets = sys.argv[1:]
file = os.open(counts, os.O_WRONLY | os.O_APPEND)
def run(number):
    asked = number
    while True:
        target = targets[asked % len(targets)].replace("%d", str(asked))
        asked += int(count)
        found = b""
        try:
            with socket.create_connection((host, int(port)), timeout=120) as client:
                head = f"GET {target} HTTP/1.1\\r\\nHost: localhost\\r\\nX-Forwarded-For: {address}\\r\\n\\r\\n"
                client.sendall(head.encode())
                if float(leaves):
                    time.sleep(float(leaves))
                    continue
                found = client.recv(1 << 16)
                while client.recv(1 << 20):
                    pass
        except OSError:
            time.sleep(0.01)
        status = found[9:12]
        os.write(file, b"+" if status in (b"200", b"400") else b"-" if status == b"503" else b"?")
for number in range(int(count)):
    threading.Thread(target=run, args=(number,)).start()
"""


class Answered(NamedTuple):
    """How many answers there were, how many of them had status 503, and how many another one or none."""

    all: int
    busy: int
    failed: int


def captures(count: int) -> str:
    """Returns an index with a key of many captures, and one of a single capture."""
    many = (
        LINE % ("com,example)/", 20160101000000 + n, "http://example.com/", "text/html", "200", f"D{n % 7}", 1, n, "a.warc")
        for n in range(count)
    )  # fmt: skip
    other = LINE % ("org,example)/", "20160101000000", "http://example.org/", "-", "200", "D", 1, 5, "a.warc")
    return "".join([*many, other])


@contextlib.contextmanager
def clients(
    server: Server, count: int, targets: Sequence[str], address: str = "192.0.2.1", leaves: float = 0
) -> Iterator[Callable[[], Answered]]:
    """Lets clients of one address ask again and again, as a process of their own. They may leave after seconds."""
    with tempfile.NamedTemporaryFile() as counts:
        words = (*map(str, server.address), counts.name, address, str(count), str(leaves), *targets)
        process = subprocess.Popen((sys.executable, "-c", CLIENTS, *words), stderr=subprocess.DEVNULL)

        def answered() -> Answered:
            with open(counts.name, "rb") as file:
                found = file.read()
            return Answered(len(found), found.count(b"-"), found.count(b"?"))

        try:
            yield answered
        finally:
            process.kill()
            process.wait()


def probe(server: Server, count: int, address: str = "192.0.2.2", target: str = SMALL, body: bytes = SMALL_BODY) -> list[float]:
    """Asks for little, one time after another. Returns the seconds of each, the least first."""
    times = []
    for _ in range(count):
        start = time.monotonic()
        with connected(server) as client:
            found = client.ask(target, X_Forwarded_For=address)
        if found.status != 200 or body not in found.body:
            raise AssertionError(f"{found.status} {found.body[:200]!r}")
        times.append(time.monotonic() - start)
        time.sleep(0.005)
    return sorted(times)


def at(times: Sequence[float], share: float) -> float:
    """Returns the milliseconds within which a share of the times is."""
    return times[min(int(len(times) * share), len(times) - 1)] * 1000


def load() -> str:
    return "/".join(f"{each:.0f}" for each in os.getloadavg())


@contextlib.contextmanager
def taking_nothing(server: Server, count: int, target: str, address: str) -> Iterator[None]:
    """Connections whose clients take nothing of a long answer."""
    with contextlib.ExitStack() as stack:
        for _ in range(count):
            client = stack.enter_context(socket.socket())
            client.setsockopt(socket.SOL_SOCKET, socket.SO_RCVBUF, 4096)
            client.connect(server.address)
            head = f"GET {target} HTTP/1.1\r\nHost: localhost\r\nX-Forwarded-For: {address}\r\n\r\n"
            client.sendall(head.encode())
        yield
