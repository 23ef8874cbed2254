#!/usr/bin/env python3
"""Measures the gateway under load, over an index of 1,000,000 lines.

usage: load.py [--seconds N] [PROGRAM]

First 64 and then 500 clients of wrk ask for one key after another for N seconds (20). Then a client asks
for one key again and again, first alone, so that its seconds can be compared: while 64 clients
do the same, while 8 clients read the whole index, while 4 clients ask for regular expressions that no capture
matches, and, behind nginx, while 1,000 connections are silent and while 300 clients take nothing of an answer
of 4 MB.

Prints a line for each case, and the memory of the workers. The exit status is 0, or 1 if an answer differs, or
the workers take more than their settings allow. No verdict is made of times, as they depend on what else the
machine has to do. Needs the packages of the gateway, and Debian's packages nginx-light and wrk.
"""
import contextlib
import pathlib
import re
import shutil
import socket
import subprocess
import sys
import tempfile
import threading
import time
from collections.abc import Iterator

ROOT = pathlib.Path(__file__).resolve().parents[2]
sys.path[:0] = [str(ROOT / "tests"), str(ROOT / "gateway")]

from program import Report, add_program, find_program, need, parser_of
from tests import support

COUNT = 1_000_000
MEMORY = 512 << 20  # bytes of each worker, the usual setting
PROBE = 10.0  # seconds of each case
ALL = "/cdx?url=example.com/*"
READERS = 300
SILENT = 1000
WRK = """
math.randomseed(7)
request = function()
  return wrk.format("GET", string.format("/cdx?url=example.com/%07d&fl=offset", math.random(0, 999999)))
end
"""
NGINX = """
daemon off; master_process off; worker_processes 1; pid "{folder}/pid"; error_log "{folder}/errors";
events {{ worker_connections 4000; }}
http {{
    access_log off;
    client_body_temp_path "{folder}/1"; proxy_temp_path "{folder}/2"; fastcgi_temp_path "{folder}/3";
    uwsgi_temp_path "{folder}/4"; scgi_temp_path "{folder}/5";
    {text}
}}
"""


class Load(support.Case):
    def runTest(self) -> None:
        """The cases are run by main."""


def probe(server: support.Server, seconds: float = PROBE) -> tuple[float, float, int]:
    """Asks for keys, one after another. Returns the median, the slowest of 99 %, and how many are wrong."""
    times, wrong, end = [], 0, time.monotonic() + seconds
    while time.monotonic() < end:
        number = len(times) * 7919 % COUNT
        start = time.monotonic()
        found = server.ask(f"/cdx?url=example.com/{number:07}&fl=offset")
        times.append(time.monotonic() - start)
        wrong += found.body != b"%d\n" % number
        time.sleep(0.005)
    times.sort()
    return times[len(times) // 2], times[len(times) * 99 // 100], wrong


@contextlib.contextmanager
def wrk(server: support.Server, folder: pathlib.Path, count: int, seconds: float) -> Iterator[list[str]]:
    """Lets clients of wrk ask, and gives what it says when the block has ended."""
    script, said = folder / "wrk.lua", list[str]()
    script.write_text(WRK)
    words = ("wrk", "-t2", f"-c{count}", f"-d{int(seconds)}s", "--latency", "-s", script, server.url)
    process = subprocess.Popen(words, stdout=subprocess.PIPE, text=True)
    yield said
    said.append(process.communicate()[0])


@contextlib.contextmanager
def reading(server: support.Server, count: int, target: str) -> Iterator[None]:
    """A number of clients read an answer again and again, each a process of curl."""
    is_over = threading.Event()

    def read() -> None:
        while not is_over.is_set():
            command = ("curl", "--silent", "--globoff", "--output", "/dev/null", server.url + target)
            with subprocess.Popen(command) as process:
                while process.poll() is None and not is_over.wait(0.1):
                    pass
                process.kill()

    threads = [threading.Thread(target=read) for _ in range(count)]
    for thread in threads:
        thread.start()
    yield
    is_over.set()
    for thread in threads:
        thread.join()


@contextlib.contextmanager
def silent(server: support.Server, count: int, sent: bytes) -> Iterator[None]:
    """Connections that send this, and then nothing, and take nothing."""
    with contextlib.ExitStack() as stack:
        for _ in range(count):
            client = stack.enter_context(socket.socket())
            client.setsockopt(socket.SOL_SOCKET, socket.SO_RCVBUF, 4096)
            client.connect(server.address)
            client.sendall(sent)
        yield


@contextlib.contextmanager
def nginx(server: support.Server, folder: pathlib.Path) -> Iterator[support.Server]:
    """Runs nginx with the file that is shipped, without TLS, access and bounds by address."""
    bound = support.bound_socket()
    port = bound.getsockname()[1]
    text = (ROOT / "gateway/service/nginx.conf").read_text()
    for pattern, new in (
        (r"127\.0\.0\.1:8080", "%s:%d" % server.address),
        ("listen 443 ssl", f"listen 127.0.0.1:{port}"),
        (r"(?m)^ *(ssl_|limit_|auth_).*$", ""),
        ("cdx.example.org", "localhost"),
    ):
        text = re.sub(pattern, new, text)
    path = folder / "nginx.conf"
    path.write_text(NGINX.format(folder=folder, text=text))
    name = shutil.which("nginx") or "/usr/sbin/nginx"
    process = subprocess.Popen((name, "-p", folder, "-c", path), stderr=subprocess.DEVNULL)
    try:
        time.sleep(1)
        behind = object.__new__(support.Server)
        behind.address, behind.url = ("127.0.0.1", port), f"http://127.0.0.1:{port}"
        yield behind
    finally:
        process.terminate()
        process.wait()
        bound.close()


def main() -> int:
    parser = parser_of(__doc__)
    parser.add_argument("--seconds", metavar="N", type=int, default=20, help="how long wrk asks")
    add_program(parser)
    given = parser.parse_args()
    support.PROGRAM = str(find_program(given.program))
    need("wrk")
    report, case = Report(), Load()
    with tempfile.TemporaryDirectory() as folder:
        case.folder = pathlib.Path(folder)
        case.put(support.lines(COUNT))
        server = case.start(head="workers = 8\n", program=support.PROGRAM)
        try:
            measure(server, case.folder, given.seconds, report)
        finally:
            case.doCleanups()
    return report.end()


def measure(server: support.Server, folder: pathlib.Path, seconds: int, report: Report) -> None:
    for count in (64, 500):
        with wrk(server, folder, count, seconds) as said:
            pass
        rate, slowest = (re.search(text, said[0]) for text in ("Requests/sec: *([0-9.]+)", "99% *(.*)"))
        errors = re.findall(r"Socket errors.*|Non-2xx.*", said[0])
        line = f"{count} clients: {rate and rate[1]} requests a second, 99 % {slowest and slowest[1]}, errors {errors}"
        report.add_ok(line)

    def compare(name: str, asked: support.Server) -> None:
        median, slowest, differing = probe(asked)
        memory = server.memory()
        line = f"{name}: median {median * 1000:.1f} ms, 99 % {slowest * 1000:.1f} ms, {differing} wrong, {memory >> 20} MB"
        if differing or memory > 8 * MEMORY:
            report.add_difference(line, "wrong answers or too much memory")
        else:
            report.add_ok(line)

    compare("alone", server)
    with wrk(server, folder, 64, PROBE + 1):
        compare("64 clients", server)
    with reading(server, 8, ALL):
        compare("8 clients that read the whole index", server)
    with reading(server, 4, f"{ALL}&filter=original:.*nosuch[0-9]"):
        compare("4 clients with a regular expression", server)
    with nginx(server, folder) as behind:
        compare("behind nginx", behind)
        with silent(behind, SILENT, b""):
            compare(f"behind nginx, {SILENT} silent connections", behind)
        request = f"GET {ALL}&limit=60000 HTTP/1.1\r\nHost: localhost\r\n\r\n".encode()
        with silent(behind, READERS, request):
            time.sleep(3)
            compare(f"behind nginx, {READERS} readers that take nothing of 4 MB", behind)


if __name__ == "__main__":
    sys.exit(main())
