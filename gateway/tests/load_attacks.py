#!/usr/bin/python3
"""Measures how late a small query of one client is while clients of another address do what costs much.

usage: load_attacks.py [--captures N] [--probes N] [PROGRAM]

The index has a key of N captures (1,000,000). A client asks for another key again and again, N times (300) in each
case, first alone, so that its times can be compared within the run: the machine may have something else to do, and
the load of the last minutes is printed with each case.

- 8 and 16 clients of one address whose queries read all captures of the key, each query another one, and the same
  without an address, as of a server that doesn't say for whom it asks
- 8 clients that ask for the same captures in other ways
- 3 clients that leave after half a second
- 8 clients that take nothing of a long answer
- 20 clients that ask for little, which are all answered
- a browser's six connections, which read 400 captures that are all answered, beside 8 clients of the first kind

Prints a line for each case. The exit status is 0, or 1 if an answer differs, or is refused where none may be. No
verdict is made of times.
"""
import os
import pathlib
import sys
import tempfile
import threading
import time

ROOT = pathlib.Path(__file__).resolve().parents[2]
sys.path[:0] = [str(ROOT / "tests"), str(ROOT / "gateway")]

from program import Report, add_program, find_program, parser_of
from tests import attacks, browse_support, support

OTHER_WAYS = (
    "/cdx?url=example.com/&collapse=digest&filter=!digest:%d",
    "/wayback/available?url=example.com&statuscodes=%d" + "&statuscodes=404" * 9,
    "/main/index?url=example.com/&closest=2016&limit=5&filter=!digest:%d",
    "/cdx?url=example.com/&filter=mimetype:none%d",
    "/cdx?url=example.com/&resolveRevisits=true&filter=!digest:%d",
    "/web/timemap/link/http://example.com/?%d",
    "/main/browse/?%d",
    "/cdx?url=example.com/&sort=reverse&limit=50000&filter=!digest:%d",
)
PAGES = 400
DATE = "2016-03-03T09:34:31Z"


class Load(support.Case):
    def runTest(self) -> None:
        """The cases are run by main."""


def browsed(server: support.Server, pages: list[bytes]) -> tuple[list[float], int, int]:
    """Reads all captures by six connections. Returns the times, how many are refused, and how many are wrong."""
    times, busy, wrong = list[float](), list[int](), list[int]()

    def read(first: int) -> None:
        for number in range(first, len(pages), 6):
            start = time.monotonic()
            with support.connected(server) as client:
                target = f"/web/20160303093431id_/http://example.net/{number}"
                found = client.ask(target, X_Forwarded_For="192.0.2.9")
            times.append(time.monotonic() - start)
            if found.status == 503:
                busy.append(number)
            elif (found.status, found.body) != (200, pages[number]):
                wrong.append(number)

    threads = [threading.Thread(target=read, args=(first,)) for first in range(6)]
    for thread in threads:
        thread.start()
    for thread in threads:
        thread.join()
    return sorted(times), len(busy), len(wrong)


def main() -> int:
    parser = parser_of(__doc__)
    parser.add_argument("--captures", metavar="N", type=int, default=1_000_000, help="captures of the key")
    parser.add_argument("--probes", metavar="N", type=int, default=300, help="small queries of each case")
    add_program(parser)
    given = parser.parse_args()
    support.PROGRAM = browse_support.PROGRAM = str(find_program(given.program))
    report, case = Report(), Load()
    with tempfile.TemporaryDirectory() as folder:
        case.folder = pathlib.Path(folder)
        case.put(attacks.captures(given.captures))
        archives, pages = browse_support.Archives(case.folder), [os.urandom(20_000) for _ in range(PAGES)]
        archives.add("a.warc.gz", [
            browse_support.response(f"http://example.net/{n}", DATE, body, "image/png") for n, body in enumerate(pages)
        ])  # fmt: skip
        indexes = [str(case.folder / "index"), *map(str, archives.indexes)]
        server = case.start(
            f'[collections.main]\nindexes = {indexes}\narchives = ["{archives.archives}"]\n',
            head="workers = 8\nwide = 3\n",
            program=support.PROGRAM,
        )
        try:
            measure(server, given.probes, pages, report)
        finally:
            case.doCleanups()
    return report.end()


def measure(server: support.Server, probes: int, pages: list[bytes], report: Report) -> None:
    attacks.probe(server, 50)
    alone = attacks.probe(server, probes)
    report.add_ok(f"alone: {attacks.at(alone, 0.5):.1f} ms, 99 % {attacks.at(alone, 0.99):.1f} ms (load {attacks.load()})")

    def compare(name: str, answered: "attacks.Answered | None", times: list[float], may_be_busy: bool = True) -> None:
        late = attacks.at(times, 0.99) - attacks.at(alone, 0.99)
        line = f"{name}: {attacks.at(times, 0.5):.1f} ms, 99 % {attacks.at(times, 0.99):.1f} ms, {late:.0f} ms late"
        if answered:
            line += f"; of others {answered.all} answers, {answered.busy} busy, {answered.failed} failed"
        line += f" (load {attacks.load()})"
        if answered and (answered.failed or answered.busy and not may_be_busy):
            report.add_difference(line, "answers failed or were refused")
        else:
            report.add_ok(line)

    for count, address in ((8, "192.0.2.1"), (16, "192.0.2.1"), (16, "")):
        with attacks.clients(server, count, [attacks.DEAR], address) as answered:
            time.sleep(1)
            times = attacks.probe(server, probes)
            compare(f"{count} clients that read the key, {address or 'no address'}", answered(), times)
    with attacks.clients(server, 8, OTHER_WAYS) as answered:
        time.sleep(1)
        times = attacks.probe(server, probes)
        compare("8 clients that read the key in other ways", answered(), times)
    with attacks.clients(server, 3, [attacks.DEAR], leaves=0.5):
        time.sleep(1)
        compare("3 clients that leave", None, attacks.probe(server, probes))
    start = time.monotonic()
    found = server.ask("/cdx?url=example.com/&collapse=digest&limit=30000&fl=offset")
    report.add_ok(f"a long query after they left: {found.status} after {time.monotonic() - start:.1f} s")
    with attacks.taking_nothing(server, 8, "/cdx?url=example.com/", "192.0.2.1"):
        time.sleep(1)
        compare("8 clients that take nothing", None, attacks.probe(server, probes))
    with attacks.clients(server, 20, ["/cdx?url=example.com/&limit=10&filter=!digest:%d"]) as answered:
        time.sleep(1)
        times = attacks.probe(server, probes)
        compare("20 clients that ask for little", answered(), times, may_be_busy=False)
    for others in (0, 8):
        with attacks.clients(server, others, [attacks.DEAR]):
            time.sleep(1 if others else 0)
            read, busy, wrong = browsed(server, pages)
        line = f"{PAGES} captures by six connections beside {others} clients: {attacks.at(read, 0.5):.1f} ms, 99 % "
        line += f"{attacks.at(read, 0.99):.1f} ms, {busy} busy, {wrong} wrong (load {attacks.load()})"
        if busy or wrong:
            report.add_difference(line, "captures are refused or wrong")
        else:
            report.add_ok(line)


if __name__ == "__main__":
    sys.exit(main())
