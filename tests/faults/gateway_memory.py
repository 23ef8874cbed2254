#!/usr/bin/env python3
"""Measures the memory and the time that the gateway takes for lines of an index that are made to cost much.

usage: gateway_memory.py [--size BYTES] [PROGRAM]

The index has one line of BYTES bytes (default: 16,777,216, the limit of a line), whose URL is `%` or `é` again and
again. Each request is answered by a gateway of its own. The memory is that of its largest process at its peak. For
each byte of the line it has to be what docs/SIZING.md says, at most a tenth more. An answer may take 3 s of the
processors.

Prints a line for each request, and the counts. The exit status is 0, 1 if a figure is exceeded or an answer isn't
whole, or 77 if a package of the gateway is missing.
"""
import importlib.util
import os
import pathlib
import subprocess
import sys
import tempfile
import urllib.error
import urllib.request
from collections.abc import Iterator

sys.path.insert(0, str(pathlib.Path(__file__).resolve().parents[1]))

from program import MISSING, ROOT, Report, add_program, find_program, parser_of

COMMAND = ROOT / "gateway/bin/warcdx-gateway"
PACKAGES = ("gunicorn", "prometheus_client", "regex", "werkzeug")
SECONDS = 300  # until a request is given up
MOST_SECONDS = 3  # of the processors, that an answer may take
MOST_MEMORY = 7.3  # bytes for a byte of the line
SIGNS = ("%", "é")
# Queries with the status of their answers. A regular expression isn't tried on a value that long.
QUERIES = {
    "": 200,
    "&output=json": 200,
    "&output=cdxj": 200,
    "&collapse=digest": 200,
    "&sort=reverse": 200,
    "&resolveRevisits=true": 200,
    "&filter=original:.*x": 400,
}


def line(sign: str, size: int) -> str:
    front, back = 'k 20160101000000 {"url": "', '", "offset": "0", "filename": "a"}\n'
    return front + sign * ((size - len(front) - len(back)) // len(sign.encode())) + back


def family(process: int) -> Iterator[int]:
    """Yields a process and all that it has started."""
    yield process
    for thread in pathlib.Path(f"/proc/{process}/task").iterdir():
        for child in (thread / "children").read_text().split():
            yield from family(int(child))


def peak(process: int) -> int:
    """Returns the most memory that the process or one that it has started has held, in bytes."""
    sizes = []
    for number in family(process):
        status = pathlib.Path(f"/proc/{number}/status").read_text()
        sizes += [int(each.split()[1]) * 1024 for each in status.splitlines() if each.startswith("VmHWM:")]
    return max(sizes)


def processor_time(process: int) -> float:
    """Returns the seconds that the process and all that it has started have taken of the processors."""
    ticks = 0
    for number in family(process):
        fields = pathlib.Path(f"/proc/{number}/stat").read_text().rpartition(")")[2].split()
        ticks += sum(map(int, fields[11:15]))  # with those of programs that have ended
    return ticks / os.sysconf("SC_CLK_TCK")


def ask(program: pathlib.Path, index: pathlib.Path, query: str) -> tuple[int, float, int]:
    """Returns the status of an answer, its seconds of the processors, and the memory in bytes."""
    command = (COMMAND, "--program", program, "--port", "0", "--workers", "2", "--indexes", index)
    with subprocess.Popen(command, stdout=subprocess.PIPE, text=True) as gateway:
        try:
            address = gateway.stdout.readline().split()[-1].rstrip("/")
            before = processor_time(gateway.pid)
            try:
                with urllib.request.urlopen(f"{address}/cdx?key=k{query}", timeout=SECONDS) as answer:
                    status = answer.status
                    while answer.read(1 << 20):
                        pass
            except urllib.error.HTTPError as error:
                status = error.code
            return status, processor_time(gateway.pid) - before, peak(gateway.pid)
        finally:
            gateway.terminate()


def main() -> int:
    parser, report = parser_of(__doc__), Report()
    parser.add_argument("--size", metavar="BYTES", type=int, default=1 << 24, help="of the line (default: 16777216)")
    add_program(parser)
    arguments = parser.parse_args()
    if not all(map(importlib.util.find_spec, PACKAGES)):
        print("gateway_memory.py: a package of the gateway is missing; tools/setup installs them", file=sys.stderr)
        return MISSING
    program = find_program(arguments.program)
    with tempfile.TemporaryDirectory() as name:
        index = pathlib.Path(name, "index.cdxj")
        for sign in SIGNS:
            index.write_text(line(sign, arguments.size))
            for query, wanted in QUERIES.items():
                status, seconds, memory = ask(program, index, query)
                ratio = memory / arguments.size
                case = f"a URL of {sign}, /cdx?key=k{query}: status {status}, {seconds:.1f} s, {memory:,} bytes, {ratio:.1f} a byte"
                if status == wanted and seconds < MOST_SECONDS and ratio <= MOST_MEMORY * 1.1:
                    report.add_ok(case)
                else:
                    report.add_difference(case, f"stated are status {wanted}, {MOST_SECONDS} s and {MOST_MEMORY} a byte")
    return report.end()


if __name__ == "__main__":
    sys.exit(main())
