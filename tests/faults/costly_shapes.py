#!/usr/bin/env python3
"""Gives the program inputs whose shape may cost much, each in four sizes, and compares what they cost.

usage: costly_shapes.py [--scale N] [PROGRAM]

Each size is twice the one before. If the cost is the number of bytes that are read, a shape is costly if the last
doubling costs more than 2.5 times as much, or more than 1.5 times if nothing that is added needs to be read.

Otherwise the cost is the time of the processor: the least of three runs, and 20 ms. Other work on the machine changes
times, up to twice or so. So the first size is compared with the last, which is eight times as large. A shape is costly
if it takes more than 24 times as long in each of three tries. A cost that grows with the square takes 64 times.

With --scale all sizes are N times those of the script.

Prints a line for each shape, with its costs, and the counts. The exit status is 0, or 1 if a shape is costly.
"""
import pathlib
import sys
import tempfile
from collections.abc import Callable, Sequence
from typing import NamedTuple

sys.path.insert(0, str(pathlib.Path(__file__).resolve().parents[1]))

from measured_runs import RECORD, Costs, line, measure
from program import Report, add_program, find_program, parser_of

ALL = "key=&matchType=prefix"
RESUMED = f"{ALL}&showResumeKey=true"
LINEAR = 2.5  # the most bytes that doubling may cost
FLAT = 1.5  # the same, of an input of which no more needs to be read
LONGER = 24  # the most time that an input may take which is eight times as large
LEAST_SECONDS = 0.02  # what is shorter can't be measured
RUNS = 3
TRIES = 3
MEGABYTE = 1 << 20


def bytes_read(costs: Costs) -> float:
    return costs.bytes_read


def seconds(costs: Costs) -> float:
    return costs.seconds + LEAST_SECONDS


# ---- shapes: each writes the inputs of a size to a folder, and returns the arguments


def no_line_feeds(folder: pathlib.Path, size: int) -> Sequence[str]:
    with open(folder / "input", "wb") as file:
        file.truncate(size * MEGABYTE)
    return "query", "url=example.com", "input"


def good_lines_and_a_hole(folder: pathlib.Path, size: int) -> Sequence[str]:
    with open(folder / "input", "wb") as file:
        file.write("".join(line(f"{number:06}", number) for number in range(1000)).encode())
        file.truncate(size * MEGABYTE)
    return "query", "url=example.com/000005", "input"


def one_pair(folder: pathlib.Path, size: int) -> None:
    (folder / "input").write_text("".join(line(offset=number) for number in range(size)))


def pages_of_one_pair(folder: pathlib.Path, size: int) -> Sequence[str]:
    one_pair(folder, size)
    return "pages", "200", ALL, "input"


def page_of_one_pair(folder: pathlib.Path, size: int) -> Sequence[str]:
    one_pair(folder, size)
    return "query", ALL, "input"


def pages_of_rising_keys(folder: pathlib.Path, size: int) -> Sequence[str]:
    (folder / "input").write_text("".join(line(f"{number:06}", number) for number in range(size)))
    return "pages", "1", ALL, "input"


def pages_over_many_indexes(folder: pathlib.Path, size: int) -> Sequence[str]:
    for number in range(size):
        name = f"{number:04}"
        (folder / name).write_text("".join(line(str(key), filename=name) for key in range(4)))
    return "pages", "1", ALL, *(f"{number:04}" for number in range(size))


def scan_of_one_pair(folder: pathlib.Path, size: int) -> Sequence[str]:
    (folder / "input").write_text(RECORD % "http://example.com/" * size)
    return "scan", "1", ALL, "input"


def many_archives(folder: pathlib.Path, size: int) -> Sequence[str]:
    names = [f"{number:06}" for number in range(size)]
    for name in names:
        (folder / name).touch()
    return "index", *names


def labels_of_many_letters(folder: pathlib.Path, size: int) -> Sequence[str]:
    label = "".join(chr(0x4E00 + 7 * number) for number in range(250))
    (folder / "input").write_text(RECORD % f"http://{'.'.join([label] * size)}/")
    return "index", "input"


def many_folders_up(folder: pathlib.Path, size: int) -> Sequence[str]:
    (folder / "input").write_text(RECORD % f"http://example.com/{'a/' * size}{'../' * size}")
    return "index", "input"


def nested_objects(folder: pathlib.Path, size: int) -> Sequence[str]:
    nested = '{"":' * 100 + "0" + "}" * 100
    (folder / "input").write_text(line(before=f'"a": [{", ".join([nested] * size)}], '))
    return "check", "input"


def members_of_one_name(folder: pathlib.Path, size: int) -> Sequence[str]:
    (folder / "input").write_text(line(before='"a": 1, ' * size))
    return "check", "input"


def line_of(sign: str, query: str) -> Callable[[pathlib.Path, int], Sequence[str]]:
    """Returns the shape of two lines whose URL and URL key have this number of signs. With a query, its pages are of one line."""

    def write(folder: pathlib.Path, size: int) -> Sequence[str]:
        (folder / "input").write_text(line(sign * size, 0) + line(sign * size, 1))
        return ("pages", "1", query, "input") if query else ("check", "input")

    return write


class Shape(NamedTuple):
    """A shape, the first of its sizes, and what it may cost."""

    name: str
    write: Callable[[pathlib.Path, int], Sequence[str]]
    size: int
    cost: Callable[[Costs], float]
    most: float = LINEAR


SHAPES = (
    Shape("a query of a file without line feeds", no_line_feeds, 64, bytes_read, FLAT),
    Shape("a query of good lines and a hole behind them", good_lines_and_a_hole, 64, bytes_read, FLAT),
    Shape("pages of a group of one key and stamp", pages_of_one_pair, 1250, bytes_read),
    Shape("a page of a group of one key and stamp", page_of_one_pair, 1250, bytes_read),
    Shape("pages of one line, of rising keys", pages_of_rising_keys, 250, bytes_read),
    Shape("pages over many indexes", pages_over_many_indexes, 8, bytes_read),
    Shape("a scan in pages of one capture, all of one key and stamp", scan_of_one_pair, 250, seconds),
    Shape("an index of many archives", many_archives, 5000, seconds),
    Shape("host labels of many letters", labels_of_many_letters, 80, seconds),
    Shape("folders and as many steps up", many_folders_up, 10_000, seconds),
    Shape("a line of nested objects", nested_objects, 800, seconds),
    Shape("a line of members of one name", members_of_one_name, 100_000, seconds),
    Shape("a line of %, checked", line_of("%", ""), 1_000_000, seconds),
    Shape("a line of é, checked", line_of("é", ""), 500_000, seconds),
    Shape("pages of lines of %, with resume keys", line_of("%", RESUMED), 1_000_000, seconds),
    Shape("pages of lines of é, with resume keys", line_of("é", RESUMED), 500_000, seconds),
)


def costs_of(program: pathlib.Path, shape: Shape, scale: int) -> list[float]:
    costs = []
    for double in (1, 2, 4, 8):
        with tempfile.TemporaryDirectory() as name:
            words = shape.write(pathlib.Path(name), shape.size * scale * double)
            runs = RUNS if shape.cost is seconds else 1
            costs.append(min(shape.cost(run(program, pathlib.Path(name), words)) for _ in range(runs)))
    return costs


def growth(shape: Shape, costs: Sequence[float]) -> tuple[float, float]:
    """Returns how costs grow, and the most that they may."""
    return (costs[-1] / costs[0], LONGER) if shape.cost is seconds else (costs[-1] / costs[-2], shape.most)


def run(program: pathlib.Path, folder: pathlib.Path, words: Sequence[str]) -> Costs:
    costs = measure(program, folder, words)
    if costs.status != 0 and b": BadLine " not in costs.error:
        sys.exit(f"costly_shapes.py: {words[0]} ended with status {costs.status}: {costs.error[:200]!r}")
    return costs


def main() -> int:
    parser, report = parser_of(__doc__), Report()
    parser.add_argument("--scale", metavar="N", type=int, default=1, help="how many times larger the sizes are (default: 1)")
    add_program(parser)
    arguments = parser.parse_args()
    program = find_program(arguments.program)
    for shape in SHAPES:
        for _ in range(TRIES):
            costs = costs_of(program, shape, arguments.scale)
            ratio, most = growth(shape, costs)
            if ratio <= most:
                break
        figures = ", ".join(f"{cost:,.3f} s" if shape.cost is seconds else f"{cost:,} bytes" for cost in costs)
        title = f"{shape.name}: {figures}; {'eight times the size' if shape.cost is seconds else 'doubling'} costs {ratio:.2f}"
        if ratio <= most:
            report.add_ok(title)
        else:
            report.add_difference(title, f"more than {most}")
    return report.end()


if __name__ == "__main__":
    sys.exit(main())
