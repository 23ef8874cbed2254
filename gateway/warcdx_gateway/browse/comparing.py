"""Compares the texts of two pages, as a process of its own with bounds on time and memory.

usage: comparing.py < INPUT > OUTPUT

INPUT is a line of JSON, an object with the lists `sizes` (bytes) and `html` (whether it is HTML) for
the two pages, and then both in UTF-8. OUTPUT is JSON: `rows`, and `cut`, whether each text has more
than is compared.

A page of an archive may be made to take a parser or a comparison very long.
"""
import difflib
import json
import re
import resource
import sys
from collections.abc import Iterator, Sequence
from html.parser import HTMLParser
from itertools import zip_longest
from typing import Any, Optional

SECONDS = 3  # of processor time
MEMORY = 1 << 30  # bytes of address space
MOST_LINES = 4000  # of a text
MOST_CHARACTERS = 200_000  # of a text
MOST_LINE = 2000  # characters of a line
CONTEXT = 2  # equal lines that are shown around a difference
MOST_WORDS = 300  # of a line whose words are compared
LEAST_ALIKE = 0.6  # of lines whose words are compared: what share of them is equal
_NOT_SHOWN = frozenset(("script", "style", "noscript", "template", "textarea", "select", "svg", "math", "iframe", "object"))
_BLOCKS = frozenset(
    "address article aside blockquote br caption dd details dialog div dl dt fieldset figcaption "
    "figure footer form h1 h2 h3 h4 h5 h6 header hgroup hr legend li main menu nav ol option p pre "
    "section summary table td th title tr ul".split()
)
_WORDS = re.compile(r"\w+|\s+|[^\w\s]")

Part = tuple[bool, str]  # whether it differs, and a piece of a line
Row = dict[str, Any]


class _Text(HTMLParser):
    """The text of a page that a reader would see, a line for each block."""

    def __init__(self) -> None:
        super().__init__(convert_charrefs=True)
        self.lines: list[str] = []
        self._line: list[str] = []
        self._left_out: list[str] = []  # the elements that aren't shown, and are open

    def handle_starttag(self, tag: str, attrs: list[tuple[str, Optional[str]]]) -> None:
        if tag in _NOT_SHOWN:
            self._left_out.append(tag)
        elif tag in _BLOCKS:
            self.end_line()
        elif tag == "img" and not self._left_out:
            self._line.append(dict(attrs).get("alt") or "")

    def handle_startendtag(self, tag: str, attrs: list[tuple[str, Optional[str]]]) -> None:
        if tag not in _NOT_SHOWN:
            self.handle_starttag(tag, attrs)

    def handle_endtag(self, tag: str) -> None:
        if tag in self._left_out:
            while self._left_out.pop() != tag:
                pass
        elif tag in _BLOCKS:
            self.end_line()

    def handle_data(self, data: str) -> None:
        if not self._left_out:
            self._line.append(data)

    def end_line(self) -> None:
        line = " ".join("".join(self._line).split())
        self._line = []
        if line:
            self.lines.append(line)


def lines_of(text: str, is_html: bool) -> tuple[list[str], bool]:
    """Returns the lines that are compared, and whether these are not all."""
    if is_html:
        parser = _Text()
        parser.feed(text)
        parser.close()
        parser.end_line()
        lines = parser.lines
    else:
        lines = [line.rstrip() for line in text.splitlines()]
    kept, left = [], MOST_CHARACTERS
    for line in lines[:MOST_LINES]:
        piece = line[: min(MOST_LINE, left)]
        left -= len(piece)
        kept.append(piece)
        if not left:
            break
    return kept, len(kept) < len(lines) or any(len(one) < len(other) for one, other in zip(kept, lines))


def compare(first: Sequence[str], second: Sequence[str]) -> Iterator[Row]:
    """Yields the rows of both texts side by side. Equal lines far from a difference are one row."""
    matcher = difflib.SequenceMatcher(None, first, second, autojunk=False)
    opcodes = matcher.get_opcodes()
    for number, (kind, start, end, other_start, other_end) in enumerate(opcodes):
        if kind == "equal":
            lines = first[start:end]
            before = CONTEXT if number else 0
            after = CONTEXT if number + 1 < len(opcodes) else 0
            yield from _equal(lines, before, after)
        else:
            for left, right in zip_longest(first[start:end], second[other_start:other_end]):
                yield _differing(left, right)


def _equal(lines: Sequence[str], before: int, after: int) -> Iterator[Row]:
    left_out = len(lines) - before - after
    if left_out <= 1:
        before, left_out = len(lines), 0
    for line in lines[:before]:
        yield _both(line)
    if left_out:
        yield {"equal": left_out}
        for line in lines[len(lines) - after :]:
            yield _both(line)


def _both(line: str) -> Row:
    return {"left": [(False, line)], "right": [(False, line)]}


def _differing(left: Optional[str], right: Optional[str]) -> Row:
    """Returns a row of lines that differ. A line may be on one side only."""
    if left is None or right is None:
        return {"left": left and [(True, left)], "right": right and [(True, right)]}
    words, others = _WORDS.findall(left), _WORDS.findall(right)
    if max(len(words), len(others)) > MOST_WORDS:
        return {"left": [(True, left)], "right": [(True, right)]}
    matcher = difflib.SequenceMatcher(None, words, others, autojunk=False)
    if matcher.ratio() < LEAST_ALIKE:
        return {"left": [(True, left)], "right": [(True, right)]}
    opcodes = matcher.get_opcodes()
    parts: tuple[list[Part], list[Part]] = ([], [])
    for kind, start, end, other_start, other_end in opcodes:
        for side, piece in zip(parts, (words[start:end], others[other_start:other_end])):
            if piece:
                side.append((kind != "equal", "".join(piece)))
    return {"left": parts[0], "right": parts[1]}


def main() -> None:
    resource.setrlimit(resource.RLIMIT_CPU, (SECONDS, SECONDS + 1))
    most = resource.getrlimit(resource.RLIMIT_AS)[1]
    memory = MEMORY if most == resource.RLIM_INFINITY else min(MEMORY, most)
    resource.setrlimit(resource.RLIMIT_AS, (memory, memory))
    sys.set_int_max_str_digits(0)  # of the number of a character
    pages = json.loads(sys.stdin.buffer.readline())
    texts = []
    for size, is_html in zip(pages["sizes"], pages["html"]):
        texts.append(lines_of(sys.stdin.buffer.read(size).decode(), is_html))
    (first, first_cut), (second, second_cut) = texts
    json.dump({"rows": list(compare(first, second)), "cut": [first_cut, second_cut]}, sys.stdout)


if __name__ == "__main__":
    main()
