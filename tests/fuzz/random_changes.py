"""Changes texts at random: bytes, numbers, lines and parts of them."""
import random
import re
from collections.abc import Callable, Sequence

from choices import mostly
from plain.lines import LINE_LIMIT

TOKENS = (
    b"\r\n",
    b"\r\n\r\n",
    b"\n",
    b"\r",
    b"\0",
    b" ",
    b"\t",
    b":",
    b"&",
    b"=",
    b"%",
    b"+",
    b'"',
    b"\\",
    b"{",
    b"[" * 128,
    b"\xff",
    b"\xc3\xa9",
    b"\xed\xa0\x80",
    b"\\ud83d",
    b"WARC/1.0\r\n",
    b"WARC/1.1\r\n",
    b"WARC-Type: revisit\r\n",
    b"WARC-Target-URI: http://example.com/z\r\n",
    b"Content-Length: 0\r\n",
    b"Content-Type: a/b\r\n",
    b"9223372036854775807",
    b"9223372036854775808",
    b"18446744073709551616",
    b"1e999",
    b"-1",
    b", ",
    b"HTTP/1.1 200 OK\r\n",
    b"a" * 300,
)


def a_place(choice: random.Random, text: bytes) -> int:
    return choice.randint(0, len(text))


def a_part(choice: random.Random, text: bytes) -> tuple[int, int]:
    """The ends of a part of the text, most often a short one."""
    start = a_place(choice, text)
    return start, min(len(text), start + choice.choice((1, 1, 2, 4, 16, 64, len(text))))


def cut_end(choice: random.Random, text: bytes) -> bytes:
    return text[: a_place(choice, text)]


def cut_start(choice: random.Random, text: bytes) -> bytes:
    return text[a_place(choice, text) :]


def flip_bit(choice: random.Random, text: bytes) -> bytes:
    at = choice.randrange(len(text))
    return text[:at] + bytes([text[at] ^ 1 << choice.randrange(8)]) + text[at + 1 :]


def change_byte(choice: random.Random, text: bytes) -> bytes:
    at = choice.randrange(len(text))
    return text[:at] + choice.randbytes(1) + text[at + 1 :]


def insert(choice: random.Random, text: bytes) -> bytes:
    at = a_place(choice, text)
    return text[:at] + choice.choice(TOKENS) + text[at:]


def replace(choice: random.Random, text: bytes) -> bytes:
    start, end = a_part(choice, text)
    return text[:start] + choice.choice(TOKENS) + text[end:]


def remove(choice: random.Random, text: bytes) -> bytes:
    start, end = a_part(choice, text)
    return text[:start] + text[end:]


def repeat(choice: random.Random, text: bytes) -> bytes:
    start, end = a_part(choice, text)
    return text[:end] + text[start:end] * choice.choice((1, 1, 2, 9)) + text[end:]


def swap(choice: random.Random, text: bytes) -> bytes:
    """Two parts that follow one another change places."""
    first, second, third = sorted(a_place(choice, text) for _ in range(3))
    return text[:first] + text[second:third] + text[first:second] + text[third:]


def change_number(choice: random.Random, text: bytes) -> bytes:
    """A number in the text, such as a length or an offset."""
    numbers = list(re.finditer(rb"[0-9]+", text))
    if not numbers:
        return text
    found = choice.choice(numbers)
    value = choice.choice((int(found[0]) + 1, max(0, int(found[0]) - 1), 0, choice.randrange(1 << choice.randrange(1, 70))))
    return text[: found.start()] + b"%d" % value + text[found.end() :]


def change_lines(choice: random.Random, text: bytes) -> bytes:
    """A line is removed, repeated, put elsewhere or joined with the next."""
    lines = text.splitlines(keepends=True)
    taken = lines.pop(choice.randrange(len(lines)))
    for _ in range(choice.randrange(3)):
        lines.insert(choice.randint(0, len(lines)), mostly(choice, 0.8, taken, taken.rstrip(b"\r\n")))
    return b"".join(lines)


Change = Callable[[random.Random, bytes], bytes]
CHANGES = (cut_end, cut_start, flip_bit, change_byte, insert, replace, remove, repeat, swap, change_number, change_lines)
LINE_CHANGES = (change_lines, change_lines, change_number)
LIMIT = LINE_LIMIT + 100_000


def mutated(choice: random.Random, text: bytes, changes: Sequence[Change] = CHANGES) -> bytes:
    """The text after a few changes."""
    for change in choice.choices(changes, k=choice.choice((0, 1, 1, 1, 2, 3, 5))) if changes else ():
        text = change(choice, text)[:LIMIT] if text else text
    return text
