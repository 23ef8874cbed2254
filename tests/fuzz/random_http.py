"""Makes HTTP heads and the blocks that begin with them at random: with repeated, folded and odd fields, and of lengths near the limits."""
import random

from choices import mostly, near
from plain.http_heads import FIELD_LIMIT, LENGTH_LIMIT

VERSIONS = (b"HTTP/1.1", b"HTTP/1.1", b"HTTP/1.1", b"HTTP/1.1", b"HTTP/1.0", b"HTTP/1.0")
ODD_VERSIONS = (b"HTTP/1.2", b"HTTP/2", b"http/1.1", b"HTTP/1.1 ", b"HTTP/11")
CODES = (b"200", b"200", b"404", b"301", b"100", b"099", b"000", b"999")
ODD_CODES = (b"20", b"2000", b"2x0", b"", b"+20")
REASONS = (b" OK", b" Not Found", b" ", b"", b" 404", b"  a\tb", b" caf\xe9")
ODD_REASONS = (b"\tOK", b" \x01", b"OK", b" \x7f", b" a\rb")
NAMES = (b"Content-Type", b"Content-Type", b"content-type", b"CONTENT-TYPE", b"Content-Typ", b"Content-Types", b"X", b"Transfer-Encoding")
ODD_NAMES = (b"Content-Type ", b"", b" X", b"X(", b"X\xe9")
TYPES = (
    b" text/html",
    b"text/html",
    b" text/html; charset=utf-8",
    b" image/png;",
    b"\ttext/plain \t; a=b",
    b" ",
    b"",
    b" ;a",
    b" application/http",
    b" caf\xc3\xa9/x",
    b" caf\xc3\xa9; \xff",
    b" \xff/\xc3\xa9",
    b" text/x y\t",
    b" chunked",
    b' "a;b"',
    b" a,b",
)
ODD_VALUES = (b" \x01", b" a\x7f", b" a\rb", b" a\x00")
FOLDS = (b"\r\n folded", b"\r\n\ttext/css", b"\n ;x")
BODIES = (b"", b"abc", b"abc", b"3\r\nabc\r\n0\r\n\r\n", b"\r\n\r\nabc", b"\r\n\r\nWARC/1.1\r\n", b"\nContent-Type: a/b\r\n\r\n", b"HTTP/1.1 200 OK\r\n\r\nabc")
FIELD_COUNTS = (32, FIELD_LIMIT, FIELD_LIMIT)
LENGTHS = (2048, 8192, LENGTH_LIMIT, LENGTH_LIMIT)  # the limit, and where a reader may read on


def block(choice: random.Random) -> bytes:
    """An HTTP head and a body, or a text that only resembles them."""
    body = mostly(choice, 0.9, choice.choice(BODIES), choice.randbytes(choice.randrange(40)))
    return body if choice.random() < 0.05 else head(choice) + body


def head(choice: random.Random) -> bytes:
    end = mostly(choice, 0.9, b"\r\n", b"\n")
    lines = [status_line(choice), *(field(choice) for _ in range(choice.choice((0, 1, 1, 2, 2, 3, 5))))]
    if choice.random() < 0.04:
        lines += [b"X: a"] * (near(choice, choice.choice(FIELD_COUNTS), 1) - len(lines) + 1)
    text = b"".join(line + mostly(choice, 0.97, end, b"\n") for line in lines)
    if choice.random() < 0.04:
        text += b"X: " + b"a" * max(0, near(choice, choice.choice(LENGTHS), 1) - len(text) - 7) + b"\r\n"
    before = mostly(choice, 0.97, b"", choice.choice((b"\r\n", b"\n\r\n", b"\r", b" ")))
    return before + text + mostly(choice, 0.96, end, choice.choice((b"", b"\r", b"\n", b" \r\n")))


def status_line(choice: random.Random) -> bytes:
    version = mostly(choice, 0.97, choice.choice(VERSIONS), choice.choice(ODD_VERSIONS))
    code = mostly(choice, 0.97, choice.choice(CODES), choice.choice(ODD_CODES))
    return version + b" " + code + mostly(choice, 0.97, choice.choice(REASONS), choice.choice(ODD_REASONS))


def field(choice: random.Random) -> bytes:
    name = mostly(choice, 0.98, choice.choice(NAMES), choice.choice(ODD_NAMES))
    value = mostly(choice, 0.98, choice.choice(TYPES), choice.choice(ODD_VALUES))
    return name + b":" + value + mostly(choice, 0.98, b"", choice.choice(FOLDS))
