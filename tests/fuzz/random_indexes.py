"""Makes indexes at random, of few keys, stamps, file names and offsets, so that lines often have a place or a part of it in common."""
import json
import random
from collections.abc import Iterable, Sequence
from typing import Any, NamedTuple

from choices import mostly, near, some
from plain.lines import LINE_LIMIT

HOST_KEYS = (
    "com,example)/",
    "com,example)/a",
    "com,example)/ab",
    "com,example)/a?b=c",
    "com,example)/a?b=d",
    "com,example)/?",
    "com,example:8080)/",
    "com,example:81)/b",
    "com,example,a)/",
    "com,example,a:81)/x",
    "com,example-shop)/",
    "com,examples)/",
    "com,example2:81)/",
    "com,example",
    "com,exampl)/",
    "com)/",
)
OTHER_KEYS = ("org,example)/", "!key", "a", "dns:example.com", "k~*(%20\xe9)/", "com,EXAMPLE)/", "com,example)/%c3%a9")
KEYS = HOST_KEYS + OTHER_KEYS
STAMPS = (
    "00000000000000",
    "20151231235959",
    "20160101000000",
    "20160101000001",
    "20160101120000",
    "20160109235959",
    "20160110000000",
    "20160229120000",
    "20161231235959",
    "20170101000000",
    "99999999999999",
)
FILES = ("a.warc", "a b.warc", "b.warc", "B.warc", "\xe9~*.warc", "a+b&c=%41.warc", 'a"\\.warc')
OFFSETS = (0, 5, 9, 10, 20, 99, 100, 1000, (1 << 63) - 1)
TEXTS = ("text/html", "text/htm", "image/svg+xml", "", "-", "200", "20", "a b\t\x7f", 'say "\\"', "\x01\n\r\b\f", "\xe9\u20ac\U0001f600", "%41", "A")
NUMBERS = (200, 0, 1043, (1 << 53) + 1, (1 << 63) + 1, (1 << 64) - 1)
OTHERS = (-1, 1 << 64, 1.5, 1000.0, 1e300, -0.0, True, None, [1], {"a": [{}]})
NAMES = ("url", "mime", "status", "digest", "length")


class Values(NamedTuple):
    """The values of which the lines of a case are made."""

    keys: Sequence[str]
    stamps: Sequence[str]
    files: Sequence[str]
    offsets: Sequence[int]


def few_values(choice: random.Random) -> Values:
    keys = some(choice, HOST_KEYS, 2, 6) + some(choice, OTHER_KEYS, 0, 2)
    return Values(keys, some(choice, STAMPS, 1, 5), some(choice, FILES, 1, 3), some(choice, OFFSETS, 1, 5))


def line(choice: random.Random, values: Values) -> bytes:
    """A line of a capture, in the spelling of warcdx or in another."""
    is_usual = choice.random() < 0.6
    offset = choice.choice(values.offsets)
    members: dict[str, Any] = {name: choice.choice(TEXTS) if is_usual else member(choice) for name in NAMES}
    members["offset"] = str(offset) if is_usual else choice.choice((str(offset), offset, f"{offset:019}"))
    members["filename"] = choice.choice(values.files)
    if not is_usual:
        members = dict(choice.sample(list(members.items()), len(members)))
        members = {name: value for name, value in members.items() if name in ("offset", "filename") or choice.random() < 0.9}
    if choice.random() < 0.01:
        members["nested"] = nested(near(choice, 126))
    said = json.dumps(members, ensure_ascii=not is_usual and choice.random() < 0.5)
    white = mostly(choice, 0.95, "", choice.choice((" ", "\t", "\r")))
    text = f"{choice.choice(values.keys)} {choice.choice(values.stamps)} {said}{white}".encode()
    if choice.random() < 0.00002:
        text = text.replace(b'"url": "', b'"url": "' + b"a" * near(choice, LINE_LIMIT - len(text)))
    return text


def member(choice: random.Random) -> Any:
    return choice.choice(choice.choice((TEXTS, TEXTS, NUMBERS, OTHERS)))


def nested(depth: int) -> Any:
    value: Any = 0
    for _ in range(depth):
        value = [value]
    return value


def lines(choice: random.Random, most: int, values: Values) -> list[bytes]:
    return [line(choice, values) for _ in range(choice.randint(0, most))]


def ordered(bodies: Iterable[bytes]) -> bytes:
    """An index of these lines. Lines of the same key and stamp stay in their order."""
    return b"".join(body + b"\n" for body in sorted(bodies, key=lambda body: body.split(b" ", 2)[:2]))


def index(choice: random.Random, most: int = 50) -> bytes:
    text = ordered(lines(choice, mostly(choice, 0.5, most, 8), few_values(choice)))
    return mostly(choice, 0.8, text, text.removesuffix(b"\n"))


def dealt(choice: random.Random, bodies: Iterable[bytes], count: int) -> list[bytes]:
    """The lines in a number of indexes, some of them in several, some with another line of the same place before or after."""
    parts: list[list[bytes]] = [[] for _ in range(count)]
    for body in bodies:
        for _ in range(choice.choice((1, 1, 1, 2, 3))):
            choice.choice(parts).append(mostly(choice, 0.7, body, body.replace(b"text/html", b"image/gif")))
    for part in parts:
        choice.shuffle(part)
    return [mostly(choice, 0.8, ordered(part), ordered(part).removesuffix(b"\n")) for part in parts]
