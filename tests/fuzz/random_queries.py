"""Makes query texts at random, of the keys, stamps, values and places that some lines have, with limits near the number of captures."""
import os.path
import random
from collections.abc import Sequence
from urllib.parse import quote_plus

from choices import mostly, near
from plain import keys, queries
from plain.lines import Line, Place
from random_indexes import FILES, HOST_KEYS, KEYS, OFFSETS, STAMPS

ADDRESSES = (
    "example.com",
    "example.com",
    "example.com",
    "www.example.com/a",
    "http://EXAMPLE.com:80/a",
    "https://example.com/a?b=c#d",
    "example.com:8080",
    "a.example.com",
    "a.example.com:81/x",
    "com",
    "exampl.com",
    "www",
    "example.com.",
    "example.com/%C3%A9",
    "ftp://Example.com/",
    "192.0.2.7",
    "example.com:x",
    "256.1.1.1",
    "",
)
HOSTS = ("com,example", "com,example", "com,example", "com,example,a", "com,exampl", "com")
STARS = (("", ""), ("", ""), ("", "*"), ("", "/*"), ("*.", ""), ("*.", ""), ("*.", "/a"), ("", "?*"), ("*", ""))
FAULTS = (
    "limit=0",
    "limit=1000001",
    "limit=00000001",
    "limit=-5",
    "limit=",
    "limit=1.0",
    "from=2016-",
    "from=201601010000000",
    "to=",
    "filter=mimetype",
    "filter=mimetype:text/.*",
    "filter=colour:.",
    "filter=!!mimetype:a",
    "is=colour:red",
    "has=Mimetype:a",
    "is=!mimetype:a",
    "matchType=near",
    "matchType=Exact",
    "matchType=",
    "showResumeKey=1",
    "showResumeKey=True",
    "output=xml",
    "output=",
    "fl=urlkey,",
    "fl=",
    "fl=urlkey,,digest",
    "fl=urlkey, digest",
    "resumeKey=x",
    "resumeKey=",
    "resumeKey=a+20160101000000+a.warc+-1",
    "resumeKey=a+20160101000000+a.warc+9223372036854775808",
    "resumeKey=a+2016010100000+a.warc+1",
    "resumeKey=a+20160101000000++1",
    "page=0",
    "URL=a",
    "=a",
    "url%3Da",
    "collapse=digest",
    "collapse=urlkey:5",
    "collapse=timestamp:0",
    "collapse=timestamp:15",
    "collapse=timestamp:008",
    "collapse=timestamp:",
    "collapse=",
    "output=json&output=json",
    "key=a&url=a",
    "key=a&key=a",
)


def query(choice: random.Random, lines: Sequence[Line]) -> str:
    pieces = selecting(choice, lines)
    if choice.random() < 0.15:
        pieces += choice.sample(FAULTS, choice.choice((1, 1, 2)))
    if choice.random() < 0.02:
        pieces.pop(0)
    if choice.random() < 0.5:
        pieces.append(f"limit={limit(choice, count_of(pieces, lines))}")
    choice.shuffle(pieces)
    return choice.choice(("&", "&", "&&")).join(pieces)


def selecting(choice: random.Random, lines: Sequence[Line]) -> list[str]:
    """The parameters of a query but for its limit. Of those that select less than two captures, most are made anew."""
    pieces = parameters(choice, lines)
    for _ in range(4):
        if count_of(pieces, lines) > 1 or choice.random() < 0.1:
            break
        pieces = parameters(choice, lines)
    return pieces


def parameters(choice: random.Random, lines: Sequence[Line]) -> list[str]:
    named = [f"{mostly(choice, 0.93, name, with_escape(choice, name))}={value}" for name, value in options(choice, lines)]
    return target(choice, lines) + named


def count_of(pieces: Sequence[str], lines: Sequence[Line]) -> int:
    """The number of captures that a query without a limit gives."""
    try:
        asked = queries.read_query("&".join(pieces))
    except (queries.Refused, keys.Unknown):
        return 0
    return len(queries.page_after(asked, queries.select(asked, list(lines)), asked.resume, None)[0])


def target(choice: random.Random, lines: Sequence[Line]) -> list[str]:
    way = choice.random()
    match = mostly(choice, 0.4, [], [f"matchType={choice.choice(queries.MATCHES)}"])
    if way < 0.15:
        return ["key=&matchType=prefix"]
    if way < 0.45:
        before, after = choice.choice(STARS)
        return [f"{url_name(choice)}={encoded(choice, before + choice.choice(ADDRESSES) + after)}", *match]
    key = choice.choice([line.values["urlkey"] for line in lines] or KEYS)
    if way < 0.6:
        return [f"key={encoded(choice, start_of(choice, key))}", "matchType=prefix"]
    if way < 0.85:
        return [f"key={choice.choice(HOSTS)}", f"matchType={choice.choice(('host', 'host', 'domain', 'domain', 'domain'))}"]
    return [f"key={encoded(choice, mostly(choice, 0.7, key, choice.choice(HOST_KEYS)))}", *match]


def url_name(choice: random.Random) -> str:
    return mostly(choice, 0.93, "url", with_escape(choice, "url"))


def options(choice: random.Random, lines: Sequence[Line]) -> list[tuple[str, str]]:
    """Names of parameters with their values, as they are in a query text."""
    stamps = [line.values["timestamp"] for line in lines] or STAMPS
    shares = (
        (0.25, "from", bound(choice, choice.choice(stamps))),
        (0.3, "to", bound(choice, choice.choice(stamps))),
        (0.6, "showResumeKey", choice.choice(("true", "true", "false"))),
        (0.5, "fl", ",".join(choice.choices(queries.FIELDS, k=choice.randint(1, 5)))),
        (0.7, "output", choice.choice(queries.OUTPUTS)),
        (0.4, "collapse", collapse(choice, stamps)),
    )
    chosen = [(name, encoded(choice, value)) for share, name, value in shares if choice.random() < share]
    chosen += [condition(choice, lines) for _ in range(choice.choice((0, 0, 0, 1, 1, 2)))]
    if choice.random() < 0.3:
        chosen.append(("resumeKey", resume_key(choice, lines)))
    return chosen


def bound(choice: random.Random, stamp: str) -> str:
    """The first digits of a stamp, or of the number before or after them."""
    digits = stamp[: choice.randint(1, 14)]
    number = max(0, int(digits) + choice.choice((0, 0, 0, 0, 1, -1)))
    return f"{number:0{len(digits)}}"[: len(digits)]


def collapse(choice: random.Random, stamps: Sequence[str]) -> str:
    """A value of `collapse`. Its number of digits is mostly near that of those which two neighbouring stamps have in common."""
    way = choice.random()
    if way < 0.35:
        return "urlkey"
    if way < 0.45:
        return "timestamp"
    rising = sorted(set(stamps))
    at = choice.randrange(max(1, len(rising) - 1))
    shared = len(os.path.commonprefix(rising[at : at + 2]))
    width = max(1, min(14, shared + choice.choice((-1, 0, 0, 0, 1))))
    return f"timestamp:{mostly(choice, 0.8, str(width), f'{width:02}')}"


def condition(choice: random.Random, lines: Sequence[Line]) -> tuple[str, str]:
    name, field = choice.choice((*queries.CONDITIONS, "isnot", "isnot")), choice.choice(queries.FIELDS)
    value = choice.choice([line.values[field] for line in lines] or ["-"])
    value = choice.choice((value, value, value[:2], value[1:], value.upper(), ""))
    negated = choice.choice(("", "!")) if name == "filter" else ""
    return name, encoded(choice, f"{negated}{field}:{value}")


def resume_key(choice: random.Random, lines: Sequence[Line]) -> str:
    """The key of a place of the lines, or near one of them, or of none."""
    if lines and choice.random() < 0.7:
        place = choice.choice(lines).place
    else:
        place = Place(*(choice.choice(texts).encode() for texts in (KEYS, STAMPS, FILES)), choice.choice(OFFSETS))
    return queries.key_text(place._replace(offset=max(0, place.offset - choice.choice((0, 0, 0, 1)))))


def limit(choice: random.Random, count: int) -> str:
    """A limit, often near the number of captures."""
    if choice.random() < 0.1:
        return choice.choice(("007", "1000000", "0000001"))
    return str(max(1, near(choice, count, 1) if choice.random() < 0.6 else choice.randint(1, 8)))


def start_of(choice: random.Random, text: str) -> str:
    return text[: choice.randint(1, len(text))]


def encoded(choice: random.Random, text: str) -> str:
    return mostly(choice, 0.7, quote_plus(text), quote_plus(text, safe="!*'():,;/?@$=~ "))


def with_escape(choice: random.Random, name: str) -> str:
    """The name with one of its letters as an escape."""
    at = choice.randrange(len(name))
    escape = f"%{ord(name[at]):02X}"
    return name[:at] + mostly(choice, 0.5, escape, escape.lower()) + name[at + 1 :]
