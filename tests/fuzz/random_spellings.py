#!/usr/bin/env python3
"""Compares what warcdx reads of lines in any spelling with what the json module of Python reads.

usage: random_spellings.py [--cases N | --seconds N | --case NUMBER] [--seed N] [--jobs N] [PROGRAM]

A case is 1,000 lines, whose objects have members in any order, some of them twice and some with other names, with texts, escapes, numbers of all
sizes and nested values, and with blanks where JSON allows them. One in four is changed at a byte, or cut. The lines that json reads are an index, and
`query` has to write the values that docs/CDXJ.md says. Each other line has to be refused, alone.

The output and the exit status are those of against_plain.py.
"""
import json
import pathlib
import random
import sys
from collections.abc import Iterator
from typing import Any, NamedTuple, Optional

sys.path.insert(0, str(pathlib.Path(__file__).resolve().parents[1]))

from case_runs import run_cases
from choices import mostly
from trial import Trial

LINES = 1000
STAMP = "20160101000000"
NAMES = ("url", "mime", "status", "digest", "length", "offset", "filename")
FIELDS = "original,mimetype,statuscode,digest,length,offset,filename"
OTHERS = ("mime-detected", "charset", "languages", "title", "", "u", "urls", "ur", "file name", "statuses", "d", "le", "offset_", "\xe9", "a\nb", "URL")
TEXTS = ("", "-", "text/html", "200", "http://example.com/", "a b", 'say "x"', "\\", "/", "\t", "\xe9\u20ac", "\U0001f600", "\x7f", "a" * 15, "b" * 16, "c" * 40)
WHOLE = ("0", "7", "200", "123456789012345", "1234567890123456", "9223372036854775807", "9223372036854775808", "18446744073709551615")
NUMBERS = ("18446744073709551616", "-1", "-0", "1.5", "1e3", "1E-400", "1e999", "-1e999", "01", "+1", "1.", ".5", "0x1", "NaN", "Infinity", "1" * 400)
NESTED = ("null", "true", "false", "[]", "{}", "[1, [2]]", '{"url": "v", "offset": 1}', '["\\u0041"]')
BYTES = b'{}[]",:\\ \t\r\n\x00\x1f\x7f\x80\xff0123456789abcdefulmsdlo-+.eE'


class Number(NamedTuple):
    """A number as it is spelled."""

    text: str


class Refused(Exception):
    """A text that isn't JSON, or not to RFC 8259."""


def escape(character: str) -> str:
    return f"\\u{ord(character):04x}"


def spelled(choice: random.Random, text: str) -> str:
    """A text between quotes, with escapes where they are due, and at times where they aren't."""
    said = json.dumps(text, ensure_ascii=choice.random() < 0.5)
    if choice.random() < 0.05:
        return f'"{"".join(map(escape, text))}"' if text.isprintable() and max(text, default="") < "\ud800" else said
    if choice.random() < 0.02:
        return said[:-1] + choice.choice(("\\/", "\\x", "\\u12", "\\ud83d", "\\ude00", "\\ud83d\\ude00", "\\ud7ff", "\\uE000")) + '"'
    return said


def value(choice: random.Random, name: str) -> str:
    kind = choice.random()
    if name == "filename":
        return mostly(choice, 0.97, spelled(choice, choice.choice(("f", "a.warc", "20160101", "a b", "\xe9.warc.gz"))), "5")
    if name == "offset":
        return mostly(choice, 0.97, choice.choice(('"7"', "7", "0", '"007"', '"9223372036854775807"', "9223372036854775807")), choice.choice(NUMBERS))
    if kind < 0.7:
        return spelled(choice, choice.choice(TEXTS))
    if kind < 0.9:
        return choice.choice(WHOLE)
    return mostly(choice, 0.5, choice.choice(NESTED), choice.choice(NUMBERS[:6]))


def some_object(choice: random.Random) -> str:
    names = [name for name in NAMES if name in ("offset", "filename") or choice.random() < 0.8]
    names += choice.choices(NAMES, k=choice.choice((0, 0, 0, 1, 2)))
    for _ in range(choice.choice((0, 0, 1, 3))):
        names.insert(choice.randrange(len(names) + 1), choice.choice(OTHERS))
    if choice.random() < 0.3:
        choice.shuffle(names)
    kind = choice.random()
    blanks = ("", "", " ") if kind < 0.5 else ("", "", "") if kind < 0.8 else (" ", "", "  ", "\t", "\r")
    between, behind = (", ", ": ") if kind < 0.5 else (",", ":")

    def blank() -> str:
        return "" if kind < 0.8 else choice.choice(blanks)

    members = [f"{blank()}{spelled(choice, name)}{blank()}{behind}{blank()}{value(choice, name)}{blank()}" for name in names]
    return "{" + between.join(members) + "}"


def changed(choice: random.Random, text: bytes) -> bytes:
    """The text with a byte put in, taken out or replaced, or cut."""
    at = choice.randrange(len(text))
    byte = bytes((choice.choice(BYTES),))
    return choice.choice((text[:at] + byte + text[at:], text[:at] + text[at + 1 :], text[:at] + byte + text[at + 1 :], text[:at]))


def read_number(text: str) -> Number:
    if abs(float(text)) == float("inf"):
        raise Refused
    return Number(text)


def refuse(_text: str) -> None:
    raise Refused


def said(found: Any) -> str:
    """The value of a member, by the rules of docs/CDXJ.md."""
    if isinstance(found, str):
        return found or "-"
    if isinstance(found, Number) and found.text.isdigit() and int(found.text) < 1 << 64:
        return found.text
    return "-"


def has_half_a_pair(found: Any) -> bool:
    if isinstance(found, str):
        return any("\ud800" <= each <= "\udfff" for each in found)
    if isinstance(found, list):
        return any(map(has_half_a_pair, found))
    if isinstance(found, dict):
        return any(has_half_a_pair(name) or has_half_a_pair(each) for name, each in found.items())
    return False


class Pairs(NamedTuple):
    """All members of an object, also those that another of the name follows."""

    members: list[tuple[str, Any]]


def values_of(text: bytes) -> Optional[list[str]]:
    """The values of a line with this object, or None if it is refused."""
    if b"\n" in text:
        return None
    pairs: list[tuple[str, Any]] = []

    def keep(members: list[tuple[str, Any]]) -> dict[str, Any]:
        pairs.extend(members)
        return dict(members)

    try:
        found = json.loads(text.decode(), parse_int=read_number, parse_float=read_number, parse_constant=refuse, object_pairs_hook=keep)
    except (ValueError, Refused):
        return None
    if not isinstance(found, dict) or any(has_half_a_pair(name) or has_half_a_pair(each) for name, each in pairs):
        return None
    filename, offset = found.get("filename"), said(found.get("offset"))
    if not isinstance(filename, str) or not filename:
        return None
    if not (offset.isascii() and offset.isdigit() and len(offset) <= 19 and int(offset) < 1 << 63):
        return None
    return [*(said(found.get(name)) for name in NAMES[:5]), str(int(offset)), filename]


def lines(choice: random.Random) -> Iterator[tuple[bytes, Optional[list[str]]]]:
    for number in range(LINES):
        text = some_object(choice).encode()
        if choice.random() < 0.25:
            text = changed(choice, text)
        yield f"k{number:06} {STAMP} ".encode() + text, values_of(text)


def try_case(trial: Trial, _number: int) -> None:
    index, rows = b"", []
    for line, values in lines(trial.choice):
        if values is not None:
            index += line + b"\n"
            rows.append(values)
            continue
        if b"\n" not in line:
            (trial.folder / "bad.cdxj").write_bytes(line + b"\n")
            trial.expect(1, b"", b"warcdx: bad.cdxj: BadLine 0\n", "check", "bad.cdxj")
            trial.tally["refused"] += 1
    (trial.folder / "a.cdxj").write_bytes(index)
    done = trial.run("query", f"key=&matchType=prefix&output=json&fl={FIELDS}", "a.cdxj")
    trial.check(done.status == 0, done.error.decode())
    found = json.loads(done.output)[1:]
    trial.tally["read"] += len(rows)
    for wanted, row, line in zip(rows, found, index.splitlines()):
        trial.check(wanted == row, f"{line!r}\nwanted {wanted}\nfound  {row}")
    trial.check(len(rows) == len(found), f"{len(rows)} lines, {len(found)} rows")


if __name__ == "__main__":
    sys.exit(run_cases(__doc__, 200, try_case))
