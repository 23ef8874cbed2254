#!/usr/bin/env python3
"""Gives the lines of an index the keys that the Python package `surt` makes, which pywb also uses.

usage: surt_keys.py < INDEX | LC_ALL=C sort > NEW

If the `url` of a line begins with http:// or https://, the key is replaced by surt.surt(url). All
other bytes of the line, and all other lines, are written as they are. The new keys may have another
order, so the output has to be sorted.

Needs the package surt, and the Python package of this repository. The exit status is 0; 1 if a line
isn't that of a capture; 2 after a usage error; 3 if reading, writing or memory failed; or 77 if the
package surt is missing.
"""
import sys

if not (sys.flags.isolated or getattr(sys.flags, "safe_path", False)):
    del sys.path[0]  # the folder of this script, which has no modules

import signal

if signal.getsignal(signal.SIGINT) is signal.default_int_handler:
    signal.signal(signal.SIGINT, signal.SIG_DFL)

import json
import pathlib
import re
from collections.abc import Callable
from typing import BinaryIO, Optional

# The package of the checkout or of the release that has this script.
FOLDERS = pathlib.Path(__file__).resolve().parents
if not (PACKAGE := FOLDERS[1] / "python").is_dir() and len(FOLDERS) > 3:
    PACKAGE = FOLDERS[3] / "warcdx/python"
sys.path.insert(0, str(PACKAGE))

try:
    from warcdx import command
except (ImportError, MemoryError) as error:
    print("surt_keys.py:", str(error) or "Memory", file=sys.stderr)
    sys.exit(3)

NAME = "surt_keys.py"
MISSING = 77
NOT_IN_A_KEY = re.compile(r"[\x00-\x20\x7f]")
WEB = ("http://", "https://")


def with_key(line: bytes, key_of: Callable[[str], str]) -> bytes:
    """Returns a line with another key. Raises ValueError if the line isn't that of a capture."""
    _, stamp, members = line.split(b" ", 2)
    url = json.loads(members).get("url")
    if not isinstance(url, str) or not url.lower().startswith(WEB):
        return line
    key = NOT_IN_A_KEY.sub(lambda found: f"%{ord(found[0]):02x}", key_of(url))
    return b" ".join((key.encode(), stamp, members))


def find_surt() -> Optional[Callable[[str], str]]:
    try:
        from surt import surt
    except ImportError:
        return None
    return surt


def work(output: BinaryIO) -> int:
    command.Parser(NAME, __doc__).parse()
    key_of = find_surt()
    if key_of is None:
        command.report(NAME, "Python's package surt is missing")
        return MISSING
    for number, line in enumerate(sys.stdin.buffer, 1):
        try:
            output.write(with_key(line, key_of))
        except (AttributeError, RecursionError, ValueError) as fault:
            command.report(NAME, f"line {number}: {command.printable(str(fault))}")
            return 1
    return 0


if __name__ == "__main__":
    sys.exit(command.run(NAME, work))
