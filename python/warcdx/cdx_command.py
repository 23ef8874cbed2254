"""Converts indexes to CDX files of eleven columns, and CDX files to indexes.

usage: warcdx-cdx to [OPTION..] [INDEX..]
       warcdx-cdx from [OPTION..] [CDX..]

`to` merges indexes, and writes their captures in eleven columns after the
header ` CDX N b a m s k r M S V g`. An index may be a folder of warcdx-update.

`from` reads CDX files, and writes the captures as lines of an index, in the
order of the files, so sort them by LC_ALL=C sort. The letters in a header name
the columns. A file without a header has the eleven columns above, or nine
without M and S. The URL keys are made anew, by PROGRAM, or warcdx of the PATH.

Without a file, or for the file -, it reads standard input. If a line can't be
read, it writes what is before the line, and reports the line. With -o it writes
a new FILE, which has its name once all was read, and isn't there if a file
can't be opened.

Examples:
  warcdx-cdx to all.cdxj > all.cdx
  warcdx-cdx from old.cdx | LC_ALL=C sort > old.cdxj
  zcat old.cdx.gz | warcdx-cdx from | LC_ALL=C sort > old.cdxj

Exit status:
  0  everything was converted
  1  a line can't be read, or an index isn't in order
  2  usage error
  3  a file can't be opened, or reading, writing, memory or the program failed
"""
import argparse
import contextlib
import functools
import os
import sys
from collections.abc import Sequence
from typing import IO, BinaryIO, Optional

from .advice import kind_of
from .cdx import BadRow, NoColumns, cdxj_lines, write_cdx
from .command import FAILED, FAULTY, Parser, line_of, name_of_file, printable, report, run, status_of
from .errors import Fault
from .faults import CannotOpen, Read
from .inputs import opened, read_again
from .outputs import STANDARD, output_of
from .program import find_program
from .states import files_of

NAME = "warcdx-cdx"
COMMANDS = ("to", "from")
INSTEAD = {"-s --sort": "LC_ALL=C sort puts the lines in order", "--from --to": "write 'from' or 'to' without --"}


def read_arguments(arguments: Optional[Sequence[str]]) -> argparse.Namespace:
    parser = Parser(NAME, __doc__, INSTEAD)
    parser.add_output("FILE", "write this new file (default: standard output)")
    parser.add_argument("--program", default="warcdx", metavar="PROGRAM", help="the program (%(default)s)")
    parser.add_argument("command", type=command_of, metavar="to|from", help="what to write: CDX files, or lines of an index")
    help_files = "an index for `to`, a CDX file for `from`; - is standard input"
    parser.add_argument("files", nargs="*", default=(), type=name_of_file, metavar="FILE", help=help_files)
    given = parser.parse(arguments)
    if (given.output or "").lower().endswith(".gz"):
        parser.error("FILE isn't compressed: leave out its .gz, or write | gzip > FILE in place of -o")
    return given


def command_of(text: str) -> str:
    if text not in COMMANDS:
        raise argparse.ArgumentTypeError(f"'{text}' is no command: write 'to' before indexes, and 'from' before CDX files")
    return text


def to_cdx(given: argparse.Namespace, output: IO[bytes]) -> int:
    """Writes the captures of indexes. Those that aren't files, such as pipes, are copied first: the program needs files."""
    paths: dict[str, str] = {}  # of the files or of their copies
    try:
        files = [file for index in given.files or [STANDARD] for file in ([index] if index == STANDARD else files_of(index))]
        with contextlib.ExitStack() as stack:
            for file in dict.fromkeys(files):
                paths[file] = stack.enter_context(read_again(file))
            write_cdx([paths[file] for file in files], output, given.program)
    except Fault as fault:
        fault.file = next((file for file, path in paths.items() if path == fault.file), fault.file)
        return say(fault)
    return 0


def say(fault: Fault, way: str = "") -> int:
    """Reports a fault of a file, with what to do, and returns the exit status."""
    report(NAME, line_of(fault) + way)
    return status_of(fault)


def from_cdx(given: argparse.Namespace, output: IO[bytes]) -> int:
    program, status = find_program(given.program), 0
    for name in given.files or [STANDARD]:
        status = max(status, convert(name, program, output))
    return status


def convert(name: str, program: str, output: IO[bytes]) -> int:
    """Writes the lines of a CDX file, and returns the exit status. Raises Error if the program fails."""
    try:
        with opened(name) as file:
            output.writelines(cdxj_lines(file, program))
    except BadRow as bad:
        kind = kind_of(name, program) if isinstance(bad, NoColumns) and name != STANDARD else ""
        report(NAME, f"{printable(name)}: {kind or bad}")
        return FAULTY
    except (CannotOpen, Read) as fault:
        fault.file = name
        return say(fault, "; name the CDX files in it" if os.path.isdir(name) else "")
    return 0


def work(arguments: Optional[Sequence[str]], output: BinaryIO) -> int:
    given = read_arguments(arguments)
    with output_of(given.output, output) as file:
        status = {"to": to_cdx, "from": from_cdx}[given.command](given, file)
        if status == FAILED:
            sys.exit(status)  # so that a new file gets no name
        return status


def main(arguments: Optional[Sequence[str]] = None) -> int:
    return run(NAME, functools.partial(work, arguments))
