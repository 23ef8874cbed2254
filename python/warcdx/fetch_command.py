"""Writes the page of a URL from web archives, or all that a query selects.

usage: warcdx-fetch [OPTION..] URL
       warcdx-fetch --all [OPTION..] -o OUTPUT QUERY

Without --all, it writes the capture of the URL that is nearest to TIME, or else
the latest one. TIME is a date, such as 2016, 201609 or 2016-09-19, or 14
digits. The page is written as a browser gets it: without headers, chunks and
compression. For a revisit it is the page of its original. With --record the
whole record is written as it is stored.

With --all, it writes every capture that QUERY selects. OUTPUT is a new folder,
which gets a file for each, with a line `FILE TIMESTAMP URL` on standard output;
or it ends with .warc.gz, and is a new archive with the records as they are
stored. QUERY is a URL, with a * at its end or before its host, or a query as of
warcdx query. In a line, a URL that isn't printable is a JSON string. With
--json each line is an object of JSON.

INDEX is by default the file of the variable WARCDX_INDEX, and FOLDER that of
WARCDX_ARCHIVES, or else the folder of the first INDEX. No file is replaced, and
a new one has its name once it is whole. `-o -` is standard output.

Examples:
  warcdx-fetch --index all.cdxj http://example.com/ > page.html
  warcdx-fetch --index all.cdxj.d --archives /data --at 2016 http://example.com/
  warcdx-fetch --index all.cdxj --all -o pages 'example.com/*'
  warcdx-fetch --index all.cdxj --all -o part.warc.gz 'url=*.example.com'

Exit status:
  0  everything was written
  1  there is no such capture, or one can't be read; with --all that one is
     named on standard error, and the others are written
  2  usage error
  3  a file can't be opened, or reading, writing, memory or the program failed
"""
import argparse
import functools
import itertools
import json
import mimetypes
import os
import re
import urllib.parse
import zlib
from collections import Counter
from collections.abc import Iterable, Iterator, Sequence
from typing import IO, BinaryIO, Optional

from .advice import advice_on, advice_on_query
from .collection import Collection
from .command import FAILED, FAILURES, FAULTY, Parser, line_of, name_of_file, name_on_disk, printable, report, run, status_of
from .errors import Error, Fault, NoArchive, Refused
from .faults import CannotOpen, NoRecord, Read
from .fetching import moment_of, nearest, opened_page
from .outputs import STANDARD, check_that_it_is_new, new_file, output_of
from .program import operands
from .query import Capture
from .record import RecordStream, Unreadable
from .refusals import RepeatedParameter

NAME = "warcdx-fetch"
ARCHIVE = ".warc.gz"
CHANGED = "it isn't the archive that was indexed: index it anew, or name another folder by --archives"
WAY = "; --archives FOLDER names the folder below which it has this path"
OTHERS = (".gz", ".tar", ".wacz", ".warc", ".zip", ".zst")  # endings of files that aren't written
INSTEAD = {
    "-u --url": "write URL alone",
    "--from --to --limit --filter --match --collapse --fl": "with --all it is a parameter of QUERY, as in 'url=example.com/*&limit=5'",
    "--body --payload": "without --record the body of the page is written",
    "-v --verbose": "with --all, a line for each file is printed unless --quiet is given",
}
_MOST_NAME = 150  # characters of a file's name that are of its URL
_UNSAFE = re.compile("[^A-Za-z0-9._-]+")
_ENDING = re.compile(r"\.[A-Za-z0-9]{1,8}")
_HOST = re.compile("(?:https?://)?([A-Za-z0-9.-]+(?::[0-9]+)?)(?:/|$)")  # at the beginning of a URL
_PARAMETERS = re.compile("[A-Za-z]+=")


def read_arguments(arguments: Optional[Sequence[str]]) -> argparse.Namespace:
    parser = Parser(NAME, __doc__, INSTEAD)
    add = parser.add_argument
    add("--index", action="append", default=[], type=name_on_disk, metavar="INDEX", help="an index of the archives; may be repeated")
    add("--archives", action="append", default=[], type=name_on_disk, metavar="FOLDER", help="a folder with the archives; may be repeated")
    add("--at", type=_moment_of, metavar="TIME", help="write the capture nearest to this time")
    add("--all", action="store_true", help="write every capture that QUERY selects")
    add("--record", action="store_true", help="write records as they are stored")
    lines = parser.add_mutually_exclusive_group()
    lines.add_argument("--quiet", action="store_true", help="print nothing but faults")
    lines.add_argument("--json", action="store_true", help="with --all, print a line of JSON about each file")
    parser.add_output("FILE", "the new file, or with --all the new folder or archive")
    add("--program", default="warcdx", metavar="PROGRAM", help="the program (%(default)s); warcdx-gz is beside it, or of the PATH")
    add("query", type=name_of_file, metavar="URL", help="what to write; with --all a query too")
    add("more", nargs="*", default=(), help=argparse.SUPPRESS)
    given = parser.parse(arguments)
    if given.more:
        way = "an index follows --index, a folder of archives --archives, and & the parameters of a query, in quotes"
        parser.error(f"give one URL, and not '{given.more[0]}' too; {way}")
    given.index = given.index or list(filter(None, [os.environ.get("WARCDX_INDEX")]))
    if not given.index:
        parser.error("give --index INDEX, an index of the archives, as 'warcdx index' writes it")
    given.archives = given.archives or [os.environ.get("WARCDX_ARCHIVES") or os.path.dirname(os.path.abspath(given.index[0]))]
    if given.all and given.output in (None, STANDARD):
        parser.error("--all needs -o OUTPUT, a new folder or a new .warc.gz")
    if given.all and given.output.lower().endswith(OTHERS) and not given.output.endswith(ARCHIVE):
        parser.error(f"the name of a new archive ends with .warc.gz, and not as '{given.output}'")
    if not given.all and (given.output or "").lower().endswith(ARCHIVE):
        parser.error("only --all writes a .warc.gz; without it, a record isn't compressed")
    if given.all and given.at is not None:
        parser.error("--all writes the captures of all times; write from= and to= into QUERY in place of --at")
    if given.json and (not given.all or given.output.endswith(ARCHIVE)):
        parser.error("--json is about the files of --all -o FOLDER")
    return given


def _moment_of(text: str) -> object:
    try:
        return moment_of(text)
    except (OverflowError, ValueError):
        raise argparse.ArgumentTypeError(f"TIME is a date, such as 2016, 201609 or 2016-09-19, or 14 digits, and not '{text}'") from None


def fetch(given: argparse.Namespace, output: BinaryIO) -> int:
    """Writes what the arguments name, and returns the exit status. Raises Error or OSError."""
    with Collection(given.index, given.archives, program=given.program) as collection:
        if not given.all:
            return fetch_page(given, collection, output)
        captures = captures_of(collection, given.query)
        first = next(captures, None)  # or a refusal, so that nothing is made for it
        if first is None:
            return say_there_is_none(given)
        captures = itertools.chain((first,), captures)
        if given.output.endswith(ARCHIVE):
            with new_file(given.output) as file:
                return write_archive(collection, captures, file)
        check_that_it_is_new(given.output)
        os.mkdir(given.output)
        return write_files(given, collection, captures, output)


def fetch_page(given: argparse.Namespace, collection: Collection, output: BinaryIO) -> int:
    """Writes the page, or the record, that is nearest to a time, and returns the exit status."""
    capture = nearest(collection.index.captures(url=given.query, matchType="exact"), given.at)
    if capture is None:
        return say_there_is_none(given)
    with output_of(given.output, output) as file:
        file.writelines(contents_of(collection, capture, given.record))
    return 0


def say_there_is_none(given: argparse.Namespace) -> int:
    host = _HOST.match(given.query)
    hint = (
        f"warcdx query 'url={host[1]}/*&fl=original' INDEX shows what there is of the host" if host else "docs/FAQ.md has the usual causes"
    )
    if " " in given.query:
        hint = "& precedes each parameter of a query, as in 'url=example.com/*&from=2016', and %20 is a space"
    if "*" in given.query and not given.all:
        hint = "--all takes a URL with *"
    report(NAME, f"{printable(given.query)}: no index has a capture of it; {hint}")
    return FAULTY


def captures_of(collection: Collection, query: str) -> Iterator[Capture]:
    """Returns the captures of a query as of warcdx query, or of a URL."""
    return collection.index.captures(query) if _PARAMETERS.match(query) else collection.index.captures(url=query)


def contents_of(collection: Collection, capture: Capture, is_record: bool) -> Iterator[bytes]:
    """Yields the record of a capture as it is stored, or its page, in pieces. Raises Error."""
    if is_record:
        with collection.stream(capture) as record:
            yield from record.whole()
        return
    with opened_page(collection, capture) as page:
        if page is None:
            raise Unreadable("it is a revisit, and no index has its original")
        yield from page.payload()


def write_files(given: argparse.Namespace, collection: Collection, captures: Iterable[Capture], output: BinaryIO) -> int:
    """Writes each capture into a file of the new folder, and returns the exit status."""
    status, names = 0, Counter[str]()
    for capture in captures:
        name = unused(name_of(capture, given.record), names)
        try:
            with new_file(os.path.join(given.output, name)) as file:
                file.writelines(contents_of(collection, capture, given.record))
        except Error as error:
            status = max(status, say(capture, error))
        else:
            output.write(line_of_file(name, capture, given))
    return status


def line_of_file(file: str, capture: Capture, given: argparse.Namespace) -> bytes:
    """Returns what is printed about a new file, which is nothing for --quiet."""
    if given.json:
        return json.dumps({"file": file, "timestamp": capture.timestamp, "url": capture.original}).encode() + b"\n"
    return b"" if given.quiet else f"{file} {capture.timestamp} {printable(capture.original)}\n".encode()


def write_archive(collection: Collection, captures: Iterable[Capture], file: IO[bytes]) -> int:
    """Writes each record as a member of an archive, and returns the exit status. What was begun of one that can't be read is taken back."""
    status = 0
    for capture in captures:
        begin = file.tell()
        try:
            with collection.stream(capture) as record:
                write_member(record, file)
        except Error as error:
            file.seek(begin)
            file.truncate()
            status = max(status, say(capture, error))
    return status


def write_member(record: RecordStream, file: IO[bytes]) -> None:
    packing = zlib.compressobj(wbits=zlib.MAX_WBITS + 16)
    for piece in record.whole():
        file.write(packing.compress(piece))
    file.write(packing.flush())


def say(capture: Capture, error: Error) -> int:
    """Reports a capture that can't be read, and returns the exit status. Raises the error if it is none of the archive."""
    is_unread = isinstance(error, (CannotOpen, Read))  # which others needn't be
    if isinstance(error, FAILURES) and not is_unread or not isinstance(error, (Fault, NoArchive, Unreadable)):
        raise error
    way = WAY if isinstance(error, CannotOpen) else ""
    report(NAME, f"{capture.timestamp} {printable(capture.original)}: {reason_of(error)}{way}")
    return FAILED if is_unread else FAULTY


def reason_of(error: Error) -> str:
    return line_of(error, CHANGED if isinstance(error, NoRecord) else "") if isinstance(error, Fault) else printable(str(error))


def line_about(fault: Fault, given: argparse.Namespace) -> str:
    """Returns what is said of a fault that ends the command."""
    advice = CHANGED if isinstance(fault, NoRecord) else "" if fault.file is None else advice_on(fault, fault.file, given.program)
    is_archive = isinstance(fault, CannotOpen) and fault.file not in operands(given.index)
    return line_of(fault, advice) + (WAY if is_archive else "")


def refusal_of(refused: Refused, given: argparse.Namespace) -> str:
    """Returns what is said of a query that is refused."""
    place = "" if refused.parameter is None else f" in {printable(refused.parameter)}"
    is_text = _PARAMETERS.match(given.query) is not None
    why = advice_on_query(given.query, given.program) if is_text else refused.advice
    if not why and isinstance(refused, RepeatedParameter):  # so it isn't there twice
        why = f"{NAME} gives output, fl and showResumeKey itself"
    return f"the query is refused: {refused.name}{place}" + (f": {why}" if why else " (see docs/QUERY.md)")


def name_of(capture: Capture, is_record: bool) -> str:
    """Returns the name of a capture's file: its timestamp, its URL in letters that every system takes, and an ending of its type."""
    url = urllib.parse.unquote(capture.original.partition("://")[2] or capture.original, errors="replace")
    front = _UNSAFE.sub("_", url).strip("_")
    ending = ".warc" if is_record else os.path.splitext(url.partition("/")[2].partition("?")[0])[1]
    if not _ENDING.fullmatch(ending):
        ending = mimetypes.guess_extension(capture.mimetype) or ""
    front = front.removesuffix(ending)[:_MOST_NAME].rstrip(".")  # which Windows leaves out at an end
    return f"{capture.timestamp}-{front}{ending}"


def unused(name: str, names: Counter[str]) -> str:
    """Returns a name that isn't among the names, with a number if it has to be another one, and adds it. Each has the last number after it."""
    front, ending = os.path.splitext(name)
    found = name
    while found.lower() in names:
        names[name.lower()] += 1
        found = f"{front}-{names[name.lower()]}{ending}"
    names[found.lower()] = 1
    return found


def work(arguments: Optional[Sequence[str]], output: BinaryIO) -> int:
    given = read_arguments(arguments)
    try:
        return fetch(given, output)
    except Refused as refused:
        report(NAME, f"{printable(given.query)}: {refusal_of(refused, given)}")
        return FAULTY
    except Fault as fault:
        report(NAME, line_about(fault, given))
        return status_of(fault)
    except (NoArchive, Unreadable) as error:
        report(NAME, f"{printable(given.query)}: {printable(str(error))}")
        return FAULTY


def main(arguments: Optional[Sequence[str]] = None) -> int:
    return run(NAME, functools.partial(work, arguments))
