"""Compares the digests of blocks and of payloads with the records of archives.

usage: warcdx-verify [OPTION..] FILE..

FILE is a WARC file, plain or compressed with a gzip member for each record; -
is standard input. Each record's WARC-Block-Digest is compared with the block,
and its WARC-Payload-Digest with the payload. The algorithms are sha1, sha256,
sha512 and md5. Values are in base 32 or in hexadecimal digits.

Prints a line for each record, with its offset and the verdicts on both:

  OFFSET BLOCK PAYLOAD

  same       the block or the payload has this digest
  differs    the digest doesn't match
  unknown    the algorithm or the form of the value isn't known, or where the
             payload begins
  absent     the header has no such field
  elsewhere  the payload of a revisit or of a segment isn't in the record
  empty      a revisit has the digest of an empty block, as GNU Wget writes

A damaged archive has `fault OFFSET CAUSE` as its last line. If there are
several archives, a line `NAME:` precedes the lines of each. With --quiet, only
records that differ and faults are printed, each as `NAME: ` and its line. With
--json each line is an object with the members archive, offset, and block and
payload or else fault.

Examples:
  warcdx-verify crawl.warc.gz
  warcdx-verify --quiet --resume notes --jobs 4 /data/*.warc.gz

Exit status:
  0  each archive is whole, no digest differs, and one at least of each archive
     was compared
  1  an archive is damaged, a digest differs, or none of an archive was compared
  2  usage error
  3  a file can't be opened, or reading, writing, memory or the program failed
"""
import argparse
import contextlib
import functools
import json
import os
from collections import Counter
from collections.abc import Sequence
from typing import BinaryIO, Optional

from .advice import advice_on
from .archive import Archive, open_archive
from .command import FAILED, FAULTY, Parser, failure, line_of, name_of_file, name_on_disk, number_from, run, status_of
from .errors import Error, Fault
from .inputs import read_again
from .outputs import STANDARD, check_that_it_is_new, output_of
from .progress import Lines, Silent, bar_on_terminal
from .record_digests import Verdict
from .resuming import Notes
from .streams import printable, report
from .verifying import Checked, check_archive
from .workers import run_one_by_one, run_side_by_side

NAME = "warcdx-verify"
INSTEAD = {
    "-r -R --recursive": "name the archives, such as FOLDER/*.warc.gz",
    "-v --verbose": "there is a line for each record unless --quiet is given",
}


def read_arguments(arguments: Optional[Sequence[str]]) -> argparse.Namespace:
    parser = Parser(NAME, __doc__, INSTEAD)
    help_quiet = "print only records that differ and faults, and a summary if there are any"
    parser.add_argument("--quiet", action="store_true", help=help_quiet)
    parser.add_argument("--json", action="store_true", help="print each line as an object of JSON, with the name of the archive")
    parser.add_output("REPORT", "write the lines to this new file (default: standard output)")
    help_resume = "note which archives were good in this file, and pass over those that it names"
    parser.add_argument("--resume", type=name_on_disk, metavar="NOTES", help=help_resume)
    help_jobs = "how many archives to check at a time (%(default)s)"
    parser.add_argument("--jobs", type=number_from(1, 1000), default=1, metavar="N", help=help_jobs)
    help_program = "the program (%(default)s); for compressed archives warcdx-gz beside it, or of the PATH"
    parser.add_argument("--program", default="warcdx", metavar="PROGRAM", help=help_program)
    parser.add_argument("files", nargs="+", type=name_of_file, metavar="FILE", help="an archive; - is standard input")
    given = parser.parse(arguments)
    if given.files.count(STANDARD) > 1:
        parser.error("standard input (-) can be read once, and is given twice")
    if given.output and given.resume and os.path.realpath(given.output) == os.path.realpath(given.resume):
        parser.error("-o and --resume name the same file")
    return given


class Style:
    """How what was found of an archive is printed: below a heading, each line with its name, or as objects of JSON."""

    def __init__(self, archive: str, given: argparse.Namespace) -> None:
        self.is_quiet = given.quiet
        self._json = archive if given.json else None
        has_heading = not given.json and not given.quiet and len(given.files) > 1
        self.heading = os.fsencode(f"{archive}:\n") if has_heading else b""
        self._name = os.fsencode(f"{printable(archive)}: ") if given.quiet else b""

    def record(self, found: Checked) -> bytes:
        block, payload = found.block.value, found.payload.value
        return self._line(f"{found.offset} {block} {payload}", offset=found.offset, block=block, payload=payload)

    def fault(self, offset: int, cause: str) -> bytes:
        return self._line(f"fault {offset} {cause}", offset=offset, fault=cause)

    def _line(self, text: str, **members: "int | str") -> bytes:
        if self._json is not None:
            return json.dumps({"archive": self._json, **members}).encode() + b"\n"
        return self._name + f"{text}\n".encode()


def check(file: str, program: str, style: Style, output: BinaryIO) -> int:
    """Prints the records of an archive, and returns the exit status. Raises an Error if the program fails."""
    try:
        with read_again(file, is_held=True) as path:
            archive = open_archive(path, program=program)
            output.write(style.heading)
            return print_archive(file, archive, program, style, output)
    except Fault as error:
        error.file = error.file and file  # and not that of a copy
        report(NAME, line_of(error) + ("; name the archives in it" if os.path.isdir(file) else ""))
        return status_of(error)


def print_archive(file: str, archive: Archive, program: str, style: Style, output: BinaryIO) -> int:
    """Prints the records of an archive, and the fault of a damaged one. Raises a fault that has no offset."""
    status, found, advice = 0, set[Verdict](), ""
    try:
        with contextlib.closing(check_archive(archive)) as records:
            for record in records:
                verdicts = {record.block, record.payload}
                found |= verdicts
                if Verdict.DIFFERS in verdicts or not style.is_quiet:
                    output.write(style.record(record))
    except Fault as error:
        if error.offset is None:
            raise
        output.write(style.fault(error.offset, error.name))
        status, advice = status_of(error), advice_on(error, archive.path, program)
    if not any(verdict.is_compared for verdict in found):
        report(NAME, f"{printable(file)}: {advice or 'no digest was compared'}")
        return max(status, FAULTY)
    return max(status, FAULTY) if Verdict.DIFFERS in found else status


class Run:
    """The archives that are to be read, and what was found of them. Their numbers are those of the works."""

    def __init__(self, given: argparse.Namespace) -> None:
        """Reads the notes of earlier runs. Raises CannotResume or OSError."""
        self._given = given
        self._notes = Notes(given.resume) if given.resume is not None else None
        self._files = [each for each in given.files if self._notes is None or not self._notes.has(each)]
        self._sizes = [_size_of(each) for each in self._files]
        self._statuses = Counter[int]()
        self._progress = progress_of(given, len(self._files))
        self._lost = ""  # why the notes aren't in their file

    def check_all(self, output: BinaryIO) -> int:
        """Checks each archive that isn't known to be good, and returns the exit status."""
        given = self._given
        works = [functools.partial(check, file, given.program, Style(file, given)) for file in self._files]
        self._progress.begin(len(works), sum(self._sizes))
        try:
            if given.jobs > 1 and len(works) > 1 or type(self._progress) is not Silent:
                status = run_side_by_side(NAME, works, given.jobs, output, self, not given.quiet)
            else:
                status = run_one_by_one(works, output, self)
        except Error as error:
            status = failure(NAME, error)
        finally:
            self._save()
            self._progress.end()
        if self._lost:
            status = FAILED
        if line := self._summary(status):
            report(NAME, line)
        return status

    def begin(self, number: int) -> None:
        if self._notes is not None:
            self._notes.begin(number, self._files[number])

    def clear(self) -> None:
        self._progress.clear()

    def end(self, number: int, status: int) -> None:
        self._statuses[status] += 1
        if self._notes is not None:
            self._notes.end(number, self._files[number], not status)
            self._save()
        self._progress.advance(self._sizes[number])

    def _save(self) -> None:
        """Saves the notes, if there are any. If that fails, it is said once, and tried again later."""
        lost = ""
        try:
            if self._notes is not None:
                self._notes.save()
        except OSError as error:
            lost = f"{printable(self._given.resume)}: {error.strerror}"
        if lost and not self._lost:
            self._progress.clear()
            report(NAME, lost)
        self._lost = lost

    def _summary(self, status: int) -> str:
        """Returns what is to be said of all archives, or an empty text."""
        archives, known = len(self._given.files), len(self._given.files) - len(self._files)
        others = len(self._files) - self._statuses[0] - self._statuses[FAULTY]
        if not (status if self._given.quiet else known):
            return ""
        counts = {"at fault": self._statuses[FAULTY], "not read": others, "known to be good": known}
        found = ", ".join(f"{count:,} {name}" for name, count in counts.items() if count)
        return f"{archives:,} archive{'s' * (archives != 1)}: {found}" if found else ""


def progress_of(given: argparse.Namespace, archives: int) -> Silent:
    """Returns what shows on a terminal how far a run is, if it reads several archives.

    That is nothing if the lines of records show it, or are written as the records are read, as for `head`.
    """
    is_shown = given.quiet or (given.jobs > 1 or given.output) and not os.isatty(1)
    if archives < 2 or not is_shown or not os.isatty(2):
        return Silent()
    return bar_on_terminal() or Lines(NAME)


def _size_of(file: str) -> int:
    try:
        return os.stat(file).st_size
    except (OSError, ValueError):
        return 0


def work(arguments: Optional[Sequence[str]], output: BinaryIO) -> int:
    given = read_arguments(arguments)
    if given.output not in (None, STANDARD):
        check_that_it_is_new(given.output)  # before notes are made
    try:
        archives = Run(given)
    except OSError as error:
        error.filename = given.resume  # and not where that leads
        raise
    with output_of(given.output, output) as file:
        return archives.check_all(file)


def main(arguments: Optional[Sequence[str]] = None) -> int:
    return run(NAME, functools.partial(work, arguments))
