"""What the commands of this package share: their arguments, output and messages, and how a signal ends them."""
import argparse
import contextlib
import itertools
import os
import re
import sys
import threading
from collections.abc import Callable, Sequence
from typing import BinaryIO, NoReturn, Optional

from . import __version__
from .ending import Ended as Ended
from .ending import catch_signals, end_by
from .errors import Error, Fault, ProgramMissing, ProgramTooOld
from .faults import CannotFlush, CannotOpen, Input, Memory, Read, Write
from .streams import OutputError as OutputError
from .streams import is_text, message, open_closed_streams, replace_standard_streams, write_error
from .streams import printable as printable
from .streams import report as report

FAULTY = 1  # the exit status if what is read is at fault
USAGE = 2  # the exit status after a usage error
FAILED = 3  # the exit status if a file, memory, the output or a program failed
FAILURES = (CannotFlush, CannotOpen, Input, Memory, Read, Write)  # the faults that are no faults of what is read
_NUMBER = re.compile("[0-9]{1,5}")
NO_THREAD = "can't start new thread"  # the message of a RuntimeError if there is no memory for a thread


# What each command is for, as help names the others.
TASKS = {
    "warcdx-gz, warcdx": "index archives, query indexes, list and extract records",
    "warcdx-update": "keep one index of a folder up to date",
    "warcdx-fetch": "get a page by its URL, or all that a query selects",
    "warcdx-verify": "check the digests of archives",
    "warcdx-cdx": "convert CDX files to indexes, and back",
    "warcdx-gateway": "serve indexes over HTTP and to browsers",
}


# The words by which people who know other tools ask for an option.
ELSEWHERE = {
    "--address": "-b --bind --listen",
    "--at": "--closest --date --time --timestamp",
    "--dry-run": "-n --no-act --simulate",
    "--index": "-i --cdx --cdxj",
    "--indexes": "-i --cdx --cdxj",
    "--jobs": "-j -t --parallel --processes --threads --workers",
    "-o": "-O -P --directory-prefix --out --output-dir --report",
    "--port": "-p",
    "--quiet": "-q --silent",
    "--record": "--headers --warc",
    "--recursive": "-r -R",
    "--remove": "--delete --prune",
    "--resume": "-c --continue",
    "--workers": "-t --processes --threads",
}


class Parser(argparse.ArgumentParser):
    """Arguments of a command, whose description has its usage. A usage error is one line.

    `instead` has words that are no options of the command, with a space between, and what is said of them.
    """

    def __init__(self, prog: str, description: Optional[str] = None, instead: Optional[dict[str, str]] = None) -> None:
        others = "".join(f"  {name:18} {task}\n" for name, task in TASKS.items() if name != prog)
        super().__init__(
            prog,
            argparse.SUPPRESS,
            description,
            f"Other commands:\n{others}",
            formatter_class=argparse.RawDescriptionHelpFormatter,
            allow_abbrev=False,
        )
        self._instead = {word: said for words, said in (instead or {}).items() for word in words.split()}
        self._negative_number_matcher = re.compile("(?!)")  # so that `-1` is no file
        self.add_argument("-V", "--version", action="version", version=f"{prog} {__version__}", help="print the version")

    def add_output(self, metavar: str, help: str) -> None:
        """Adds the option -o, which names a file."""
        self.add_argument("-o", "--output", type=name_of_file, metavar=metavar, help=help)

    def parse(self, arguments: Optional[Sequence[str]] = None) -> argparse.Namespace:
        """Returns the arguments of the command. Those that aren't UTF-8 are usage errors, as in the program."""
        if arguments is None:
            use_utf8()
        words = sys.argv[1:] if arguments is None else arguments
        for number, word in enumerate(words, 1):
            if not is_text(word):
                self.error(f"argument {number} isn't UTF-8")
        return self.parse_args(self._in_order(words))

    def _in_order(self, words: Sequence[str]) -> Sequence[str]:
        """Returns the words with all files in one row, as argparse needs them. An option that isn't known is a usage error.

        Its own parse_intermixed_args raises another exception for one that a signal raises within.
        """
        rest, files, options = iter(words), list[str](), list[str]()
        for word in rest:
            if word == "--":
                files, options = [], [*options, word, *files, *rest]
                break
            is_option = word.startswith("-") and word != "-"
            if is_option:
                self._expect_known(word)
            (options if is_option else files).append(word)
            action = self._option_string_actions.get(word)
            if action is not None and action.nargs is None:
                options.extend(itertools.islice(rest, 1))
        if any(action.nargs == argparse.ONE_OR_MORE and action.option_strings for action in self._actions):
            return words  # an option that takes files takes all that follow it
        return [*files, *options]

    def _expect_known(self, word: str) -> None:
        option = word.partition("=")[0] if word.startswith("--") else word[:2]
        if option not in self._option_string_actions:
            way = f"the file of this name is ./{word}" if os.path.lexists(word) else self._advice_on_option(option)
            self.error(f"unknown option {option}; {way}")

    def _advice_on_option(self, option: str) -> str:
        """Returns what to write in place of an option that isn't known."""
        known = {name.lstrip("-"): name for name in self._option_string_actions if name.startswith("--")}
        if option in self._instead:
            return self._instead[option]
        for name, words in ELSEWHERE.items():
            if option in words.split() and name in self._option_string_actions:
                return f"write {self._form_of(name)}"
        import difflib  # which only this needs

        near = difflib.get_close_matches(option.lstrip("-").lower(), known, 1)
        others = [name for name in known.values() if name not in ("--help", "--version")]
        return f"a similar one is {known[near[0]]}" if near else f"there are {', '.join(others)}"

    def _form_of(self, name: str) -> str:
        """Returns an option with its value, if it has one."""
        action = self._option_string_actions[name]
        return name if action.nargs == 0 else f"{name} {action.metavar or action.dest.upper()}"

    def _advice_on_error(self, message: str) -> str:
        """Returns what to write after an error that argparse has found, or an empty text."""
        if message.startswith(("the following arguments are required", "unrecognized arguments")):
            usage = re.findall(f"^(?:usage:|      ) ({re.escape(self.prog)} .*)$", self.description or "", re.MULTILINE)
            return f"; write {' or '.join(usage)}" if usage else ""
        found = re.match("argument (?:-./)?(--[a-z-]+): (?:expected|ignored)", message)
        return f"; write {self._form_of(found[1])}" if found else ""

    def error(self, message: str) -> NoReturn:
        said = f"{printable(message)}{self._advice_on_error(message)}"
        report(self.prog, f"error: {said}; '{self.prog} --help' has the arguments")
        sys.exit(USAGE)


def name_of_file(text: str) -> str:
    """Reads an argument that is the name of a file or a folder. An empty one, as of a variable that isn't set, would be this folder."""
    if not text:
        raise argparse.ArgumentTypeError("the name is empty")
    return text


def name_on_disk(text: str) -> str:
    """Reads an argument that is the name of a file or a folder, where `-` isn't that of a standard stream."""
    if text == "-":
        raise argparse.ArgumentTypeError("a standard stream can't be used here; a file of this name is ./-")
    return name_of_file(text)


def number_from(least: int, most: int) -> Callable[[str], int]:
    """Returns what reads an argument that is a number in these bounds."""

    def number_of(text: str) -> int:
        if not _NUMBER.fullmatch(text) or not least <= int(text) <= most:
            raise argparse.ArgumentTypeError(f"a number from {least} to {most}, and not '{text}'")
        return int(text)

    return number_of


def use_utf8() -> None:
    """Starts the command anew with file names in UTF-8, as the program has them, if those of the locale are others.

    Nothing is done yet. A script that comes from standard input isn't started anew.
    """
    if sys.getfilesystemencoding() == "utf-8" or not sys.executable or sys.argv[0] in ("", "-"):
        return
    with open("/proc/self/cmdline", "rb") as file:
        words = file.read().split(b"\0")[1:-1]
    os.execv(sys.executable, (os.fsencode(sys.executable), b"-X", b"utf8", *words))


def run(name: str, work: Callable[[BinaryIO], int]) -> int:
    """Runs a command, whose standard output is handed to `work`, and returns its exit status.

    All bytes that `work` writes or prints are on standard output, or a line of standard error says why they
    aren't and the status is 3. The same is true of memory that can't be allocated, of a file that can't be
    used, and of an Error that `work` raises. INT, TERM and HUP end the process as they do by default, after what `work` has made is removed and its
    programs are ended.
    """
    said = message(name, "Memory")
    number: Optional[int] = None
    try:
        return _run_on_standard_streams(name, work)
    except Ended as ended:
        number = ended.number
    except OSError as error:
        said = message(name, reason_of(error))
    except (MemoryError, RuntimeError, SystemError) as error:  # SystemError: Python's own code had no memory for an exception
        if isinstance(error, RuntimeError) and str(error) != NO_THREAD:
            raise
    # What the exception held is free, so that there is memory to say so. And each `with` block that a signal has kept
    # from being begun, after its file was made, has ended.
    if number is not None:
        end_by(number)
    write_error(said)
    return FAILED


def _run_on_standard_streams(name: str, work: Callable[[BinaryIO], int]) -> int:
    open_closed_streams()
    catch_signals()
    threading.excepthook = _end_of_thread
    output = replace_standard_streams()
    try:
        try:
            status = work(output)
        except SystemExit as end:
            status = end.code if isinstance(end.code, int) else 0
        except Error as error:
            status = failure(name, error)
        output.flush()
        return status
    finally:
        with contextlib.suppress(OSError, ValueError, MemoryError):  # what couldn't be written isn't written again
            output.raw.close()
            output.close()


_usual_end_of_thread = threading.excepthook


def _end_of_thread(arguments: threading.ExceptHookArgs) -> None:
    """Handles an exception that has ended a thread. If memory couldn't be allocated, who waits for the thread says so."""
    if not issubclass(arguments.exc_type, MemoryError):
        _usual_end_of_thread(arguments)


def reason_of(error: Exception) -> str:
    """Returns what an error says: of a failed system call the file, if it is known, and the system's reason."""
    if isinstance(error, Fault):
        return line_of(error)
    if isinstance(error, OutputError):
        return f"Write: {error.strerror}"
    if not isinstance(error, OSError) or error.strerror is None:
        return str(error)
    if error.filename is None:
        return error.strerror
    return f"{printable(os.fsdecode(error.filename))}: {error.strerror}"


def line_of(fault: Fault, advice: str = "") -> str:
    """Returns what is said of a fault: its file and its offset, if they are known, the cause, and what to do."""
    file = "" if fault.file is None else f"{printable(fault.file)}: "
    place = "" if fault.offset is None else f" {fault.offset}"
    is_unopened = isinstance(fault, CannotOpen)
    what = "cannot open" if is_unopened else fault.name + place
    reason = f" ({fault.reason})" if fault.reason else ""
    why = advice or fault.advice
    return f"{file}{what}{reason}" + (f"{';' if is_unopened else ':'} {why}" if why else "")


def failure(name: str, error: Error) -> int:
    """Reports an exception that ends a command on one line, and returns the exit status."""
    report(name, printable(str(error).partition("\n")[0]) + way_of(error))
    return FAILED


def way_of(error: Exception) -> str:
    """Returns what to do if a program can't be run, or an empty text."""
    return "; --program PROGRAM names another one" if isinstance(error, (ProgramMissing, ProgramTooOld)) else ""


def status_of(fault: Fault) -> int:
    """Returns the exit status after a fault."""
    return FAILED if isinstance(fault, FAILURES) else FAULTY
