"""What the program has reported, as exceptions."""
import re
from typing import Optional

from . import faults, refusals
from .errors import Error, Fault, ProgramEnded, Refused

# What the program says: a message, and maybe a second line, which begins with two spaces. So may a line of a file's name.
# The expressions are compiled when one is needed first, as most runs of Python need none.
_MESSAGE = r"warcdx(?:-gz)?: %s(?:\n  (?P<advice>[^\n]*))?\n?"
_FAULT_AT = _MESSAGE % "(.*): fault ([0-9]+) ([A-Za-z0-9]+)"
_LINE_AT = _MESSAGE % "(.*): (BadLine|OutOfOrder) ([0-9]+)"
_QUERY = _MESSAGE % "query: ([A-Za-z0-9]+)"
_FILE = _MESSAGE % "(.*): ([A-Za-z0-9]+|cannot open)"
_ALONE = _MESSAGE % "([A-Za-z0-9]+|cannot flush)"
_SYSTEM = r"(.*) \(os error ([0-9]+)\)"  # the second line about a failed system call
_NAMES = {"cannot open": "CannotOpen", "cannot flush": "CannotFlush"}


def refused(name: str, parameter: Optional[str] = None) -> Refused:
    """Returns the refusal of this name."""
    return refusals.BY_NAME.get(name, Refused)(name, parameter)


def fault(name: str, file: Optional[str] = None, offset: Optional[int] = None, number: Optional[int] = None) -> Fault:
    """Returns the fault of this name."""
    return faults.BY_NAME.get(name, Fault)(name, file, offset, number)


def error_of(status: int, said: str, program: str = "warcdx") -> Error:
    """Returns what a program of this name has reported on standard error before it ended."""
    if found := re.fullmatch(_QUERY, said):
        refusal = refused(found[1])
        refusal.advice = found["advice"] or refusal.advice
        return refusal
    if found := re.fullmatch(_FAULT_AT, said, re.DOTALL):
        error = fault(found[3], found[1], int(found[2]))
    elif found := re.fullmatch(_LINE_AT, said, re.DOTALL):
        error = fault(found[2], found[1], int(found[3]))
    elif found := re.fullmatch(_FILE, said, re.DOTALL):
        error = fault(_NAMES.get(found[2], found[2]), found[1])
    elif found := re.fullmatch(_ALONE, said):
        error = fault(_NAMES.get(found[1], found[1]))
    else:
        return ProgramEnded(status, re.sub("^  .*\n?", "", said, flags=re.MULTILINE), program)
    line = found["advice"] or ""
    system = re.fullmatch(_SYSTEM, line)
    if system and isinstance(error, faults.CannotOpen) and error.file is not None:
        return faults.cannot_open(error.file, int(system[2]))
    error.reason, error.advice = (system[1], "") if system else ("", line)
    return error
