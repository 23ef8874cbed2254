"""What can go wrong: the program can't be run, a query is refused, or a file is at fault."""
import operator
from typing import Optional, SupportsIndex, Union


class Error(Exception):
    """The base of all exceptions of this package."""


class ProgramError(Error):
    """The program can't be run, or has ended without the result."""


class ProgramMissing(ProgramError):
    """There is no such program, or it isn't warcdx."""


class ProgramTooOld(ProgramError):
    """The program is older than this package needs."""


NO_STATUS = 256  # stands for the exit status of a program if the system hasn't given it; no program has it


class ProgramEnded(ProgramError):
    """The program has ended before its output was complete, or before it was known to be.

    `status` is its exit status, or the negative number of the signal that ended it, or NO_STATUS, 256, if the
    system hasn't given one. `said` is what it wrote to standard error, and `program` its name: warcdx or warcdx-gz.
    """

    def __init__(self, status: int, said: str, program: str = "warcdx") -> None:
        super().__init__(status, said, program)
        self.status = status
        self.said = said
        self.program = program

    def __str__(self) -> str:
        how = f" with signal {-self.status}" if self.status < 0 else f" with exit status {self.status}"
        if self.status == NO_STATUS:
            how = ", and the system has no exit status of it, as if SIGCHLD is ignored"
        return f"{self.program} has ended{how}" + (f": {self.said.strip()}" if self.said else "")


class ReplyTooLate(ProgramError):
    """The program was ended because its reply took too long."""


class ReplyTooLong(ProgramError):
    """The program was ended because its reply has too many bytes."""


class NoArchive(Error):
    """No archive of a collection has this `name`."""

    def __init__(self, name: str) -> None:
        super().__init__(name)
        self.name = name

    def __str__(self) -> str:
        return f"the collection has no archive {self.name!r}"


def expect_type(name: str, value: object, kinds: Union[type, tuple[type, ...]], wanted: str) -> None:
    """Raises TypeError, with a sentence about what is given under this name, unless it is of these types."""
    if not isinstance(value, kinds):
        raise TypeError(f"{name} is {wanted}, and not {value!r:.60}")


def number_of(name: str, value: SupportsIndex) -> int:
    """Returns a number that is given under this name, which may be one of numpy. Raises TypeError as `expect_type` does."""
    try:
        return operator.index(value)
    except TypeError:
        raise TypeError(f"{name} is a whole number, and not {value!r:.60}") from None


class Refused(Error):
    """A query is refused. The classes of the module `refusals` are named as the program names the causes.

    `parameter` is the name of the parameter that is refused. It is None if the cause isn't that of one parameter:
    QueryTooLong, NotText, NoUrl and UrlAndKey. `advice` says what can be given, if there is something to say.
    """

    advice = ""

    def __init__(self, name: str, parameter: Optional[str] = None) -> None:
        super().__init__(name, parameter)
        self.name = name
        self.parameter = parameter

    def __str__(self) -> str:
        place = "" if self.parameter is None else f" in {self.parameter!r}"
        return f"the query is refused: {self.name}{place}" + (f" ({self.advice})" if self.advice else "")


class Fault(Error):
    """A file is at fault. The classes of the module `faults` are named as the program names the causes.

    `file` is the path of the archive or index as it was given, and `offset` the offset in bytes at which
    the record or line at fault begins. `number` is that of the index in the order in which they were
    given, from 0, if a reply has named it. Each is None if the program doesn't name it. `reason` is what the system
    says of a call that has failed, and `advice` what the program says besides: what the fault means, or what to do.
    Both are often empty.
    """

    reason = ""
    advice = ""

    def __init__(self, name: str, file: Optional[str] = None, offset: Optional[int] = None, number: Optional[int] = None) -> None:
        super().__init__(name, file, offset, number)
        self.name = name
        self.file = file
        self.offset = offset
        self.number = number

    def __str__(self) -> str:
        file = "" if self.file is None else f"{self.file}: "
        place = "" if self.offset is None else f" at {self.offset}"
        why = "; ".join(filter(None, (self.reason, self.advice)))
        return f"{file}{self.name}{place}" + (f" ({why})" if why else "")
