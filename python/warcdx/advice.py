"""What the program says of a file that is at fault. So each such text stands in the program alone."""
import os
from typing import Optional

from .errors import Error, Fault
from .faults import BadLine, OutOfOrder
from .program import Path, find_packed_program, operand, running

_MOST = 16 << 20  # bytes of an index that are read to say what is at fault
_PIECE = 1 << 16  # bytes


def advice_on(fault: Fault, path: Path, program: str) -> str:
    """Returns what a fault means and what to do, or an empty text if the program doesn't say. `path` leads to its file."""
    is_of_index = isinstance(fault, (BadLine, OutOfOrder))  # a query may look behind the first line at fault
    if fault.advice or fault.offset is None or fault.offset > (_MOST if is_of_index else 0):
        return fault.advice
    words = ("check",) if is_of_index else ("get", "0")
    return str(getattr(_error_of(program, *words, operand(path)), "advice", ""))


def advice_on_query(text: str, program: str) -> str:
    """Returns why a query text is refused, or an empty text."""
    return str(getattr(_error_of(program, "query", text, os.devnull), "advice", ""))


def kind_of(path: Path, program: str) -> str:
    """Returns what a file is that isn't a CDX file, or an empty text if the program doesn't know."""
    error = _error_of(program, "check", operand(path))
    if error is None:
        return "It is an index: warcdx-cdx to reads indexes."
    said = str(getattr(error, "advice", ""))
    if said.startswith("It is compressed by gzip"):
        return "It is compressed by gzip: zcat FILE | warcdx-cdx from reads a CDX file."
    return said if said.startswith("It ") else ""


def _error_of(program: str, *words: str) -> Optional[Error]:
    """Returns what the program reports, or why it can't, or None if nothing is at fault."""
    try:
        with running(find_packed_program(program), *words) as output:
            while output.read(_PIECE):
                pass
    except Error as error:
        return error
    return None
