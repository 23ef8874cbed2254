"""Requests that are refused or fail, with the cause in words."""
from collections.abc import Mapping
from dataclasses import dataclass

from werkzeug.exceptions import HTTPException, MethodNotAllowed, NotFound
from werkzeug.wrappers import Response

from warcdx import Error, Fault, Refused, command

NAME = "warcdx-gateway"
TEXT = "text/plain; charset=utf-8"
MOST_SHOWN = 100  # characters of a value

# What the program refuses and the gateway doesn't, in words.
CAUSES = {
    "QueryTooLong": "a query has at most 65,536 bytes",
    "BadResume": "it isn't the resume key of a page",
    "NoUrl": "it is missing",
    "UrlAndKey": "only one of both may be given",
    "BadUrl": "it isn't an address, or none of a web page where it has to be",
}


@dataclass(eq=False)
class Refusal(Exception):
    """A query is refused.

    The name is that of docs/QUERY.md if the program could refuse the query for it.
    """

    name: str
    parameter: str
    cause: str
    value: str = ""
    status: int = 400

    def __str__(self) -> str:
        """Returns one line: the name, the parameter with its value, and the cause."""
        shown = f"{self.parameter}={self.value}" if self.value else self.parameter
        where = f" {printable(shown)}:" if self.parameter else ""
        return f"refused {self.name}:{where} {self.cause}"


def printable(text: str) -> str:
    """Returns a text on one line, without controls, and cut if it is long."""
    return without_controls(text if len(text) <= MOST_SHOWN else text[:MOST_SHOWN] + "..")


def without_controls(text: str) -> str:
    """Returns a text in which what a terminal wouldn't show is written with `%` and digits."""
    if text.isprintable():
        return text
    return "".join(each if each.isprintable() else f"%{ord(each):02X}" for each in text)


def program_refusal(error: Refused, given: Mapping[str, str]) -> Refusal:
    """Returns what the program has refused of the parameters that were given."""
    parameter = error.parameter or ("url" if error.name in ("NoUrl", "UrlAndKey") else "")
    return Refusal(error.name, parameter, CAUSES.get(error.name, "the program refuses it"), given.get(parameter, ""))


def http_response(error: HTTPException) -> Response:
    """Returns the plain response to a path or method that there isn't."""
    name, cause = (error.name or "").title().replace(" ", ""), error.description or ""
    headers = {}
    if isinstance(error, MethodNotAllowed):
        headers["Allow"] = ", ".join(sorted(error.valid_methods or ()))
        cause = f"the methods are {headers['Allow']}"
    elif cause == NotFound.description:
        cause = "there is no such path"
    return Response(f"refused {name}: {cause}\n", error.code, headers, content_type=TEXT)


def text_of(error: BaseException) -> str:
    """Returns an error on one line. An index is named by its number in the settings, from 0."""
    if isinstance(error, Fault):
        parts = ("fault", error.name, error.number, error.offset)
        return " ".join(str(part) for part in parts if part is not None)
    is_known = isinstance(error, (Error, Refusal, OSError)) and str(error)
    return str(error) if is_known else f"{type(error).__name__} {error}".rstrip()


def say(text: str) -> None:
    """Writes a line to standard error."""
    command.report(NAME, command.printable(text))
