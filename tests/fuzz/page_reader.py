"""Reads the pages that `query` and `pages` write, and the texts of accepted queries."""
import json
from typing import Any, Optional, Union
from urllib.parse import unquote_plus

from trial import Wrong

Row = Union[bytes, list[Any]]  # a line as it is in its index, or the values of a row
Page = tuple[list[Row], Optional[bytes]]  # with its resume key
Pages = list[Page]


def parameters(query: bytes) -> dict[str, str]:
    """The values of an accepted query. Those that may be repeated aren't of use here."""
    pieces = (piece.partition("=") for piece in query.decode().split("&"))
    return {unquote_plus(name): unquote_plus(value) for name, _, value in pieces}


def without(query: bytes, *names: str) -> bytes:
    """The query without its parameters of these names."""
    pieces = (piece for piece in query.split(b"&") if unquote_plus(piece.partition(b"=")[0].decode()) not in names)
    return b"&".join(pieces)


def read_page(said: dict[str, str], text: bytes) -> Page:
    """The rows of a page, and its resume key or None."""
    pages = read_pages(said, text)
    if len(pages) != 1:
        raise Wrong(f"{text!r} isn't one page")
    return pages[0]


def read_pages(said: dict[str, str], text: bytes) -> Pages:
    if said.get("output") == "json":
        return [json_page(value) for value in json_values(text.decode())]
    pages: Pages = [([], None)]
    lines = iter(text.removesuffix(b"\n").split(b"\n") if text else ())
    for line in lines:
        if not line:
            pages[-1] = pages[-1][0], next(lines)
            pages.append(([], None))
        else:
            pages[-1][0].append(line if said.get("output") == "cdxj" else line.split(b" "))
    return pages[:-1] if len(pages) > 1 and not pages[-1][0] else pages


def json_values(text: str) -> list[Any]:
    """The values of a text of JSON values, each with a line feed behind it."""
    values, at = [], 0
    while at < len(text):
        try:
            value, at = json.JSONDecoder().raw_decode(text, at)
        except ValueError:
            raise Wrong(f"{text} is no JSON") from None
        values.append(value)
        at += 1
    return values


def json_page(value: Any) -> Page:
    if [] in value:
        return value[1:-2], value[-1][0].encode()
    return value[1:], None
