"""HTML and SVG in which every text is escaped.

Markup is made by `element` alone, from names that this package writes. Texts and values are escaped
there. Characters that can't be seen, or that change the direction of others, are written as their
code points. An address is a `Link`, which is made of this package's own paths, so no address of an
archive becomes one that can be followed.
"""
import html
import re
import unicodedata
from collections.abc import Iterable
from dataclasses import dataclass
from typing import Union
from urllib.parse import quote

MOST_LINK = 7000  # bytes: the first line of a request has at most 8,190
_NAME = re.compile("[a-zA-Z][a-zA-Z0-9]*(-[a-z0-9]+)*")
_PATH = re.compile("(?!//)[A-Za-z0-9._/-]*")
_ID = re.compile("[a-z-]*")
_VOID = frozenset(("input", "link", "meta", "br", "hr", "img"))
_ADDRESSES = frozenset(("href", "src", "action"))
_FORBIDDEN = frozenset(("style", "srcdoc", "script"))
_ALLOWED = frozenset("\t\n\N{ZERO WIDTH NON-JOINER}\N{ZERO WIDTH JOINER}")
_UNSEEN = frozenset(("Cc", "Cf", "Cs", "Zl", "Zp"))
_ESCAPED_BYTE = range(0xDC80, 0xDD00)  # a byte that isn't UTF-8, as a surrogate


@dataclass(frozen=True)
class Markup:
    """A text of HTML or SVG in which everything is escaped."""

    text: str

    def __str__(self) -> str:
        raise TypeError("markup is no text: put it into an element, or write a page of it")


@dataclass(frozen=True)
class Link:
    """A path relative to the page, with the values of its query and the id of an element."""

    path: str
    query: tuple[tuple[str, str], ...] = ()
    fragment: str = ""

    def __post_init__(self) -> None:
        if not _PATH.fullmatch(self.path) or not _ID.fullmatch(self.fragment):
            raise ValueError(f"not a path of these pages: {self.path!r}, {self.fragment!r}")

    @property
    def text(self) -> str:
        query = "&".join(f"{name}={quote(value, safe='', errors='replace')}" for name, value in self.query)
        return self.path + (f"?{query}" if query else "") + (f"#{self.fragment}" if self.fragment else "")


def link(path: str, fragment: str = "", /, **query: Union[str, int, None]) -> Link:
    """Returns a link. Values that are None or empty are left out."""
    pairs = tuple((name.rstrip("_"), str(value)) for name, value in query.items() if value not in (None, ""))
    return Link(path, pairs, fragment)


Child = Union[Markup, str, int, None, Iterable["Child"]]
Value = Union[str, int, float, bool, Link, None]


def element(name: str, /, *children: Child, **attributes: Value) -> Markup:
    """Returns an element.

    An attribute that is a word of Python has `_` at its end. `_` within a name stands for `-`.
    One whose value is None or False is left out, and one whose value is True has no value.
    """
    if not _NAME.fullmatch(name) or name in _FORBIDDEN:
        raise ValueError(f"not an element: {name!r}")
    opening = name + "".join(_attribute(each, value) for each, value in attributes.items())
    if name in _VOID:
        return Markup(f"<{opening}>")
    return Markup(f"<{opening}>{joined(*children).text}</{name}>")


def joined(*children: Child) -> Markup:
    """Returns texts and elements one after another."""
    return Markup("".join(_text_of(child) for child in children))


def followed(words: Child, to: Link, **attributes: Value) -> Markup:
    """Returns words as a link, or the words alone if the link is longer than a server takes."""
    return element("a", words, href=to, **attributes) if len(to.text) <= MOST_LINK else joined(words)


def _text_of(child: Child) -> str:
    if child is None:
        return ""
    if isinstance(child, Markup):
        return child.text
    if isinstance(child, int):
        return str(child)
    if isinstance(child, str):
        return shown(child).text
    return "".join(map(_text_of, child))


def _attribute(name: str, value: Value) -> str:
    name = name.rstrip("_").replace("_", "-")
    if not _NAME.fullmatch(name) or name in _FORBIDDEN or name.lower().startswith("on"):
        raise ValueError(f"not an attribute: {name!r}")
    if (name in _ADDRESSES) != isinstance(value, Link):
        raise TypeError(f"the attribute {name} with {type(value).__name__}")
    if value is None or value is False:
        return ""
    if value is True:
        return f" {name}"
    text = value.text if isinstance(value, Link) else str(value)
    if name != "value":  # of a field of a form, which is given back as it is
        text = visible(text)
    return f' {name}="{html.escape(text.encode(errors="replace").decode())}"'


def is_unseen(character: str) -> bool:
    """Whether a character can't be seen, or acts on others, as controls and bidirectional marks."""
    return unicodedata.category(character) in _UNSEEN and character not in _ALLOWED


def code_point(character: str) -> str:
    number = ord(character)
    if number in _ESCAPED_BYTE:
        return f"\\x{number - 0xDC00:02X}"
    return f"[U+{number:04X}]"


def visible(text: str) -> str:
    """Returns a text with the code points of characters that can't be seen."""
    if text.isascii() and text.isprintable():
        return text
    return "".join(code_point(each) if is_unseen(each) else each for each in text)


def shown(text: str) -> Markup:
    """Returns the markup of a text, with marked code points for characters that can't be seen."""
    if text.isascii() and text.isprintable():
        return Markup(html.escape(text))
    parts = (f'<b class="unseen">{html.escape(code_point(each))}</b>' if is_unseen(each) else html.escape(each) for each in text)
    return Markup("".join(parts))


def cut(text: str, most: int) -> str:
    """Returns a text of at most `most` characters. One that is cut ends with an ellipsis."""
    return text if len(text) <= most else text[: most - 1] + "…"


def document(title: str, body: Markup, style: Link, icon: Link) -> bytes:
    """Returns a page in UTF-8, with a style sheet and an icon."""
    head = element(
        "head",
        element("meta", charset="utf-8"),
        element("meta", name="viewport", content="width=device-width, initial-scale=1"),
        element("meta", name="color-scheme", content="light dark"),
        element("title", visible(title)),
        element("link", rel="stylesheet", href=style),
        element("link", rel="icon", type="image/svg+xml", href=icon),
    )
    page = element("html", head, body, lang="en")
    return f"<!DOCTYPE html>\n{page.text}\n".encode(errors="replace")
