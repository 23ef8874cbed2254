"""The tags of a page of HTML, found as browsers find them (HTML Standard, 13.2.5), in a time that grows with the page."""
import html
import re
from collections.abc import Iterator
from html.entities import html5
from typing import NamedTuple

MOST_VALUE = 4000  # bytes of the value of an attribute that is read
_SPACE = rb" \t\n\r\f"
_NAME = rb"[^%b/>][^%b/>=]*+" % (_SPACE, _SPACE)
# Quotes may have no end, and then the tag has none.
_VALUE = rb"""(?:"[^"]*+(?:"|\Z)|'[^']*+(?:'|\Z)|[^"'>%b][^>%b]*+|(?=>)|\Z)""" % (_SPACE, _SPACE)
_EQUALS = rb"[%b]*+=[%b]*+" % (_SPACE, _SPACE)
ATTRIBUTE = re.compile(rb"(%b)(?:%b(%b))?+" % (_NAME, _EQUALS, _VALUE))
_ATTRIBUTES = rb"(?:[%b/]*+%b(?:%b%b)?+)*+[%b/]*+" % (_SPACE, _NAME, _EQUALS, _VALUE, _SPACE)
_COMMENT = rb"!--(?:-?(?=>)|.*?--!?(?=>)|.*+)"
# A tag, a comment or what is like one, with its end if it has one.
_TOKEN = re.compile(rb"<(?:(/?)([A-Za-z][^%b/>]*+)%b|%b|[!?/][^>]*+)(>|\Z)" % (_SPACE, _ATTRIBUTES, _COMMENT), re.DOTALL)
_RAW = (b"script", b"style", b"textarea", b"title", b"xmp", b"iframe", b"noembed", b"noframes")  # whose content has no tags
_RAW_ENDS = {name: re.compile(rb"</%b(?=[%b/>])|\Z" % (name, _SPACE), re.IGNORECASE) for name in _RAW}
_FOREIGN = (b"svg", b"math")  # in which most of these are elements like others
_REFERENCE = re.compile(r"&(?:#(?:[0-9]{1,9}|[xX][0-9A-Fa-f]{1,8});?|([A-Za-z][A-Za-z0-9]*+(?:;|(?![A-Za-z0-9=]))))")


class Tag(NamedTuple):
    """The tag with which an element begins: its name in lower case, its place, and where its raw content ends.

    The attributes are between `start` and `end`, at which there is `>`. One without a name is none.
    """

    name: bytes
    start: int
    end: int
    raw_end: int


def tags_of(page: bytes, step: int) -> Iterator[Tag]:
    """Yields the tags with which elements begin, and something each `step` bytes. What has no end is none, nor is what follows it."""
    at, yielded, foreign = 0, 0, 0
    while (found := _TOKEN.search(page, at)) and found[3]:
        name, at = (found[2] or b"").lower(), found.end()
        if name == b"plaintext":
            return
        if name in _FOREIGN and page[at - 2 : at] != b"/>":
            foreign = max(foreign + (-1 if found[1] else 1), 0)
        if found[1] or not name:
            if at - yielded > step:
                yielded = at
                yield Tag(b"", at, at, at)
            continue
        start = found.end(2)
        if name in _RAW_ENDS and not (foreign and (page[at - 2 : at] == b"/>" or name != b"style")):
            end = _RAW_ENDS[name].search(page, at)
            assert end is not None
            at = end.start()
        yielded = at
        yield Tag(name, start, found.start(3), at)


def attributes_of(tag: bytes) -> dict[str, str]:
    """Returns the attributes of a tag, of which the first one of a name counts."""
    found: dict[str, str] = {}
    for each in ATTRIBUTE.finditer(tag):
        found.setdefault(each[1].lower().decode(errors="replace"), value_of(each[2] or b""))
    return found


def value_of(value: bytes) -> str:
    """Returns the value of an attribute without its quotes, references and outer blanks. A long one is left out."""
    if len(value) > MOST_VALUE:
        return ""
    if value[:1] in (b'"', b"'"):
        value = value[1:-1]
    text = value.decode(errors="replace")
    return (_REFERENCE.sub(_referred, text) if "&" in text else text).strip(" \t\r\n\f")


def _referred(found: "re.Match[str]") -> str:
    """Returns the characters of a reference. Without `;` before `=` or a letter, as in `?a&copy=b`, it is none."""
    return html5.get(found[1], found[0]) if found[1] else html.unescape(found[0])
