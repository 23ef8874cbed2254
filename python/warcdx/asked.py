"""What the parameters of a call of `Index` ask for, and which one of a query the program refuses: its reply has the cause alone."""
import inspect
import re
from collections.abc import Callable, Mapping
from typing import Any, NamedTuple, Optional, TypedDict, TypeVar
from urllib.parse import unquote_plus

from .errors import expect_type, number_of
from .fields import FIELDS
from .query import MOST_LIMIT, Query, Texts, Value
from .reported import refused
from .stamps import Moment, stamp_of

_Call = TypeVar("_Call", bound=Callable[..., Any])
_QUERY_TEXT = re.compile("&*[A-Za-z0-9%+_]*[=&]")  # how a query text begins, and no URL does
_TARGETS = {"url", "key", "matchType"}
_REPEATABLE = ("filter", "is", "isnot", "has", "hasnot")
_ONCE = ("url", "key", "matchType", "from", "to", "limit", "resumeKey", "showResumeKey", "fl", "output", "collapse")
NAMES = frozenset(_ONCE + _REPEATABLE)
# The parameter of each cause that only one can have.
_ONLY = {
    "BadMatch": "matchType",
    "NotLiteral": "filter",
    "BadLimit": "limit",
    "BadResume": "resumeKey",
    "BadFlag": "showResumeKey",
    "BadField": "fl",
    "BadOutput": "output",
    "BadCollapse": "collapse",
    "BadUrl": "url",
}
_STAMP = re.compile("[0-9]{1,14}")
_LIMIT = re.compile("[0-9]{1,7}")


class Selection(TypedDict, total=False):
    """The parameters of a call that select captures, besides a URL. The docstring of `Index` says what they are."""

    match: Optional[str]
    since: Moment
    until: Moment
    filter: Optional[Texts]
    limit: Optional[int]
    query: Optional[str]
    key: Optional[str]
    matchType: Optional[str]
    from_: Moment
    to: Moment
    is_: Optional[Texts]
    isnot: Optional[Texts]
    has: Optional[Texts]
    hasnot: Optional[Texts]
    collapse: Optional[str]
    resumeKey: Optional[str]


def selecting(call: _Call) -> _Call:
    """Gives a call that takes a Selection the signature that its types say, for help and completion."""
    found = inspect.signature(call)
    named = [inspect.Parameter(name, inspect.Parameter.KEYWORD_ONLY, annotation=kind) for name, kind in Selection.__annotations__.items()]
    parameters = [*list(found.parameters.values())[:-1], *(each.replace(default=None) for each in named)]
    setattr(call, "__signature__", found.replace(parameters=parameters))
    return call


class Asked(NamedTuple):
    """A query, and how many captures it is to give at most, or None for all. The query itself has no limit then."""

    query: Query
    limit: Optional[int]

    @classmethod
    def of(cls, url: Optional[str], selection: Mapping[str, Any]) -> "Asked":
        """Returns what parameters ask for: all captures, if they have no URL, no key and no query text.

        Raises the refusal Unknown for a name that no parameter has, and BadStamp for what is no date.
        """
        others = dict(selection)
        query, match, since, until, limit = (others.pop(name, None) for name in ("query", "match", "since", "until", "limit"))
        for name in others:
            if name.rstrip("_") not in NAMES:
                raise refused("Unknown", name)
        for name, text in (("url", url), ("query", query)):
            expect_type(name, text, (str, type(None)), "a text")
        given: dict[str, Value] = {"url": url, "matchType": match}
        if url is query is match is None and not _TARGETS & others.keys():
            given = {"key": "", "matchType": "prefix"}
        elif url is not None and (not url or _QUERY_TEXT.match(url)):
            given["url"], query = None, url if query is None else f"{query}&{url}"
        for name, said, moment in (("from", "since", since), ("to", "until", until)):
            if moment is not None:
                given[name] = stamp_of(said, moment)
        return cls._with_limit(Query.of(query, {**given, **others}), limit)

    @classmethod
    def _with_limit(cls, query: Query, limit: Optional[int]) -> "Asked":
        """Takes the limit out of a query, unless it is to be refused."""
        if limit is not None and not isinstance(limit, str):
            limit = number_of("limit", limit)
        if isinstance(limit, int) and limit > 0 and query.take("limit")[0] is None:
            return cls(query, limit)
        query = query.with_parameters(limit=limit)
        value, rest = query.take("limit")
        digits = unquote_plus(value or "")
        is_good = _LIMIT.fullmatch(digits) and 1 <= int(digits) <= MOST_LIMIT and rest.take("limit")[0] is None
        return cls(rest, int(digits)) if is_good else cls(query, None)


def parameter_of(cause: str, query: Query) -> Optional[str]:
    """Returns the name of the parameter that a query is refused for, or None if the cause isn't that of one.

    The program reads the parameters from left to right. So it is the first one that has the cause.
    """
    if cause in _ONLY:
        return _ONLY[cause]
    is_refused = _CHECKS.get(cause, lambda *_: False)
    before = set[str]()
    for piece in query.pieces:
        name, _, value = piece.partition("=")
        name = unquote_plus(name)
        if is_refused(name, unquote_plus(value), before):
            return name
        before.add(name)
    return None


def _is_bad_filter(name: str, value: str) -> bool:
    condition = value[1:] if name == "filter" and value.startswith("!") else value
    field, colon, _ = condition.partition(":")
    return name in _REPEATABLE and (not colon or field not in FIELDS)


# Whether a cause is that of a parameter, by its name, its value and the names before it.
_CHECKS: dict[str, Callable[[str, str, set[str]], bool]] = {
    "Unknown": lambda name, value, before: name not in NAMES,
    "RepeatedParameter": lambda name, value, before: name in _ONCE and name in before,
    "BadStamp": lambda name, value, before: name in ("from", "to") and not _STAMP.fullmatch(value),
    "BadFilter": lambda name, value, before: _is_bad_filter(name, value),
}
