"""Why a query is refused, by the names that docs/QUERY.md has."""
from .errors import Refused
from .fields import FIELDS


class QueryTooLong(Refused):
    """The text has more than 65,536 bytes."""


class NotText(Refused):
    """The text isn't UTF-8."""


class Unknown(Refused):
    """A name isn't that of a parameter."""

    advice = (
        "the parameters are url, match, since, until, filter, limit and query, and those of a query text: key, "
        "matchType, from_, to, is_, isnot, has, hasnot, collapse and resumeKey"
    )


class RepeatedParameter(Refused):
    """A parameter that may occur once is given twice."""

    advice = "it stands in the query text too, or the call gives it: all but text and stream give output, fl and showResumeKey"


class BadMatch(Refused):
    """A match type isn't one of the four."""

    advice = "match or matchType is exact, prefix, host or domain"


class BadStamp(Refused):
    """`from` or `to` isn't 1 to 14 digits."""

    advice = "since and until are dates, datetimes, ISO texts such as 2016-09-19, or 1 to 14 digits, as from and to are"


class BadFilter(Refused):
    """A condition has no `:`, or is on an unknown field."""

    advice = f"it is FIELD:TEXT, or in a filter !FIELD:TEXT, without a pattern, where FIELD is one of {', '.join(FIELDS)}"


class NotLiteral(Refused):
    """The text of a `filter` has a character of a pattern."""

    advice = "a filter is no pattern; is_ takes any text, and has a part of one"


class BadLimit(Refused):
    """A limit isn't a number from 1 to 1,000,000."""

    advice = "it is 1 or more"


class BadResume(Refused):
    """A resume key isn't that of a place."""

    advice = "it is the resume_key of a page, unchanged"


class BadFlag(Refused):
    """A flag is neither `true` nor `false`."""


class BadField(Refused):
    """`fl` has an unknown field, or an empty one."""

    advice = f"the fields are {', '.join(FIELDS)}"


class BadOutput(Refused):
    """An output isn't `text`, `json` or `cdxj`."""


class BadCollapse(Refused):
    """A value of `collapse` isn't one of the three."""

    advice = "it is urlkey, timestamp or timestamp:N"


class NoUrl(Refused):
    """There is neither `url` nor `key`."""

    advice = "give a url or a key, or no query text at all for all captures"


class UrlAndKey(Refused):
    """There are both `url` and `key`."""


class BadUrl(Refused):
    """An address is refused by the URL Standard, or isn't a web address where it has to be."""

    advice = "it is an address such as example.com/a, example.com/a* or *.example.com; key=&matchType=prefix selects all captures"


BY_NAME: dict[str, type[Refused]] = {kind.__name__: kind for kind in Refused.__subclasses__()}
