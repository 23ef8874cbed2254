"""What a request asks for: a query of the program, and what the gateway does with its captures."""
from enum import Enum
from typing import NamedTuple, Optional

from warcdx import FIELDS

from .conditions import Condition
from .parameters import PYWB_NAMES, Form, Given
from .refusal import Refusal
from .rows import GROUPED, ORIGINALS, UNKNOWN, Output
from .settings import Limits

MOST_QUERY = 65_536  # bytes
BLOCK = 3000  # captures of a usual length: the unit of `pageSize`
LINE = 300  # bytes of a usual line
USUAL_SIZE = 5  # blocks of a page
TARGET = ("url", "key", "matchType", "from", "to")  # parameters that the program gets unchanged
RESOLVED = ("mimetype", "statuscode")  # fields that a revisit has of its original
TO_PYWB = {name: other for other, name in PYWB_NAMES.items()}
USUAL = list(FIELDS[:7])
ADDING = {
    "showGroupCount": "groupcount",
    "showUniqCount": "uniqcount",
    "lastSkipTimestamp": "endtimestamp",
    "showSkipCount": "skipcount",
}  # flags, each of which adds a column


class Order(Enum):
    """In which order captures are given."""

    FORWARD = "forward"
    LAST = "last"  # the last ones, forward
    REVERSE = "reverse"
    CLOSEST = "closest"  # the nearest to a time first


class PageNumber(NamedTuple):
    """A page of some blocks, by its number from 0."""

    number: int
    blocks: int

    @property
    def size(self) -> int:
        """The bytes of the indexes on a page, about."""
        return self.blocks * BLOCK * LINE


class Target(NamedTuple):
    """Which captures a request is about, before its filters: what `query` selects, from one time to another.

    It has a `url`, without the stars that say how it is matched, or a `key`.
    """

    query: str
    match: str
    url: str
    key: Optional[str]
    first: str
    last: str

    @property
    def ranged(self) -> str:
        """The query for the captures of one range of places: the times are one for a single key alone."""
        names = ("from", self.first), ("to", self.last)
        times = "".join(f"&{name}={value}" for name, value in names if value)
        return self.query + times * (self.match == "exact")


class Plan:
    """What a request asks for, and what of it the program does.

    If `is_plain`, the program does all of it: the answer is the page of the query `text`, with the
    limit and the resume keys. If not, the gateway does the rest with the captures of the query
    `selected`. `fields` are pairs of a column and its name in the answer. Unless `is_open`, some
    captures aren't shown, and the gateway leaves them out before anything else is done.
    """

    def __init__(self, given: Given, limits: Limits, is_open: bool) -> None:
        """Raises Refusal for parameters that exclude each other or that the settings refuse."""
        self.form = given.form
        self.resolves = given.is_true("resolveRevisits")
        self.counts_duplicates = given.is_true("showDupeCount")
        self.counts_pages = given.is_true("showNumPages")
        self.shows_key = given.is_true("showResumeKey")
        self.closest = given.values.get("closest", "")
        self.skip = int(given.values.get("offset", "0"))
        key = given.pieces.get("resumeKey")
        self.resume_key = None if key is None else key.partition("=")[2]
        is_pywb = self.form is Form.PYWB
        output = given.values.get("output", "cdxj" if is_pywb else "text")
        self.output = Output.LINES if is_pywb and output == "json" else Output(output)
        self.order, self.limit = order_of(given, limits)
        names = self._names(given)
        asked = set(names)
        self.groups = not asked.isdisjoint(GROUPED)
        self.fields = [(PYWB_NAMES.get(name, name), name) for name in names]
        if is_pywb and self.output is Output.LINES:
            self.fields = [(column, TO_PYWB.get(column, column)) for column, _ in self.fields]
        if self.output is Output.CDXJ and (self.resolves or self.counts_duplicates):
            name = "resolveRevisits" if self.resolves else "showDupeCount"
            raise given.bad("BadOutput", "output", f"a line of an index is given without {name}")
        self.page = page_of(given, limits)
        pieces = [piece for name, piece in given.pieces.items() if name in TARGET]
        self.conditions: list[Condition] = []  # that the gateway checks
        for condition, piece in given.conditions:
            if not piece or (self.resolves and condition.field in RESOLVED):
                self.conditions.append(condition)
            else:
                pieces.append(piece)
        self.target = target_of(given)
        self.uncollapsed = "&".join(pieces)
        in_program = self._program_collapse(given)
        self.program_collapse = in_program if is_open else ""
        pieces += [self.program_collapse] if self.program_collapse else []
        self.collapses = [] if self.program_collapse else given.collapses
        # The program knows what such a collapse needs of the capture before by the resume key alone.
        self.collapses_places = bool(in_program)
        in_order = self.order is Order.FORWARD
        if self.skip and (self.page is not None or not in_order):
            cause = "it is for captures in the order of the index, without page"
            raise Refusal("BadPage", "offset", cause, str(self.skip))
        self.selected = "&".join(pieces)
        columns = [column for column, _ in self.fields]
        if "fl" in given.values or columns != USUAL:
            pieces.append("fl=" + ",".join(columns))
        if self.output is not Output.TEXT:
            pieces.append(f"output={self.output.value}")
        self.text = "&".join(pieces)
        has_steps = self.conditions or self.collapses or self.resolves or self.counts_duplicates
        is_renamed = self.output is Output.JSON and columns != names
        is_changed = has_steps or self.skip or not is_open or is_renamed or not asked.isdisjoint(UNKNOWN)
        self.is_plain = in_order and not is_changed and self.output is not Output.LINES

    def _names(self, given: Given) -> list[str]:
        """Returns the names of the columns, as the request has them."""
        is_pywb, text = self.form is Form.PYWB, given.values.get("fl")
        names = text.split(",") if text is not None else [*(FIELDS if is_pywb else USUAL)]
        if self.counts_duplicates and "dupecount" not in names:
            names.append("dupecount")
        if self.resolves and is_pywb and text is None:
            names += ORIGINALS
        for flag, column in ADDING.items():
            if given.is_true(flag) and column not in names:
                names.append(column)
        asked = set(names)
        is_single = len(given.collapses) == 1 and self.output is not Output.CDXJ
        if not is_single and not asked.isdisjoint(GROUPED):
            raise Refusal("BadField", "fl", "one collapse is needed", ",".join(names))
        if not self.counts_duplicates and "dupecount" in asked:
            raise Refusal("BadField", "fl", "showDupeCount=true is needed", "dupecount")
        if not self.resolves and not asked.isdisjoint(ORIGINALS):
            raise Refusal("BadField", "fl", "resolveRevisits=true is needed", ",".join(names))
        return names

    def _program_collapse(self, given: Given) -> str:
        """Returns the piece of the collapse if the program does it, or nothing."""
        if len(given.collapses) != 1 or self.conditions or self.groups:
            return ""
        (collapse,) = given.collapses
        if collapse.field == "urlkey" and collapse.count is None:
            return "collapse=urlkey"
        if collapse.field == "timestamp" and (collapse.count is None or collapse.count <= 14):
            return "collapse=timestamp" + (f":{collapse.count}" if collapse.count else "")
        return ""

    @property
    def is_array(self) -> bool:
        """Whether the answer is an array of rows, which is empty without captures."""
        return self.output is Output.JSON and not self.counts_pages

    @property
    def first_query(self) -> str:
        """The query for the first capture of the answer, at most: the program refuses it as it does the whole."""
        if self.is_plain:
            return self.plain_query(self.resume_key, 1)
        return with_key(f"{self.selected}&limit=1", self.resume_key)

    def plain_query(self, resume_key: Optional[str], limit: Optional[int]) -> str:
        """Returns the query whose page is the answer."""
        pieces = [self.text]
        if resume_key is not None:
            pieces.append(f"resumeKey={resume_key}")
        if self.shows_key:
            pieces.append("showResumeKey=true")
        if limit is not None:
            pieces.append(f"limit={limit}")
        return "&".join(piece for piece in pieces if piece)


def with_key(query: str, key: Optional[str]) -> str:
    return query if key is None else f"{query}&resumeKey={key}"


def plan_of(query: str, form: Form, limits: Limits, is_open: bool) -> Plan:
    """Returns what a query text selects.

    Raises Refusal, for the first parameter that is at fault.
    """
    if len(query.encode()) > MOST_QUERY:
        raise Refusal("QueryTooLong", "", f"a query has at most {MOST_QUERY} bytes")
    given = Given(form, limits)
    for piece in query.replace("\r", "%0D").replace("\n", "%0A").split("&"):
        if piece:
            given.add(piece)
    return Plan(given, limits, is_open)


def order_of(given: Given, limits: Limits) -> tuple[Order, Optional[int]]:
    """Returns the order, and the limit, which is positive."""
    text = given.values.get("limit")
    if text is None and given.is_true("fastLatest"):
        text = "-1"
    usual = limits.usual if "page" not in given.values else 0  # a page has its own size, and all of them are the answer
    limit = usual or None if text is None else min(abs(int(text)), limits.largest)
    order = sort_of(given)
    if text is not None and text.startswith("-"):
        if order is not Order.FORWARD:
            cause = "a negative one and another order exclude each other"
            raise given.bad("BadLimit", "limit", cause)
        order = Order.LAST
    elif given.is_true("fastLatest"):
        cause = "with fastLatest=true it is negative, or isn't given"
        raise given.bad("BadLimit", "limit", cause)
    if order is not Order.FORWARD and limit is not None and limit > limits.held:
        cause = f"in this order it is at most {limits.held}"
        raise given.bad("BadLimit", "limit", cause)
    return order, limit


def sort_of(given: Given) -> Order:
    values, sort = given.values, given.values.get("sort", "default")
    if given.is_true("reverse"):
        sort = "reverse"
    if sort == "closest" and "closest" not in values and "closest" not in given.empty:
        raise Refusal("BadSort", "closest", "sort=closest needs it")
    if "closest" in values and sort != "reverse":
        if given.match()[0] != "exact":
            raise given.bad("BadSort", "closest", "it is for the captures of one address")
        return Order.CLOSEST
    return Order.REVERSE if sort == "reverse" else Order.FORWARD


def page_of(given: Given, limits: Limits) -> Optional[PageNumber]:
    values = given.values
    most = max(limits.largest // BLOCK, 1)
    blocks = int(values.get("pageSize", min(USUAL_SIZE, most)))
    if blocks > most:
        raise given.bad("BadPage", "pageSize", f"this server gives at most {most} blocks")
    if "page" not in values and not given.is_true("showNumPages"):
        return None
    for name in ("resumeKey", "closest", "fastLatest"):
        if name in values and values[name] != "false":
            raise given.bad("BadPage", name, "it excludes page and showNumPages")
    for name, bad in (("limit", "-"), ("sort", "r"), ("reverse", "t")):
        if values.get(name, "").startswith(bad) and values[name] != "regular":
            raise given.bad("BadPage", name, "pages are in the order of the index")
    return PageNumber(int(values.get("page", "0")), blocks)


def target_of(given: Given) -> Target:
    values = given.values
    match, url = given.match()
    query = "&".join(given.pieces[name] for name in TARGET[:3] if name in given.pieces)
    return Target(query, match, url, values.get("key"), values.get("from", ""), values.get("to", ""))
