"""Queries over indexes, by runs of `warcdx serve` that are kept."""
import contextlib
import itertools
import queue
import weakref
from collections.abc import Callable, Generator, Iterable, Iterator, Sequence
from typing import TYPE_CHECKING, Any, NoReturn, Optional, Union

from .asked import Asked, Selection, parameter_of, selecting
from .errors import Refused, expect_type, number_of
from .fields import FIELDS
from .index_files import open_files
from .iterators import Again
from .program import Path, find_program, operands
from .query import MOST_LIMIT, Capture, Page, Query, RowPage, fits, in_bytes, length_of, one_line, rows_query, split_rows
from .reported import refused
from .serve import Serve

if TYPE_CHECKING:
    from typing_extensions import Unpack

PAGE_SIZE = 5000  # captures that an iterator holds at a time
_VALUES: dict[str, Callable[[str], object]] = {"length": length_of, "offset": int}


class Index:
    """One or more indexes, which are queried as one. It iterates over all captures.

    Each is a file, or a folder of runs as warcdx-update keeps it. The runs of a folder are those of the moment at which
    the Index is opened, and stay open until it is closed. So it answers from them also after updates.

        with Index("all.cdxj") as index:
            for capture in index.captures("*.example.com", since=2016, filter="statuscode:200"):
                print(capture.timestamp, capture.original)

    These parameters of its calls say which captures a query selects. Without any it selects all.

    - `url`: a URL, such as `http://example.com/a`; all that begin with a URL, `example.com/a*`; or those of a host and
      of the hosts below it, `*.example.com`
    - `match`: `exact`, `prefix`, `host` or `domain`; without it the stars of `url` decide
    - `since`, `until`: the first and the last year, month, day or second. A date, a datetime, an ISO text, or the
      first digits of a timestamp, as `2016` or `"20160919"`. A time without a zone is in UTC, and None is no bound
    - `filter`: `field:text` or `!field:text`, or several of them: captures of which a field is this text, or isn't
    - `limit`: how many captures at most
    - `query`: a query text of docs/QUERY.md; it may also stand in the place of `url`
    - `page_size`: how many captures are held at a time

    Any other parameter of docs/QUERY.md may be given by its name there, such as `collapse`, `has`, `key` or
    `matchType`. One that is a word of Python is written `from_` or `is_`. One that may be repeated takes a list.

    The constructor raises `faults.CannotOpen` if an index can't be opened, `faults.Read` if it is a pipe, and
    `faults.BadLine` if a file isn't an index, with what it is as its `advice`. A query that the program refuses raises the class of `warcdx.refusals` that is named as the program names the cause, and an index that is at
    fault one of `warcdx.faults`. A query whose program ends before its reply is whole is asked once more, and
    raises ProgramEnded if that ends too. After each of these the next query is answered as usual.

    Threads may share an Index. `processes` is how many queries are answered at a time. A process is
    started when it is first needed. Other processes need an Index of their own.

    `seconds` is how long a reply may take, and `most` how many bytes it may have; None is no bound. The program
    of a reply beyond them is ended, and ReplyTooLate or ReplyTooLong is raised. An iterator reads a reply for
    each page.
    """

    def __init__(
        self,
        paths: Union[Path, Iterable[Path]],
        *,
        program: str = "warcdx",
        processes: int = 1,
        seconds: Optional[float] = None,
        most: Optional[int] = None,
    ) -> None:
        processes = number_of("processes", processes)
        if processes < 1:
            raise ValueError("processes has to be 1 or more")
        expect_type("seconds", seconds, (int, float, type(None)), "a number")
        most = None if most is None else number_of("most", most)
        names = operands(paths)
        if not names:
            raise ValueError("no index is given")
        self._program = find_program(program)
        with contextlib.ExitStack() as stack:
            self._files = open_files(names, self._program, stack)
            self._close_files = weakref.finalize(self, stack.pop_all().close)
        self.seconds = seconds
        self.most = most
        self.waits: Callable[[], None] = lambda: None  # is called while a reply is waited for, if `seconds` is given
        self._processes = processes
        self._is_closed = False
        self._idle: list[Serve] = []  # the last one that was used is used next, so that no more are started than are needed
        # One for each query that may be answered at a time. This queue is one that an interrupt, as of a notebook, takes nothing from.
        self._turns: queue.SimpleQueue[bool] = queue.SimpleQueue()
        for _ in range(processes):
            self._turns.put(True)
        self._streaming: weakref.WeakSet[Serve] = weakref.WeakSet()  # those of streams that are half read

    @selecting
    def captures(
        self, url: Optional[str] = None, *, page_size: Optional[int] = PAGE_SIZE, **selection: "Unpack[Selection]"
    ) -> Iterator[Capture]:
        """Yields the captures that a query selects, in order: as many as `limit`, or all.

        They are read page by page, and `page_size` of them are held at a time, or more if the keys at the ends of
        pages are too long for a query. Other queries are answered meanwhile, however slowly the captures are taken.
        """
        asked = Asked.of(url, selection)
        return Again(Capture.of(row) for rows, _ in self._row_pages(asked, FIELDS, page_size) for row in rows)

    @selecting
    def pages(self, url: Optional[str] = None, *, page_size: Optional[int] = PAGE_SIZE, **selection: "Unpack[Selection]") -> Iterator[Page]:
        """Yields the same captures page by page, each with the resume key of the next page."""
        asked = Asked.of(url, selection)
        return Again(Page(tuple(map(Capture.of, rows)), key) for rows, key in self._row_pages(asked, FIELDS, page_size))

    @selecting
    def page(self, url: Optional[str] = None, *, resume_key: Optional[str] = None, **selection: "Unpack[Selection]") -> Page:
        """Returns one page of at most `limit` captures: the first one, or that after a `resume_key` of another page."""
        if resume_key is not None:
            selection["resumeKey"] = resume_key
        asked = Asked.of(url, selection)
        rows, key = self._page(asked.query, FIELDS, asked.limit)
        return Page(tuple(map(Capture.of, rows)), key)

    @selecting
    def rows(
        self,
        fields: Union[str, Sequence[str]],
        url: Optional[str] = None,
        *,
        page_size: Optional[int] = PAGE_SIZE,
        **selection: "Unpack[Selection]",
    ) -> Iterator[list[str]]:
        """Yields the values of these fields of each capture that a query selects, as texts."""
        asked = Asked.of(url, selection)
        return Again(row for rows, _ in self._row_pages(asked, _fields_of(fields), page_size) for row in rows)

    @selecting
    def columns(
        self,
        fields: Union[str, Sequence[str]] = FIELDS,
        url: Optional[str] = None,
        *,
        page_size: Optional[int] = PAGE_SIZE,
        **selection: "Unpack[Selection]",
    ) -> dict[str, list[Any]]:
        """Returns a list for each of these fields: its values of all captures that a query selects, up to `limit`.

        The lists have the order of the captures, and values as those of a Capture. All of them are held in memory.
        """
        asked = Asked.of(url, selection)
        columns: dict[str, list[Any]] = {field: [] for field in _fields_of(fields)}
        for rows, _ in self._row_pages(asked, tuple(columns), page_size):
            for column, values in zip(columns.values(), zip(*rows)):
                column.extend(values)
        for field in columns.keys() & _VALUES.keys():
            columns[field] = list(map(_VALUES[field], columns[field]))
        return columns

    @selecting
    def count(self, url: Optional[str] = None, **selection: "Unpack[Selection]") -> int:
        """Returns how many captures a query selects, up to `limit`."""
        asked = Asked.of(url, selection)
        return sum(len(rows) for rows, _ in self._row_pages(asked, ("offset",), PAGE_SIZE))

    def __iter__(self) -> Iterator[Capture]:
        """Yields all captures."""
        return self.captures()

    def __contains__(self, url: object) -> bool:
        """Returns whether there is a capture of a URL."""
        if not isinstance(url, str):
            raise TypeError(f"`in` takes a URL, and not {url!r:.60}")
        return self.count(url, match="exact", limit=1) > 0

    def text(self, query: str) -> bytes:
        """Returns a page as `warcdx query` writes it."""
        line, asked = _line_of(query), Query.of(query, {})
        with self._turn(asked) as serve:
            return serve.text(line, asked.has("output", "json"), self.seconds, self.most)

    def stream(self, query: str) -> Iterator[bytes]:
        """Yields a page as `warcdx query` writes it, in pieces as the program writes them.

        It is read by one query, which has a process to itself until the last piece is taken or the iterator is
        closed. `seconds` is the time for each piece, and `most` bounds none.
        """
        return Again(self._stream(query))

    def _stream(self, query: str) -> Generator[bytes, None, None]:
        line, asked = _line_of(query), Query.of(query, {})
        with self._lent(asked) as serve, contextlib.closing(serve.stream(line, asked.has("output", "json"), self.seconds)) as pieces:
            self._streaming.add(serve)
            for piece in pieces:
                yield piece
                self._expect_open()
            self._streaming.discard(serve)

    def _expect_open(self) -> None:
        if self._is_closed:
            raise ValueError("the Index is closed")

    def __repr__(self) -> str:
        return f"Index({self._files.names!r:.200})"

    def __reduce__(self) -> NoReturn:
        raise TypeError("an Index isn't copied, or sent to another process; open another one there")

    def close(self) -> None:
        """Ends the processes, after the queries that are being answered. A second call does nothing more.

        A stream that isn't read to its end is ended too: it raises ValueError then.
        """
        self._is_closed = True
        for serve in list(self._streaming):
            serve.close()
        taken = list[bool]()
        try:
            while len(taken) < self._processes:
                taken.append(self._turns.get())
            while self._idle:
                self._idle.pop().end()
            self._close_files()
        finally:
            for turn in taken:
                self._turns.put(turn)

    def __enter__(self) -> "Index":
        return self

    def __exit__(self, *error: object) -> None:
        self.close()

    def _row_pages(self, asked: Asked, fields: Sequence[str], size: Optional[int]) -> Generator[RowPage, None, None]:
        """Yields the rows of each page of at most `size` captures, and the resume key of the next page.

        If no query can have that key, the page is read again, longer, and what follows in it is a further page.
        """
        size = PAGE_SIZE if size is None else number_of("page_size", size)
        if size < 1:
            raise ValueError("page_size has to be 1 or more")
        query, left = asked
        length, given = size, 0  # captures of the page, and how many of these were yielded
        while True:
            is_rest = left is not None and left <= min(length, MOST_LIMIT)
            rows, key = self._page(query, fields, left if is_rest else length if length <= MOST_LIMIT else None)
            rows = rows if left is None else rows[:left]
            is_last = key is None or len(rows) == left
            yield rows[given:], key
            if is_last:
                return
            following = query.take("resumeKey")[1].with_parameters(resumeKey=key)
            if fits(following, fields):
                query, left = following, None if left is None else left - len(rows)
                length, given = size, 0
            else:
                length, given = 2 * length, len(rows)

    def _page(self, query: Query, fields: Sequence[str], size: Optional[int]) -> RowPage:
        """Returns the rows of a page of at most `size` captures, and the resume key of the next."""
        asked = rows_query(query, fields, size)
        with self._turn(asked) as serve:
            return split_rows(serve.rows(asked.encoded(), self.seconds, self.most))

    @contextlib.contextmanager
    def _turn(self, query: Query) -> Iterator[Serve]:
        """Yields a process to answer a query, after those that are being answered if these are as many as `processes`."""
        turns = list[bool]()
        try:
            # One step of the interpreter, so that no interrupt comes when a turn is taken, and before it is noted.
            turns.extend(itertools.islice(iter(self._turns.get, None), 1))
            with self._lent(query) as serve:
                yield serve
        finally:
            for turn in turns:
                self._turns.put(turn)

    @contextlib.contextmanager
    def _lent(self, query: Query) -> Iterator[Serve]:
        """Yields a process that was idle, or a new one, to answer a query. A refusal names its parameter."""
        self._expect_open()
        serve = self._last_used()
        try:
            serve.waits = self.waits
            yield serve
        except Refused as error:
            raise refused(error.name, parameter_of(error.name, query)) from None
        finally:
            if self._is_closed or len(self._idle) >= self._processes:
                serve.end()
            else:
                self._idle.append(serve)

    def _last_used(self) -> Serve:
        try:
            return self._idle.pop()
        except IndexError:
            return Serve(self._program, self._files)


def _fields_of(fields: Union[str, Sequence[str]]) -> tuple[str, ...]:
    """Returns the names of fields. A text may have several, between commas."""
    expect_type("fields", fields, Iterable, "a text, or a list of texts")
    names = tuple(map(str.strip, fields.split(","))) if isinstance(fields, str) else tuple(fields)
    for field in names:
        expect_type("a field", field, str, "a text")
    if not names or not set(names) <= set(FIELDS):
        raise refused("BadField", "fields")
    return names


def _line_of(query: str) -> bytes:
    """Returns a query text as the line that is sent for it."""
    expect_type("query", query, str, "a text")
    return in_bytes(one_line(query))
