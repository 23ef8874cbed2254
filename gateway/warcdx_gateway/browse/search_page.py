"""The page of a search: how many captures there are and when, a calendar, and a list."""
import re

from werkzeug.wrappers import Response

from ..collection import Collection, Source
from . import calendars, dates, lists
from .counting import Counts, count
from .layout import card, collection_page
from .markup import Child, Markup, element, joined
from .searching import Search

_YEAR = re.compile("[0-9]{4}")


def search_page(collection: Collection, search: Search, year: str, after: str) -> Response:
    """Returns the page of a search.

    It has the calendar of a year, for one URL that of the last year with captures by default.
    """
    counts = count(Source(collection), search)
    if not counts.total:
        return collection_page(collection, search.shown, nothing(search), search=search)
    chosen = year if _YEAR.fullmatch(year) else ""
    if search.is_single and not chosen:
        chosen = max(counts.years)
    if search.is_single:
        within = search.within(chosen)
        found = lists.captures(collection, within, after)
        listed = lists.captures_section(found, within, f"Captures in {chosen}")
    else:
        within = search.within(chosen) if chosen else search
        found = lists.addresses(collection, within, after)
        listed = lists.addresses_section(found, within)
    content: list[Child] = [
        heading(search),
        element("p", caption(counts, search)),
        calendars.years_card(counts, search, chosen),
        element("div", _year(counts, search, chosen) if chosen else None, listed, id="year", class_="year-and-list"),
    ]
    return collection_page(collection, search.shown, *content, search=search)


def _year(counts: Counts, search: Search, chosen: str) -> Markup:
    year, total = int(chosen), counts.years[chosen]
    words = f"{chosen}: {dates.many(total, 'capture') if total else 'no captures'}"
    drawn: list[Child] = []
    if total and year:
        days = {day: number for day, number in counts.dated.items() if day.year == year}
        drawn = [calendars.legend(days), calendars.draw_year(year, counts, search)]
        drawn.append(calendars.days_table(year, counts, search))
    return card(words, drawn)


def captures_page(collection: Collection, search: Search, after: str) -> Response:
    """Returns the list of the captures of a search, for example of a day."""
    found = lists.captures(collection, search, after)
    words = "Captures"
    if search.first and search.first == search.last:
        where = "on" if len(search.first) == 8 else "in"
        words += f" {where} {dates.period_in_words(search.first)}"
    back = element("p", element("a", "All years of this search", href=search.ever().link("search")), class_="back")
    listed = lists.captures_section(found, search, words)
    return collection_page(collection, search.shown, heading(search), back, listed, search=search)


def heading(search: Search) -> Markup:
    """Returns the head of a page, with what is searched for."""
    domain, prefix = "Host and all hosts below it", "URLs that begin with"
    what = {"host": "Host", "domain": domain, "prefix": prefix}.get(search.match, domain if search.typed.startswith("*.") else prefix)
    if search.is_single:
        what = "URL"
    return element("hgroup", element("p", what), element("h1", element("bdi", search.shown)))


def caption(counts: Counts, search: Search) -> Markup:
    """Returns how many captures there are, and when; or that not all of them were counted."""
    first, last = min(counts.days), max(counts.days)
    when = f"between {dates.period_in_words(first)} and {dates.period_in_words(last)}"
    if first == last:
        when = f"on {dates.period_in_words(first)}"
    undated = ""
    if counts.undated:
        undated = f" The time of {dates.many(counts.undated, 'capture')} is no date."
    if counts.is_whole:
        return joined(f"{dates.many(counts.total, 'capture')} {when}.{undated}")
    rest = "The captures after these aren't in the drawings. " "Search for a shorter time to count them all."
    order = f"up to {dates.in_words(counts.last)}" if search.is_single else "in the order of their URL keys"
    return element("strong", f"Only the first {counts.total:,} captures were counted, {order}, {when}.{undated} {rest}")


def nothing(search: Search) -> Markup:
    """Returns that there is no capture, and where there may be one."""
    hints: list[Child] = []
    if search.first or search.last:
        hints.append(element("li", element("a", "Search at any time", href=search.ever().link("search"))))
    if search.is_single and search.typed:
        for match, words in (("prefix", "Search for URLs that begin with it"), ("host", "Search the whole host")):
            hints.append(element("li", element("a", words, href=search.ever().link("search", match=match))))
    if search.is_single and "*" in search.typed:
        hints.append(
            element("li", "A * stands for what follows it only at the end of a URL, and for the hosts below one only as *. in front.")
        )
    when = ""
    if search.first or search.last:
        first, last = (dates.typed(each) for each in (search.first, search.last))
        when = f" in the time from {first or 'the first'} to {last or 'the last'}"
    return joined(heading(search), element("p", f"The collection has no capture of this{when}."), element("ul", hints) if hints else None)
