"""Drawings of how many captures years and days have, in SVG, and the same as tables.

Each year or day with captures is a link with a name of its own, in the order of time, so that the
keyboard and a screen reader reach it. The drawings are no pictures to them, but groups of links.
"""
import calendar
import datetime
import math
from collections.abc import Mapping
from typing import Optional

from . import dates
from .counting import Counts
from .layout import card, row, table
from .markup import Child, Markup, element, joined
from .searching import Search

LEVELS = 4
MOST_YEARS = 100  # that are drawn
_MOST_GAP = 60  # years that are drawn without a gap left out
_WIDTH, _BAR_HEIGHT, _TOP, _BOTTOM = 960, 96, 18, 20  # pixels
_LEAST_BAR, _MOST_BAR = 34, 40
_DAY, _ROW, _WEEKS_TOP = 32, 28, 24


def years_of(counts: Counts) -> list[int]:
    """Returns the years that are drawn.

    These are all from the first to the last, or those with captures if these are far apart.
    """
    found = sorted(int(year) for year in counts.years)
    if found and found[-1] - found[0] < _MOST_GAP:
        return list(range(found[0], found[-1] + 1))
    return found[:MOST_YEARS]


def years_card(counts: Counts, search: Optional[Search], chosen: str = "") -> Markup:
    """Returns the captures of all years, drawn and as a table."""
    return card("Years", draw_years(counts, search, chosen), years_table(counts, search))


def draw_years(counts: Counts, search: Optional[Search], chosen: str = "") -> Markup:
    """Returns the bars of all years, each a link to the captures of its year in a search."""
    years, most = years_of(counts), max(counts.years.values(), default=1)
    bar = min(_MOST_BAR, max(_LEAST_BAR, _WIDTH // max(1, len(years))))
    bottom = _TOP + _BAR_HEIGHT
    bars = (
        element(
            "svg",
            element("line", x1=0, x2=bar, y1=bottom, y2=bottom, class_="axis"),
            _bar(bar, f"{year:04}", counts.years[f"{year:04}"], most, search, chosen),
            viewBox=f"0 0 {bar} {bottom + _BOTTOM}",
            width=bar,
            height=bottom + _BOTTOM,
            class_="chosen" if f"{year:04}" == chosen else None,
            role="presentation",
        )
        for year in years
    )
    name = "Captures of each year"
    drawing = element("div", bars, class_="years", role="group", aria_label=name)
    return element("div", drawing, class_="scroll")


def _bar(width: int, year: str, count: int, most: int, search: Optional[Search], chosen: str) -> Markup:
    middle, bottom = width / 2, _TOP + _BAR_HEIGHT
    name = element("text", year, x=middle, y=bottom + 15, class_="year")
    if not count:
        return element("g", name, class_="none", aria_hidden="true")
    height = max(2, round(_BAR_HEIGHT * count / most))
    words = f"{year}: {dates.many(count, 'capture')}"
    drawn = joined(
        element("title", words),
        element("rect", x=0, y=0, width=width, height=bottom + _BOTTOM, class_="reach"),
        element("rect", x=4, y=bottom - height, width=width - 8, height=height, class_="bar"),
        element("text", short(count), x=middle, y=bottom - height - 4, class_="count"),
        name,
    )
    if search is None:
        return element("g", drawn, role="img", aria_label=words)
    return element(
        "a", drawn, href=search.link("search", "year", year=year), aria_label=words, aria_current="true" if year == chosen else None
    )


def short(count: int) -> str:
    """Returns a count in at most four characters: `950`, `1.2k`, `23k`, `1.0M`."""
    for size, letter in ((1, ""), (1_000, "k"), (1_000_000, "M")):
        value = count / size
        if letter and value < 9.95:
            return f"{value:.1f}{letter}"
        if value < 999.5:
            return f"{value:.0f}{letter}"
    return "1G+"


def years_table(counts: Counts, search: Optional[Search]) -> Markup:
    """Returns the years with captures, and how many each has."""
    names = {"year": "Year", "count": "Captures"}

    def year_of(year: str) -> Child:
        return element("a", year, href=search.link("search", "year", year=year)) if search else year

    rows = (row(names, year_of(year), f"{count:,}") for year, count in sorted(counts.years.items()))
    return _details("The years as a table", table("Captures of each year", names, rows, "counts"))


def draw_year(year: int, counts: Counts, search: Search) -> Markup:
    """Returns the twelve months of a year. Each day with captures is a link to their list."""
    days = {day: count for day, count in counts.dated.items() if day.year == year}
    most = max(days.values(), default=1)
    months = (_draw_month(year, month, days, most, search) for month in range(1, 13))
    return element("div", months, class_="months")


def _draw_month(year: int, month: int, days: Mapping[datetime.date, int], most: int, search: Search) -> Markup:
    name = dates.MONTHS[month - 1]
    first, length = calendar.monthrange(year, month)
    of_month = [((first + number) // 7, datetime.date(year, month, number + 1)) for number in range(length)]
    total = sum(days.get(day, 0) for _, day in of_month)
    letters = (
        element("text", letter, x=_DAY * (number + 0.5), y=15, class_="weekday", aria_hidden="true")
        for number, letter in enumerate("MTWTFSS")
    )
    cells = (_draw_day(day, week, days.get(day, 0), most, search) for week, day in of_month)
    words = f"{name} {year}: {dates.many(total, 'capture') if total else 'no captures'}"
    drawing = element(
        "svg",
        letters,
        cells,
        viewBox=f"0 0 {7 * _DAY} {_WEEKS_TOP + 6 * _ROW}",
        class_="month",
        role="group" if total else "img",
        aria_label=words,
    )
    return element("section", element("h3", name), drawing, class_="month")


def _draw_day(day: datetime.date, week: int, count: int, most: int, search: Search) -> Markup:
    x, y = day.weekday() * _DAY, _WEEKS_TOP + week * _ROW
    number = element("text", day.day, x=x + _DAY / 2, y=y + 18, class_="day" if count else "none", aria_hidden=None if count else "true")
    if not count:
        return number
    words = f"{dates.full_day(day)}: {dates.many(count, 'capture')}"
    digits = f"{day:%m%d}"
    return element(
        "a",
        element("title", words),
        element("rect", x=x + 2, y=y + 1, width=_DAY - 4, height=_ROW - 4, rx=5, class_=f"level{level(count, most)}"),
        number,
        href=search.within(f"{day.year:04}{digits}").link("captures"),
        aria_label=words,
    )


def level(count: int, most: int) -> int:
    """Returns how dark a day is drawn, from 1 to LEVELS, by the logarithm of its captures."""
    if most <= 1:
        return 1
    return 1 + math.floor((LEVELS - 1) * math.log(count) / math.log(most) + 1e-9)


def legend(counts: Mapping[datetime.date, int]) -> Child:
    """Returns what the shades of days mean."""
    most = max(counts.values(), default=0)
    if most <= 1:
        return None
    shades = (element("rect", x=22 * number, y=1, width=18, height=14, rx=4, class_=f"level{number + 1}") for number in range(LEVELS))
    drawing = element("svg", shades, viewBox="0 0 84 16", width=84, height=16, aria_hidden="true", class_="legend")
    return element("p", "A day with 1 capture ", drawing, f" to {most:,}", class_="help")


def days_table(year: int, counts: Counts, search: Search) -> Markup:
    """Returns the days of a year with captures, and how many each has."""
    names = {"day": "Day", "count": "Captures"}
    days = sorted((day, count) for day, count in counts.dated.items() if day.year == year)
    rows = (
        row(names, element("a", dates.full_day(day), href=search.within(f"{day.year:04}{day:%m%d}").link("captures")), f"{count:,}")
        for day, count in days
    )
    return _details("The days as a table", table(f"Captures of each day of {year}", names, rows, "counts"))


def _details(summary: str, content: Markup) -> Markup:
    return element("details", element("summary", summary), content)
