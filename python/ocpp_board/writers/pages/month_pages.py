"""A month of a site or a station: a heat map of its days by hours, its days, and its weeks as bars."""

from collections.abc import Mapping, Sequence
from dataclasses import dataclass
from datetime import date, timedelta
from typing import NamedTuple

from markupsafe import Markup

from ocpp_board.energies import kwh, sum_of
from ocpp_board.writers.calendar import Calendar, next_month
from ocpp_board.writers.pages.cells import (
    Column,
    TableRow,
    draw_bar,
    join,
    link,
    make_columns,
    name_flows,
    wrap_time,
    write_flow,
    write_kw,
)
from ocpp_board.writers.pages.context import Context
from ocpp_board.writers.pages.day_book import NO_DAY, DayFacts, list_days
from ocpp_board.writers.pages.facts import Period, Site
from ocpp_board.writers.pages.months import draw_month, draw_week, group_weeks
from ocpp_board.writers.pages.pictures import Scale

# Months of a site that are looked for: a clock that is wrong by a century gives no more.
MOST_MONTHS = 1_300
# Weeks that are kept as they were drawn.
MOST_WEEKS = 1_000
NET_BAR = Column("Net as a bar", "bar wide", True)


@dataclass(frozen=True)
class MonthPart:
    """What pages show of a month."""

    name: str
    picture: Markup
    columns: Sequence[Column]
    rows: Sequence[TableRow]
    said: str
    days: Mapping[date, DayFacts]


@dataclass(frozen=True)
class WeekPart:
    """What pages show of a week."""

    name: str
    monday: date
    picture: Markup
    net: str
    peak: str


class WeekFacts(NamedTuple):
    """What the picture of a week depends on: its scale, and its days."""

    up: int
    down: int
    days: Sequence[DayFacts]


def find_months(context: Context, site: Site, station: str | None) -> list[date]:
    """Finds the months in which sessions of a site or a station began or ended, by their first days."""
    known = context.book.months
    if (site.name, station) in known:
        return known[site.name, station]
    found, since = list[date](), max(context.options.first, date(2000, 1, 1))
    while len(found) < MOST_MONTHS:
        day = context.book.find_from(site, station, since)
        if day is None or not context.is_shown(day):
            break
        found.append(day.replace(day=1))
        since = next_month(day)
    if context.book.keeps:
        known[site.name, station] = found
    return found


def find_days(
    context: Context, site: Site, station: str | None, month: date
) -> dict[date, DayFacts]:
    """Finds the days of a month with periods, or on which sessions began or ended."""
    known = {
        day: facts
        for day, facts in context.book.month(site, station, month).items()
        if context.is_shown(day)
    }
    empty = list_days(month)
    while empty := [day for day in empty if day not in known]:
        day = context.book.find_from(site, station, empty[0])
        if day is None or day > empty[-1]:
            break
        if day in empty and context.is_shown(day):
            known[day] = NO_DAY
        empty = [one for one in empty if one > day]
    return dict(sorted(known.items()))


def has_export(days: Mapping[date, DayFacts]) -> bool:
    """Whether something was fed back on some of these days."""
    return any(one.flow.export_up or one.flow.export_down for one in days.values())


def make_day_columns(first: str, exports: bool, shown: int) -> list[Column]:
    """Makes the columns of a table of days. `shown`: how many energies a phone shows, too."""
    flows = name_flows(exports)
    others = [Column(head, "wide") for head in (*flows[shown:], "Periods", "Peak, kW")]
    return make_columns(first, *flows[:shown], *others, NET_BAR)


def write_peak(peak: Period | None, calendar: Calendar, has_day: bool = False) -> Markup:
    """Writes the greatest average power and when it was. `has_day`: with its day."""
    if peak is None:
        return Markup()
    said = f"{write_kw(peak.flow.net, peak.seconds)} kW from {calendar.label(peak.start)}"
    day = [wrap_time(str(calendar.day(peak.start)))] if has_day else []
    return join([said, *day], " on ")


def find_month(context: Context, site: Site, station: str | None, month: date) -> MonthPart | None:
    """Finds what was made of a month, or makes it: the pages of a site or a station and of its month are in one folder,
    so their links are alike. None where it has no days."""
    key = site.name, station, month
    made = context.book.made
    if key not in made:
        made[key] = make_month(context, site, station, month)
    part: MonthPart | None = made[key]
    return part


def make_month(context: Context, site: Site, station: str | None, month: date) -> MonthPart | None:
    """Makes the heat map and the table of a month; None where it has no days."""
    days = find_days(context, site, station, month)
    if not days:
        return None
    calendar = context.calendar(site)
    first, last = min(days), max(days)
    shown = [first + timedelta(days=n) for n in range((last - first).days + 1)]
    rows = [
        context.book.find_heat(site, station, day, days[day] if day in days else NO_DAY)
        for day in shown
    ]
    label = f"Days of {month:%B %Y} by hours, the stronger the more energy. The table has the days."
    peaks = [facts.peak for facts in days.values() if facts.peak]
    peak = max(peaks, key=lambda p: p.flow.net, default=None)
    net = sum_of(facts.flow for facts in days.values()).net if days else 0
    said = [f"{month:%B %Y}: net {kwh(net)} kWh"]
    said += [join(["peak", write_peak(peak, calendar, True)], " ")] if peak else []
    exports = has_export(days)
    return MonthPart(
        f"{month:%B %Y}",
        draw_month(label, rows),
        make_day_columns("Day", exports, 3),
        make_day_rows(context, site, station, days, exports),
        join(said, ", "),
        days,
    )


def make_day_rows(
    context: Context,
    site: Site,
    station: str | None,
    days: Mapping[date, DayFacts],
    exports: bool,
) -> list[TableRow]:
    """Makes the rows of days, the last one first, which lead to their pages."""
    most = max((abs(facts.flow.net) for facts in days.values()), default=0)
    rows = list[TableRow]()
    for day, facts in reversed(days.items()):
        name = link(context.links.day(site.name, station, day), str(day))
        peak = write_kw(facts.peak.flow.net, facts.peak.seconds) if facts.peak else ""
        cells = [join([name, f"{day:%a}"], " "), *write_flow(facts.flow, exports)]
        rows.append(TableRow([*cells, f"{facts.periods:,}", peak, draw_bar(facts.flow.net, most)]))
    return rows


def make_weeks(
    context: Context, site: Site, station: str | None, days: Mapping[date, DayFacts]
) -> list[WeekPart]:
    """Makes the weeks of a month, the last one first."""
    calendar, found = context.calendar(site), list[WeekPart]()
    scale = Scale(hour.flow for facts in days.values() for hour in facts.hours)
    drawn = context.book.weeks
    for monday, some in group_weeks(days):
        key = site.name, station, monday
        shown = WeekFacts(scale.up, scale.down, [days[day] for day in some])
        if key in drawn and drawn[key][0] == shown:
            found.append(drawn[key][1])
            continue
        hours = [hour for day in some for hour in days[day].hours]
        peaks = [p for day in some if (p := days[day].peak)]
        peak = max(peaks, key=lambda p: p.flow.net, default=None)
        year, number, _ = monday.isocalendar()
        label = f"Bars of the hours of week {number}, from {monday} on. The table has the days."
        found.append(
            WeekPart(
                f"Week {number} of {year}",
                monday,
                draw_week(label, monday, hours, scale, calendar),
                kwh(sum(days[day].flow.net for day in some)),
                write_peak(peak, calendar, True),
            )
        )
        if context.book.keeps:
            if len(drawn) == MOST_WEEKS:
                drawn.clear()
            drawn[key] = shown, found[-1]
    return found[::-1]


def make_month_page(
    context: Context, site: Site, station: str | None, month: date
) -> Markup | None:
    """Makes the page of a month of a site or a station; None where it has no days."""
    part = find_month(context, site, station, month)
    if part is None:
        return None
    whose = f"Site {site.name}" if station is None else f"Station {station}"
    months = find_months(context, site, station)
    place = months.index(month) if month in months else None
    before = months[place - 1] if place else None
    after = months[place + 1] if place is not None and place + 1 < len(months) else None
    steps = [
        link(context.links.month(site.name, station, one), f"{arrow} {one:%B %Y}")
        for one, arrow in ((before, "\N{LEFTWARDS ARROW}"), (after, "\N{RIGHTWARDS ARROW}"))
        if one
    ]
    return context.render(
        "month.html",
        f"{whose},",
        context.calendar(site),
        context.lead_up(site, station or ""),
        f"{month:%B %Y}",
        steps=steps,
        month=part,
        weeks=make_weeks(context, site, station, part.days) if len(part.days) > 1 else [],
    )
