"""The page of a day: of a site with its sessions by EVSE and its stations, or of one station with its sessions."""

from collections.abc import Iterable, Sequence
from dataclasses import dataclass
from datetime import date, timedelta

from markupsafe import Markup

from ocpp_board.energies import kwh, sum_of
from ocpp_board.writers.calendar import Calendar
from ocpp_board.writers.pages.cells import (
    TableRow,
    count,
    draw_bar,
    link,
    name_flows,
    write_flow,
    write_kw,
)
from ocpp_board.writers.pages.context import Context
from ocpp_board.writers.pages.day_book import DayFacts, find_peak
from ocpp_board.writers.pages.facts import Found, Period, Site
from ocpp_board.writers.pages.lanes import MOST_LANES, draw_lanes, group_lanes
from ocpp_board.writers.pages.month_pages import make_day_columns, write_peak
from ocpp_board.writers.pages.pictures import Scale, draw_day
from ocpp_board.writers.pages.sessions import group_findings, make_session_table
from ocpp_board.writers.tables import name_figure

# Stations of a page, and sessions of a station's day.
MOST_STATIONS, MOST_SESSIONS = 200, 200


@dataclass(frozen=True)
class DayPart:
    """What a page shows of a day: its picture, and the table of its periods."""

    whose: str
    day: date
    said: str
    peak: Markup
    picture: Markup
    heads: Sequence[str]
    rows: Markup


def has_export(periods: Sequence[Period]) -> bool:
    """Whether something was fed back in one of these periods."""
    return any(p.flow.export_up or p.flow.export_down for p in periods)


def make_day(whose: str, day: date, periods: Sequence[Period], calendar: Calendar) -> DayPart:
    """Makes the picture and the table of a day."""
    exports = has_export(periods)
    flow = sum_of(p.flow for p in periods) if periods else None
    energies = write_flow(flow, exports) if flow else []
    cells = (f"{head.lower()} {cell} kWh" for head, cell in zip(name_flows(exports), energies))
    said = ", ".join([count(len(periods), "period"), *cells])
    label = f"Bars. {whose} on {day}: {said}. The table has the numbers."
    return DayPart(
        whose,
        day,
        said,
        write_peak(find_peak(periods), calendar),
        draw_day(label, day, periods, Scale(p.flow for p in periods), calendar),
        make_heads(calendar, exports),
        Markup("".join([write_period(p, calendar, exports) for p in periods])),
    )


def make_heads(calendar: Calendar, exports: bool) -> list[str]:
    """Makes the heads of a table of periods."""
    utc = [] if calendar.is_utc else ["From (UTC)"]
    return [f"Period ({calendar.name})", *utc, *name_flows(exports), "kW", "Figure"]


def write_period(p: Period, calendar: Calendar, exports: bool) -> str:
    """Writes the row of a period: when it is, its other cells, and what is doubtful. It leaves out what HTML lets be
    left out."""
    cells = [] if calendar.is_utc else [f"{p.start:%H:%M}"]
    cells += [*write_flow(p.flow, exports), write_kw(p.flow.net, p.seconds)]
    doubts = [name_figure(p.estimated, p.by_values)] if p.estimated else []
    if doubts and p.by_values == p.estimated:
        doubts = [f"{doubts[0]}: {kwh(p.shared)} kWh"]
    doubts += ["numbers missing"] if p.numbers_missing else []
    doubt = f'<td class="doubt">{", ".join(doubts)}' if doubts else "<td>"
    times = calendar.times(p.start, p.seconds)
    return f'<tr><th scope="row">{times}<td>{"<td>".join(cells)}{doubt}\n'


def link_days(context: Context, site: Site, station: str | None, day: date) -> list[Markup]:
    """Links to the days beside a day, its month, and its site's page of the day."""
    links, month = context.links, day.replace(day=1)
    found = [link(links.month(site.name, station, month), f"{month:%B %Y}")]
    if station is not None:
        found.append(link(links.day(site.name, None, day), f"All stations on {day}"))
    after = context.book.find_from(site, station, day + timedelta(days=1))
    before = context.book.find_before(site, station, day)
    for other, arrow in ((before, "\N{LEFTWARDS ARROW}"), (after, "\N{RIGHTWARDS ARROW}")):
        if other and context.is_shown(other):
            found.append(link(links.day(site.name, station, other), f"{arrow} {other} {other:%a}"))
    return found


def make_station_rows(
    context: Context,
    site: Site,
    day: date,
    stations: Sequence[tuple[str, DayFacts]],
    exports: bool,
) -> list[TableRow]:
    """Makes the rows of a day's stations."""
    most = max((abs(facts.flow.net) for _, facts in stations), default=0)
    rows = list[TableRow]()
    for name, facts in stations:
        kw = write_kw(facts.peak.flow.net, facts.peak.seconds) if facts.peak else ""
        href = link(context.links.day(site.name, name, day), name)
        cells = [href, *write_flow(facts.flow, exports), f"{facts.periods:,}", kw]
        rows.append(TableRow([*cells, draw_bar(facts.flow.net, most)]))
    return rows


def make_day_page(context: Context, site: Site, day: date, number: int = 1) -> tuple[Markup, int]:
    """Makes the page of a day of a site, and says how many stations it has. `number`: that of the page of these."""
    calendar = context.calendar(site)
    known = context.book.read_day(site, day)
    stations, periods = sorted(known.stations), known.list_periods()
    first = (number - 1) * MOST_STATIONS
    names = stations[first : first + MOST_STATIONS]
    shown = [(name, known.find_facts(name)) for name in names]
    exports = has_export(periods)
    sessions = known.list_sessions()
    lanes = group_lanes(sessions)
    label = f"Sessions of site {site.name} on {day} by EVSE: {len(sessions):,}. The table has the stations."
    page = context.render(
        "day.html",
        f"Site {site.name},",
        calendar,
        context.lead_up(site),
        f"{day:%a} {day}",
        steps=link_days(context, site, None, day),
        hours=calendar.seconds(day) / 3600,
        day=day,
        part=make_day(f"Site {site.name}", day, periods, calendar),
        lanes=draw_lanes(label, lanes, day, calendar, context.links, known.drawn) if lanes else "",
        more_lanes=max(0, len(lanes) - MOST_LANES),
        columns=make_day_columns("Station", exports, 1),
        rows=make_station_rows(context, site, day, shown, exports),
        pages=link_pages(context, site, day, len(stations)),
        number=number,
    )
    return page, len(stations)


def link_pages(context: Context, site: Site, day: date, count: int) -> list[str]:
    """The addresses of the pages of a day with so many stations; none where one page has all."""
    pages = -(-count // MOST_STATIONS)
    return [context.links.day(site.name, None, day, one + 1) for one in range(pages) if pages > 1]


def make_station_day_page(
    context: Context, site: Site, station: str, day: date, found: Iterable[Found]
) -> Markup:
    """Makes the page of a day of a station. `found`: the findings of the station."""
    calendar = context.calendar(site)
    periods = context.book.read_periods(site, station, day)
    sessions = context.book.list_sessions(site, station, day)
    shown = sessions[:MOST_SESSIONS]
    columns, rows = make_session_table(shown, group_findings(found), calendar, context.links)
    lanes = group_lanes(sessions)
    label = (
        f"Sessions of station {station} on {day} by EVSE: {len(sessions):,}. The table has them."
    )
    return context.render(
        "station_day.html",
        f"Station {station},",
        calendar,
        context.lead_up(site, station),
        f"{day:%a} {day}",
        steps=link_days(context, site, station, day),
        hours=calendar.seconds(day) / 3600,
        day=day,
        part=make_day(f"Station {station}", day, periods, calendar),
        lanes=draw_lanes(label, lanes, day, calendar, context.links, {}) if lanes else "",
        columns=columns,
        rows=rows,
        more=len(sessions) - len(shown),
    )
