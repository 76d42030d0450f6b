"""The pages of all sites and of a site: its figures, problems, months, stations, and sessions with troubles."""

from collections.abc import Iterable, Mapping, Sequence
from dataclasses import dataclass
from datetime import date, datetime, timedelta
from heapq import nsmallest

from markupsafe import Markup

from ocpp_board.energies import kwh, share
from ocpp_board.writers.calendar import Calendar, find_calendar
from ocpp_board.writers.pages.cells import (
    MARK,
    UNKNOWN,
    Column,
    Figure,
    TableRow,
    join,
    link,
    make_columns,
    name_flows,
    wrap_time,
    write_flow,
)
from ocpp_board.writers.pages.context import Context
from ocpp_board.writers.pages.facts import LeftOut, Site, StationSummary, Totals
from ocpp_board.writers.pages.kinds import NAMES, explain, find_place
from ocpp_board.writers.pages.month_pages import find_month, find_months
from ocpp_board.writers.pages.sessions import make_session_table
from ocpp_board.writers.pages.summaries import (
    is_troubled,
    order_stations,
    order_worst,
    sum_totals,
)

# Stations and sessions on a site's page, and stations that a problem links to.
MOST_STATIONS, MOST_SESSIONS, MOST_LINKS = 100, 40, 5
# Stations that are named which are left out.
MOST_LEFT_OUT = 20
PROBLEMS = make_columns("Problem", "Sessions", "Times", " Stations", " What it means")
SITES = make_columns(
    "Site",
    Column("Stations", "wide"),
    "Net, kWh",
    "Sessions",
    "Messages complete",
    "Sessions that lack messages",
    "Refused messages",
    " Data up to",
)
DAY = timedelta(days=1)


def has_export(totals: Totals) -> bool:
    """Whether something was fed back, or an export register fell."""
    return bool(totals.flow.export_up or totals.flow.export_down)


def make_figures(totals: Totals) -> list[Figure]:
    """Makes the figures of a site or a station."""
    exports = has_export(totals)
    flow = zip(name_flows(exports), write_flow(totals.flow, exports))
    complete = share(totals.complete, totals.transactions)
    rows = [(name, f"{cell} kWh", False) for name, cell in flow]
    rows.append(("Sessions", f"{totals.transactions:,}", False))
    if complete:
        lacks = totals.complete < totals.transactions
        rows.append(("Of these", f"{complete} with all messages", lacks))
    return rows + [
        ("Missing numbers", f"{totals.missing:,}", totals.missing > 0),
        ("Voided events", f"{totals.voided:,}", totals.voided > 0),
        ("Events", f"{totals.events:,}", False),
    ]


# All sites ------------------------------------------------------------------------------------------------------------


@dataclass
class SiteFacts:
    """What the page of all sites shows of a site: its last day, and what it lacks of all days."""

    site: Site
    stations: int
    totals: Totals
    lacking: int
    refused: int
    until: datetime | None


def read_sites(context: Context, sites: Sequence[Site]) -> list[SiteFacts]:
    """Reads what the page of all sites shows of each. Nothing is read of days before the last one but what an index
    counts, so that it is as quick with years of sessions."""
    reader, refused = context.reader, context.reader.count_all_refused()
    found = list[SiteFacts]()
    for site in sites:
        last = reader.last_moment(site.name)
        totals = reader.totals_since(site.name, last - DAY) if last else Totals()
        numbers = reader.count_stations(site.name), totals, reader.count_lacking(site.name)
        found.append(SiteFacts(site, *numbers, refused.get(site.name, 0), last))
    return found


def make_index(
    context: Context, facts: Sequence[SiteFacts], strays: int = 0, has_strangers: bool = True
) -> Markup:
    """Makes the page of all sites. `has_strangers`: it names stations of no site that are left out."""
    return context.render(
        "index.html",
        "All sites",
        find_calendar("UTC"),
        caption="The last 24 hours with data of each site; what lacks messages and what was refused is of all days",
        columns=SITES,
        rows=[make_site_row(context, one) for one in facts],
        strays=strays,
        left_out=name_left_out(context.reader.left_out(None)) if has_strangers else "",
    )


def name_left_out(stations: Sequence[LeftOut]) -> str:
    """Names stations that are left out for their version, so many at most."""
    names = [f"{one.station} ({one.version})" for one in stations[:MOST_LEFT_OUT]]
    more = len(stations) - len(names)
    return ", ".join(names) + (f" and {more:,} more (`ocpp-board left-out`)" if more > 0 else "")


def make_site_row(context: Context, one: SiteFacts) -> TableRow:
    """Makes the row of a site."""
    name, totals, links = one.site.name, one.totals, context.links
    lacking, refused = f"{one.lacking:,}", f"{one.refused:,}"
    until = find_calendar(one.site.zone).minute(one.until) if one.until else UNKNOWN
    cells = [
        link(links.site(name), name),
        f"{one.stations:,}",
        kwh(totals.flow.net),
        f"{totals.transactions:,}",
        share(totals.complete, totals.transactions) or UNKNOWN,
        link(links.listing(name, "lacking"), lacking) if one.lacking else lacking,
        link(links.listing(name, "refused"), refused) if one.refused else refused,
        wrap_time(until),
    ]
    return TableRow(cells, MARK if one.lacking or one.refused else "")


# A site ---------------------------------------------------------------------------------------------------------------


def make_site_page(
    context: Context, site: Site, stations: Mapping[str, StationSummary], refused: int
) -> Markup:
    """Makes the page of a site. `refused`: how many messages of its stations changed nothing."""
    calendar = context.calendar(site)
    totals = sum_totals(stations.values())
    months = find_months(context, site, None)
    month = find_month(context, site, None, months[-1]) if months else None
    order = sorted(stations.values(), key=order_stations)
    shown = order[:MOST_STATIONS]
    columns, sessions = make_worst(context, site, stations, calendar)
    return context.render(
        "site.html",
        f"Site {site.name}",
        calendar,
        context.lead_up(),
        site=site,
        figures=make_figures(totals),
        left_out=name_left_out(context.reader.left_out(site.name)),
        refused=refused,
        refused_href=context.links.listing(site.name, "refused"),
        lists=list_listings(context, site),
        problem_columns=PROBLEMS,
        problems=make_problems(context, site, stations),
        month=month,
        months=link_months(context, site, None, months),
        station_columns=make_station_columns(has_export(totals)),
        stations=[make_station_row(context, site, one, has_export(totals)) for one in shown],
        more_stations=len(order) - len(shown),
        all_stations=context.links.listing(site.name, "stations"),
        session_columns=columns,
        sessions=sessions,
    )


def list_listings(context: Context, site: Site) -> list[Markup]:
    """Lists the links to the lists of a site."""
    names = {
        "stations": "Stations",
        "findings": "Findings",
        "lacking": "Sessions that lack messages",
        "silent": "Silent sessions",
        "refused": "Refused messages",
        "deeds": "What operators did",
        "closings": "Closings",
        "site-meter": "Main meter",
    }
    links = context.links
    return [link(links.listing(site.name, name), text) for name, text in names.items()]


def link_months(
    context: Context, site: Site, station: str | None, months: Iterable[date]
) -> list[Markup]:
    """Links to months, the last one first."""
    links = context.links
    found = [link(links.month(site.name, station, month), f"{month:%B %Y}") for month in months]
    return found[::-1]


def make_problems(
    context: Context, site: Site, stations: Mapping[str, StationSummary]
) -> list[TableRow]:
    """Makes the rows of what is wrong at a site, the gravest first."""
    sessions, times = dict[str, int](), dict[str, int]()
    where = dict[str, list[str]]()
    for one in stations.values():
        for trouble in one.troubles:
            name = trouble.name
            sessions[name] = sessions.get(name, 0) + trouble.sessions
            times[name] = times.get(name, 0) + trouble.times
            where.setdefault(name, []).append(one.name)
    rows = list[TableRow]()
    for name in sorted(times, key=find_place):
        links = [
            link(context.links.station(site.name, station), station)
            for station in where[name][:MOST_LINKS]
        ]
        more = len(where[name]) - MOST_LINKS
        places = join([join(links, ", "), f" and {more:,} more" if more > 0 else ""], "")
        cells = [NAMES.get(name, name), f"{sessions[name]:,}" if sessions[name] else ""]
        rows.append(TableRow([*cells, f"{times[name]:,}", places, explain(name)], MARK))
    return rows


def make_worst(
    context: Context,
    site: Site,
    stations: Mapping[str, StationSummary],
    calendar: Calendar,
) -> tuple[list[Column], list[TableRow]]:
    """Makes the table of a site's sessions with troubles, the gravest and then the latest first."""
    worst = nsmallest(
        MOST_SESSIONS, (one for each in stations.values() for one in each.worst), key=order_worst
    )
    found = [context.reader.session(one.station, one.transaction_id) for one in worst]
    findings = {(one.station, one.transaction_id): one.findings for one in worst}
    return make_session_table(list(filter(None, found)), findings, calendar, context.links, True)


def make_station_columns(exports: bool) -> list[Column]:
    """Makes the columns of a table of stations."""
    return make_columns(
        "Station",
        "Net, kWh",
        "Messages complete",
        Column("Sessions", "wide"),
        "Missing numbers",
        *(Column(f"{head}, kWh", "wide") for head in name_flows(exports)[1:]),
        Column("Events", "wide"),
        Column("Voided events", "wide"),
        Column("Doubtful sessions", "wide"),
    )


def make_station_row(context: Context, site: Site, one: StationSummary, exports: bool) -> TableRow:
    """Makes the row of a station."""
    totals = one.totals
    net, *flow = write_flow(totals.flow, exports)
    cells = [
        link(context.links.station(site.name, one.name), one.name),
        net,
        share(totals.complete, totals.transactions) or UNKNOWN,
        f"{totals.transactions:,}",
        f"{totals.missing:,}",
        *flow,
        f"{totals.events:,}",
        f"{totals.voided:,}",
        f"{one.doubtful:,}",
    ]
    return TableRow(cells, MARK if is_troubled(one) else "")
