"""The lists of a site, which go on on further pages: stations, findings, sessions that lack messages, silent ones,
refused messages, what operators did, closings, the main meter beside the EVSEs."""

from collections.abc import Callable, Mapping, Sequence
from datetime import datetime, timedelta
from typing import NamedTuple

from markupsafe import Markup

from ocpp_board.energies import kwh
from ocpp_board.store.values import compare_main, find_main_span
from ocpp_board.writers.calendar import Calendar
from ocpp_board.writers.pages.cells import (
    MARK,
    UNKNOWN,
    Column,
    TableRow,
    link,
    make_columns,
    stack,
    wrap_time,
    write_ranges,
)
from ocpp_board.writers.pages.context import Context
from ocpp_board.writers.pages.facts import (
    AnsweredDeed,
    Closing,
    Found,
    RefusedText,
    SessionFacts,
    Site,
    StationSummary,
)
from ocpp_board.writers.pages.kinds import explain, find_place
from ocpp_board.writers.pages.sessions import write_measurement
from ocpp_board.writers.pages.site_pages import (
    has_export,
    make_station_columns,
    make_station_row,
)

# Rows of a page, and periods of a main meter that are shown.
LIST_ROWS, MOST_METER = 200, 3_000
FINDINGS = make_columns("Station", " Transaction", " Finding", "Times", " First", " Detail")
LACKING = make_columns(
    "Transaction",
    " Station",
    "EVSE",
    " First event",
    " State",
    "Missing numbers",
    " Which",
    " Energy measured",
)
SILENT = make_columns(
    "Transaction",
    " Station",
    "EVSE",
    " Nothing came since",
    " State",
    "Missing numbers",
    " Which",
    "Imported, kWh",
    " Energy measured",
)
METER = make_columns("Period", "Main meter, kWh", "EVSEs, kWh", "Losses, kWh")
REFUSED = make_columns(
    "Station",
    " Last and first",
    "Times",
    " Transaction",
    "Number",
    " Cause",
    " What and what to do",
)
DEEDS = make_columns("When", " Who", " What", " Station", " Transaction", " Why", " Answer")
CLOSINGS = make_columns(
    "Closing",
    " Up to the end of",
    " When",
    " Who",
    "Sessions",
    "Net, kWh",
    "Corrections",
    "Corrected, kWh",
)


class Listing(NamedTuple):
    """A page of a list: its columns and rows, whether there are more behind it, and what explains it."""

    columns: Sequence[Column]
    rows: Sequence[TableRow]
    has_more: bool
    meanings: Mapping[str, str] = {}


Stations = Mapping[str, StationSummary]
List = Callable[[Context, Site, Stations, int], Listing]


def split(rows: Sequence[TableRow]) -> tuple[Sequence[TableRow], bool]:
    """Splits the rows of a page from one more, which shows that there are others."""
    return rows[:LIST_ROWS], len(rows) > LIST_ROWS


def write_moment(calendar: Calendar, at: datetime | None) -> str:
    """Writes a moment in a cell."""
    return wrap_time(calendar.second(at)) if at else UNKNOWN


def list_stations(context: Context, site: Site, stations: Stations, first: int) -> Listing:
    """Lists the stations of a site by name."""
    exports = any(has_export(one.totals) for one in stations.values())
    some = [*stations.values()][first : first + LIST_ROWS + 1]
    rows = [make_station_row(context, site, one, exports) for one in some]
    return Listing(make_station_columns(exports), *split(rows))


def order_finding(one: Found) -> tuple[int, str, str]:
    """Orders findings: the gravest kinds first."""
    return find_place(one.kind), one.station, one.transaction_id


def list_findings(context: Context, site: Site, _stations: Stations, first: int) -> Listing:
    """Lists the findings of a site, the gravest first."""
    links, calendar = context.links, context.calendar(site)
    found = sorted(context.reader.findings(site.name), key=order_finding)
    some = found[first : first + LIST_ROWS + 1]
    rows = list[TableRow]()
    for one in some:
        tx = one.transaction_id
        session = link(links.session(site.name, one.station, tx), tx) if tx else UNKNOWN
        station = link(links.station(site.name, one.station), one.station)
        at = write_moment(calendar, one.first_at)
        rows.append(TableRow([station, session, one.kind, f"{one.times:,}", at, one.detail], MARK))
    meanings = {one.kind: explain(one.kind) for one in some[:LIST_ROWS]}
    return Listing(FINDINGS, *split(rows), meanings)


def list_lacking(context: Context, site: Site, _stations: Stations, first: int) -> Listing:
    """Lists the sessions of a site that lack messages, the latest first."""
    sessions = context.reader.lacking(site.name, LIST_ROWS + 1, first)
    return Listing(LACKING, *split([make_lacking_row(context, site, one) for one in sessions]))


def make_lacking_row(context: Context, site: Site, one: SessionFacts) -> TableRow:
    """Makes the row of a session that lacks messages. It says nothing that each further message changes."""
    measured = {"part": "from its first reading on"}.get(one.energy_measured, one.energy_measured)
    return TableRow([*write_lacking(context, site, one, one.first_at), measured], MARK)


def write_lacking(
    context: Context, site: Site, one: SessionFacts, at: datetime | None
) -> list[str]:
    """Writes the first cells of a session that lacks messages. `at`: its moment."""
    links = context.links
    return [
        link(links.session(site.name, one.station, one.transaction_id), one.sent_id),
        link(links.station(site.name, one.station), one.station),
        str(one.evse) if one.evse else "not named",
        write_moment(context.calendar(site), at),
        one.state,
        f"{one.missing:,}",
        write_ranges(one.gaps) or UNKNOWN,
    ]


def list_silent(context: Context, site: Site, _stations: Stations, first: int) -> Listing:
    """Lists the sessions of a site that lack messages and are silent, the latest first."""
    calendar, rows = context.calendar(site), list[TableRow]()
    for one, heard_at in context.reader.silent(
        site.name, context.find_silent(), LIST_ROWS + 1, first
    ):
        cells = [*write_lacking(context, site, one, heard_at), kwh(one.flow.up - one.flow.down)]
        rows.append(TableRow([*cells, write_measurement(one, calendar)], MARK))
    return Listing(SILENT, *split(rows))


def list_meter(context: Context, site: Site, _stations: Stations, first: int) -> Listing:
    """Lists the periods in which the main meter of a site was read, the latest first."""
    calendar, period = context.calendar(site), timedelta(seconds=site.period)
    span = find_main_span(context.reader.store, site.name)
    if span is None:
        return Listing(METER, (), False)
    end = span[1] - timedelta(seconds=span[1].timestamp() % site.period) - first * period
    begin = end - LIST_ROWS * period
    found = list(compare_main(context.reader.store, site.name, site.period, begin, end))
    rows = [
        TableRow([wrap_time(calendar.minute(one.starts)), *map(kwh, one[1:]), kwh(one.losses)])
        for one in reversed(found)
    ]
    return Listing(METER, rows, begin > span[0] and first + LIST_ROWS < MOST_METER)


def list_refused(context: Context, site: Site, _stations: Stations, first: int) -> Listing:
    """Lists the messages of a site's stations that changed nothing, the latest first."""
    refused = context.reader.refused(site.name, None, LIST_ROWS + 1, first)
    return Listing(REFUSED, *split([make_refused_row(context, site, one) for one in refused]))


def make_refused_row(context: Context, site: Site, one: RefusedText) -> TableRow:
    """Makes the row of a message that changed nothing."""
    calendar = context.calendar(site)
    at = [write_moment(calendar, moment) for moment in (one.last_at, one.first_at)]
    cells = [
        link(context.links.station(site.name, one.station), one.station),
        stack(*dict.fromkeys(at)),
        f"{one.times:,}",
        one.transaction_id or UNKNOWN,
        one.number or UNKNOWN,
        one.cause,
        stack(one.what, one.advice),
    ]
    return TableRow(cells, MARK)


def list_deeds(context: Context, site: Site, _stations: Stations, first: int) -> Listing:
    """Lists what operators did at a site's stations, the latest first."""
    deeds = context.reader.deeds(site.name, LIST_ROWS + 1, first)
    return Listing(DEEDS, *split([make_deed_row(context, site, one) for one in deeds]))


def make_deed_row(context: Context, site: Site, one: AnsweredDeed) -> TableRow:
    """Makes the row of what an operator did."""
    links = context.links
    answer = one.outcome if one.outcome == "accepted" else f"{one.outcome}: {one.name}"
    tx = one.transaction_id
    known = one.outcome == "accepted"
    cells = [
        write_moment(context.calendar(site), one.at),
        one.who or UNKNOWN,
        f"{one.word} {one.number}",
        link(links.station(site.name, one.station), one.station),
        link(links.session(site.name, one.station, tx), tx) if known else tx,
        one.why or UNKNOWN,
        answer,
    ]
    return TableRow(cells, "" if known else MARK)


def list_closings(context: Context, site: Site, _stations: Stations, first: int) -> Listing:
    """Lists the closings of a site, the latest first."""
    closings = context.reader.closings(site.name, LIST_ROWS + 1, first)
    return Listing(CLOSINGS, *split([make_closing_row(context, site, one) for one in closings]))


def make_closing_row(context: Context, site: Site, one: Closing) -> TableRow:
    """Makes the row of a closing."""
    cells = [
        link(context.links.closing(site.name, one.number), f"Closing {one.number:,}"),
        wrap_time(str(one.day)),
        write_moment(context.calendar(site), one.at),
        one.who,
        f"{one.sessions:,}",
        kwh(one.net),
        f"{one.corrections:,}",
        kwh(one.corrected) if one.corrections else UNKNOWN,
    ]
    return TableRow(cells, MARK if one.corrections else "")


class ListKind(NamedTuple):
    """A list of a site: its title, what its page says of it, what it says where there is nothing, and what reads it."""

    title: str
    about: str
    nothing: str
    read: List


LISTS = {
    "stations": ListKind("Stations", "By name.", "The site has no station.", list_stations),
    "findings": ListKind(
        "Findings", "What is doubtful, the gravest first.", "Nothing was found.", list_findings
    ),
    "lacking": ListKind(
        "Sessions that lack messages",
        "The latest first. A session that goes on is among them.",
        "No session lacks messages.",
        list_lacking,
    ),
    "silent": ListKind(
        "Silent sessions",
        "Sessions that lack messages and sent nothing for some time ({hours} hours): ask their stations by "
        "GetTransactionStatus. The latest first.",
        "No session that lacks messages is silent for {hours} hours.",
        list_silent,
    ),
    "refused": ListKind(
        "Refused messages",
        "What stations sent that changed nothing, the latest first. The same again is counted.",
        "Nothing was refused.",
        list_refused,
    ),
    "deeds": ListKind(
        "What operators did", "The latest first.", "Operators did nothing.", list_deeds
    ),
    "closings": ListKind(
        "Closings",
        "What each closing froze, the latest first; corrections are what it changed of what one before had settled.",
        "No day is closed.",
        list_closings,
    ),
    "site-meter": ListKind(
        "Main meter beside the EVSEs",
        "What the main meter (EVSE 0 of MeterValues) rose by in each period, what the EVSEs took, and the losses "
        "between them, the latest first. `ocpp-board site-meter` lists any month.",
        "No MeterValues of EVSE 0 came.",
        list_meter,
    ),
}


def make_list_page(
    context: Context, site: Site, name: str, stations: Stations, number: int = 1
) -> tuple[Markup, bool]:
    """Makes a page of a list of a site, and says whether another one follows."""
    kind = LISTS[name]
    listing = kind.read(context, site, stations, (number - 1) * LIST_ROWS)
    links, steps = context.links, list[Markup]()
    if number > 1:
        steps.append(link(links.listing(site.name, name, number - 1), "\N{LEFTWARDS ARROW} before"))
    if listing.has_more:
        steps.append(link(links.listing(site.name, name, number + 1), "\N{RIGHTWARDS ARROW} more"))
    page = context.render(
        "list.html",
        f"{kind.title}, site {site.name}" + (f", page {number:,}" if number > 1 else ""),
        context.calendar(site),
        context.lead_up(site),
        about=kind.about.format(hours=context.options.silent),
        nothing=kind.nothing.format(hours=context.options.silent),
        caption=kind.title,
        columns=listing.columns,
        rows=listing.rows,
        meanings=listing.meanings,
        steps=steps,
    )
    return page, listing.has_more
