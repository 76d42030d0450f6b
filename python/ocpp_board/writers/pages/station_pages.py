"""The page of a station: its figures, EVSEs, findings, months, and its sessions, those with troubles first."""

from markupsafe import Markup

from ocpp_board.writers.calendar import Calendar
from ocpp_board.writers.pages.cells import MARK, TableRow, make_columns, name_flows, wrap_time
from ocpp_board.writers.pages.cells import UNKNOWN, write_flow
from ocpp_board.writers.pages.context import Context
from ocpp_board.writers.pages.facts import Found, SessionFacts, Site, StationSummary
from ocpp_board.writers.pages.kinds import explain
from ocpp_board.writers.pages.month_pages import find_month, find_months
from ocpp_board.writers.pages.sessions import group_findings, make_session_table
from ocpp_board.writers.pages.site_pages import has_export, link_months, make_figures

# Sessions with troubles, and the latest ones.
MOST_TROUBLED, MOST_LATEST = 30, 30
FINDINGS = make_columns("Finding", "Times", " First", " Detail", " What it means")


def make_station_page(context: Context, site: Site, summary: StationSummary) -> Markup:
    """Makes the page of a station."""
    station, calendar = summary.name, context.calendar(site)
    exports = has_export(summary.totals)
    findings = summary.found
    of_station = [one for one in findings if not one.transaction_id]
    months = find_months(context, site, station)
    month = find_month(context, site, station, months[-1]) if months else None
    sessions = list_sessions(context, site, summary)
    columns, rows = make_session_table(sessions, group_findings(findings), calendar, context.links)
    evses = [
        TableRow(
            [
                f"EVSE {number}" if number else "EVSE not named",
                f"{sessions_there:,}",
                *write_flow(flow, exports),
            ]
        )
        for number, sessions_there, flow in context.reader.evse_totals(site.name, station)
    ]
    return context.render(
        "station.html",
        f"Station {station}",
        calendar,
        context.lead_up(site),
        station=station,
        figures=make_figures(summary.totals),
        evse_columns=make_columns("EVSE", "Sessions", *name_flows(exports)),
        evses=evses,
        finding_columns=FINDINGS,
        findings=[make_finding_row(one, calendar) for one in of_station],
        month=month,
        months=link_months(context, site, station, months),
        session_columns=columns,
        sessions=rows,
        more_sessions=summary.totals.transactions - len(rows),
    )


def make_finding_row(one: Found, calendar: Calendar) -> TableRow:
    """Makes the row of a finding of a station."""
    at = wrap_time(calendar.second(one.first_at)) if one.first_at else UNKNOWN
    return TableRow([one.kind, f"{one.times:,}", at, one.detail, explain(one.kind)], MARK)


def list_sessions(context: Context, site: Site, summary: StationSummary) -> list[SessionFacts]:
    """Lists the sessions of a station that its page shows: those with troubles, and then the latest."""
    worst = [
        context.reader.session(one.station, one.transaction_id)
        for one in summary.worst[:MOST_TROUBLED]
    ]
    found = {one.transaction_id: one for one in worst if one}
    latest = context.reader.latest_sessions(site.name, summary.name, MOST_LATEST + len(found))
    for one in latest:
        if len(found) < MOST_TROUBLED + MOST_LATEST:
            found.setdefault(one.transaction_id, one)
    return list(found.values())
