"""The page of a closing: when it was and who made it, what it froze, and what it corrected and why."""

from markupsafe import Markup

from ocpp_board.energies import kwh
from ocpp_board.writers.calendar import Calendar
from ocpp_board.writers.causes import describe_causes
from ocpp_board.writers.pages.cells import (
    MARK,
    UNKNOWN,
    Figure,
    TableRow,
    link,
    make_columns,
    wrap_time,
)
from ocpp_board.writers.pages.context import Context
from ocpp_board.writers.pages.facts import Closing, Correction, Settled, Site
from ocpp_board.writers.pages.sessions import write_measurement
from ocpp_board.writers.tables import ESTIMATED

# Corrections and sessions that a page shows.
MOST_CORRECTIONS, MOST_SETTLED = 200, 200
CORRECTIONS = make_columns(
    "Period",
    " Station",
    " Transaction",
    "Net, kWh",
    " Figure",
    "Findings",
    "Holds",
    " Lines that made the difference",
)
SETTLED = make_columns(
    "Transaction",
    " Station",
    " Settled",
    "Net, kWh",
    " Energy measured",
    "Adjusted, kWh",
    "Findings",
    "Holds",
    "Lines",
)


def make_figures(closing: Closing) -> list[Figure]:
    """Makes the figures of a closing."""
    rows = [
        ("Net energy settled by it", f"{kwh(closing.net)} kWh", False),
        ("Sessions that it looked at", f"{closing.sessions:,}", False),
        ("Settled, messages complete", f"{closing.complete:,}", False),
        ("Settled by rule", f"{closing.by_rule:,}", False),
        ("Corrections", f"{closing.corrections:,}", closing.corrections > 0),
    ]
    if closing.corrections:
        rows.append(("Net energy of these", f"{kwh(closing.corrected)} kWh", True))
    return rows


def make_correction_row(
    context: Context, site: Site, calendar: Calendar, one: Correction, causes: str
) -> TableRow:
    """Makes the row of a correction."""
    links, tx = context.links, one.transaction_id
    start = wrap_time(calendar.minute(one.start))
    day = link(links.day(site.name, one.station, calendar.day(one.start)), "its day")
    cells = [
        Markup("%s (%s)") % (start, day),
        link(links.station(site.name, one.station), one.station),
        link(links.session(site.name, one.station, tx), tx),
        kwh(one.net),
        ESTIMATED if one.estimated > 0 else "measured",
        f"{one.findings:,}",
        f"{one.holds:,}",
        causes,
    ]
    return TableRow(cells, MARK)


def make_settled_row(context: Context, site: Site, one: Settled) -> TableRow:
    """Makes the row of a session that a closing settled. `Adjusted`: its energy with what was declared."""
    links, tx, calendar = context.links, one.transaction_id, context.calendar(site)
    return TableRow(
        [
            link(links.session(site.name, one.station, tx), tx),
            link(links.station(site.name, one.station), one.station),
            "messages complete" if one.settled == "complete" else "by rule",
            kwh(one.flow.net),
            write_measurement(one, calendar),
            kwh(one.flow.net + one.adjusted) if one.adjusted else UNKNOWN,
            f"{one.findings:,}",
            f"{one.holds:,}",
            f"{one.lines:,}",
        ],
        MARK if one.holds else "",
    )


def make_closing_page(context: Context, site: Site, closing: Closing) -> Markup:
    """Makes the page of a closing."""
    reader, links, calendar = context.reader, context.links, context.calendar(site)
    last = reader.last_closings().get(site.name, 0)
    steps = [link(links.listing(site.name, "closings"), "All closings")]
    steps += [
        link(links.closing(site.name, number), f"{arrow} closing {number:,}")
        for number, arrow in (
            (closing.number - 1, "\N{LEFTWARDS ARROW}"),
            (closing.number + 1, "\N{RIGHTWARDS ARROW}"),
        )
        if 1 <= number <= last
    ]
    corrections = reader.corrections(site.name, closing.number, MOST_CORRECTIONS)
    causes = dict[tuple[str, str, int, int], str]()
    rows = list[TableRow]()
    for one in corrections:
        key = one.station, one.transaction_id, one.first_line, one.last_line
        if key not in causes:
            causes[key] = describe_causes(reader.store, *key)
        rows.append(make_correction_row(context, site, calendar, one, causes[key]))
    settled = reader.settled_sessions(site.name, closing.number, MOST_SETTLED)
    return context.render(
        "closing.html",
        f"Closing {closing.number:,} of site {site.name}",
        calendar,
        context.lead_up(site),
        closing=closing,
        at=calendar.second(closing.at),
        steps=steps,
        figures=make_figures(closing),
        correction_columns=CORRECTIONS,
        corrections=rows,
        more_corrections=closing.corrections - len(rows),
        settled_columns=SETTLED,
        settled=[make_settled_row(context, site, one) for one in settled],
        more_settled=closing.complete + closing.by_rule - len(settled),
    )
