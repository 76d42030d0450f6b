"""Tables of sessions."""

from collections.abc import Iterable, Mapping, Sequence

from markupsafe import Markup

from ocpp_board.energies import kwh
from ocpp_board.writers.calendar import Calendar
from ocpp_board.writers.pages.cells import (
    MARK,
    UNKNOWN,
    Column,
    TableRow,
    count,
    flag,
    join,
    link,
    make_columns,
    name_flows,
    stack,
    wrap_time,
    write_duration,
    write_flow,
    write_ranges,
)
from ocpp_board.writers.pages.facts import Found, SessionFacts, Settled
from ocpp_board.writers.pages.links import Links
from ocpp_board.writers.pages.pictures import draw_strip

# By station and transaction, the findings of sessions.
Findings = Mapping[tuple[str, str], Sequence[Found]]


def group_findings(found: Iterable[Found]) -> dict[tuple[str, str], list[Found]]:
    """Groups findings by session."""
    groups: dict[tuple[str, str], list[Found]] = {}
    for one in found:
        groups.setdefault((one.station, one.transaction_id), []).append(one)
    return groups


def write_finding(one: Found) -> Markup:
    """Writes a finding: its name, how often, and what it is of."""
    times = "" if one.times == 1 else f", {one.times:,} times"
    return join([flag(one.kind + times), *([one.detail] if one.detail else [])], ": ")


def write_measurement(session: SessionFacts | Settled, calendar: Calendar) -> str:
    """Writes whether the energy of a session is measured: yes, from when to when only, or no."""
    if session.energy_measured != "part":
        return session.energy_measured
    ends = session.first_reading_at, session.last_reading_at
    return Markup("from %s to %s only") % tuple(
        wrap_time(calendar.minute(at)) if at else UNKNOWN for at in ends
    )


def write_state(session: SessionFacts, findings: Sequence[Found], calendar: Calendar) -> Markup:
    """Writes whether all messages of a session came, which lack, whether its energy is measured, and what is
    doubtful."""
    measured = join(["energy measured", write_measurement(session, calendar)], ": ")
    doubts = [measured, *(write_finding(one) for one in findings)]
    if not session.gaps:
        return stack(session.state or "no event counts", *doubts)
    missing = f"{count(session.missing, 'number')} missing: {write_ranges(session.gaps)}"
    strip = draw_strip(session.first_number, session.last_number, session.gaps)
    state = [] if session.state == "numbers missing" else [session.state]
    return stack(*state, join([missing, strip], ""), *doubts)


def write_registers(registers: tuple[int, int] | None) -> str:
    """Writes the first and the last reading of a register."""
    return stack(*map(kwh, registers)) if registers else UNKNOWN


def make_session_columns(
    calendar: Calendar, has_export: bool, has_station: bool = False
) -> list[Column]:
    """Makes the columns of a table of sessions."""
    net, *others = (f"{head}, kWh" for head in name_flows(has_export))
    return make_columns(
        "Transaction",
        *([" Station"] if has_station else []),
        " State",
        f"Start and end ({calendar.name})",
        "Duration",
        "EVSE",
        net,
        Column("Register, first and last, kWh", "wide"),
        *(Column(head, "wide") for head in others),
        "Numbers",
        " Stopped",
    )


def make_session_row(
    session: SessionFacts,
    findings: Sequence[Found],
    calendar: Calendar,
    links: Links,
    has_export: bool,
    has_station: bool = False,
) -> TableRow:
    """Makes the row of a session; one that lacks messages or is doubtful is marked."""
    net, *others = write_flow(session.flow, has_export)
    href = links.session(session.site, session.station, session.transaction_id)
    cells: list[str] = [link(href, session.sent_id)]
    if has_station:
        cells.append(link(links.station(session.site, session.station), session.station))
    both = (
        wrap_time(calendar.second(at)) if at else UNKNOWN for at in (session.began, session.ended)
    )
    cells += [write_state(session, findings, calendar), stack(*both)]
    cells += [write_duration(session.seconds) or UNKNOWN]
    cells += [str(session.evse) if session.evse else "not named", net]
    cells += [write_registers(session.registers), *others]
    numbers = f"{session.first_number} to {session.last_number}"
    events = count(session.events, "event")
    cells += [stack(numbers, events) if session.events else UNKNOWN]
    cells += [session.stopped_reason or UNKNOWN]
    return TableRow(cells, "" if session.complete and not findings else MARK)


def has_export(sessions: Iterable[SessionFacts]) -> bool:
    """Whether something was fed back in one of these sessions, or an export register fell."""
    return any(one.flow.export_up or one.flow.export_down for one in sessions)


def make_session_table(
    sessions: Sequence[SessionFacts],
    findings: Findings,
    calendar: Calendar,
    links: Links,
    has_station: bool = False,
) -> tuple[list[Column], list[TableRow]]:
    """Makes the table of some sessions."""
    exports = has_export(sessions)
    rows = [
        make_session_row(
            one,
            findings.get((one.station, one.transaction_id), ()),
            calendar,
            links,
            exports,
            has_station,
        )
        for one in sessions
    ]
    return make_session_columns(calendar, exports, has_station), rows
