"""The page of a transaction: its figures, each message with its answer, who did what and why, and its lines."""

import json
from collections.abc import Iterable, Mapping, Sequence
from datetime import datetime, timezone
from typing import Any, NamedTuple

from markupsafe import Markup, escape

from ocpp_board.energies import kwh
from ocpp_board.messages.meter_values import EXPORT, IMPORT, measurand_of, mwh_of
from ocpp_board.messages.times import seconds_of
from ocpp_board.writers.calendar import Calendar
from ocpp_board.writers.pages.cells import (
    MARK,
    UNKNOWN,
    Figure,
    TableRow,
    link,
    make_columns,
    make_pattern,
    name_class,
    name_flows,
    wrap_time,
    write_duration,
    write_flow,
    write_ranges,
    write_rows,
)
from ocpp_board.writers.bills import describe_measured
from ocpp_board.writers.pages.context import Context
from ocpp_board.writers.pages.facts import (
    AnsweredDeed,
    Found,
    RefusedText,
    SessionFacts,
    SessionLine,
    SessionRecord,
    Site,
)
from ocpp_board.writers.pages.kinds import explain
from ocpp_board.writers.pages.sessions import write_finding
from ocpp_board.writers.tokens import NONE, PLAIN, hide_tokens, may_have_token, write_token

# Readings that a page shows of an event, and characters of the lines that it has.
MOST_READINGS, MOST_CHARACTERS = 20, 90_000
COLUMNS = tuple(make_columns("Event", " Its time", " Received", " Readings, kWh", " Answer"))
DEEDS = make_columns("When", " Who", " What", " Why", " Answer")
# The pattern of the row of an event, whose times are known.
EVENT = make_pattern(COLUMNS) % ("%s", "%s %s", "<time>%s</time>", "<time>%s</time>", "%s", "%s")
MARKED = name_class(MARK)
DECODER = json.JSONDecoder(parse_int=str, parse_float=str)
NO_UNIT: dict[str, Any] = {}


class Came(NamedTuple):
    """A line of a transaction: the payload of the event that it delivers, or the number of the event that it voids,
    restores or erases."""

    line: SessionLine
    word: str
    number: int
    payload: Mapping[str, Any] | None


def read_line(line: SessionLine) -> Came:
    """Reads a line."""
    text = line.text
    if not text.startswith("deliver "):
        return Came(line, text.partition(" ")[0], int(text.rpartition(" ")[2]), None)
    message, _ = DECODER.raw_decode(text, text.index(" ", 8) + 1)
    payload = message[3]
    return Came(line, "deliver", int(payload["seqNo"]), payload)


def read_span(lines: Sequence[SessionLine]) -> list[datetime]:
    """Reads the first and the last moment of what lines deliver; none where they deliver nothing."""
    stamps = {one.payload["timestamp"] for one in map(read_line, lines) if one.payload}
    moments = [at for at in map(seconds_of, stamps) if at is not None]
    ends = (min(moments), max(moments)) if moments else ()
    return [datetime.fromtimestamp(at, timezone.utc) for at in ends]


def make_figures(session: SessionFacts, calendar: Calendar, tokens: str) -> list[Figure]:
    """Makes the figures of a transaction."""
    exports = bool(session.flow.export_up or session.flow.export_down)
    cells = [
        (head, f"{cell} kWh")
        for head, cell in zip(name_flows(exports), write_flow(session.flow, exports))
    ]
    cells.append(("Energy measured", describe_measured(session, calendar.second)))
    if session.own_order:
        cells.append(("Readings", f"by {session.own_order}, as an operator chose"))
    cells.append(("EVSE", str(session.evse) if session.evse else "not named"))
    if session.gaps:
        cells.append(("Missing numbers", write_ranges(session.gaps)))
    for name, at in (("Start", session.began), ("End", session.ended)):
        cells.append((name, calendar.second(at) if at else UNKNOWN))
    cells.append(("Duration", write_duration(session.seconds) or UNKNOWN))
    for name, read in (
        ("Register", session.registers),
        ("Export register", session.export_registers),
    ):
        if read:
            cells.append((name, f"{kwh(read[0])} to {kwh(read[1])} kWh"))
    cells.append(("Stopped", session.stopped_reason or UNKNOWN))
    if tokens != NONE and session.token:
        cells.append(("Token", f"{write_token(session.token, tokens)} {session.token_type}"))
    return [(name, cell, False) for name, cell in cells]


def make_rows(
    lines: Sequence[SessionLine], refused: Iterable[RefusedText], calendar: Calendar
) -> Markup:
    """Makes the rows of what came, in the order in which it was accepted; behind it what was refused."""
    came = [read_line(line) for line in lines]
    ends = find_ends(came)
    rows = [
        write_event(one, one.payload, ends.get(one.line.number), calendar)
        for one in came
        if one.payload is not None
    ]
    others = [TableRow(write_refused(text, calendar), MARK) for text in refused]
    return Markup("".join(rows)) + write_rows(COLUMNS, others)


def write_end(end: Came) -> str:
    """Writes who voided or erased an event, and why."""
    done = {"void": "voided", "erase": "erased"}.get(end.word, end.word)
    return f"{done} by {end.line.who or 'an operator'}" + (
        f": {end.line.why}" if end.line.why else ""
    )


def find_ends(came: Sequence[Came]) -> dict[int, Came]:
    """Finds the events that don't count any more, by the numbers of their lines, each with the line that did it."""
    ends, delivered = dict[int, Came](), dict[int, int]()
    for one in came:
        if one.payload is not None:
            delivered[one.number] = one.line.number
            continue
        if (place := delivered.get(one.number)) is None:
            continue
        if one.word == "restore":
            ends.pop(place, None)
        else:
            ends[place] = one
    return ends


def write_event(
    came: Came, payload: Mapping[str, Any], end: Came | None, calendar: Calendar
) -> str:
    """Writes the row of an event. `end`: the line by which it does not count any more."""
    stamp, received = calendar.write_stamp(payload["timestamp"]), came.line.received
    return EVENT % (
        MARKED if end else "",
        came.number,
        escape(payload["eventType"]),
        stamp or UNKNOWN,
        calendar.second(received) if received else UNKNOWN,
        write_readings(payload.get("meterValue") or ()) or UNKNOWN,
        escape(f"accepted; {write_end(end)}") if end else "accepted",
    )


def write_readings(values: Iterable[Mapping[str, Any]]) -> str:
    """Writes the counted readings of an event, as numbers of kWh."""
    found = list[str]()
    for one in values:
        for sampled in one["sampledValue"]:
            measurand = measurand_of(sampled)
            if measurand in (IMPORT, EXPORT):
                text = kwh(mwh_of(sampled["value"], sampled.get("unitOfMeasure") or NO_UNIT))
                found.append(f"{text} exported" if measurand == EXPORT else text)
    more = len(found) - MOST_READINGS
    return ", ".join(found[:MOST_READINGS]) + (f" and {more:,} more" if more > 0 else "")


def write_refused(one: RefusedText, calendar: Calendar) -> list[str]:
    """Writes the cells of a message that changed nothing."""
    times = f", {one.times:,} times" if one.times > 1 else ""
    at = wrap_time(calendar.second(one.first_at)) if one.first_at else UNKNOWN
    said = "; ".join(filter(None, [one.what, one.advice]))
    answer = f"refused: {one.cause}{times}" + (f": {said}" if said else "")
    return [one.number or UNKNOWN, UNKNOWN, at, UNKNOWN, answer]


def make_deed_row(deed: AnsweredDeed, calendar: Calendar) -> TableRow:
    """Makes the row of an operator's line about a transaction."""
    at = wrap_time(calendar.second(deed.at)) if deed.at else UNKNOWN
    answer = deed.outcome if deed.outcome == "accepted" else f"{deed.outcome}: {deed.name}"
    cells = [at, deed.who or UNKNOWN, f"{deed.word} {deed.number}", deed.why or UNKNOWN, answer]
    return TableRow(cells, "" if deed.outcome == "accepted" else MARK)


def show_lines(lines: Sequence[SessionLine], tokens: str) -> list[str]:
    """The lines that a page has room for, with tokens as they are to be shown."""
    found, size = list[str](), 0
    hides = tokens != PLAIN and may_have_token("\n".join([line.text for line in lines]))
    for line in lines:
        text = hide_tokens(line.text, tokens) if hides else line.text
        size += len(text)
        if size > MOST_CHARACTERS:
            break
        found.append(text)
    return found


def make_session_page(
    context: Context,
    site: Site,
    session: SessionFacts,
    findings: Sequence[Found],
    record: SessionRecord | None = None,
) -> Markup:
    """Makes the page of a transaction. `record`: what was read of it."""
    calendar, tokens = context.calendar(site), context.options.tokens
    lines, refused, deeds = record or context.reader.session_record(session)
    shown = show_lines(lines, tokens)
    first = lines[0].number if lines else 1
    caption = "What came, in the order in which it was accepted"
    if first > 1:
        caption += f", from line {first:,} of its script on"
    return context.render(
        "session.html",
        f"Session {session.sent_id}",
        calendar,
        context.lead_up(site, session.station),
        state=session.state[:1].upper() + session.state[1:] or "No event counts",
        figures=make_figures(session, calendar, tokens),
        doubts=[write_finding(one) for one in findings],
        meanings=dict.fromkeys(explain(one.kind) for one in findings),
        deeds_href=make_deed_links(context, session),
        days=link_days(context, site, session),
        caption=caption,
        columns=COLUMNS,
        rows=make_rows(lines, refused, calendar),
        deed_columns=DEEDS,
        deeds=[make_deed_row(deed, calendar) for deed in deeds],
        lines="\n".join(shown),
        left=len(lines) - len(shown) + first - 1,
        has_masks=tokens == NONE,
    )


def make_deed_links(context: Context, session: SessionFacts) -> str:
    """The address at which an operator voids events of a transaction; empty where pages are files."""
    return context.links.operate(session.site, session.station, session.transaction_id)


def link_days(context: Context, site: Site, session: SessionFacts) -> list[Markup]:
    """Links to the first and the last day of a transaction."""
    calendar = context.calendar(site)
    days = {calendar.day(at) for at in (session.first_at, session.last_at) if at}
    return [
        link(context.links.day(site.name, session.station, day), str(day))
        for day in sorted(days)
        if context.is_shown(day)
    ]
