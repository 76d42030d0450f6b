"""A month of sessions as CSV, for billing: OCPI's names of a CDR's fields, and what is doubtful beside each session."""

import csv
import json
from collections import defaultdict
from collections.abc import Callable, Iterator, Mapping
from dataclasses import dataclass, field
from datetime import date, datetime, time, timezone
from pathlib import Path
from typing import IO, Any
from zoneinfo import ZoneInfo

from ocpp_board.energies import kwh_of
from ocpp_board.errors import UsageError
from ocpp_board.escapes import csv_cell
from ocpp_board.limits import MOMENT
from ocpp_board.messages.bills import TOKENS, Details, Signed, cells_of, write_signed
from ocpp_board.store.database import Database, Row, count_days

HEADS = (
    *("start_date_time", "end_date_time", "session_id", "location_id", "station", "evse_uid"),
    *("total_energy", "exported_energy", "total_time", "messages_complete", "missing", "settled"),
    *("sent_id", "id_token", "id_token_type", "remote_start_id"),
    *("first_signed_value", "first_public_key", "last_signed_value", "last_public_key"),
    *(
        "settled_by",
        "energy_measured",
        "adjusted_energy",
        "adjusted_exported_energy",
        "adjustments",
    ),
    *("hold", "findings"),
)
ZONE = "select zone from site where site = :site"
# An index finds those sessions whose last day is not before the month, so nothing is read of earlier ones.
IN_MONTH = "{0}site = :site and {0}last_day >= :first_day and {1} >= :begin and {1} < :end"
SESSIONS = f"""
select b.site, b.station, b.transaction_id, b.sent_id, b.evse, b.began, b.ended, b.complete, b.missing, b.imported,
    b.exported, b.import_sum, b.export_sum, b.state, b.settled, b.energy_measured, b.first_reading_at,
    b.last_reading_at, s.token, s.token_type, s.remote_start_id, s.signed
from bill b join session s on s.station = b.station and s.transaction_id = b.transaction_id
where {IN_MONTH.format('b.', 'b.at')}
order by b.at, b.station, b.transaction_id
"""
# What is beside sessions, each with its session.
FINDINGS = f"""
select station, transaction_id, kind, times, detail from session_finding where {IN_MONTH.format('', 'began_at')}
order by station, transaction_id, kind
"""
HOLDS = f"""
select station, transaction_id, kind, released_by, why from hold where {IN_MONTH.format('', 'began_at')}
order by station, transaction_id, kind
"""
ADJUSTMENTS = f"""
select a.station, a.transaction_id, a.kind, a.imported, a.exported, a.detail, a.who, a.why
from adjustment a join session s on s.station = a.station and s.transaction_id = a.transaction_id
where {IN_MONTH.format('s.', 'coalesce(s.began, s.first_at)')}
order by a.station, a.number
"""


@dataclass(frozen=True, slots=True)
class BillOptions:
    """How a month is written: drivers' tokens (one of TOKENS), the delimiter of cells and the point of decimals, and
    the folder of the files of signed values."""

    tokens: str = TOKENS[0]
    is_semicolon: bool = False
    signed: Path | None = None


@dataclass(slots=True)
class Notes:
    """What is beside a session: findings, holds and adjustments, as texts."""

    findings: list[str] = field(default_factory=list)
    holds: list[str] = field(default_factory=list)
    adjustments: list[str] = field(default_factory=list)


def write_signed_kwh(mwh: int) -> str:
    """An energy in kWh, exactly, which may be below 0."""
    return f"{'-' if mwh < 0 else ''}{kwh_of(abs(mwh))}"


def write_moment(at: datetime | None) -> str:
    """A moment in UTC as OCPI has it; empty where there is none."""
    return at.astimezone(timezone.utc).strftime(MOMENT) if at else ""


def describe_measured(row: Row, write: Callable[[datetime], str] = write_moment) -> str:
    """Whether the energy of a session is measured: yes, from when to when only, or no."""
    if row.energy_measured != "part":
        return str(row.energy_measured)
    return f"from {write(row.first_reading_at)} to {write(row.last_reading_at)} only"


def find_zone(store: Database, site: str) -> ZoneInfo:
    """The zone of a site. Raises UsageError where the store has no such site."""
    found = store.fetch(ZONE, site=site)
    if not found:
        raise UsageError(f"the store has no site {site!r}; `ocpp-board plan` lists its sites")
    return ZoneInfo(found[0].zone)


def bound_month(zone: ZoneInfo, year: int, month: int) -> dict[str, Any]:
    """The first moment of a month in a zone, and the one behind it; the first day on which sessions of it may end."""
    days = (date(year, month, 1), date(year + month // 12, month % 12 + 1, 1))
    begin, end = (datetime.combine(day, time(), zone).astimezone(timezone.utc) for day in days)
    return {"begin": begin, "end": end, "first_day": count_days(begin)}


def read_notes(store: Database, values: Mapping[str, Any]) -> dict[tuple[str, str], Notes]:
    """What is beside each session of a month."""
    found = defaultdict[tuple[str, str], Notes](Notes)
    for row in store.fetch(FINDINGS, **values):
        notes = found[row.station, row.transaction_id]
        notes.findings.append(f"{row.kind} ({row.times})")
    for row in store.fetch(HOLDS, **values):
        notes = found[row.station, row.transaction_id]
        by = f"released: {row.kind}, by {row.released_by}: {row.why}"
        notes.holds.append(by if row.released_by else f"held: {row.kind}")
    for row in store.fetch(ADJUSTMENTS, **values):
        notes = found[row.station, row.transaction_id]
        amount = write_signed_kwh(row.imported)
        if row.exported:
            amount += f" and exported {write_signed_kwh(row.exported)}"
        notes.adjustments.append(f"{row.kind} {amount} kWh by {row.who}: {row.why}")
    return found


def read_details(row: Row) -> Details:
    """What a session has for a bill beside its energy."""
    signed = tuple(Signed(*one) for one in json.loads(row.signed)) if row.signed else ()
    return Details(row.token, row.token_type, row.remote_start_id, signed)


def write_row(row: Row, notes: Notes, details: Details, tokens: str) -> list[str]:
    """The cells of a session, without the decimal point of a spreadsheet."""
    hours = ""
    if row.began and row.ended:
        hours = f"{(row.ended - row.began).total_seconds() / 3600:.4f}"
    return [
        write_moment(row.began),
        write_moment(row.ended),
        csv_cell(row.transaction_id),
        csv_cell(row.site),
        csv_cell(row.station),
        f"{row.evse or ''}",
        write_signed_kwh(row.imported),
        write_signed_kwh(row.exported),
        hours,
        "yes" if row.complete else "no",
        f"{row.missing}",
        row.state,
        *map(csv_cell, cells_of(row.sent_id, (details,), tokens)),
        row.settled or "",
        describe_measured(row),
        write_signed_kwh(row.import_sum),
        write_signed_kwh(row.export_sum),
        csv_cell("; ".join(notes.adjustments)),
        csv_cell("; ".join(notes.holds)),
        csv_cell("; ".join(notes.findings)),
    ]


# The cells that are numbers with a point.
DECIMALS = frozenset(HEADS.index(name) for name in HEADS if name.endswith(("energy", "total_time")))


def list_bills(
    store: Database, site: str, year: int, month: int, options: BillOptions
) -> Iterator[list[str]]:
    """The heads, then the cells of each session that began in the month, in the site's zone. One whose start did not
    come belongs to the month of its earliest event. Raises UsageError where the store has no such site.
    """
    values: dict[str, Any] = {"site": site} | bound_month(find_zone(store, site), year, month)
    with store.snapshot():
        notes, rows = read_notes(store, values), store.fetch(SESSIONS, **values)
    yield list(HEADS)
    for row in rows:
        details = read_details(row)
        if options.signed:
            write_signed(options.signed, row.station, row.sent_id, (details,))
        key = row.station, row.transaction_id
        cells = write_row(row, notes.get(key) or Notes(), details, options.tokens)
        if options.is_semicolon:
            cells = [
                cell.replace(".", ",") if place in DECIMALS else cell
                for place, cell in enumerate(cells)
            ]
        yield cells


def write_csv(rows: Iterator[list[str]], file: IO[str], is_semicolon: bool = False) -> int:
    """Writes rows as CSV and gives how many they are, heads included. With semicolons it begins with a byte order mark,
    which spreadsheets want."""
    if is_semicolon:
        file.write("\N{ZERO WIDTH NO-BREAK SPACE}")
    writer = csv.writer(file, delimiter=";" if is_semicolon else ",", lineterminator="\n")
    count = 0
    for count, row in enumerate(rows, 1):
        writer.writerow(row)
    return count


def read_month(text: str) -> tuple[int, int]:
    """The year and the number of a month such as 2026-03. Raises UsageError."""
    try:
        day = date.fromisoformat(f"{text}-01")
    except ValueError:
        raise UsageError(f"{text!r} is no month such as 2026-03") from None
    return day.year, day.month
