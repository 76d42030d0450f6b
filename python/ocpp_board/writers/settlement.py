"""A month of energy by metering point, as a settlement file: import and export apart, measured or substitute."""

from collections import defaultdict
from collections.abc import Iterable, Iterator
from dataclasses import dataclass
from datetime import datetime, timedelta
from typing import Any

from ocpp_board.errors import UsageError
from ocpp_board.escapes import csv_cell
from ocpp_board.ledger.findings import Effect, Kind
from ocpp_board.store.database import Database
from ocpp_board.writers.bills import bound_month, find_zone, write_moment

HEADS = ("metering_point", "start", "start_local", "import_kwh", "export_kwh", "quality")
MEASURED, SUBSTITUTE = "measured", "substitute"
# A watt-hour in mWh: files have kWh with three decimals.
WH = 1_000
WRONG = ", ".join(f"'{kind.label}'" for kind in Kind if kind.effect is Effect.WRONG)
# Energy by EVSE and period. `{source}`: what closings settled, or what boards show. A session whose numbers are wrong
# has no measured period.
ENERGY = f"""
select p.station, s.evse, p.starts, cast(sum(p.up - p.down) as bigint) as imported,
    cast(sum(p.export_up - p.export_down) as bigint) as exported,
    cast(sum(p.estimated) + count(f.transaction_id) as bigint) as estimated
from {{source}} p
join session s on s.station = p.station and s.transaction_id = p.transaction_id
left join (
    select distinct station, transaction_id from session_finding
    where site = :site and kind in ({WRONG}) and last_day >= :first_day) f
    on f.station = p.station and f.transaction_id = p.transaction_id
where s.site = :site and p.starts >= :begin and p.starts < :end
group by p.station, s.evse, p.starts
"""
SETTLED = "closed_part"
SHOWN = """(
    select station, transaction_id, starts, up, down, export_up, export_down,
        case when measured then 0 else 1 end as estimated
    from part)"""
ADJUSTMENTS = """
select a.station, s.evse, a.at, a.imported, a.exported from adjustment a
join session s on s.station = a.station and s.transaction_id = a.transaction_id
where a.site = :site and a.at >= :begin and a.at < :end
"""
CLOSED = """
select day, until from closing where site = :site order by closing desc limit 1
"""
PERIOD = "select period from site where site = :site"
POINTS = "select station, evse, code from metering_point where site = :site"
DROP_POINTS = "delete from metering_point where site = :site"


@dataclass(slots=True)
class Energy:
    """The energy of a metering point in a period, in mWh."""

    imported: int = 0
    exported: int = 0
    is_measured: bool = True

    def add(self, imported: int, exported: int, is_measured: bool) -> None:
        """Adds that of an EVSE."""
        self.imported += imported
        self.exported += exported
        self.is_measured = self.is_measured and is_measured


def round_together(amounts: Iterable[int]) -> Iterator[int]:
    """Amounts in mWh rounded to watt-hours, so that each sum of the first ones is the rounded sum of these."""
    total, before = 0, 0
    for amount in amounts:
        total += amount
        now = (total + WH // 2) // WH
        yield now - before
        before = now


def write_kwh(wh: int) -> str:
    """Watt-hours as kWh with three decimals."""
    return f"{'-' if wh < 0 else ''}{abs(wh) // 1_000}.{abs(wh) % 1_000:03}"


def write_points(store: Database, site: str, points: Iterable[tuple[str, int, str]]) -> None:
    """Gives a site its metering points: each the code of the site (no station, EVSE -1) or of an EVSE."""
    rows = [
        {"site": site, "station": station, "evse": evse, "code": code}
        for station, evse, code in points
    ]
    with store.transaction():
        store.execute(DROP_POINTS, site=site)
        store.insert_each("metering_point", rows)


def read_energy(
    store: Database, site: str, values: dict[str, Any], is_provisional: bool
) -> dict[str, dict[datetime, Energy]]:
    """The energy of a month by metering point and period. An EVSE without a code counts at its site's. Raises
    UsageError where neither has one."""
    codes = {(row.station, row.evse): row.code for row in store.fetch(POINTS, site=site)}
    period = timedelta(seconds=store.fetch(PERIOD, site=site)[0].period)
    found = defaultdict[str, dict[datetime, Energy]](dict)
    for code in codes.values():
        found[code] = {}
    rows = store.fetch(ENERGY.format(source=SHOWN if is_provisional else SETTLED), **values)
    for row in rows:
        point = find_point(codes, site, row.station, row.evse)
        energy = found[point].setdefault(row.starts, Energy())
        energy.add(row.imported, row.exported, not row.estimated)
    for row in store.fetch(ADJUSTMENTS, **values):
        point = find_point(codes, site, row.station, row.evse)
        starts = row.at - (row.at - values["begin"]) % period
        found[point].setdefault(starts, Energy()).add(row.imported, row.exported, False)
    return found


def find_point(codes: dict[tuple[str, int], str], site: str, station: str, evse: int) -> str:
    """The code of an EVSE's metering point. Raises UsageError."""
    code = codes.get((station, evse)) or codes.get(("", -1))
    if code is None:
        raise UsageError(
            f"neither EVSE {evse} of {station} nor site {site} has a metering point; name it in --points"
        )
    return code


def list_settlement(
    store: Database, site: str, year: int, month: int, is_provisional: bool, is_semicolon: bool
) -> Iterator[list[str]]:
    """The heads, then a row for each period of the month and each metering point. Raises UsageError where the month is
    not closed, and provisional figures are not wanted."""
    zone = find_zone(store, site)
    values: dict[str, Any] = {"site": site} | bound_month(zone, year, month)
    with store.snapshot():
        closed = store.fetch_one(CLOSED, site=site)
        if not is_provisional and (closed is None or closed.until < values["end"]):
            day = f"closed up to {closed.day}" if closed else "not closed yet"
            raise UsageError(f"{site} is {day}; close the month first, or take --provisional")
        energy = read_energy(store, site, values, is_provisional)
        period = timedelta(seconds=store.fetch(PERIOD, site=site)[0].period)
    yield list(HEADS)
    count = (values["end"] - values["begin"]) // period
    starts = [values["begin"] + number * period for number in range(count)]
    for point, periods in sorted(energy.items()):
        some = [periods.get(at, Energy()) for at in starts]
        imported = round_together(one.imported for one in some)
        exported = round_together(one.exported for one in some)
        for at, one, had, fed in zip(starts, some, imported, exported):
            cells = [write_kwh(had), write_kwh(fed)]
            if is_semicolon:
                cells = [cell.replace(".", ",") for cell in cells]
            local = f"{at.astimezone(zone):%Y-%m-%dT%H:%M:%S%z}"
            quality = MEASURED if one.is_measured else SUBSTITUTE
            yield [csv_cell(point), write_moment(at), local, *cells, quality]
