"""What MeterValues say of sessions without readings, and of a site's main meter: registers at moments, by time."""

from bisect import bisect_left
from collections.abc import Iterable, Iterator, Sequence
from datetime import datetime, timedelta, timezone
from typing import NamedTuple

from ocpp_board.store.database import Database, Row, count_hours

# How far apart two readings of a register may be that what is between them is shared by time, and how long a session
# may go on whose periods are looked for when MeterValues come.
LONGEST, LONGEST_SESSION = timedelta(days=1), timedelta(days=7)
LEVELS = """
select at, up_register from meter_value where station = :station and evse = :evse and at >= :begin and at <= :end
order by at, up_register
"""
# Sessions whose readings do not say their energy, near MeterValues of their EVSE, and one of them.
NEAR = """
select s.transaction_id from session s
where s.station = :station and s.first_at >= :since and s.first_at <= :until and s.evse = :evse and s.events > 0
    and s.energy_measured <> 'yes' and s.ended is not null and s.last_at >= :begin
"""
UNMEASURED = """
select s.station, s.transaction_id, s.evse, s.began, s.ended, s.first_at, s.last_at, s.first_reading_at,
    s.last_reading_at, s.first_register, s.last_register, i.period
from session s join site i on i.site = s.site
where s.station = :station and s.transaction_id = :transaction_id and s.evse <> 0 and s.ended is not null
    and s.energy_measured <> 'yes'
"""
OPEN_PARTS = """
select starts, shared, by_values from part
where station = :station and transaction_id = :transaction_id and not measured order by starts
"""
WRITE_PART = """
update part set by_values = :mwh where station = :station and transaction_id = :transaction_id and starts = :starts
"""
CHANGED = """
update session set changed_at = :now, changed_hour = :hour where station = :station and transaction_id = :transaction_id
"""
MAIN = """
select m.station, m.at, m.up_register from meter_value m join station t on t.station = m.station
where t.site = :site and m.evse = 0 and m.at >= :begin and m.at <= :end order by m.station, m.at, m.up_register
"""
# From when to when the main meters of a site were read.
MAIN_SPAN = """
select min(first_at) as first_at, max(last_at) as last_at from (
    select (select min(m.at) from meter_value m where m.station = t.station and m.evse = 0) as first_at,
        (select max(m.at) from meter_value m where m.station = t.station and m.evse = 0) as last_at
    from station t where t.site = :site) s
"""
TAKEN = """
select starts, cast(sum(up - down) as bigint) as imported from evse_period
where site = :site and starts >= :begin and starts < :end group by starts order by starts
"""


class Register(NamedTuple):
    """What a register read, by its moments in mWh."""

    moments: list[datetime]
    levels: list[int]

    def find(self, at: datetime) -> int | None:
        """What it read at a moment: between two readings shared by time. None where it is not known."""
        place = bisect_left(self.moments, at)
        if place < len(self.moments) and self.moments[place] == at:
            return self.levels[place]
        if not 0 < place < len(self.moments):
            return None
        before, after = self.moments[place - 1], self.moments[place]
        if after - before > LONGEST:
            return None
        rise = self.levels[place] - self.levels[place - 1]
        return self.levels[place - 1] + round(rise * ((at - before) / (after - before)))

    def find_rise(self, begin: datetime, end: datetime) -> int | None:
        """By how much it rose from one moment to another; None where that is not known."""
        first, last = self.find(begin), self.find(end)
        return None if first is None or last is None else last - first


class Compared(NamedTuple):
    """What a site's main meters and its EVSEs took in a period, in mWh."""

    starts: datetime
    main: int
    taken: int

    @property
    def losses(self) -> int:
        """What the main meters took more."""
        return self.main - self.taken


def make_register(readings: Iterable[tuple[datetime, int]]) -> Register:
    """A register by its readings; of two of a moment the greater one counts."""
    known = dict(sorted(readings))
    return Register([*known], [*known.values()])


def read_register(store: Database, session: Row) -> Register:
    """The register of a session's EVSE around it: by MeterValues, and by the session's own readings."""
    begin, end = find_span(session)
    rows = store.fetch(
        LEVELS, station=session.station, evse=session.evse, begin=begin - LONGEST, end=end + LONGEST
    )
    own = [
        (session.first_reading_at, session.first_register),
        (session.last_reading_at, session.last_register),
    ]
    some = [(at, level) for at, level in own if at is not None and level is not None]
    return make_register([*((row.at, row.up_register) for row in rows), *some])


def find_span(session: Row) -> tuple[datetime, datetime]:
    """From when to when a session went on."""
    return session.began or session.first_at, session.ended or session.last_at


def estimate_session(store: Database, session: Row) -> tuple[int, str] | None:
    """What a session took by MeterValues in mWh, and by which registers; None where these do not say it."""
    register, (begin, end) = read_register(store, session), find_span(session)
    first, last = register.find(begin), register.find(end)
    if first is None or last is None:
        return None
    return (
        last - first,
        f"by MeterValues: {first / 1e6:.3f} kWh at its start, {last / 1e6:.3f} kWh at its end",
    )


def estimate_parts(store: Database, keys: Iterable[tuple[str, str]]) -> None:
    """Writes what those of these sessions took in their periods by MeterValues whose readings do not say it, within a
    database transaction."""
    now = datetime.now(timezone.utc)
    for station, transaction in sorted(keys):
        key = {"station": station, "transaction_id": transaction}
        session = store.fetch_one(UNMEASURED, **key)
        parts = store.fetch(OPEN_PARTS, **key) if session else []
        if session is None or not parts:
            continue
        register, (begin, end) = read_register(store, session), find_span(session)
        period, changed = timedelta(seconds=session.period), list[dict[str, object]]()
        for part in parts:
            span = max(part.starts, begin), min(part.starts + period, end)
            mwh = estimate_part(session, register, part, *span)
            if mwh is not None and mwh != part.by_values:
                changed.append(key | {"starts": part.starts, "mwh": mwh})
        if changed:
            store.execute_each(WRITE_PART, changed)
            store.execute(CHANGED, now=now, hour=count_hours(now), **key)


def estimate_part(
    session: Row, register: Register, part: Row, begin: datetime, end: datetime
) -> int | None:
    """What a session took in a part of its time: by its register before its first reading and behind its last one, and
    between them as its readings say. None where the register does not say it, or is not asked."""
    first, last = session.first_reading_at, session.last_reading_at
    spans = [(begin, end)] if first is None else []
    if first is not None and begin < first:
        spans.append((begin, min(end, first)))
    if last is not None and end > last:
        spans.append((max(begin, last), end))
    rises = [register.find_rise(*span) for span in spans]
    known = [rise for rise in rises if rise is not None]
    return sum(known) + (part.shared or 0) if rises and len(known) == len(rises) else None


def find_near(
    store: Database, station: str, evse: int, begin: datetime, end: datetime
) -> list[tuple[str, str]]:
    """The sessions of an EVSE whose readings do not say their energy, and of which MeterValues between these moments
    may."""
    rows = store.fetch(
        NEAR,
        station=station,
        evse=evse,
        begin=begin - LONGEST,
        since=begin - LONGEST - LONGEST_SESSION,
        until=end + LONGEST,
    )
    return [(station, row.transaction_id) for row in rows]


def find_main_span(store: Database, site: str) -> tuple[datetime, datetime] | None:
    """From when to when the main meters of a site (EVSE 0 of MeterValues) were read; None where they were not."""
    row = store.fetch_one(MAIN_SPAN, site=site)
    return (row.first_at, row.last_at) if row and row.first_at else None


def compare_main(
    store: Database, site: str, seconds: int, begin: datetime, end: datetime
) -> Iterator[Compared]:
    """The periods of a site in which its main meters were read: what these rose by, and what its EVSEs took."""
    values = {"site": site, "begin": begin, "end": end}
    around = {"begin": begin - LONGEST, "end": end + LONGEST}
    registers = list_registers(store.fetch(MAIN, **values | around))
    taken = {row.starts: int(row.imported) for row in store.fetch(TAKEN, **values)}
    period, starts = timedelta(seconds=seconds), begin
    while registers and starts < end:
        rises = [one.find_rise(starts, starts + period) for one in registers]
        some = [rise for rise in rises if rise is not None]
        if len(some) == len(registers):
            yield Compared(starts, sum(some), taken.get(starts, 0))
        starts += period


def list_registers(rows: Sequence[Row]) -> list[Register]:
    """The registers of main meters, one for each station that reads one."""
    found = dict[str, list[tuple[datetime, int]]]()
    for row in rows:
        found.setdefault(row.station, []).append((row.at, row.up_register))
    return [make_register(readings) for readings in found.values()]
