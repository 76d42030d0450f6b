"""Closings: what the views show of a site's periods up to the end of a day, and of its sessions, frozen as rows.

A closing is one database transaction of a few statements. It looks at the sessions that changed since the closing
before and adds a row for each difference, so it costs what changed, and a second one changes nothing.
"""

from dataclasses import dataclass
from datetime import date, datetime, time, timedelta, timezone
from typing import Any
from zoneinfo import ZoneInfo

from ocpp_board.errors import UsageError
from ocpp_board.store.database import Database, Row

# Two closings of a site at once, or a closing and a change of its rules: the second one waits here.
LOCK = "update site set site = site where site = :site"
SITE = """
select s.period, s.reading_order, s.settle, s.zone, s.first_settled_day, c.closing, c.day, c.until
from site s left join closing c on c.site = s.site and c.closing = (
    select max(l.closing) from closing l where l.site = s.site)
where s.site = :site
"""
BEGIN = """
insert into closing (site, closing, day, until, at, who, period, reading_order, settle, zone)
values (:site, :closing, :day, :until, :at, :who, :period, :reading_order, :settle, :zone)
"""
FIRST_DAY = (
    "update site set first_settled_day = :day where site = :site and first_settled_day is null"
)
# The sessions that changed since a closing saw them, that are open since then, or that somebody settled by rule.
SEE_SESSIONS = """
insert into closed_session (station, transaction_id, closing, site, lines, changed_at, whole, settled, evse, events,
    missing, up, down, export_up, export_down)
select n.station, n.transaction_id, cast(:closing as bigint), n.site, n.lines, n.changed_at, n.whole,
    case when not n.whole then null when n.complete then 'complete' when r.station is not null then 'rule' end,
    n.evse, n.events, n.missing, n.up, n.down, n.export_up, n.export_down
from (
    select s.*, (s.last_at is null or s.last_at < :until) and not exists (
            select 1 from part p
            where p.station = s.station and p.transaction_id = s.transaction_id and p.starts >= :until) as whole
    from session s
    where s.site = :site and (s.first_at is null or s.first_at < :until or exists (
        select 1 from part p
        where p.station = s.station and p.transaction_id = s.transaction_id and p.starts < :until))) n
left join rule_settled r on r.station = n.station and r.transaction_id = n.transaction_id
left join closed_session c on c.station = n.station and c.transaction_id = n.transaction_id and c.closing = (
    select max(b.closing) from closed_session b
    where b.station = n.station and b.transaction_id = n.transaction_id)
where c.station is null or not c.whole and :moved = 1 or c.lines <> n.lines or c.changed_at <> n.changed_at
    or c.settled is null and r.station is not null
"""
# By how much the periods of these sessions differ from what is settled of them. `{seen}`: the sessions that this
# closing saw.
SETTLE_PARTS = """
insert into closed_part (station, transaction_id, starts, closing, site, parts, estimated, up, down, export_up,
    export_down)
select station, transaction_id, starts, cast(:closing as bigint), cast(:site as text), sum(parts), sum(estimated),
    sum(up), sum(down), sum(export_up), sum(export_down)
from (
    select p.station, p.transaction_id, p.starts, case when p.on_board then 1 else 0 end as parts,
        case when p.measured then 0 else 1 end as estimated, p.up, p.down, p.export_up, p.export_down
    from {seen} s join part p on p.station = s.station and p.transaction_id = s.transaction_id
    where p.starts < :until
    union all
    select p.station, p.transaction_id, p.starts, -p.parts, -p.estimated, -p.up, -p.down, -p.export_up,
        -p.export_down
    from {seen} s join closed_part p on p.station = s.station and p.transaction_id = s.transaction_id) d
group by station, transaction_id, starts
having sum(parts) <> 0 or sum(estimated) <> 0 or sum(up) <> 0 or sum(down) <> 0 or sum(export_up) <> 0
    or sum(export_down) <> 0
"""
SEEN = (
    "(select station, transaction_id from closed_session where site = :site and closing = :closing)"
)
# PostgreSQL does both in one statement, which sees one moment of the store. SQLite has one writer at a time.
SETTLE_AT_ONCE = f"with seen as ({SEE_SESSIONS} returning station, transaction_id) {SETTLE_PARTS.format(seen='seen')}"
COUNTS = """
select count(*) as sessions, (
    select count(*) from correction where site = :site and closing = :closing) as corrections
from closed_session where site = :site and closing = :closing
"""
TAKE_BACK = "delete from closing where site = :site and closing = :closing"


@dataclass(frozen=True, slots=True)
class Closing:
    """What a closing did: how many sessions it saw, how many rows of periods it wrote, and how many of these changed
    what an earlier closing had settled. `number`: None where nothing changed."""

    site: str
    day: date
    number: int | None
    sessions: int = 0
    periods: int = 0
    corrections: int = 0


def end_day(day: date, zone: str) -> datetime:
    """The first moment behind a day in a zone."""
    return datetime.combine(day + timedelta(days=1), time(), ZoneInfo(zone)).astimezone(
        timezone.utc
    )


def choose_day(site: str, day: date | None, zone: str, now: datetime) -> date:
    """The day that is closed: yesterday in the zone where none is named. Raises UsageError where it is not over."""
    today = now.astimezone(ZoneInfo(zone)).date()
    if day is None:
        return today - timedelta(days=1)
    if day >= today:
        raise UsageError(
            f"{day} is not over at {site} ({zone}); the last day that can be closed is {today - timedelta(days=1)}"
        )
    return day


def close_day(
    store: Database, site: str, day: date | None, who: str, now: datetime | None = None
) -> Closing:
    """Closes a site's periods up to the end of a day, in one database transaction. A day before the last closed one is
    closed with that. Raises UsageError where the store has no such site, or the day is not over."""
    now = now or datetime.now(timezone.utc)
    with store.transaction():
        store.execute(LOCK, site=site)
        found = store.fetch(SITE, site=site)
        if not found:
            raise UsageError(f"the store has no site {site!r}; `ocpp-board plan` lists its sites")
        rules = found[0]
        last = choose_day(site, day, rules.zone, now)
        until, moved = end_day(last, rules.zone), 1
        if rules.until is not None and until <= rules.until:
            last, until, moved = rules.day, rules.until, 0
        number = (rules.closing or 0) + 1
        values = {"site": site, "closing": number, "until": until}
        columns = {
            name: getattr(rules, name) for name in ("period", "reading_order", "settle", "zone")
        }
        store.execute(BEGIN, **values, **columns, day=last, at=now, who=who)
        store.execute(FIRST_DAY, site=site, day=last)
        periods = settle_parts(store, values | {"moved": moved})
        counts = store.fetch(COUNTS, site=site, closing=number)[0]
        if not (moved or counts.sessions):
            store.execute(TAKE_BACK, site=site, closing=number)
            return Closing(site, last, None)
        return Closing(site, last, number, counts.sessions, periods, counts.corrections)


def settle_parts(store: Database, values: dict[str, Any]) -> int:
    """Writes what a closing sees of sessions and changes of their periods. Gives how many rows of periods it wrote."""
    if store.kind == "postgresql":
        return store.execute(SETTLE_AT_ONCE, **values)
    store.execute(SEE_SESSIONS, **values)
    return store.execute(SETTLE_PARTS.format(seen=SEEN), **values)


# What changed ---------------------------------------------------------------------------------------------------------

CORRECTIONS = """
select site, closing, at, day, station, transaction_id, starts, up, down, export_up, export_down, net, first_line,
    last_line, estimated, findings, holds
from correction
where site = :site and at >= :since
order by at, station, transaction_id, starts
"""
CAUSES = """
select number, received, line, who, why from line
where station = :station and transaction_id = :transaction_id and number between :first and :last
order by number
"""


def list_corrections(store: Database, site: str, since: datetime) -> list[Row]:
    """What closings since a moment changed of what earlier ones had settled."""
    return store.fetch(CORRECTIONS, site=site, since=since)


def list_causes(
    store: Database, station: str, transaction_id: str, first: int, last: int
) -> list[Row]:
    """The lines of a session that made a correction."""
    return store.fetch(
        CAUSES, station=station, transaction_id=transaction_id, first=first, last=last
    )
