"""The plan of a store: its sites with their rules, its stations, and who changed them when and why."""

import json
from collections.abc import Iterable, Iterator, Sequence
from dataclasses import asdict, dataclass, replace
from datetime import datetime, timedelta, timezone
from typing import Any
from zoneinfo import ZoneInfo, ZoneInfoNotFoundError

from ocpp_board.errors import InputError
from ocpp_board.limits import FIRST_MOMENT, GREATEST_LIMITS, ORDERS, PAST_MOMENTS, PERIODS
from ocpp_board.limits import RULES as SETTLES
from ocpp_board.limits import is_name
from ocpp_board.records import Limits, Quota, Rules
from ocpp_board.store.database import Database, Row

RULES_COLUMNS = (
    "period, reading_order, settle, zone, events, readings, most_kw, reading_within, resolution"
)
# The advisory locks of PostgreSQL by sites: writers of lines share one, who changes a site's plan has it alone.
SITE_LOCK = 7_201_402


@dataclass(frozen=True, slots=True)
class Author:
    """Who changes something, and why."""

    who: str
    why: str


def read_rules(row: Row) -> Rules:
    """The rules that a row of `site` has."""
    limits = Limits(row.events, row.readings)
    more = (row.most_kw, row.reading_within, row.resolution)
    return Rules(row.period, row.reading_order, row.settle, limits, row.zone, *more)


@dataclass(frozen=True, slots=True)
class Planned:
    """What the plan has of some stations: the site of each, the powers of those that have one of their own, and the
    rules and quotas of these sites."""

    sites: dict[str, str]
    powers: dict[str, int]
    rules: dict[str, Rules]
    quotas: dict[str, Quota]


def find_planned(store: Database, stations: Sequence[str]) -> Planned:
    """What the plan has of those of these stations that it has."""
    columns = ", ".join(f"i.{name}" for name in RULES_COLUMNS.split(", "))
    asked = f"""select t.station, t.most_kw as own_kw, i.site, {columns}, i.most_open, i.most_bytes
    from station t join site i on i.site = t.site where t.station"""
    if store.kind == "postgresql":
        rows = store.fetch(f"{asked} = any(:stations)", stations=list(stations))
    else:
        some = store.fetch_each(f"{asked} = :station", [{"station": one} for one in stations])
        rows = [row for one in some for row in one]
    sites = {row.site: row for row in rows}
    return Planned(
        {row.station: row.site for row in rows},
        {row.station: row.own_kw for row in rows if row.own_kw},
        {site: read_rules(row) for site, row in sites.items()},
        {site: Quota(row.most_open, row.most_bytes) for site, row in sites.items()},
    )


def own_rules(rules: Rules, own_order: str, most_kw: int | None) -> Rules:
    """The rules of a transaction: those of its site, but for an order of its own and the power of its station."""
    if own_order and own_order != rules.order:
        rules = replace(rules, order=own_order)
    return replace(rules, most_kw=most_kw) if most_kw and most_kw != rules.most_kw else rules


def find_session_rules(store: Database, station: str, transaction: str) -> tuple[str, Rules] | None:
    """The site and the rules of a transaction; None where there is none such."""
    columns = ", ".join(f"i.{name}" for name in RULES_COLUMNS.split(", "))
    row = store.fetch_one(
        f"""select s.site, s.own_order, t.most_kw as own_kw, {columns}
        from session s join site i on i.site = s.site left join station t on t.station = s.station
        where s.station = :station and s.transaction_id = :transaction_id""",
        station=station,
        transaction_id=transaction,
    )
    return (row.site, own_rules(read_rules(row), row.own_order, row.own_kw)) if row else None


def find_rules(store: Database, site: str) -> Rules | None:
    """The rules of a site; None where there is no such site."""
    row = store.fetch_one(f"select {RULES_COLUMNS} from site where site = :site", site=site)
    return read_rules(row) if row else None


def list_stations(store: Database) -> dict[str, str]:
    """All stations of the plan, each with its site, in the order in which they were added."""
    rows = store.fetch("select station, site from station order by place, station")
    return {row.station: row.site for row in rows}


def check_rules(rules: Rules, where: str) -> None:
    """Checks rules. Raises InputError, which begins with `where`."""
    if rules.period not in PERIODS:
        raise InputError(f"{where}: a period of {rules.period} seconds; take one of {PERIODS}")
    if rules.order not in ORDERS:
        raise InputError(f"{where}: {rules.order!r} is no order of readings; take one of {ORDERS}")
    if rules.settle not in SETTLES:
        raise InputError(f"{where}: {rules.settle!r} is no rule of settling; take one of {SETTLES}")
    for name, value in asdict(rules.limits).items():
        if not 0 < value <= GREATEST_LIMITS[name]:
            raise InputError(
                f"{where}: {value} {name}; a transaction may keep 1 to {GREATEST_LIMITS[name]}"
            )
    if not 0 < rules.reading_within <= 86_400:
        raise InputError(
            f"{where}: a reading within {rules.reading_within} seconds; give 1 to 86,400 seconds"
        )
    if not 0 <= rules.resolution <= 100_000:
        raise InputError(f"{where}: a resolution of {rules.resolution} Wh; give 0 to 100,000 Wh")
    if not 0 < rules.most_kw <= 1_000_000:
        raise InputError(f"{where}: a power of {rules.most_kw} kW; give one from 1 to 1,000,000")
    open_zone(rules.zone, where)


def open_zone(zone: str, where: str) -> ZoneInfo:
    """A time zone by its name. Raises InputError."""
    try:
        return ZoneInfo(zone)
    except (ZoneInfoNotFoundError, ValueError, OSError):
        raise InputError(f"{where}: no time zone {zone!r}; name one as Europe/Berlin") from None


def check_name(name: str, what: str, where: str) -> None:
    """Checks the name of a site or a station. Raises InputError."""
    if not is_name(name):
        raise InputError(
            f"{where}: {name!r} is no name of a {what}; names have 1 to 48 of A-Z a-z 0-9 * - _ = : + | @ ."
        )


def lock_sites(store: Database, sites: list[str]) -> None:
    """Holds sites for a change of their plan, up to the end of the database transaction: nobody writes their lines.
    SQLite has one writer at a time anyway."""
    if store.kind == "postgresql":
        store.execute(
            f"""select pg_advisory_xact_lock({SITE_LOCK}, hashtext(site))
            from (select unnest(cast(:sites as text[])) as site order by 1) as sorted""",
            sites=sorted(set(sites)),
        )


def share_sites(store: Database, stations: Sequence[str], sites: Iterable[str]) -> set[str]:
    """Holds the sites of these stations, and these sites, for their lines, up to the end of the database transaction,
    and gives those that it holds: their plan does not change. SQLite has one writer at a time anyway.
    """
    if store.kind != "postgresql":
        return set(sites)
    rows = store.fetch(
        f"""select site, pg_advisory_xact_lock_shared({SITE_LOCK}, hashtext(site)) from (
            select site from station where station = any(:stations) union select unnest(cast(:sites as text[]))
            order by 1) as sorted""",
        stations=list(stations),
        sites=sorted(set(sites)),
    )
    return {row.site for row in rows}


def write_site(
    store: Database, site: str, rules: Rules, author: Author, where: str = "plan"
) -> bool:
    """Adds a site or gives it other rules, within a database transaction. Returns whether rules changed that its rows
    depend on: whoever calls computes them again. Raises InputError."""
    check_name(site, "site", where)
    check_rules(rules, where)
    lock_sites(store, [site])
    store.execute("update site set place = place where site = :site", site=site)
    had = store.fetch_one(
        f"select {RULES_COLUMNS}, first_settled_day from site where site = :site", site=site
    )
    before = read_rules(had) if had else None
    if before == rules:
        return False
    if had is not None and before is not None and had.first_settled_day is not None:
        if decide_figures(before) != decide_figures(rules):
            raise InputError(
                f"{where}: the period, order, rule of settling and zone of {site} are fixed, since its first day is "
                f"settled ({had.first_settled_day})"
            )
    store.execute(
        f"""insert into site (site, {RULES_COLUMNS}, place)
        values (:site, :period, :order, :settle, :zone, :events, :readings, :most_kw, :reading_within, :resolution,
            (select coalesce(max(place), 0) + 1 from site))
        on conflict (site) do update set period = excluded.period, reading_order = excluded.reading_order,
            settle = excluded.settle, zone = excluded.zone, events = excluded.events, readings = excluded.readings,
            most_kw = excluded.most_kw, reading_within = excluded.reading_within, resolution = excluded.resolution""",
        site=site,
        **list_values(rules),
    )
    write_zone(store, rules.zone)
    note_change(store, author, "site", site, describe_rules(before), describe_rules(rules))
    return before is not None and decide_rows(before) != decide_rows(rules)


def decide_figures(rules: Rules) -> tuple[Any, ...]:
    """The rules that figures depend on."""
    return rules.period, rules.order, rules.settle, rules.zone


def decide_rows(rules: Rules) -> tuple[Any, ...]:
    """The rules that the rows of a transaction depend on."""
    return (
        *(rules.period, rules.order, rules.settle, rules.most_kw),
        *(rules.reading_within, rules.resolution),
    )


def list_values(rules: Rules) -> dict[str, Any]:
    """Rules as the values of columns."""
    return {
        "period": rules.period,
        "order": rules.order,
        "settle": rules.settle,
        "zone": rules.zone,
        "events": rules.limits.events,
        "readings": rules.limits.readings,
        "most_kw": rules.most_kw,
        "reading_within": rules.reading_within,
        "resolution": rules.resolution,
    }


def describe_rules(rules: Rules | None) -> str:
    """Rules as JSON; empty where there are none."""
    return json.dumps(list_values(rules)) if rules else ""


def write_station(
    store: Database, station: str, site: str, author: Author, where: str = "plan"
) -> bool:
    """Adds a station to a site, or moves it there, within a database transaction. Transactions that it began stay where
    they are. Returns whether it is new or moved. Raises InputError."""
    check_name(station, "station", where)
    if find_rules(store, site) is None:
        raise InputError(f"{where}: there is no site {site!r}; add it first")
    had = store.fetch_one(
        "select site, until from station where station = :station", station=station
    )
    if had and had.site == site and had.until is None:
        return False
    lock_sites(store, [site, *([had.site] if had else [])])
    store.execute(
        """insert into station (station, site, since, place)
        values (:station, :site, :now, (select coalesce(max(place), 0) + 1 from station))
        on conflict (station) do update set site = excluded.site, since = excluded.since, until = null""",
        station=station,
        site=site,
        now=datetime.now(timezone.utc),
    )
    before = json.dumps({"site": had.site, "retired": had.until is not None}) if had else ""
    note_change(
        store, author, "station", station, before, json.dumps({"site": site, "retired": False})
    )
    return True


def write_power(
    store: Database, station: str, most_kw: int, author: Author, where: str = "plan"
) -> bool:
    """Says the greatest power of a station's EVSEs in kW, within a database transaction. Returns whether it is another
    one: whoever calls computes its rows again. Raises InputError."""
    had = store.fetch_one("select most_kw from station where station = :station", station=station)
    if had is None:
        raise InputError(f"{where}: there is no station {station!r}")
    if had.most_kw == most_kw:
        return False
    store.execute(
        "update station set most_kw = :most_kw where station = :station",
        station=station,
        most_kw=most_kw,
    )
    before, after = (json.dumps({"most_kw": kw}) for kw in (had.most_kw, most_kw))
    note_change(store, author, "station", station, before, after)
    return True


def retire_station(store: Database, station: str, author: Author, where: str = "plan") -> None:
    """Ends a station, within a database transaction; its transactions stay. Raises InputError."""
    had = store.fetch_one(
        "select site, until from station where station = :station", station=station
    )
    if had is None:
        raise InputError(f"{where}: there is no station {station!r}")
    if had.until is None:
        store.execute(
            "update station set until = :now where station = :station",
            station=station,
            now=datetime.now(timezone.utc),
        )
        store.execute("delete from password where station = :station", station=station)
        before, after = ({"site": had.site, "retired": is_retired} for is_retired in (False, True))
        note_change(store, author, "station", station, json.dumps(before), json.dumps(after))


def note_change(
    store: Database, author: Author, what: str, name: str, before: str, after: str
) -> None:
    """Adds a row of `change`."""
    store.execute(
        """insert into change (at, who, why, what, name, before_text, after_text)
        values (:now, :who, :why, :what, :name, :before, :after)""",
        now=datetime.now(timezone.utc),
        who=author.who,
        why=author.why,
        what=what,
        name=name,
        before=before,
        after=after,
    )


def write_zone(store: Database, zone: str) -> None:
    """Adds the offsets of a zone, where they are not there."""
    if store.fetch_one("select 1 as one from zone_offset where zone = :zone", zone=zone):
        return
    store.insert_each("zone_offset", list(list_offsets(zone)))


def list_offsets(zone: str) -> Iterator[dict[str, Any]]:
    """What the clocks of a zone show beside UTC, from the first moment of messages to the last one."""
    clock = ZoneInfo(zone)
    since, offset = FIRST_MOMENT, read_offset(clock, FIRST_MOMENT)
    at = FIRST_MOMENT
    while at < PAST_MOMENTS:
        after = min(at + timedelta(days=7), PAST_MOMENTS)
        if read_offset(clock, after) != offset:
            low, high = at, after
            while high - low > timedelta(seconds=1):
                middle = low + (high - low) // 2
                if read_offset(clock, middle) == offset:
                    low = middle
                else:
                    high = middle
            after = high.replace(microsecond=0)
            yield {"zone": zone, "since": since, "until": after, "seconds": offset}
            since, offset = after, read_offset(clock, after)
        at = after
    yield {"zone": zone, "since": since, "until": PAST_MOMENTS, "seconds": offset}


def read_offset(clock: ZoneInfo, at: datetime) -> int:
    """What a zone's clocks show beside UTC at a moment, in seconds."""
    offset = at.astimezone(clock).utcoffset()
    return int(offset.total_seconds()) if offset else 0
