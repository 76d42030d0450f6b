"""Stations as gateways read and write them: their passwords, who serves them, and changes of the plan."""

import json
from collections.abc import Mapping, Sequence
from datetime import datetime, timedelta, timezone
from functools import lru_cache
from typing import NamedTuple

from ocpp_board.errors import InputError
from ocpp_board.passwords import Password, find_mistake, make_password
from ocpp_board.store.database import Database, choose
from ocpp_board.store.plan import Author, note_change

# What each station of a site may have, and the greatest that a column has room for.
QUOTAS = ("most_open", "most_bytes", "most_rate")
GREATEST_QUOTAS = {"most_open": 2**31 - 1, "most_bytes": 2**63 - 1, "most_rate": 2**31 - 1}
# How long looks look back: for connections, whose moments are those of the database and are written at once, and for
# changes of the plan, whose moments may be those of another machine.
LATE_CONNECTIONS, LATE_CHANGES = timedelta(seconds=5), timedelta(seconds=30)
# The names of a JSON list, as a table with one column.
NAMES = "(/*sqlite select value from json_each(:names)*//*postgresql select json_array_elements_text(:names)*/)"
NOW = "/*sqlite :now*//*postgresql clock_timestamp()*/"
FIND = f"""
select s.station, s.site, i.most_rate, p.hash, p.salt, p.cost, p.seen_at
from station s join site i on i.site = s.site left join password p on p.station = s.station
where s.station in {NAMES} and s.until is null
order by s.station, p.set_at desc
"""
# Gateways write in one order, so that none waits for another one in a circle.
CONNECT = f"""
insert into connection (station, gateway, number, since) values (:station, :gateway, :number, {NOW})
on conflict (station) do update set gateway = excluded.gateway, number = excluded.number, since = excluded.since
"""
CONNECTED = (
    "select station, gateway, number from connection where since > :since and gateway <> :gateway"
)
CHANGED = """
select id, what, name from change where at > :since and what in ('station', 'password', 'site') order by id
"""
SEE = "update password set seen_at = :now where station = :station and hash = :hash and seen_at is null"
HAS = "select 1 as one from password where station = :station and hash = :hash"
END_OLDER = """
delete from password where station = :station
and set_at < (select set_at from password where station = :station and hash = :hash)
"""


class Planned(NamedTuple):
    """A station of the plan: its site, the messages a second that the site's quota allows, and its passwords, the
    newest one first."""

    site: str
    most_rate: int
    passwords: tuple[Password, ...] = ()


class Change(NamedTuple):
    """A change of the plan: its number, and of what it was."""

    number: int
    what: str
    name: str


@lru_cache(256)
def write_statement(statement: str, kind: str) -> str:
    """A statement for one of the databases."""
    return choose(statement, kind)


def now() -> datetime:
    """This moment."""
    return datetime.now(timezone.utc)


def check(store: Database) -> None:
    """Asks the store whether it is there."""
    store.fetch("select station from station where station = ''")


def find_stations(store: Database, names: Sequence[str]) -> dict[str, Planned]:
    """The stations of these names that the plan has."""
    found = dict[str, Planned]()
    for row in store.fetch(write_statement(FIND, store.kind), names=json.dumps(list(names))):
        one = found.setdefault(row.station, Planned(row.site, row.most_rate))
        if row.hash is not None:
            password = Password(row.hash, row.salt, row.cost, row.seen_at is not None)
            found[row.station] = one._replace(passwords=(*one.passwords, password))
    return found


def note_seen(store: Database, pairs: Sequence[tuple[str, str]]) -> dict[tuple[str, str], bool]:
    """Notes that stations came with the passwords of these hashes, which ends older ones. Gives those that they still
    have."""
    values = [{"station": station, "hash": own, "now": now()} for station, own in sorted(pairs)]
    with store.transaction():
        had = store.fetch_each(HAS, values)
        found = [one for one, rows in zip(values, list(had)) if rows]
        if found:
            store.execute_each(SEE, found)
            store.execute_each(END_OLDER, found)
    return {(str(one["station"]), str(one["hash"])): True for one in found}


def write_connections(store: Database, gateway: str, let_in: Sequence[tuple[str, int]]) -> None:
    """Writes that a gateway serves these stations, each by the connection of its number."""
    at = now()
    with store.transaction():
        store.execute_each(
            write_statement(CONNECT, store.kind),
            [
                {"station": station, "gateway": gateway, "number": number, "now": at}
                for station, number in sorted(let_in)
            ],
        )


def look_for_changes(
    store: Database, gateway: str
) -> tuple[list[tuple[str, str, int]], list[Change]]:
    """The connections that other gateways wrote lately, and the latest changes of stations and sites."""
    at = now()
    if store.kind == "postgresql":
        (row,) = store.fetch("select clock_timestamp() as at")
        at = row.at
    connections = store.fetch(CONNECTED, since=at - LATE_CONNECTIONS, gateway=gateway)
    changes = store.fetch(CHANGED, since=at - LATE_CHANGES)
    return (
        [(row.station, row.gateway, row.number) for row in connections],
        [Change(row.id, row.what, row.name) for row in changes],
    )


def count_passwords(store: Database, station: str) -> str:
    """How many passwords a station has, as JSON."""
    (row,) = store.fetch(
        "select count(*) as n from password where station = :station", station=station
    )
    return json.dumps({"passwords": row.n})


def require_station(store: Database, station: str) -> None:
    """Raises InputError where the plan has no such station."""
    row = store.fetch_one("select until from station where station = :station", station=station)
    if row is None or row.until is not None:
        raise InputError(f"the plan has no station {station!r}; add it by `ocpp-board plan`")


def set_password(
    store: Database, station: str, password: str, author: Author, at_once: bool = False
) -> None:
    """Sets a station's password. What the station came with last stays good until it comes with this one; with
    `at_once` it ends now. Raises InputError."""
    if mistake := find_mistake(password):
        raise InputError(f"{station}: {mistake}")
    made = make_password(password)
    with store.transaction():
        require_station(store, station)
        before = count_passwords(store, station)
        store.execute(
            "delete from password where station = :station and (seen_at is null or :all = 1 or seen_at < "
            "(select max(seen_at) from password where station = :station))",
            station=station,
            all=int(at_once),
        )
        store.execute(
            "insert into password (station, hash, salt, cost, set_at) values (:station, :hash, :salt, :cost, :at)",
            **{
                "station": station,
                "hash": made.hash,
                "salt": made.salt,
                "cost": made.cost,
                "at": now(),
            },
        )
        note_change(store, author, "password", station, before, count_passwords(store, station))


def write_quota(
    store: Database, site: str, author: Author, named: Mapping[str, int | None]
) -> dict[str, int]:
    """Sets the quotas of a site that are named, by the names of QUOTAS, and gives all. Raises InputError."""
    with store.transaction():
        had = store.fetch_one(f"select {', '.join(QUOTAS)} from site where site = :site", site=site)
        if had is None:
            raise InputError(f"plan quota: there is no site {site!r}; add it first")
        before = {name: int(getattr(had, name)) for name in QUOTAS}
        after = before | {name: value for name, value in named.items() if value is not None}
        for name, value in after.items():
            if not 0 <= value <= GREATEST_QUOTAS[name]:
                raise InputError(
                    f"plan quota: {name} {value}; give 1 to {GREATEST_QUOTAS[name]:,}, or 0 for any number"
                )
        changes = ", ".join(f"{name} = :{name}" for name in QUOTAS)
        store.execute(f"update site set {changes} where site = :site", site=site, **after)
        note_change(store, author, "site", site, json.dumps(before), json.dumps(after))
    return after


class StoreFigures(NamedTuple):
    """What a store says for who watches: how many messages are of stations that no site has, seconds since each site's
    last closing, of those that were closed once, and by site how many sessions that lack messages are silent, and how
    many refused texts wait for a decision."""

    strays: int = 0
    closing_ages: Mapping[str, float] = {}
    silent: Mapping[str, int] = {}
    waiting: Mapping[str, int] = {}


def read_figures(store: Database, hours: float) -> StoreFigures:
    """The figures of a store. `hours`: for how long nothing came of sessions that are silent."""
    (row,) = store.fetch("select count(*) as n from stray")
    if not store.has_table("closing"):
        return StoreFigures(row.n)
    closings = store.fetch("select site, max(at) as closed_at from closing group by site")
    silent = store.fetch(
        "select site, count(*) as n from lacking where heard_at < :before group by site",
        before=now() - timedelta(hours=hours),
    )
    waiting = store.fetch(
        """select t.site, count(*) as n from refusal r join station t on t.station = r.station
        where r.decision = '' group by t.site"""
    )
    return StoreFigures(
        row.n,
        {one.site: (now() - one.closed_at).total_seconds() for one in closings},
        {one.site: one.n for one in silent},
        {one.site: one.n for one in waiting},
    )
