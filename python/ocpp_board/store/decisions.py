"""What people decide about sessions: declared adjustments, holds that they release, and sessions settled by rule.

Each is a row with who, when and why, beside the ledger's figures and never in them.
"""

from dataclasses import dataclass
from datetime import datetime, timezone

from ocpp_board.energies import kwh
from ocpp_board.errors import UsageError
from ocpp_board.store.database import Database, Row
from ocpp_board.store.plan import Author
from ocpp_board.store.values import estimate_session

SESSION = """
select site, station, transaction_id, evse, complete, up, down, export_up, export_down, began, ended, first_at, last_at,
    first_register, last_register, first_reading_at, last_reading_at
from session where station = :station and transaction_id = :transaction_id
"""
AT_EVSE = """
select transaction_id from session
where station = :station and evse = :evse and events > 0 and first_at <= :at and last_at >= :at
order by first_at, transaction_id
"""
NEXT = """
select transaction_id, first_register from session
where station = :station and evse = :evse and first_at >= :at and transaction_id <> :transaction_id
    and first_register is not null
order by first_at, transaction_id limit 1
"""
# Two adjustments of a station at once: the second one waits here.
LOCK = "update station set place = place where station = :station"
ADJUST = """
insert into adjustment (station, number, transaction_id, site, kind, at, imported, exported, detail, made_at, who, why)
select cast(:station as text), coalesce(max(number), 0) + 1, :transaction_id, :site, :kind, :at, :imported, :exported,
    :detail, :now, :who, :why
from adjustment where station = :station
"""
HOLDS = """
select kind, detail from hold
where station = :station and transaction_id = :transaction_id and released_at is null order by kind
"""
RELEASE = """
insert into release (station, transaction_id, kind, up, down, export_up, export_down, at, who, why)
values (:station, :transaction_id, :kind, :up, :down, :export_up, :export_down, :at, :who, :why)
"""
OPEN = """
select s.station, s.transaction_id, s.state, s.missing, s.gaps, s.last_at, s.up - s.down as imported from session s
left join rule_settled r on r.station = s.station and r.transaction_id = s.transaction_id
where s.site = :site and s.events > 0 and not s.complete and s.last_at < :before and r.station is null
order by s.last_at, s.station, s.transaction_id
"""
BY_RULE = """
select s.station, s.transaction_id, s.state, s.up - s.down as imported, r.at, r.who, r.why
from rule_settled r join session s on s.station = r.station and s.transaction_id = r.transaction_id
where r.site = :site order by r.at, r.station, r.transaction_id
"""
SETTLE_BY_RULE = """
insert into rule_settled (station, transaction_id, site, at, who, why)
values (:station, :transaction_id, :site, :at, :who, :why) on conflict (station, transaction_id) do nothing
"""


@dataclass(frozen=True, slots=True)
class Adjustment:
    """A declared fact of a session: by how much its import and its export are other than the ledger's, in mWh, and the
    moment that it counts at."""

    session: Row
    kind: str
    at: datetime
    imported: int
    exported: int = 0
    detail: str = ""


def find_session(store: Database, station: str, transaction: str) -> Row:
    """A session. Raises UsageError where the store has none such."""
    row = store.fetch_one(SESSION, station=station, transaction_id=transaction.lower())
    if row is None:
        raise UsageError(f"the store has no transaction {transaction!r} of station {station!r}")
    return row


def declare_exchange(
    store: Database, station: str, evse: int, at: datetime, old_end: int, new_begin: int
) -> Adjustment:
    """The adjustment for a meter that was exchanged, or rolled over, while a session ran: the old one ended and the new
    one began at these registers, in mWh. Raises UsageError where not one session ran then."""
    rows = store.fetch(AT_EVSE, station=station, evse=evse, at=at)
    if len(rows) != 1:
        ran = "no session" if not rows else f"{len(rows)} sessions"
        more = " A meter exchanged between sessions makes no number wrong." if not rows else ""
        raise UsageError(
            f"{ran} of EVSE {evse} of {station} ran at {at:%Y-%m-%dT%H:%M:%SZ}; look at the times again.{more}"
        )
    session = find_session(store, station, rows[0].transaction_id)
    detail = f"the old meter ended at {kwh(old_end)} kWh, the new one began at {kwh(new_begin)} kWh"
    return Adjustment(session, "exchange", at, old_end - new_begin, 0, detail)


def declare_estimate(
    store: Database, station: str, transaction: str, register: int | None
) -> Adjustment:
    """The adjustment for a session whose end did not come: it ended at this register in mWh, or at the one with which
    the next session of its EVSE began. Raises UsageError."""
    session = find_session(store, station, transaction)
    if session.last_register is None:
        raise UsageError(
            f"transaction {transaction!r} has no reading; declare its energy by `adjust credit`"
        )
    front = ""
    if register is None:
        row = store.fetch_one(
            NEXT,
            station=station,
            evse=session.evse,
            at=session.last_at,
            transaction_id=session.transaction_id,
        )
        if row is None:
            raise UsageError(
                f"no session of EVSE {session.evse} of {station} began later; name the register by --register"
            )
        register, front = row.first_register, f"transaction {row.transaction_id} began at "
    assert register is not None
    if register < session.last_register:
        raise UsageError(
            f"{kwh(register)} kWh is below the last reading of {transaction!r}, {kwh(session.last_register)} kWh"
        )
    detail = f"{front}{kwh(register)} kWh, its last reading is {kwh(session.last_register)} kWh"
    return Adjustment(
        session, "estimate", session.last_at, register - session.last_register, 0, detail
    )


def declare_by_values(store: Database, station: str, transaction: str) -> Adjustment:
    """The adjustment for a session that took what MeterValues of its EVSE say, from its start to its end. Raises
    UsageError where these do not say it."""
    session = find_session(store, station, transaction)
    found = estimate_session(store, session)
    if found is None:
        raise UsageError(
            f"no MeterValues of EVSE {session.evse} of {station} are around the start and the end of {transaction!r}; "
            "name the register by --register, or the energy by `adjust credit`"
        )
    mwh, detail = found
    had = session.up - session.down
    return Adjustment(session, "estimate", session.last_at, mwh - had, 0, detail)


def declare_credit(
    store: Database, station: str, transaction: str, imported: int, exported: int
) -> Adjustment:
    """The adjustment for energy that is billed to nobody, below 0, or that the ledger lacks. Raises UsageError."""
    session = find_session(store, station, transaction)
    return Adjustment(session, "credit", session.last_at, imported, exported)


def adjust(store: Database, one: Adjustment, author: Author) -> None:
    """Adds an adjustment."""
    with store.transaction():
        store.execute(LOCK, station=one.session.station)
        store.execute(
            ADJUST,
            station=one.session.station,
            transaction_id=one.session.transaction_id,
            site=one.session.site,
            kind=one.kind,
            at=one.at,
            imported=one.imported,
            exported=one.exported,
            detail=one.detail,
            now=datetime.now(timezone.utc),
            who=author.who,
            why=author.why,
        )


def release(store: Database, station: str, transaction: str, author: Author) -> list[str]:
    """Releases a session that is held, for the figures that it has. Returns what it was held for. Raises UsageError
    where it is not held."""
    with store.transaction():
        session = find_session(store, station, transaction)
        key = {"station": session.station, "transaction_id": session.transaction_id}
        kinds = [row.kind for row in store.fetch(HOLDS, **key)]
        if not kinds:
            raise UsageError(f"transaction {transaction!r} of {station} is not held")
        flow = {name: getattr(session, name) for name in ("up", "down", "export_up", "export_down")}
        now = datetime.now(timezone.utc)
        for kind in kinds:
            store.execute(RELEASE, **key, **flow, kind=kind, at=now, who=author.who, why=author.why)
    return kinds


def list_open(store: Database, site: str, before: datetime) -> list[Row]:
    """The sessions that are not complete, of which nothing is later than a moment, and that nobody settled by rule."""
    return store.fetch(OPEN, site=site, before=before)


def list_by_rule(store: Database, site: str) -> list[Row]:
    """The sessions of a site that somebody settled by rule."""
    return store.fetch(BY_RULE, site=site)


def settle_by_rule(store: Database, site: str, before: datetime, author: Author) -> list[Row]:
    """Has the next closing settle the sessions that are not complete and ended before a moment. Returns them."""
    with store.transaction():
        rows = list_open(store, site, before)
        now = datetime.now(timezone.utc)
        for row in rows:
            store.execute(
                SETTLE_BY_RULE,
                station=row.station,
                transaction_id=row.transaction_id,
                site=site,
                at=now,
                who=author.who,
                why=author.why,
            )
    return rows
