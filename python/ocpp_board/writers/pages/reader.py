"""What pages read of the store: rows of its views, by site, station, transaction and day."""

import json
from collections import deque
from collections.abc import Iterator, Sequence
from datetime import datetime, timedelta, timezone
from itertools import chain, groupby
from operator import itemgetter
from string import ascii_lowercase
from typing import Any

from ocpp_board.energies import Flow
from ocpp_board.store.database import Database, count_days
from ocpp_board.writers.pages.facts import (
    AnsweredDeed,
    Closing,
    Correction,
    Found,
    Lack,
    LeftOut,
    Period,
    RefusedText,
    SessionFacts,
    SessionLine,
    SessionRecord,
    Settled,
    Site,
    Totals,
)

# The longest session that a day's page looks for.
LONGEST = timedelta(days=62)
# Stations that a statement names, and the names of its parameters, which have letters only.
MOST_NAMES = 500
NAMES = [f"s_{one}{other}" for one in ascii_lowercase for other in ascii_lowercase][:MOST_NAMES]
FLOWS = "up, down, export_up, export_down"
HOW = "estimated, by_values, shared, lacks_numbers"
TOTALS = f"transactions, complete_transactions, events, voided, missing, {FLOWS}"
SESSION = (
    "station, transaction_id, site, sent_id, evse, events, first_number, last_number, complete, missing, gaps, "
    f"{FLOWS}, state, began, ended, first_at, last_at, first_register, last_register, first_export_register, "
    "last_export_register, stopped_reason, token, token_type, holes, energy_measured, first_reading_at, "
    "last_reading_at, own_order"
)
REFUSED = "station, transaction_id, sent_number, cause, what, advice, times, first_at, last_at"
DEED = "station, transaction_id, number, word, who, why, at, outcome, name"
CLOSING = (
    "closing, day, at, who, period, reading_order, settle, zone, sessions, complete_sessions, rule_sessions, net, "
    "corrections, corrected"
)
LINE, LINE_COLUMNS = "number, received, line, who, why, origin", 6
# Lines and refusals of a transaction that are read.
MOST_LINES, MOST_REFUSED = 600, 200

Row = Sequence[Any]


def make_flow(row: Row, at: int) -> Flow:
    """Makes the energies of four columns from this one on."""
    return Flow(*(int(value or 0) for value in row[at : at + 4]))


def make_totals(row: Row) -> Totals:
    """Makes figures of the columns TOTALS."""
    counts = [int(value or 0) for value in row[:5]]
    return Totals(counts[0], counts[1], counts[2], counts[3], counts[4], make_flow(row, 5))


def read_gaps(text: str) -> tuple[tuple[int, int], ...]:
    """Reads ranges such as `3..5 7..7`."""
    pairs = (one.split("..") for one in text.split())
    return tuple((int(first), int(last)) for first, last in pairs)


def read_holes(text: str) -> tuple[tuple[datetime, datetime], ...]:
    """Reads the times between which numbers are missing: JSON, pairs of seconds since 1970."""
    if not text:
        return ()
    pairs = ([datetime.fromtimestamp(at, timezone.utc) for at in pair] for pair in json.loads(text))
    return tuple((first, last) for first, last in pairs)


def pair_registers(first: int | None, last: int | None) -> tuple[int, int] | None:
    """The first and the last reading of a register; None where there is none."""
    return None if first is None or last is None else (first, last)


def make_session(row: Any) -> SessionFacts:
    """Makes a session of the columns SESSION."""
    return SessionFacts(
        row.station,
        row.transaction_id,
        row.site,
        row.sent_id or row.transaction_id,
        row.evse,
        row.events,
        row.first_number or 0,
        row.last_number or 0,
        row.complete,
        row.missing,
        read_gaps(row.gaps),
        Flow(row.up, row.down, row.export_up, row.export_down),
        row.state,
        row.began,
        row.ended,
        row.first_at,
        row.last_at,
        pair_registers(row.first_register, row.last_register),
        pair_registers(row.first_export_register, row.last_export_register),
        row.stopped_reason,
        row.token,
        row.token_type,
        read_holes(row.holes),
        row.energy_measured,
        row.first_reading_at,
        row.last_reading_at,
        row.own_order,
    )


class Reader:
    """Reads a store, a site or a station at a time."""

    def __init__(self, store: Database) -> None:
        self.store = store

    def sites(self) -> list[Site]:
        """The sites, by name."""
        rows = self.store.fetch(
            "select site, zone, period, reading_order, settle from site order by site"
        )
        return [Site(*row) for row in rows]

    def find_rules(self, site: str) -> Site | None:
        """A site; None where there is no such one."""
        sql = "select site, zone, period, reading_order, settle from site where site = :site"
        rows = self.store.fetch(sql, site=site)
        return Site(*rows[0]) if rows else None

    def stations(self, site: str) -> list[str]:
        """The stations that the plan has at a site, by name."""
        rows = self.store.fetch(
            "select station from station where site = :site order by station", site=site
        )
        return [row[0] for row in rows]

    def site_stations(self, site: str) -> list[str]:
        """The stations that have transactions at a site, or that the plan has there, by name."""
        rows = self.store.fetch(
            "select station from station where site = :site union "
            "select distinct station from session where site = :site",
            site=site,
        )
        return sorted(row[0] for row in rows)

    def station_sites(self, station: str) -> list[str]:
        """The sites that a station has been at."""
        rows = self.store.fetch(
            "select site from station where station = :station union "
            "select site from session where station = :station",
            station=station,
        )
        return [row[0] for row in rows]

    def find_site(self, station: str, transaction_id: str) -> str | None:
        """The site of a transaction; None where there is no such transaction."""
        rows = self.store.fetch(
            "select site from session where station = :station and transaction_id = :tx",
            station=station,
            tx=transaction_id,
        )
        return rows[0][0] if rows else None

    # Figures ----------------------------------------------------------------------------------------------------------

    def station_totals(self, site: str, station: str | None = None) -> dict[str, Totals]:
        """The figures of a site's stations, or of one of them."""
        sql = f"select {TOTALS}, station from board_station where site = :site"
        rows = self.read_of(sql, site, station, " order by station")
        return {row[9]: make_totals(row) for row in rows}

    def evse_totals(self, site: str, station: str) -> list[tuple[int, int, Flow]]:
        """The EVSEs of a station: their numbers (0: not named), sessions and energies."""
        sql = f"select evse, transactions, {FLOWS} from board_evse where site = :site"
        rows = self.read_of(sql, site, station, " order by evse")
        return [(row[0] or 0, row[1], make_flow(row, 2)) for row in rows]

    def read_of(
        self, sql: str, site: str, station: str | None, tail: str, /, **more: Any
    ) -> list[Row]:
        """Reads a statement of a site, or only what is of one of its stations."""
        if station is None:
            return self.store.fetch(sql + tail, site=site, **more)
        one = f"{sql} and station = :station{tail}"
        return self.store.fetch(one, site=site, station=station, **more)

    # Periods ----------------------------------------------------------------------------------------------------------

    def site_periods(self, site: Site, begin: datetime, end: datetime) -> list[Period]:
        """The periods of a site from one moment to another."""
        sql = (
            f"select starts, {FLOWS}, {HOW} from board_site_period "
            "where site = :site and starts >= :begin and starts < :end order by starts"
        )
        rows = self.store.fetch(sql, site=site.name, begin=begin, end=end)
        return [make_period(row, site.period) for row in rows]

    def day_periods(
        self, site: Site, stations: Sequence[str], begin: datetime, end: datetime
    ) -> dict[str, list[Period]]:
        """The periods of some stations of a site from one moment to another. Each station is named, so that the index
        by station and time serves; what is asked of the site is written so that its index, which has all years, does
        not."""
        found = dict[str, list[Period]]()
        for first in range(0, len(stations), MOST_NAMES):
            names = dict(zip(NAMES, stations[first : first + MOST_NAMES]))
            sql = (
                f"select starts, {FLOWS}, {HOW}, station from board_period "
                "where site || '' = :site and starts >= :begin and starts < :end and station in "
                f"({', '.join(f':{name}' for name in names)}) order by starts"
            )
            rows = self.store.fetch(sql, site=site.name, begin=begin, end=end, **names)
            for row in rows:
                found.setdefault(row[9], []).append(make_period(row, site.period))
        return found

    def next_moment(self, site: str, station: str | None, since: datetime) -> datetime | None:
        """The first moment from one on at which a session of a site or of a station began or ended; None where there is
        none."""
        values = {"since": since, "day": count_days(since)}
        first = "select first_at as at from session where site = :site and first_at >= :since"
        last = "select last_at as at from session where site = :site and last_day >= :day and last_at >= :since"
        rows = self.read_of(first, site, station, " order by first_at limit 1", since=since)
        rows += self.read_of(last, site, station, " order by last_day, last_at limit 1", **values)
        return min((row[0] for row in rows), default=None)

    def moment_before(self, site: str, station: str | None, until: datetime) -> datetime | None:
        """The last moment before one at which a session of a site or of a station began or ended; None where there is
        none."""
        values = {"until": until, "day": count_days(until)}
        first = "select first_at as at from session where site = :site and first_at < :until"
        last = "select last_at as at from session where site = :site and last_day <= :day and last_at < :until"
        rows = self.read_of(first, site, station, " order by first_at desc limit 1", until=until)
        end = " order by last_day desc, last_at desc limit 1"
        rows += self.read_of(last, site, station, end, **values)
        return max((row[0] for row in rows), default=None)

    def station_moments(self, site: str, station: str) -> Iterator[datetime]:
        """The moments at which the sessions of a station began and ended."""
        sql = "select first_at, last_at from session where site = :site and station = :station"
        rows = self.store.fetch(sql, site=site, station=station)
        return (at for row in rows for at in row if at)

    def last_moment(self, site: str, station: str | None = None) -> datetime | None:
        """The last moment of the sessions of a site or of a station."""
        sql = "select last_at from session where site = :site and last_day is not null"
        rows = self.read_of(sql, site, station, " order by last_day desc, last_at desc limit 1")
        return rows[0][0] if rows else None

    # Sessions ---------------------------------------------------------------------------------------------------------

    def session(self, station: str, transaction_id: str) -> SessionFacts | None:
        """A transaction; None where there is no such one."""
        sql = f"select {SESSION} from session where station = :station and transaction_id = :tx"
        rows = self.store.fetch(sql, station=station, tx=transaction_id)
        return make_session(rows[0]) if rows else None

    def day_sessions(
        self, site: str, begin: datetime, end: datetime, station: str | None = None
    ) -> list[SessionFacts]:
        """The sessions that ran between two moments, by their beginnings."""
        sql = (
            f"select {SESSION} from session where site = :site and last_day >= :first and last_day <= :last "
            "and last_at >= :begin and last_at < :latest and first_at < :end"
        )
        latest = end + LONGEST
        values: dict[str, Any] = {"begin": begin, "end": end, "latest": latest}
        values |= {"first": count_days(begin), "last": count_days(latest)}
        end_of = " order by first_at, station, transaction_id"
        rows = self.read_of(sql, site, station, end_of, **values)
        return [make_session(row) for row in rows]

    def station_sessions(self, site: str, station: str) -> list[SessionFacts]:
        """The sessions of a station."""
        sql = f"select {SESSION} from session where site = :site"
        return [make_session(row) for row in self.read_of(sql, site, station, "")]

    def latest_sessions(self, site: str, station: str, count: int) -> list[SessionFacts]:
        """The last sessions of a station, the latest first."""
        sql = f"select {SESSION} from session where site = :site"
        end = " order by first_at desc limit :count"
        return [make_session(row) for row in self.read_of(sql, site, station, end, count=count)]

    def lines(self, station: str, transaction_id: str, last: int) -> list[SessionLine]:
        """The last so many lines of a transaction, in their order."""
        sql = (
            f"select {LINE} from line where station = :station "
            "and transaction_id = :tx order by number desc limit :last"
        )
        rows = self.store.fetch(sql, station=station, tx=transaction_id, last=last)
        return [SessionLine(*row) for row in reversed(rows)]

    def station_lines(self, station: str, last: int) -> Iterator[tuple[str, list[SessionLine]]]:
        """The transactions of a station that have lines, by their ids, each with its last so many lines in their
        order."""
        sql = f"select {LINE}, transaction_id from line where station = :station order by transaction_id, number"
        rows = self.store.stream(sql, station=station)
        for transaction_id, some in groupby(rows, itemgetter(LINE_COLUMNS)):
            yield transaction_id, [SessionLine(*row[:LINE_COLUMNS]) for row in deque(some, last)]

    def session_record(self, session: SessionFacts) -> SessionRecord:
        """What the page of a transaction has beside its figures."""
        return SessionRecord(
            self.lines(session.station, session.transaction_id, MOST_LINES),
            self.session_refused(session, MOST_REFUSED),
            self.session_deeds(session),
        )

    def station_records(
        self, site: str, station: str
    ) -> Iterator[tuple[SessionFacts, SessionRecord]]:
        """The transactions of a station with the same, read at once."""
        sessions = {one.transaction_id: one for one in self.station_sessions(site, station)}
        refused = self.list_transactions("refusal", station) | self.list_transactions(
            "stray", station
        )
        deeds = self.list_transactions("deed", station)
        nothing: list[SessionLine] = []
        for tx, lines in chain(
            self.station_lines(station, MOST_LINES), ((tx, nothing) for tx in [*sessions])
        ):
            session = sessions.pop(tx, None)
            if session is not None:
                yield session, SessionRecord(
                    lines,
                    self.session_refused(session, MOST_REFUSED) if tx in refused else [],
                    self.session_deeds(session) if tx in deeds else [],
                )

    def list_transactions(self, table: str, station: str) -> set[str]:
        """The transactions of a station that a table names."""
        sql = f"select distinct transaction_id from {table} where station = :station"
        return {row[0] for row in self.store.fetch(sql, station=station)}

    # Troubles ---------------------------------------------------------------------------------------------------------

    def findings(self, site: str, station: str | None = None) -> list[Found]:
        """The findings of a site or of one of its stations."""
        sql = "select station, transaction_id, kind, times, first_at, detail from all_finding where site = :site"
        rows = self.read_of(sql, site, station, "")
        return [make_found(row) for row in rows]

    def session_findings(self, session: SessionFacts) -> list[Found]:
        """The findings of a transaction."""
        sql = (
            "select station, transaction_id, kind, times, first_at, detail from session_finding "
            "where site = :site and transaction_id = :tx"
        )
        rows = self.read_of(sql, session.site, session.station, "", tx=session.transaction_id)
        return [make_found(row) for row in rows]

    def lacks(self, site: str, station: str | None = None) -> list[Lack]:
        """The sessions of a site or of one of its stations that lack messages."""
        sql = (
            "select station, transaction_id, state, missing, first_at, energy_measured from lacking "
            "where site = :site"
        )
        return [Lack(*row) for row in self.read_of(sql, site, station, "")]

    def lacking(self, site: str, count: int, skipped: int = 0) -> list[SessionFacts]:
        """The sessions of a site that are not complete, the latest first."""
        sql = (
            f"select {SESSION} from session where site = :site and not complete and events > 0 "
            "order by first_at desc, station, transaction_id limit :count offset :skipped"
        )
        rows = self.store.fetch(sql, site=site, count=count, skipped=skipped)
        return [make_session(row) for row in rows]

    def silent(
        self, site: str, before: datetime, count: int, skipped: int = 0
    ) -> list[tuple[SessionFacts, datetime]]:
        """The sessions of a site that lack messages and sent nothing since a moment, and when something came
        last; the latest first."""
        columns = ", ".join(f"s.{name}" for name in SESSION.split(", "))
        sql = (
            f"select {columns}, l.heard_at from lacking l "
            "join session s on s.station = l.station and s.transaction_id = l.transaction_id "
            "where l.site = :site and l.heard_at < :before "
            "order by l.heard_at desc, l.station, l.transaction_id limit :count offset :skipped"
        )
        rows = self.store.fetch(sql, site=site, before=before, count=count, skipped=skipped)
        return [(make_session(row), row.heard_at) for row in rows]

    def left_out(self, site: str | None) -> list[LeftOut]:
        """The stations of a site whose messages are left out for their version; without a site, those of none."""
        of_site = "= :site" if site is not None else "not in (select site from site)"
        rows = self.store.fetch(
            "select l.station, l.version from left_out l left join station t on t.station = l.station "
            f"where coalesce(t.site, l.site) {of_site} order by l.station, l.version",
            **({"site": site} if site is not None else {}),
        )
        return [LeftOut(*row) for row in rows]

    def refused(
        self, site: str, station: str | None, count: int, skipped: int = 0
    ) -> list[RefusedText]:
        """What a site's stations sent that changed nothing, the latest first."""
        sql = f"select {REFUSED} from refused where site = :site"
        end = " order by last_at desc, station, cause limit :count offset :skipped"
        rows = self.read_of(sql, site, station, end, count=count, skipped=skipped)
        return [make_refused(row) for row in rows]

    def session_refused(self, session: SessionFacts, count: int) -> list[RefusedText]:
        """What came of a transaction and changed nothing."""
        sql = f"select {REFUSED} from refused where site = :site and transaction_id = :tx"
        values = {"tx": session.transaction_id, "count": count}
        end = " order by first_at limit :count"
        rows = self.read_of(sql, session.site, session.station, end, **values)
        return [make_refused(row) for row in rows]

    def count_refused(self, site: str) -> int:
        """How many messages of a site's stations changed nothing."""
        rows = self.store.fetch(
            "select sum(times) as times from refused where site = :site", site=site
        )
        return int(rows[0][0] or 0)

    def count_all_refused(self) -> dict[str, int]:
        """How many messages of each site's stations changed nothing."""
        rows = self.store.fetch("select site, sum(times) as times from refused group by site")
        return {row[0]: int(row[1]) for row in rows}

    def count_lacking(self, site: str) -> int:
        """How many sessions of a site are not complete. One of which no event counts has no first moment: so the index
        has all that is asked for."""
        sql = "select count(first_at) as times from session where site = :site and not complete"
        return int(self.store.fetch(sql, site=site)[0][0])

    def count_stations(self, site: str) -> int:
        """How many stations the plan has at a site."""
        sql = "select count(*) as times from station where site = :site"
        return int(self.store.fetch(sql, site=site)[0][0])

    def totals_since(self, site: str, since: datetime) -> Totals:
        """The figures of a site's sessions that ran after a moment."""
        rows = self.store.fetch(
            "select count(*) as transactions, sum(case when complete then 1 else 0 end) as completed, "
            "sum(events) as events, sum(voided) as voided, sum(missing) as missing, sum(up) as up, "
            "sum(down) as down, sum(export_up) as export_up, sum(export_down) as export_down "
            "from session where site = :site and last_day >= :day and last_at > :since and events > 0",
            site=site,
            since=since,
            day=count_days(since),
        )
        return make_totals(rows[0])

    def deeds(self, site: str, count: int, skipped: int = 0) -> list[AnsweredDeed]:
        """What operators did at a site's stations, the latest first."""
        sql = (
            f"select {DEED} from deed where station in (select station from station where site = :site) "
            "order by at desc, station, transaction_id, number limit :count offset :skipped"
        )
        rows = self.store.fetch(sql, site=site, count=count, skipped=skipped)
        return [AnsweredDeed(*row) for row in rows]

    def session_deeds(self, session: SessionFacts) -> list[AnsweredDeed]:
        """What operators did at a transaction, in the order of time."""
        sql = (
            f"select {DEED} from deed where station = :station and transaction_id = :tx order by at"
        )
        values = {"station": session.station, "tx": session.transaction_id}
        return [AnsweredDeed(*row) for row in self.store.fetch(sql, **values)]

    def count_deeds(self, station: str, transaction_id: str) -> int:
        """How much operators did at a transaction."""
        rows = self.store.fetch(
            "select count(*) as times from deed where station = :station and transaction_id = :tx",
            station=station,
            tx=transaction_id,
        )
        return int(rows[0][0])

    # Closings ---------------------------------------------------------------------------------------------------------

    def closings(self, site: str, count: int, skipped: int = 0) -> list[Closing]:
        """The closings of a site, the latest first."""
        sql = f"select {CLOSING} from closing_sum where site = :site order by closing desc limit :count offset :skipped"
        rows = self.store.fetch(sql, site=site, count=count, skipped=skipped)
        return [Closing(*row) for row in rows]

    def closing(self, site: str, number: int) -> Closing | None:
        """A closing of a site; None where there is no such one."""
        sql = f"select {CLOSING} from closing_sum where site = :site and closing = :number"
        rows = self.store.fetch(sql, site=site, number=number)
        return Closing(*rows[0]) if rows else None

    def last_closings(self) -> dict[str, int]:
        """The number of each site's last closing."""
        rows = self.store.fetch("select site, max(closing) as closing from closing group by site")
        return {row[0]: int(row[1]) for row in rows}

    def corrections(self, site: str, number: int, count: int) -> list[Correction]:
        """What a closing changed of what one before had settled."""
        sql = (
            "select c.*, d.findings, d.holds from ("
            "select station, transaction_id, starts, net, first_line, last_line, estimated from correction "
            "where site = :site and closing = :number order by station, transaction_id, starts limit :count) c "
            "join session_doubt d on d.station = c.station and d.transaction_id = c.transaction_id "
            "order by c.station, c.transaction_id, c.starts"
        )
        rows = self.store.fetch(sql, site=site, number=number, count=count)
        return [Correction(*row) for row in rows]

    def settled_sessions(self, site: str, number: int, count: int) -> list[Settled]:
        """The sessions that a closing settled."""
        sql = (
            "select c.station, c.transaction_id, c.settled, c.lines, s.energy_measured, s.first_reading_at, "
            "s.last_reading_at, d.findings, d.holds, a.adjusted_import - a.adjusted_export as adjusted, c.up, c.down, "
            "c.export_up, c.export_down from ("
            "select * from closed_session where site = :site and closing = :number and settled is not null "
            "order by station, transaction_id limit :count) c "
            "join session s on s.station = c.station and s.transaction_id = c.transaction_id "
            "join session_doubt d on d.station = c.station and d.transaction_id = c.transaction_id "
            "join adjusted_session a on a.station = c.station and a.transaction_id = c.transaction_id "
            "order by c.station, c.transaction_id"
        )
        rows = self.store.fetch(sql, site=site, number=number, count=count)
        return [Settled._make([*row[:10], make_flow(row, 10)]) for row in rows]

    def count_strays(self) -> int:
        """How many messages came of stations that no site has."""
        rows = self.store.fetch("select sum(times) as times from stray")
        return int(rows[0][0] or 0)


def make_period(row: Row, seconds: int) -> Period:
    """Makes a period of its start, its energies, and how they were come by."""
    flow = Flow(row[1], row[2], row[3], row[4])
    return Period(row[0], seconds, flow, int(row[5]), int(row[6]), int(row[7]), bool(row[8]))


def make_found(row: Row) -> Found:
    """Makes a finding."""
    return Found(row[0], row[1] or "", row[2], row[3], row[4], row[5] or "")


def make_refused(row: Row) -> RefusedText:
    """Makes a message that changed nothing."""
    number = "" if row[2] is None else str(row[2])
    return RefusedText(row[0], row[1] or "", number, *row[3:9])
