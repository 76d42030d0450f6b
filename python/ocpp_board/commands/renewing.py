"""Renews pages and tables of what changed in a store."""

import logging
from collections.abc import Callable, Collection, Sequence
from copy import copy
from dataclasses import dataclass, replace
from datetime import date, datetime, timedelta, timezone
from pathlib import Path

from ocpp_board.limits import SILENT_HOURS
from ocpp_board.store.database import Database, Row, count_hours, open_again
from ocpp_board.writers import pages
from ocpp_board.writers.calendar import find_calendar
from ocpp_board.writers.copies import share_work
from ocpp_board.writers.tables import Book, Site, SiteTables, TableOptions, TableWriter
from ocpp_board.writers.tables import list_sites

log = logging.getLogger(__name__)

# The file that says up to which moment changes are on the pages.
MARK = ".renewed"
# Changes whose commit may come so much later than the moment that they name.
LATE = timedelta(seconds=60)
# Days of a transaction whose tables are written.
MOST_DAYS = 400
# Days whose tables are read at once.
SPAN = 7

Changed = Collection[tuple[str, str | None]]
Span = tuple[Site, Sequence[date]]


@dataclass(frozen=True)
class Shown:
    """Where pages and tables go, how often, from which age on they say that their data is too old, what tables have,
    and after how many hours a session is silent."""

    out: Path
    every: float
    oldest: float | None
    tables: TableOptions
    silent: int = SILENT_HOURS


class Renewer:
    """Writes what changed since it was written. What other processes changed is found by the moments of rows."""

    def __init__(self, store: Database, shown: Shown, workers: int = 1) -> None:
        """`workers`: how many processes write what is written at first."""
        self.store, self.shown, self.workers = store, shown, workers
        self.options = pages.PageOptions(
            tokens=shown.tables.tokens,
            refresh=max(1, round(shown.every)),
            oldest=shown.oldest,
            workers=workers,
            silent=shown.silent,
        )
        self.writer = pages.PageWriter(store, shown.out, self.options)
        self.book = Book(store)
        self.table_writer = TableWriter(store, shown.out, shown.tables)
        self.pages, self.tables = 0, 0
        # How many rows the tables without days had when they were written; None where that is not known.
        self.others: Row | None = None
        self.mark = self.read_mark()
        # By transaction, when those changed that are written.
        self.seen = dict[tuple[str, str], datetime]()
        shown.out.mkdir(parents=True, exist_ok=True)

    def read_mark(self) -> datetime | None:
        """Up to when changes are written; None where nothing is."""
        try:
            return datetime.fromisoformat((self.shown.out / MARK).read_text())
        except (OSError, ValueError):
            return None

    def write_mark(self, mark: datetime) -> None:
        """Keeps up to when changes are written. Raises OSError."""
        made = self.shown.out / f"{MARK}.made"
        made.write_text(mark.isoformat())
        made.replace(self.shown.out / MARK)
        self.mark = mark

    def renew(self, changed: Changed, until: datetime | None) -> None:
        """Writes what changed. Raises OSError and StoreError."""
        now = datetime.now(timezone.utc)
        self.writer.options = self.options = replace(
            self.options, until=until or self.options.until
        )
        if self.mark is None:
            self.find_changed(now)  # What is written now is not found again.
            self.pages += self.writer.write_all()
            self.write_all_tables()
            self.write_mark(now)
            return
        rows = self.find_changed(self.mark)
        found = {*changed, *((row.station, row.transaction_id) for row in rows)}
        if found:
            self.pages += self.writer.write_changed(found)
            self.write_tables(found, rows)
        self.pages += self.writer.write_new_closings() + self.writer.write_others()
        if found or now > self.mark + LATE / 2:
            self.note_seen(now)
            self.write_mark(now)

    def find_changed(self, mark: datetime) -> list[Row]:
        """The transactions that changed since a moment and were not written since."""
        rows = self.store.fetch(
            "select station, transaction_id, site, first_at, last_at, changed_at from session "
            "where changed_hour >= :hour and changed_at >= :mark",
            mark=mark - LATE,
            hour=count_hours(mark - LATE),
        )
        new = [
            row
            for row in rows
            if self.seen.get((row.station, row.transaction_id)) != row.changed_at
        ]
        self.seen |= {(row.station, row.transaction_id): row.changed_at for row in rows}
        return new

    def note_seen(self, now: datetime) -> None:
        """Forgets what is not found again."""
        self.seen = {key: at for key, at in self.seen.items() if at >= now - 2 * LATE}

    def write_all_tables(self) -> None:
        """Writes the tables of all days, and the others. Raises OSError."""
        spans = list[Span]()
        for site in list_sites(self.store):
            rows = self.store.fetch(
                "select distinct first_at, last_at from session where site = :site and events > 0",
                site=site.site,
            )
            days = {day for one in rows for day in list_days(site, one.first_at, one.last_at)}
            spans += [(site, some) for some in part_days(sorted(days))]
            self.make_tables(site, None).write_findings()
            self.tables += 1
            self.write_others(site)
        self.tables += share_work(spans, self.workers, self.write_span, self.open_copy)
        self.others = self.count_others()
        self.tables += self.table_writer.write_strays()

    def open_copy(self) -> Callable[[Span], int]:
        """What writes tables of days in a copy of this process."""
        own = copy(self)
        own.store = open_again(self.store)
        own.book = Book(own.store)
        own.book.sites = self.book.sites
        return own.write_span

    def write_span(self, span: Span) -> int:
        """Writes the tables of days that follow one another. Raises OSError."""
        return self.make_tables(span[0], span[1][0]).write_days(span[1])

    def write_tables(self, found: Changed, rows: list[Row]) -> None:
        """Writes the tables of what changed. Raises OSError."""
        sites = {site.site: site for site in list_sites(self.store)}
        days: dict[str, set[date]] = {}
        stations: dict[str, set[str]] = {}
        for row in rows:
            site = sites[row.site]
            days.setdefault(row.site, set()).update(list_days(site, row.first_at, row.last_at))
            stations.setdefault(row.site, set()).add(row.station)
        for name, some in days.items():
            is_other = self.book.renew(name, sorted(stations[name]))
            self.write_days(sites[name], some, sorted(stations[name]))
            if is_other:
                self.make_tables(sites[name], None).write_findings()
                self.tables += 1
        before, self.others = self.others, self.count_others()
        if self.others != before:
            for name in self.find_sites(found) if before else sites:
                self.write_others(sites[name])
            self.tables += self.table_writer.write_strays()

    def count_others(self) -> Row:
        """How many rows the tables have that have no days."""
        return self.store.fetch_one(
            "select (select count(*) from deed) as deeds, (select count(*) from mended) as mended, "
            "(select count(*) from refusal) as refusals, (select sum(times) from refusal) as refused, "
            "(select count(*) from stray) as strays, (select sum(times) from stray) as stray_times"
        )

    def find_sites(self, found: Changed) -> list[str]:
        """The sites of stations of which something changed."""
        stations = sorted({station for station, _ in found})
        asked = "select site from station where station = :station"
        rows = self.store.fetch_each(asked, [{"station": station} for station in stations])
        return sorted({row.site for some in rows for row in some})

    def write_days(self, site: Site, days: Collection[date], stations: Sequence[str]) -> None:
        """Writes the tables of days, of which something changed of these stations. Raises OSError."""
        for day in sorted(days):
            one = self.make_tables(site, day)
            one.write_periods(stations)
            one.write_transactions(stations)
            for station in stations:
                one.write_signed(station)
            self.tables += 2

    def write_others(self, site: Site) -> None:
        """Writes the tables that have no days. Raises OSError."""
        one = self.make_tables(site, None)
        self.tables += one.write_refused() + one.write_operator() + one.write_mended()

    def make_tables(self, site: Site, day: date | None) -> SiteTables:
        """The tables of a site, or of one of its days. Raises OSError."""
        out, options = self.shown.out, self.shown.tables
        tables = SiteTables(self.store, out, site, options, day, self.book)
        tables.folder.mkdir(parents=True, exist_ok=True)
        return tables


def part_days(days: Sequence[date]) -> list[Sequence[date]]:
    """Parts days, which are in their order, so that those of a part are within some days."""
    parts, first = list[Sequence[date]](), 0
    for place, day in enumerate(days):
        if (day - days[first]).days >= SPAN:
            parts.append(days[first:place])
            first = place
    return [*parts, days[first:]] if days else []


def list_days(site: Site, first: datetime | None, last: datetime | None) -> list[date]:
    """The days of a site's zone from one moment to another."""
    if first is None or last is None:
        return []
    calendar = find_calendar(site.zone)
    begin, end = calendar.day(first), calendar.day(last)
    return [begin + timedelta(days=n) for n in range(min((end - begin).days, MOST_DAYS) + 1)]
