"""Writes the pages of a store as files: all of them, or those that changed.

    index.html                              all sites
    SITE/index.html                         a site
    SITE/YYYY-MM.html, SITE/YYYY-MM-DD.html a month, a day
    SITE/stations.html, findings.html, lacking.html, silent.html, refused.html, deeds.html, closings.html,
        site-meter.html                     the lists of a site
    SITE/closing-NUMBER.html                a closing
    SITE/STATION/index.html                 a station, and its months and days as a site's
    SITE/STATION/session-ID.html            a transaction

The pages that go on behind a full one are NAME.2.html and so on. Each file is there whole or as it was.
"""

import os
import re
import time
from collections import OrderedDict
from collections.abc import Callable, Collection, Iterable, Sequence
from datetime import date, datetime, timedelta, timezone
from pathlib import Path
from typing import NamedTuple

from markupsafe import Markup

from ocpp_board.store.database import Database, open_again
from ocpp_board.store.values import find_main_span
from ocpp_board.writers.calendar import Calendar, find_calendar
from ocpp_board.writers.copies import share_work
from ocpp_board.writers.pages.closing_pages import make_closing_page
from ocpp_board.writers.pages.context import Context, PageOptions
from ocpp_board.writers.pages.day_book import DayBook
from ocpp_board.writers.pages.day_pages import MOST_STATIONS, make_day_page, make_station_day_page
from ocpp_board.writers.pages.facts import (
    Found,
    LeftOut,
    SessionFacts,
    SessionRecord,
    Site,
    StationSummary,
)
from ocpp_board.writers.pages.links import FileLinks, FilePaths
from ocpp_board.writers.pages.list_pages import LIST_ROWS, LISTS, make_list_page
from ocpp_board.writers.pages.month_pages import find_days, find_months, make_month_page
from ocpp_board.writers.pages.reader import Reader
from ocpp_board.writers.pages.session_pages import make_session_page, read_span
from ocpp_board.writers.pages.sessions import group_findings
from ocpp_board.writers.pages.site_pages import SiteFacts, make_index, make_site_page, read_sites
from ocpp_board.writers.pages.station_pages import make_station_page
from ocpp_board.writers.pages.summaries import Summaries

PATHS = FilePaths()
# Sessions whose days are kept, where pages are written again, and days of one session that are written.
KEPT_SESSIONS, MOST_SESSION_DAYS = 20_000, 62
# The names of pages of a site's folder.
OURS = re.compile(
    rf"(index|{'|'.join(LISTS)}|closing-\d+|session-.*|\d{{4}}-\d\d(-\d\d)?)(\.\d+)?\.html"
)

# A station and a transaction of it, or None where only what was refused of the station changed.
Changed = tuple[str, str | None]


class Share(NamedTuple):
    """A part of all pages: those of a site, or of one of its stations."""

    site: Site
    station: str | None


class Others(NamedTuple):
    """What pages of a site show that changes without a change of a transaction."""

    silent: Sequence[object]
    main: object
    left_out: Sequence[LeftOut]


class PageWriter:
    """Writes pages, and keeps what it read of days and stations for the next time."""

    def __init__(self, store: Database, out: Path, options: PageOptions = PageOptions()) -> None:
        self.store, self.out, self.options = store, out, options
        self.reader = Reader(store)
        self.book = DayBook(self.reader, keeps=True)
        self.summaries = Summaries(self.reader, keeps=True)
        self.facts: dict[str, SiteFacts] = {}
        # By station and transaction, from when to when it ran as its pages show it.
        self.spans = OrderedDict[tuple[str, str], tuple[datetime, datetime]]()
        # By station and transaction, how much operators did there.
        self.deeds = dict[tuple[str, str], int]()
        # By site, the last closing that has a page.
        self.closings = dict[str, int]()
        # By site, what its pages show that changes without a change of a transaction.
        self.others = dict[str, Others]()
        self.written = find_now(options)
        self.count = 0

    # Files ------------------------------------------------------------------------------------------------------------

    def write(self, path: str, make: Callable[[Context], Markup | None]) -> None:
        """Writes a page, where there is one. Raises OSError."""
        page = make(self.open_context(path))
        if page is not None:
            self.put(path, page)

    def open_context(self, path: str) -> Context:
        """What a page in this file has."""
        return Context(self.reader, FileLinks(path), self.options, self.book, self.written)

    def put(self, path: str, page: Markup) -> None:
        """Puts a page into its file. Raises OSError."""
        folder, name = os.path.split(f"{self.out}/{path}")
        made, data = f"{folder}/.{name}.made", page.encode()
        try:
            write_file(made, data)
        except FileNotFoundError:
            os.makedirs(folder, exist_ok=True)
            write_file(made, data)
        os.replace(made, f"{folder}/{name}")
        self.count += 1

    # All --------------------------------------------------------------------------------------------------------------

    def write_all(self) -> int:
        """Writes all pages, removes those that are of nothing any more, and gives how many it wrote. Raises OSError."""
        self.count, begun = 0, time.time()
        self.written = find_now(self.options)
        self.out.mkdir(parents=True, exist_ok=True)
        sites, self.closings = self.reader.sites(), self.reader.last_closings()
        parts = list[Share]()
        for site in sites:
            names = self.summaries.site(site.name)
            parts += [Share(site, None), *(Share(site, name) for name in names)]
        workers = self.options.workers
        self.count = share_work(parts, workers, self.write_share, self.open_copy)
        self.write_index(sites)
        for site in sites:
            remove_old(f"{self.out}/{PATHS.scope(site.name, None)}", begun)
            self.others[site.name] = self.find_others(site)
        return self.count

    def open_copy(self) -> Callable[[Share], int]:
        """What writes in a copy of this process."""
        own = PageWriter(open_again(self.store), self.out, self.options)
        own.written, own.summaries.kept = self.written, self.summaries.kept
        return own.write_share

    def write_share(self, part: Share) -> int:
        """Writes the pages of a site or of one of its stations, and gives how many."""
        (site, station), before = part, self.count
        history = self.book.open_history(site, station) if station is not None else None
        for month in find_months(self.open_context("index.html"), site, station):
            if history:
                history.open_month(month)
            self.write_months(site, station, [month])
            days = find_days(self.open_context("index.html"), site, station, month)
            self.write_days(site, station, days)
        if station is None:
            self.write_site(site)
            for name in LISTS:
                self.write_list(site, name)
            self.write_closings(site, 1, self.reader.last_closings().get(site.name, 0))
        else:
            self.write_station_page(site, station)
            self.write_all_sessions(site, station)
        self.book.made.clear()
        self.book.history = None
        return self.count - before

    def write_all_sessions(self, site: Site, station: str) -> None:
        """Writes the pages of all transactions of a station."""
        findings = group_findings(self.find_summary(site, station).found)
        for session, record in self.reader.station_records(site.name, station):
            found = findings.get((station, session.transaction_id), ())
            self.write_session(site, session, found, record)

    def write_index(self, sites: Sequence[Site], changed: Collection[str] | None = None) -> None:
        """Writes the page of all sites. `changed`: those that changed; None for all. Raises OSError."""
        context = self.open_context("index.html")
        again = [site for site in sites if changed is None or site.name in changed]
        again += [site for site in sites if site.name not in self.facts and site not in again]
        self.facts |= {one.site.name: one for one in read_sites(context, again)}
        strays = self.reader.count_strays()
        facts = [self.facts[site.name] for site in sites]
        self.write("index.html", lambda context: make_index(context, facts, strays))

    def write_site(self, site: Site) -> None:
        """Writes the page of a site."""
        stations = self.summaries.site(site.name)
        refused = self.reader.count_refused(site.name)
        self.write(
            PATHS.site(site.name),
            lambda context: make_site_page(context, site, stations, refused),
        )

    def write_months(self, site: Site, station: str | None, months: Iterable[date]) -> None:
        """Writes the pages of months."""
        for month in months:
            self.write(
                PATHS.month(site.name, station, month),
                lambda context: make_month_page(context, site, station, month),
            )

    def write_days(self, site: Site, station: str | None, days: Iterable[date]) -> None:
        """Writes the pages of days."""
        found = self.find_summary(site, station).found if station is not None else ()
        for day in days:
            if station is not None:
                path = PATHS.day(site.name, station, day)
                context = self.open_context(path)
                self.put(path, make_station_day_page(context, site, station, day, found))
                continue
            number, pages = 1, 1
            while number <= pages:
                path = PATHS.day(site.name, None, day, number)
                page, count = make_day_page(self.open_context(path), site, day, number)
                self.put(path, page)
                number, pages = number + 1, -(-count // MOST_STATIONS)

    def find_summary(self, site: Site, station: str) -> StationSummary:
        """Finds the summary of a station."""
        return self.summaries.site(site.name).get(station) or StationSummary(station)

    def write_list(self, site: Site, name: str, number: int = 1, is_rest: bool = True) -> None:
        """Writes the pages of a list of a site. `number`: the first one; `is_rest`: those behind it, too."""
        stations, has_more = self.summaries.site(site.name), True
        while has_more:
            path = PATHS.listing(site.name, name, number)
            page, has_more = make_list_page(self.open_context(path), site, name, stations, number)
            self.put(path, page)
            number += 1
            if not is_rest:
                return
        (self.out / PATHS.listing(site.name, name, number)).unlink(missing_ok=True)

    def write_closings(self, site: Site, first: int, last: int) -> None:
        """Writes the pages of closings of a site."""
        for number in range(first, last + 1):
            closing = self.reader.closing(site.name, number)
            if closing is not None:
                path = PATHS.closing(site.name, number)
                self.put(path, make_closing_page(self.open_context(path), site, closing))

    def write_new_closings(self) -> int:
        """Writes the pages of closings that came since they were written, and gives how many. Raises OSError."""
        self.count, self.written = 0, find_now(self.options)
        before, self.closings = self.closings, self.reader.last_closings()
        for site in self.reader.sites() if before != self.closings else ():
            had, has = before.get(site.name, 0), self.closings.get(site.name, 0)
            if had < has:
                # The one before leads to the first of them.
                self.write_closings(site, max(had, 1), has)
                self.write_list(site, "closings")
        return self.count

    def find_others(self, site: Site) -> Others:
        """Finds what pages of a site show that changes without a change of a transaction."""
        context = self.open_context(PATHS.site(site.name))
        silent = self.reader.silent(site.name, context.find_silent(), MOST_SILENT)
        return Others(
            silent, find_main_span(self.store, site.name), self.reader.left_out(site.name)
        )

    def write_others(self) -> int:
        """Writes what changed without a change of a transaction, and gives how many pages: sessions that became silent,
        periods of main meters, stations that are left out. Raises OSError."""
        self.count, self.written = 0, find_now(self.options)
        sites = self.reader.sites()
        if any([self.write_other_lists(site) for site in sites]):
            self.write_index(sites, ())
        return self.count

    def write_other_lists(self, site: Site) -> bool:
        """Writes the lists of a site that have changed, and its page where other stations are left out; whether it
        did."""
        has, had = self.find_others(site), self.others.get(site.name)
        self.others[site.name] = has
        if had is None or had.silent != has.silent:
            self.write_list(site, "silent")
        if had is None or had.main != has.main:
            self.write_list(site, "site-meter")
        if (had.left_out if had else []) == has.left_out:
            return False
        self.write_site(site)
        return True

    def write_session(
        self,
        site: Site,
        session: SessionFacts,
        findings: Sequence[Found],
        record: SessionRecord | None = None,
    ) -> None:
        """Writes the page of a transaction. `record`: what was read of it."""
        self.write(
            PATHS.session(site.name, session.station, session.transaction_id),
            lambda context: make_session_page(context, site, session, findings, record),
        )

    # What changed -----------------------------------------------------------------------------------------------------

    def write_changed(self, changed: Collection[Changed]) -> int:
        """Writes the pages of what changed, and gives how many. Raises OSError."""
        self.count, self.written = 0, find_now(self.options)
        self.book.made.clear()
        sites = {site.name: site for site in self.reader.sites()}
        places = dict[tuple[str, str], set[date]]()
        for station, transaction_id in dict.fromkeys(changed):
            if transaction_id is None:
                for name in sites.keys() & {*self.reader.station_sites(station)}:
                    places.setdefault((name, station), set())
                continue
            session = self.reader.session(station, transaction_id)
            if session is not None and session.site in sites:
                days = self.find_session_days(sites[session.site], session)
                places.setdefault((session.site, station), set()).update(days)
        touched = {name for name, _ in places}
        before = {name: dict(self.summaries.site(name)) for name in touched}
        for (name, station), days in places.items():
            self.book.drop(sites[name], station, days)
            self.summaries.drop(name, [station])
        keys = {(station, tx) for station, tx in changed if tx is not None}
        for (name, station), days in places.items():
            keys |= self.find_doubted(sites[name], station, before[name], days)
        self.write_sessions(sites, keys)
        for (name, station), days in places.items():
            self.write_station(sites[name], station, days)
        for name in touched:
            stations = {station for site, station in places if site == name}
            days = set[date]().union(*(places[name, station] for station in stations))
            self.write_site_changed(sites[name], days, before[name], changed)
        if changed:
            self.write_index([*sites.values()], touched)
        return self.count

    def find_doubted(
        self, site: Site, station: str, before: dict[str, StationSummary], days: set[date]
    ) -> set[tuple[str, str]]:
        """Finds the transactions of a station that have other findings than before, as those beside one that changed
        may have, and adds their days."""
        had = group_findings(before[station].found if station in before else ())
        has = group_findings(self.find_summary(site, station).found)
        keys = {key for key in had.keys() | has.keys() if had.get(key) != has.get(key)}
        keys = {(station, tx) for station, tx in keys if tx}
        for key in keys:
            session = self.reader.session(*key)
            if session is not None:
                moments = [at for at in (session.first_at, session.last_at) if at]
                days |= list_span(find_calendar(site.zone), moments)
        return keys

    def write_sessions(self, sites: dict[str, Site], keys: Iterable[tuple[str, str]]) -> None:
        """Writes the pages of transactions."""
        for station, transaction_id in sorted(keys):
            session = self.reader.session(station, transaction_id)
            if session is not None and session.site in sites:
                found = group_findings(self.find_summary(sites[session.site], station).found)
                self.write_session(
                    sites[session.site], session, found.get((station, transaction_id), ())
                )

    def find_session_days(self, site: Site, session: SessionFacts) -> set[date]:
        """Finds the days on whose pages a transaction is or was."""
        key = session.station, session.transaction_id
        had = self.spans.pop(key, None)
        has = (session.first_at, session.last_at)
        moments = [at for at in has if at]
        moments += had or read_span(self.reader.lines(*key, last=MOST_SPAN_LINES))
        if session.first_at and session.last_at:
            self.spans[key] = session.first_at, session.last_at
            if len(self.spans) > KEPT_SESSIONS:
                self.spans.popitem(last=False)
        return list_span(find_calendar(site.zone), moments)

    def write_station(self, site: Site, station: str, days: set[date]) -> None:
        """Writes the pages of a station that changed on these days."""
        self.write_station_page(site, station)
        self.write_months(site, station, list_months(days))
        self.write_days(site, station, filter(self.is_shown, days))

    def write_station_page(self, site: Site, station: str) -> None:
        """Writes the page of a station."""
        summary = self.find_summary(site, station)
        self.write(
            PATHS.station(site.name, station),
            lambda context: make_station_page(context, site, summary),
        )

    def write_site_changed(
        self,
        site: Site,
        days: set[date],
        before: dict[str, StationSummary],
        changed: Collection[Changed],
    ) -> None:
        """Writes the pages of a site that changed on these days. `before`: its stations as their pages show them."""
        self.write_site(site)
        self.write_months(site, None, list_months(days))
        self.write_days(site, None, filter(self.is_shown, days))
        after = self.summaries.site(site.name)
        names = [*after]
        places = {
            names.index(name) // LIST_ROWS for name in names if before.get(name) != after[name]
        }
        for place in sorted(places):
            self.write_list(site, "stations", place + 1, is_rest=names != [*before])
        if any(show_troubles(before.get(name)) != show_troubles(after[name]) for name in names):
            self.write_list(site, "findings")
            self.write_list(site, "lacking")
        self.write_other_lists(site)
        if any(tx is None for _, tx in changed):
            self.write_list(site, "refused")
        if any(self.has_deeds(station, tx) for station, tx in changed if tx is not None):
            self.write_list(site, "deeds")

    def has_deeds(self, station: str, transaction_id: str) -> bool:
        """Whether operators did something at a transaction since its page was written before."""
        key = station, transaction_id
        count = self.reader.count_deeds(station, transaction_id)
        had, self.deeds[key] = self.deeds.get(key, 0), count
        return count != had

    def is_shown(self, day: date) -> bool:
        """Whether a day is among those that are shown."""
        return self.options.first <= day <= self.options.last


MOST_SPAN_LINES = 600
# Silent sessions that are looked at for changes.
MOST_SILENT = 2_000


def write_file(path: str, data: bytes) -> None:
    """Writes a file. Raises OSError."""
    with open(path, "wb") as file:
        file.write(data)


def find_now(options: PageOptions) -> datetime:
    """Finds the moment that pages name as that of their writing."""
    return options.written or datetime.now(timezone.utc)


def show_troubles(summary: StationSummary | None) -> object:
    """What lists of findings and of sessions that lack messages show of a station."""
    return summary and (summary.troubles, summary.worst)


def list_span(calendar: Calendar, moments: Iterable[datetime]) -> set[date]:
    """Lists the days from the first to the last of these moments, so many at most."""
    days = sorted(map(calendar.day, moments))
    if not days:
        return set()
    count = min((days[-1] - days[0]).days, MOST_SESSION_DAYS)
    return {days[0] + timedelta(days=n) for n in range(count + 1)} | {days[-1]}


def list_months(days: Iterable[date]) -> list[date]:
    """Lists the months of days, by their first days."""
    return sorted({day.replace(day=1) for day in days})


def remove_old(folder: str, begun: float) -> None:
    """Removes pages of a site that were not written since a moment."""
    with os.scandir(folder) as entries:
        for entry in entries:
            if entry.is_dir(follow_symlinks=False):
                remove_old(entry.path, begun)
            elif OURS.fullmatch(entry.name) and entry.stat().st_mtime < begun - 1:
                os.unlink(entry.path)


def write_pages(
    store: Database,
    out: Path,
    options: PageOptions = PageOptions(),
    changed: Collection[Changed] | None = None,
) -> int:
    """Writes the pages of a store below a folder, and gives how many. `changed`: only those of what changed. Raises
    OSError."""
    writer = PageWriter(store, out, options)
    return writer.write_all() if changed is None else writer.write_changed(changed)
