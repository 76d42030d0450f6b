"""Days and months of sites and stations as pages show them, read once for several pages."""

from bisect import bisect_left
from collections import OrderedDict
from collections.abc import Iterable, Sequence
from datetime import date, datetime, timedelta
from functools import reduce
from typing import Any, NamedTuple

from markupsafe import Markup

from ocpp_board.energies import Flow, sum_of
from ocpp_board.writers.calendar import Calendar, find_calendar, next_month
from ocpp_board.writers.pages.facts import Period, SessionFacts, Site
from ocpp_board.writers.pages.months import HeatRow, join_hours
from ocpp_board.writers.pages.reader import LONGEST, Reader

# Days that are kept where pages are written again, days of sites with the periods of their stations, and how many days
# are read one by one.
MOST_DAYS, MOST_SITE_DAYS, FEW_DAYS = 4_000, 12, 3
# Days that are kept as heat maps have them.
MOST_HEAT = 2_000


class DayFacts(NamedTuple):
    """A day of a site or a station: its hours, its energy, how many periods it has, and that of the greatest power."""

    hours: Sequence[Period]
    flow: Flow
    periods: int
    peak: Period | None


NO_DAY = DayFacts((), Flow(), 0, None)
# A site, one of its stations or None, and a day.
DayKey = tuple[str, str | None, date]


def find_peak(periods: Iterable[Period]) -> Period | None:
    """Finds the period of the greatest average power, the first of several; None where nothing was imported."""
    most = max(periods, key=lambda p: p.flow.net / p.seconds, default=None)
    return most if most and most.flow.net > 0 else None


def make_day(periods: Sequence[Period], calendar: Calendar | None) -> DayFacts:
    """Makes what is known of a day of its periods; without its hours where there is no calendar."""
    if not periods:
        return NO_DAY
    hours = join_hours(periods, calendar) if calendar else ()
    return DayFacts(hours, sum_of(p.flow for p in periods), len(periods), find_peak(periods))


def group_days(calendar: Calendar, periods: Iterable[Period]) -> dict[date, list[Period]]:
    """Groups periods by the days on which they begin."""
    found = dict[date, list[Period]]()
    for p in periods:
        found.setdefault(calendar.day(p.start), []).append(p)
    return found


class SiteDay:
    """A day of a site: the periods and the sessions of each station, and the periods of the site."""

    def __init__(self) -> None:
        self.stations: dict[str, Sequence[Period]] = {}
        self.sessions: dict[str, Sequence[SessionFacts]] = {}
        # By the starts of periods, those of stations and the site's; those that are to be summed again.
        self.starts: dict[datetime, dict[str, Period]] = {}
        self.merged: dict[datetime, Period] = {}
        self.changed: set[datetime] = set()
        # By station, its energy and its greatest power; by station and EVSE, its sessions as they are drawn.
        self.facts: dict[str, DayFacts] = {}
        self.drawn: dict[tuple[str, int], Markup] = {}

    def put(
        self, station: str, periods: Sequence[Period], sessions: Sequence[SessionFacts]
    ) -> None:
        """Puts a station's periods and sessions there, in place of those before."""
        had = {p.start: p for p in self.stations.pop(station, ())}
        for p in periods:
            if had.pop(p.start, None) != p:
                self.starts.setdefault(p.start, {})[station] = p
                self.changed.add(p.start)
        for start in had:
            del self.starts[start][station]
            self.changed.add(start)
        self.sessions.pop(station, None)
        if sessions:
            self.sessions[station] = sessions
        self.facts.pop(station, None)
        if periods:
            self.stations[station] = periods
        for key in [key for key in self.drawn if key[0] == station]:
            del self.drawn[key]

    def find_facts(self, station: str) -> DayFacts:
        """Finds the energy and the greatest power of a station."""
        if station not in self.facts:
            self.facts[station] = make_day(self.stations.get(station, ()), None)
        return self.facts[station]

    def list_periods(self) -> list[Period]:
        """Lists the periods of the site."""
        for start in self.changed:
            if there := self.starts[start]:
                self.merged[start] = merge_periods([*there.values()])
            else:
                self.merged.pop(start, None)
        self.changed.clear()
        return [self.merged[start] for start in sorted(self.merged)]

    def list_sessions(self) -> list[SessionFacts]:
        """Lists the sessions of the site."""
        return [one for some in self.sessions.values() for one in some]


def merge_periods(periods: Sequence[Period]) -> Period:
    """Merges periods of stations that begin at once to one of their site."""
    return reduce(Period.plus, periods)


class StationHistory:
    """The days of a station on which sessions began or ended, and the periods and the sessions of a month of it."""

    def __init__(self, reader: Reader, site: Site, station: str) -> None:
        self.reader, self.site, self.station = reader, site, station
        self.calendar = find_calendar(site.zone)
        moments = reader.station_moments(site.name, station)
        self.days = sorted({self.calendar.day(at) for at in moments})
        self.month: date | None = None
        self.periods: dict[date, list[Period]] = {}
        self.sessions: dict[date, list[SessionFacts]] = {}

    def find_from(self, day: date) -> date | None:
        """Finds the first of the days from one on."""
        place = bisect_left(self.days, day)
        return self.days[place] if place < len(self.days) else None

    def find_before(self, day: date) -> date | None:
        """Finds the last of the days before one."""
        place = bisect_left(self.days, day)
        return self.days[place - 1] if place else None

    def open_month(self, month: date) -> None:
        """Reads a month."""
        calendar, reader, name = self.calendar, self.reader, self.station
        begin, end = calendar.begin(month), calendar.begin(next_month(month))
        periods = reader.day_periods(self.site, [name], begin, end).get(name, ())
        self.month, self.periods, self.sessions = month, group_days(calendar, periods), {}
        for session in reader.day_sessions(self.site.name, begin, end, name):
            assert session.first_at and session.last_at
            first = max(calendar.day(session.first_at), month)
            first = max(calendar.day(session.last_at - LONGEST), first)
            last = min(calendar.day(session.last_at), next_month(month) - timedelta(days=1))
            for number in range((last - first).days + 1):
                self.sessions.setdefault(first + timedelta(days=number), []).append(session)

    def has(self, day: date) -> bool:
        """Whether a day is of the month that was read."""
        return day.replace(day=1) == self.month


class DayBook:
    """Days and months of sites and stations. Where pages are written again, it keeps those that were read."""

    def __init__(self, reader: Reader, keeps: bool = False) -> None:
        self.reader, self.keeps = reader, keeps
        self.kept = OrderedDict[DayKey, DayFacts]()
        self.days = OrderedDict[tuple[str, date], SiteDay]()
        # The months that a site or a station has, and what was made of them since the last change.
        self.months = dict[tuple[str, str | None], list[date]]()
        self.made = dict[tuple[str, str | None, date], Any]()
        # By site or station and Monday, weeks as they were drawn, each with what it was made of.
        self.weeks = dict[tuple[str, str | None, date], tuple[Any, Any]]()
        # Days as heat maps have them, each with what it was made of.
        self.heat = OrderedDict[DayKey, tuple[DayFacts, HeatRow]]()
        # The station of which all pages are written.
        self.history: StationHistory | None = None

    def open_history(self, site: Site, station: str) -> StationHistory:
        """Reads a station of which all pages are written, as long as the next one is not."""
        self.history = StationHistory(self.reader, site, station)
        return self.history

    def find_history(self, site: Site, station: str | None) -> StationHistory | None:
        """Finds what was read of a station of which all pages are written."""
        history = self.history
        if history and (history.site.name, history.station) == (site.name, station):
            return history
        return None

    # Days with sessions -----------------------------------------------------------------------------------------------

    def find_from(self, site: Site, station: str | None, day: date) -> date | None:
        """Finds the first day from one on at which a session of a site or of a station began or ended."""
        if history := self.find_history(site, station):
            return history.find_from(day)
        calendar = find_calendar(site.zone)
        at = self.reader.next_moment(site.name, station, calendar.begin(day))
        return calendar.day(at) if at else None

    def find_before(self, site: Site, station: str | None, day: date) -> date | None:
        """Finds the last day before one at which a session of a site or of a station began or ended."""
        if history := self.find_history(site, station):
            return history.find_before(day)
        calendar = find_calendar(site.zone)
        at = self.reader.moment_before(site.name, station, calendar.begin(day))
        return calendar.day(at) if at else None

    def list_sessions(self, site: Site, station: str, day: date) -> Sequence[SessionFacts]:
        """Lists the sessions of a station on a day."""
        history = self.find_history(site, station)
        if history and history.has(day):
            return history.sessions.get(day, ())
        known = self.days.get((site.name, day))
        if known is not None:
            return known.sessions.get(station, ())
        calendar = find_calendar(site.zone)
        return self.reader.day_sessions(site.name, calendar.begin(day), calendar.end(day), station)

    # Periods ----------------------------------------------------------------------------------------------------------

    def drop(self, site: Site, station: str, days: Iterable[date]) -> None:
        """Forgets days of a station that changed."""
        for day in days:
            self.kept.pop((site.name, None, day), None)
            self.kept.pop((site.name, station, day), None)
            known = self.days.get((site.name, day))
            if known is not None:
                self.read_stations(known, site, day, [station], station)
        for key in ((site.name, None), (site.name, station)):
            months = self.months.get(key)
            if months is not None and not {day.replace(day=1) for day in days} <= {*months}:
                del self.months[key]

    def read_stations(
        self, known: SiteDay, site: Site, day: date, names: Sequence[str], only: str | None
    ) -> None:
        """Reads stations of a site on a day. `only`: the one of which sessions are read; None for all."""
        calendar = find_calendar(site.zone)
        begin, end = calendar.begin(day), calendar.end(day)
        periods = self.reader.day_periods(site, names, begin, end)
        sessions = dict[str, list[SessionFacts]]()
        for one in self.reader.day_sessions(site.name, begin, end, only):
            sessions.setdefault(one.station, []).append(one)
        for name in {*names, *sessions}:
            known.put(name, periods.get(name, ()), sessions.get(name, ()))

    def read_day(self, site: Site, day: date) -> SiteDay:
        """Reads a day of a site."""
        key = site.name, day
        if key in self.days:
            return self.days[key]
        found = SiteDay()
        self.read_stations(found, site, day, self.reader.site_stations(site.name), None)
        if self.keeps:
            self.days[key] = found
            if len(self.days) > MOST_SITE_DAYS:
                self.days.popitem(last=False)
        return found

    def read_periods(self, site: Site, station: str | None, day: date) -> Sequence[Period]:
        """Reads the periods of a site or of a station on a day."""
        if station is None:
            return self.read_day(site, day).list_periods()
        history = self.find_history(site, station)
        if history and history.has(day):
            return history.periods.get(day, ())
        if (site.name, day) in self.days:
            return self.days[site.name, day].stations.get(station, [])
        calendar = find_calendar(site.zone)
        begin, end = calendar.begin(day), calendar.end(day)
        return self.reader.day_periods(site, [station], begin, end).get(station, [])

    def month(self, site: Site, station: str | None, month: date) -> dict[date, DayFacts]:
        """The days of a month that have periods."""
        days, found = list_days(month), dict[date, DayFacts]()
        calendar, history = find_calendar(site.zone), self.find_history(site, station)
        if history and history.month == month:
            known = history.periods
            return {day: make_day(known[day], calendar) for day in days if day in known}
        unknown = [day for day in days if (site.name, station, day) not in self.kept]
        if len(unknown) > FEW_DAYS:
            found = self.read_month(site, station, unknown)
        else:
            found = {
                day: make_day(self.read_periods(site, station, day), calendar) for day in unknown
            }
        for day in days:
            if day not in found:
                found[day] = self.kept[site.name, station, day]
            self.keep((site.name, station, day), found[day])
        return {day: found[day] for day in days if found[day].periods}

    def read_month(
        self, site: Site, station: str | None, days: Sequence[date]
    ) -> dict[date, DayFacts]:
        """Reads days from the first to the last one."""
        calendar = find_calendar(site.zone)
        begin, end = calendar.begin(days[0]), calendar.end(days[-1])
        if station is None:
            periods = self.reader.site_periods(site, begin, end)
        else:
            periods = self.reader.day_periods(site, [station], begin, end).get(station, [])
        read = group_days(calendar, periods)
        return {day: make_day(read.get(day, ()), calendar) for day in days}

    def find_heat(self, site: Site, station: str | None, day: date, facts: DayFacts) -> HeatRow:
        """Finds a day as heat maps have it."""
        key = site.name, station, day
        known = self.heat.get(key)
        if known is not None and known[0] is facts:
            return known[1]
        row = HeatRow(day, facts.hours, find_calendar(site.zone))
        if self.keeps and self.history is None:
            self.heat[key] = facts, row
            if len(self.heat) > MOST_HEAT:
                self.heat.popitem(last=False)
        return row

    def keep(self, key: DayKey, facts: DayFacts) -> None:
        """Keeps a day, and of too many those that were read last."""
        if self.keeps:
            self.kept[key] = facts
            self.kept.move_to_end(key)
            if len(self.kept) > MOST_DAYS:
                self.kept.popitem(last=False)


def list_days(month: date) -> list[date]:
    """Lists the days of a month."""
    count = (next_month(month) - month).days
    return [month + timedelta(days=n) for n in range(count)]
