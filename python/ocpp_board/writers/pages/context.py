"""What all pages of a store share: what they read, where they lead to, and how they are to be."""

from collections.abc import Mapping, Sequence
from dataclasses import dataclass, field
from datetime import date, datetime, timedelta, timezone
from typing import Any

from markupsafe import Markup

from ocpp_board.limits import SILENT_HOURS
from ocpp_board.writers.calendar import Calendar, find_calendar
from ocpp_board.writers.pages.cells import link
from ocpp_board.writers.pages.day_book import DayBook
from ocpp_board.writers.pages.facts import Site
from ocpp_board.writers.pages.links import Links
from ocpp_board.writers.pages.reader import Reader
from ocpp_board.writers.pages.render import render
from ocpp_board.writers.tokens import NONE


@dataclass(frozen=True)
class PageOptions:
    """How pages are to be. `tokens`: how drivers' tokens are shown; `refresh`: the seconds after which a browser loads
    a page again; `until`: up to when the data is, and `oldest`: how many seconds old it may be; `written`: the moment
    that pages name as theirs, or that of the writing; `workers`: how many processes write files; `silent`: after how
    many hours without a message a session that lacks some is silent."""

    tokens: str = NONE
    refresh: int | None = None
    until: datetime | None = None
    oldest: float | None = None
    first: date = date.min
    last: date = date.max
    workers: int = 1
    written: datetime | None = None
    silent: int = SILENT_HOURS


@dataclass
class Context:
    """What is read, where links lead to, and how pages are. `bar`: the addresses and texts of the links of all pages;
    `operator`: who is signed in, where somebody is."""

    reader: Reader
    links: Links
    options: PageOptions
    book: DayBook
    written: datetime = field(default_factory=lambda: datetime.now(timezone.utc))
    bar: Sequence[tuple[str, str]] = ()
    operator: str = ""
    out_token: str = ""

    def calendar(self, site: Site) -> Calendar:
        """The calendar of a site."""
        return find_calendar(site.zone)

    def is_shown(self, day: date) -> bool:
        """Whether a day is among those that are shown."""
        return self.options.first <= day <= self.options.last

    def find_silent(self) -> datetime:
        """Finds the moment since which nothing came of sessions that are silent."""
        return self.written - timedelta(hours=self.options.silent)

    def is_old(self) -> bool:
        """Whether the data is older than it should be."""
        until, oldest = self.options.until, self.options.oldest
        return (
            until is not None
            and oldest is not None
            and self.written - until > timedelta(seconds=oldest)
        )

    def stamp(self, calendar: Calendar) -> Mapping[str, Any]:
        """What a page says of times."""
        until = self.options.until
        return {
            "until": calendar.second(until) if until else "",
            "written": calendar.second(self.written),
            "is_old": self.is_old(),
            "refresh": self.options.refresh,
            "zone": calendar.say(),
        }

    def render(
        self,
        name: str,
        title: str,
        calendar: Calendar,
        trail: Sequence[tuple[str, str]] = (),
        whole: str = "",
        **values: Any,
    ) -> Markup:
        """Renders a page. `trail`: addresses and texts of the pages above it; `whole`: the end of its title, which is
        not broken."""
        return render(
            name,
            title=title,
            whole=whole,
            trail=[link(href, text) for href, text in trail],
            bar=self.bar,
            operator=self.operator,
            out_token=self.out_token,
            refresh=self.options.refresh,
            stamp=self.stamp(calendar),
            **values,
        )

    def lead_up(self, site: Site | None = None, station: str = "") -> list[tuple[str, str]]:
        """Leads to the pages above one of a site or a station."""
        trail = [(self.links.index(), "All sites")]
        if site is not None:
            trail.append((self.links.site(site.name), f"Site {site.name}"))
        if site is not None and station:
            trail.append((self.links.station(site.name, station), f"Station {station}"))
        return trail
