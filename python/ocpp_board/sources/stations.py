"""Which site a station has and by which rules a site is settled, as options and their files say it."""

import argparse
import difflib
from collections.abc import Iterable, Iterator, Mapping, Sequence
from dataclasses import dataclass
from functools import partial
from typing import Any, NamedTuple

from ocpp_board.errors import UsageError
from ocpp_board.escapes import shown
from ocpp_board.limits import GREATEST_LIMITS, MOST_SITES, ORDERS, PERIODS, RULES, is_name
from ocpp_board.messages.mend import Mends, add_mending, group_mends
from ocpp_board.messages.texts import Refused
from ocpp_board.sources.forms import Entry
from ocpp_board.sources.lines import NAMES, check_name
from ocpp_board.words import pick_options

# How a refusal begins that is of a station which the file of stations lacks.
NOT_IN = "a station is not in"
# What is declared of a site where nobody asks for more: readings that are listed again change nothing, and each period
# has the energy of its time.
DEFAULTS = {"order": "moment", "settle": "even"}


def require_name(field: str, name: str | None) -> str:
    """A name of a site or a station. Raises Refused where it is none."""
    said = check_name("name", name or "")
    if name and said is None:
        return name
    raise Refused(f"a {field} is no name", said[0] if said else "")


def read_pairs(path: str) -> list[tuple[str, str]]:
    """The two names of each line of a file. Empty lines and lines that begin with # are left out.

    Raises OSError, or UsageError where a line has not two names.
    """
    pairs = []
    with open(path, encoding="utf-8") as file:
        for number, line in enumerate(file, 1):
            names = line.split()
            if not names or line.startswith("#"):
                continue
            if len(names) != 2 or not all(map(is_name, names)):
                why = explain_names(line, names)
                raise UsageError(f"{path} line {number}: not two names: {why}")
            pairs.append((names[0], names[1]))
    return pairs


def explain_names(line: str, names: list[str]) -> str:
    """Why a line has not two names."""
    if len(names) == 1:
        return shown(names[0])
    faults = (check_name("name", name) for name in names)
    fault = next(filter(None, faults), ("a name has no blank", NAMES))
    return f"{shown(line.strip())}: {fault[0]}; {fault[1]}"


def list_sites(name: str, sites: Iterable[str]) -> str:
    """The sites, for a reader; those with names near to this one come first."""
    names = list(sites)
    near = difflib.get_close_matches(name, names, 1, 0.5)
    names = near + [one for one in names if one not in near]
    more = f" and {len(names) - MOST_SITES:,} more" if len(names) > MOST_SITES else ""
    return f"its sites: {', '.join(names[:MOST_SITES])}{more}" if names else "it has no site"


class SiteWords(NamedTuple):
    """What is asked of a site: the seconds of a period, the order of readings and the rule of settling; None where
    nothing is."""

    period: int | None = None
    order: str | None = None
    settle: str | None = None


@dataclass(frozen=True)
class PlanOptions:
    """What a plan is asked to have: the files of its stations and sites, limits, and by site (or for all that have no
    entry, by the empty text) period, order and rule of settling; what is mended.
    """

    stations: str | None
    one_site: str | None
    site_map: str | None
    period: Mapping[str, int]
    order: Mapping[str, str]
    settle: Mapping[str, str]
    mend: Mends
    limits: tuple[int, ...] | None = None
    boards: bool = False

    @property
    def has_sites(self) -> bool:
        """Whether they say which sites the stations have."""
        return bool(self.one_site or self.site_map or self.stations)

    def find_words(self, site: str) -> SiteWords:
        """What is asked of a site."""
        asked = (self.period, self.order, self.settle)
        return SiteWords(*(by_site.get(site, by_site.get("")) for by_site in asked))  # type: ignore[arg-type]

    def name_sites(self) -> Iterator[tuple[str, Iterable[str]]]:
        """The options that name sites, with these."""
        yield from (("--order", self.order), ("--settle", self.settle))
        yield from (("--period", self.period), ("--mend", self.mend))


class StationPlan:
    """The stations so far. With `--stations` they are those of its file, and no others."""

    def __init__(self, asked: PlanOptions) -> None:
        """Raises OSError, and UsageError where a file of the options has not two names a line."""
        self.asked = asked
        self.site_of: dict[str, str] = {}
        self.map = {station: site for station, site in read_pairs(asked.site_map or "/dev/null")}
        self.is_fixed = asked.stations is not None
        self.read_stations()

    @property
    def reads_sites(self) -> bool:
        """Whether lines say which site a station has."""
        return not self.asked.has_sites

    def read_stations(self) -> None:
        """Reads the file of stations. Raises OSError, and UsageError."""
        try:
            for site, station in read_pairs(self.asked.stations or "/dev/null"):
                self.admit(site, station)
        except Refused as why:
            raise UsageError(f"{self.asked.stations}: {why}") from None

    def list_sites(self) -> list[str]:
        """The sites, in the order in which they came."""
        return list(dict.fromkeys(self.site_of.values()))

    def find_strangers(self) -> list[str]:
        """What is wrong with options that name sites which no station has, a sentence for each."""
        named = [*self.list_sites(), *filter(None, [self.asked.one_site]), *self.map.values()]
        sites = list(dict.fromkeys(named))
        return [
            f"{option} names the site {shown(name)}, which {self.describe_source()} does not have; "
            f"{list_sites(name, sites)}"
            for option, of_sites in self.asked.name_sites()
            for name in of_sites
            if name and name not in sites
        ]

    def describe_source(self) -> str:
        """Where the sites come from, for a reader."""
        return str(self.asked.stations) if self.is_fixed else "the log"

    def check_sites(self) -> None:
        """Raises UsageError where an option names a site that no station has."""
        if strangers := self.find_strangers():
            raise UsageError("; ".join(strangers))

    def place(self, entry: Entry) -> tuple[str, str]:
        """The site and the station of a line. Raises Refused where they are not known."""
        station, asked = entry.station, self.asked
        site = self.site_of.get(station)
        if self.is_fixed:
            if site is None:
                raise Refused(f"{NOT_IN} {asked.stations}", shown(station))
            return site, station
        if station in self.map:
            return self.map[station], station
        if asked.one_site:
            return asked.one_site, station if site else require_name("station", station)
        if asked.site_map:
            raise Refused(f"{NOT_IN} {asked.site_map}", shown(station))
        if site is not None and site == entry.site:
            return site, station
        return require_name("site", entry.site), require_name("station", station)

    def admit(self, site: str, station: str) -> bool:
        """Takes a station, and gives whether it is new. Raises Refused where it has another site already."""
        known = self.site_of.get(station)
        if known == site:
            return False
        if known is not None:
            raise Refused(
                f"station {station} is declared at site {known} already, and not at {site}"
            )
        self.check_room(site, station)
        self.site_of[station] = site
        return True

    def check_room(self, site: str, station: str) -> None:
        """Raises Refused where there is no room for one station more. A store has room for all."""


class OpenPlan(StationPlan):
    """The stations of a store, which keeps messages of stations that no site has until the plan has them."""

    def place(self, entry: Entry) -> tuple[str, str]:
        """The site and the station of a line; the site is empty where no site is known to have the station. Raises
        Refused where the station is no name."""
        is_unknown = entry.station not in self.site_of and entry.station not in self.map
        if is_unknown and not self.asked.one_site and (self.is_fixed or self.asked.site_map):
            return "", require_name("station", entry.station)
        return super().place(entry)

    def admit(self, site: str, station: str) -> bool:
        """Takes a station, and gives whether it is new. Raises Refused where it has another site already."""
        return bool(site) and super().admit(site, station)


class StorePlan(OpenPlan):
    """The stations of a store, to which a file and one site of all others add. What lines say of sites is not read."""

    reads_sites = False

    def place(self, entry: Entry) -> tuple[str, str]:
        """The site and the station of a line; the site is empty where no site has the station. Raises Refused where the
        station is no name."""
        site = self.site_of.get(entry.station) or self.asked.one_site or ""
        return site, entry.station if site else require_name("station", entry.station)


def split_site(text: str) -> tuple[str, str]:
    """A site and what the option says of it; without a site of all others."""
    site, _, said = text.rpartition("=")
    if "=" in text and not is_name(site):
        raise argparse.ArgumentTypeError(f"no name of a site: {shown(text)}")
    return site, said


def read_period(text: str) -> tuple[str, int]:
    """A site and its settlement period in seconds."""
    if text.rpartition("=")[2] not in map(str, PERIODS):
        raise argparse.ArgumentTypeError(f"not 300, 900, 1800 or 3600 seconds: {shown(text)}")
    site, seconds = split_site(text)
    return site, int(seconds)


def read_word(words: Sequence[str], text: str) -> tuple[str, str]:
    """A site and one of these words, for it."""
    if text.rpartition("=")[2] not in words:
        raise argparse.ArgumentTypeError(f"not {' or '.join(words)}: {shown(text)}")
    return split_site(text)


def add_sites(parser: argparse.ArgumentParser) -> None:
    """The options that name sites and stations."""
    parser.add_argument(
        "--site",
        dest="one_site",
        metavar="NAME",
        help="the site of all stations, whatever the log says; with --site-map, of those that the "
        "map has not",
    )
    parser.add_argument(
        "--site-map", metavar="FILE", help="the sites: a station and its site a line"
    )


def add_rules(parser: argparse.ArgumentParser) -> None:
    """The options that say by which rules sites are settled, and what is mended."""
    for name, kind, value, about in (
        (
            "period",
            read_period,
            "SECONDS",
            "the settlement period of SITE, or of every other site: "
            "300, 900, 1800 or 3600 seconds (default: 900)",
        ),
        (
            "order",
            partial(read_word, ORDERS),
            "WORD",
            "the order of readings of SITE, or of every other site: sequence, the numbers of their "
            "events, or moment, their own times, for stations that list readings again (default: moment)",
        ),
        (
            "settle",
            partial(read_word, RULES),
            "WORD",
            "the period in which a difference of SITE counts, or of every other site: later, that of its later "
            "reading; closing, the one that this reading closes; or even, each period between its readings "
            "by its share of the time (default: even)",
        ),
    ):
        more: dict[str, Any] = {"type": kind, "metavar": f"[SITE=]{value}", "help": about}
        parser.add_argument(f"--{name}", action="append", default=[], **more)
    add_mending(parser)


def add_limits(parser: argparse.ArgumentParser) -> None:
    """The option that says how much stations of a script keep."""
    parser.add_argument(
        "--limits",
        nargs=4,
        type=int,
        metavar=("TRANSACTIONS", "EVENTS", "READINGS", "CHANGES"),
        help="a `limits` line for all stations, up to 4096 65536 65536 9223372036854775808, and "
        "the readings of all stations up to 1,048,576",
    )


def add_utc(parser: argparse.ArgumentParser) -> None:
    """The option that says what times without an offset are."""
    about = "times without an offset are UTC"
    parser.add_argument("--utc", dest="is_utc", action="store_true", help=about)


def choose_plan(parser: argparse.ArgumentParser, words: argparse.Namespace) -> PlanOptions:
    """What the words ask for. Wrong ones end the program with status 2."""
    asked = getattr(words, "limits", None)
    greatest = GREATEST_LIMITS.values()
    if asked and not all(1 <= n <= most for n, most in zip(asked, greatest)):
        parser.error("--limits are from 1 to 4096, 65536, 65536 and 9223372036854775808")
    one_site = getattr(words, "one_site", None)
    if one_site and (said := check_name("name", one_site)):
        parser.error(f"--site is no name: {said[0]}; {said[1]}")
    by_site = {name: dict(getattr(words, name)) for name in ("period", "order", "settle")}
    limits = tuple(asked) if asked else None
    return pick_options(PlanOptions, words, limits=limits, mend=group_mends(words.mend), **by_site)
