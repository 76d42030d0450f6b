"""What a site's page shows of each of its stations: figures, problems, and the sessions with troubles."""

from collections import Counter
from collections.abc import Iterable, Sequence

from ocpp_board.writers.pages.facts import (
    Found,
    Lack,
    StationSummary,
    Totals,
    Trouble,
    Worst,
)
from ocpp_board.writers.pages.kinds import VOIDED, find_state, is_wrong
from ocpp_board.writers.pages.reader import Reader

# Sessions with troubles that are kept of a station.
MOST_WORST = 40


class Summaries:
    """The summaries of sites' stations. Where pages are written again, it keeps those that were read."""

    def __init__(self, reader: Reader, keeps: bool = False) -> None:
        self.reader, self.keeps = reader, keeps
        self.kept: dict[str, dict[str, StationSummary]] = {}
        self.dropped: dict[str, set[str]] = {}

    def drop(self, site: str, stations: Iterable[str]) -> None:
        """Forgets stations that changed."""
        self.dropped.setdefault(site, set()).update(stations)

    def site(self, site: str) -> dict[str, StationSummary]:
        """The stations of a site, by name."""
        if not self.keeps or site not in self.kept:
            self.kept[site] = read_summaries(self.reader, site)
            self.dropped.pop(site, None)
        known = self.kept[site] if self.keeps else self.kept.pop(site)
        for station in self.dropped.pop(site, ()):
            known |= read_summaries(self.reader, site, station)
        return known


def read_summaries(
    reader: Reader, site: str, station: str | None = None
) -> dict[str, StationSummary]:
    """Reads the summaries of a site's stations, or of one of them."""
    totals = reader.station_totals(site, station)
    found, lacks = dict[str, list[Found]](), dict[str, list[Lack]]()
    for one in reader.findings(site, station):
        found.setdefault(one.station, []).append(one)
    for lack in reader.lacks(site, station):
        lacks.setdefault(lack.station, []).append(lack)
    planned = reader.stations(site) if station is None else [station]
    names = sorted({*planned, *totals, *found, *lacks})
    return {
        name: summarize(name, totals.get(name, Totals()), found.get(name, ()), lacks.get(name, ()))
        for name in names
    }


def summarize(
    name: str, totals: Totals, found: Sequence[Found], lacks: Sequence[Lack]
) -> StationSummary:
    """Summarizes a station."""
    sessions, times = Counter[str](), Counter[str]()
    by_session: dict[str, list[Found]] = {}
    for one in found:
        sessions[one.kind] += bool(one.transaction_id)
        times[one.kind] += one.times
        if one.transaction_id:
            by_session.setdefault(one.transaction_id, []).append(one)
    for lack in lacks:
        state = find_state(lack.state)
        sessions[state] += 1
        times[state] += lack.missing or 1
    if totals.voided:
        times[VOIDED] = totals.voided
    troubles = tuple(Trouble(kind, sessions[kind], count) for kind, count in times.items())
    worst = [*list_lacking(lacks, by_session), *list_doubtful(lacks, by_session)]
    worst.sort(key=order_worst)
    return StationSummary(
        name, totals, troubles, tuple(worst[:MOST_WORST]), len(by_session), tuple(found)
    )


def order_worst(one: Worst) -> tuple[int, float, str]:
    """Orders sessions with troubles: the gravest, and then the latest first."""
    return one.grave, -one.moment, one.transaction_id


def find_grave(findings: Iterable[Found], lack: Lack | None) -> int:
    """Finds how grave the troubles of a session are: wrong numbers come before missing ones."""
    if any(is_wrong(one.kind) for one in findings):
        return 0
    if lack is None:
        return 3
    return 1 if lack.missing else 2


def list_lacking(lacks: Iterable[Lack], found: dict[str, list[Found]]) -> Iterable[Worst]:
    """Lists sessions that are not complete."""
    for lack in lacks:
        some = tuple(found.get(lack.transaction_id, ()))
        at = lack.first_at.timestamp() if lack.first_at else 0.0
        yield Worst(find_grave(some, lack), at, lack.station, lack.transaction_id, some)


def list_doubtful(lacks: Iterable[Lack], found: dict[str, list[Found]]) -> Iterable[Worst]:
    """Lists complete sessions with findings."""
    known = {lack.transaction_id for lack in lacks}
    for tx, some in found.items():
        if tx not in known:
            at = max((one.first_at.timestamp() for one in some if one.first_at), default=0.0)
            yield Worst(find_grave(some, None), at, some[0].station, tx, tuple(some))


def sum_totals(stations: Iterable[StationSummary]) -> Totals:
    """Sums the figures of stations."""
    found = Totals()
    for one in stations:
        found = found.plus(one.totals)
    return found


def is_troubled(one: StationSummary) -> bool:
    """Whether something is wrong with a station."""
    return bool(one.troubles) or one.totals.complete < one.totals.transactions


def order_stations(one: StationSummary) -> tuple[int, int, int, str]:
    """Orders stations: those with wrong numbers first, then those with most sessions that lack something."""
    wrong = sum(trouble.sessions for trouble in one.troubles if is_wrong(trouble.name))
    lacking = one.totals.transactions - one.totals.complete
    others = sum(trouble.times for trouble in one.troubles)
    return -wrong, -lacking, -others, one.name
