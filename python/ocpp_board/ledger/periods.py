"""How the figures of settlement periods were come by: measured at both ends of a period, or shared by time."""

import math
from bisect import bisect_left
from collections.abc import Collection, Iterable, Iterator, Sequence
from itertools import pairwise
from typing import NamedTuple

from ocpp_board.ledger.events import Counted, LiveEvents
from ocpp_board.messages.transactions import Event, Reading

# Seconds by which a reading may lie beside the end of a period that it measures.
BESIDE = 2
# Periods of a session that are looked at: three months of quarters of an hour.
MOST_PERIODS = 9_000

Gaps = Sequence[tuple[int, int]]
Shares = dict[int, int]  # By the beginnings of periods, in seconds since 1970, net energies in mWh.


class Doubt(NamedTuple):
    """What is doubtful in a period. `shared`: what it gets, in mWh, where the energy between the readings around its
    unmeasured ends is shared by time; `by_values`: what interval values give, where no register was read; `has_gap`:
    numbers are missing in it."""

    is_estimated: bool = False
    shared: int = 0
    by_values: int | None = None
    has_gap: bool = False


SURE = Doubt()
Doubts = dict[int, Doubt]  # By the beginnings of periods, in seconds since 1970; others are sure.


class Spans:
    """The times of a transaction beside those of periods. It takes its events and its counted readings in their order,
    each once: so where a transaction goes on, nothing of it is looked at again."""

    def __init__(self, seconds: int, within: int) -> None:
        """`seconds`: those of a period; `within`: how far the first and the last reading may be from the start and the
        end."""
        self.seconds, self.within = seconds, within
        # The first and the last time of events and of readings; all times of readings.
        self.of_events: tuple[float, float] | None = None
        self.of_readings: tuple[float, float] | None = None
        self.readings = set[float]()
        # The ends of periods that are measured; how many readings lie in the first second of a period, and the first.
        self.measured = set[int]()
        self.boundaries = 0
        self.first_boundary: float | None = None
        # By register, what periods get if energy is shared by time; None where that is to be looked for again, since
        # readings came in another order than that of their times, or since there are many periods.
        self.shares: list[Shares | None] = [{}, {}]
        # Interval values by their times.
        self.intervals: list[tuple[float, int]] = []

    def take_events(self, events: Iterable[Event]) -> None:
        """Takes further events."""
        some = list(events)
        self.of_events = widen(self.of_events, [one.at for one in some if one.at is not None])
        self.intervals += [pair for one in some for pair in one.measured.intervals]

    def take_readings(self, is_export: bool, had: Reading | None, found: Sequence[Counted]) -> None:
        """Takes further readings of a register. `had`: the one before them."""
        moments = [one.at for _, one in found if one.at is not None]
        self.of_readings = widen(self.of_readings, moments)
        for at in moments:
            if at not in self.readings:
                self.readings.add(at)
                self.take_moment(at)
        readings = [one for _, one in found]
        for before, one in pairwise([had, *readings] if had else readings):
            self.share(is_export, before, one)

    def take_moment(self, at: float) -> None:
        """Takes the time of a reading."""
        seconds = self.seconds
        nearest = int((at + seconds / 2) // seconds) * seconds
        if abs(at - nearest) <= BESIDE:
            self.measured.add(nearest)
        if at % seconds < 1:
            self.boundaries += 1
            if self.first_boundary is None or at < self.first_boundary:
                self.first_boundary = at

    def share(self, is_export: bool, had: Reading, one: Reading) -> None:
        """Shares the energy between a reading of a register and the next one."""
        shares = self.shares[is_export]
        if shares is None:
            return
        assert had.at is not None and one.at is not None
        if one.at < had.at or len(shares) > MOST_PERIODS:
            self.shares[is_export] = None
            return
        for start, mwh in share_by_time(had, one, self.seconds):
            shares[start] = shares.get(start, 0) + mwh

    def find_doubts(self, events: LiveEvents, gaps: Gaps) -> Doubts:
        """The doubts of the periods in which a session ran. `events`: all that were taken; `gaps`: its missing numbers
        without those voided."""
        starts = dict.fromkeys(
            start for at in self.find_unmeasured() for start in (at - self.seconds, at)
        )
        starts |= dict.fromkeys(self.find_unread())
        shares = [self.find_shares(events, is_export, starts) for is_export in (False, True)]
        values = self.share_intervals() if self.of_readings is None else {}
        doubts = {
            start: Doubt(True, shares[0].get(start, 0) + shares[1].get(start, 0), values.get(start))
            for start in starts
        }
        for start in find_periods_with_gaps(events, self.seconds, gaps):
            doubts[start] = doubts.get(start, SURE)._replace(has_gap=True)
        return doubts

    def find_unmeasured(self) -> Iterator[int]:
        """The ends of periods within a session where it has no reading."""
        times = [*(self.of_events or ()), *(self.of_readings or ())]
        if not times:
            return
        first, end = (int(min(times) // self.seconds) + 1) * self.seconds, max(times)
        for at in range(first, first + MOST_PERIODS * self.seconds, self.seconds):
            if at >= end:
                return
            if at not in self.measured:
                yield at

    def find_unread(self) -> Iterator[int]:
        """The periods from the start of a session to its first reading, and from its last reading to the end, where
        these are further apart than they may be."""
        if self.of_events is None:
            return
        begin, end = self.of_events
        first, last = self.of_readings or (end, begin)
        spans = [(begin, first)] if first - begin > self.within else []
        spans += [(last, end)] if end - last > self.within else []
        if self.of_readings is None:
            spans = [(begin, end)]
        for since, until in spans:
            start = int(since // self.seconds) * self.seconds
            yield from range(
                start, min(int(until) + 1, start + MOST_PERIODS * self.seconds), self.seconds
            )

    def share_intervals(self) -> Shares:
        """What periods get of interval values. Each is of the time since the one before, or since the
        start."""
        found = dict[int, int]()
        if self.intervals and self.of_events:
            ends = sorted(self.intervals)
            for since, (at, mwh) in zip([self.of_events[0], *(end for end, _ in ends)], ends):
                if 0 < at - since <= MOST_PERIODS * self.seconds:
                    first = int(since // self.seconds) * self.seconds
                    for start in range(first, math.ceil(at), self.seconds):
                        part = min(at, start + self.seconds) - max(since, start)
                        found[start] = found.get(start, 0) + round(mwh * part / (at - since))
        return found

    def find_shares(self, events: LiveEvents, is_export: bool, starts: Collection[int]) -> Shares:
        """What these periods get of a register where energy is shared by time."""
        known = self.shares[is_export]
        if known is not None or not starts:
            return known or {}
        found = dict[int, int]()
        for had, one in pairwise(sort_by_time(events, is_export)):
            for start, mwh in share_by_time(had, one, self.seconds):
                if start in starts:
                    found[start] = found.get(start, 0) + mwh
        return found


def widen(
    known: tuple[float, float] | None, moments: Sequence[float]
) -> tuple[float, float] | None:
    """The first and the last of the moments that are known and of these."""
    some = [*known, *moments] if known else moments
    return (min(some), max(some)) if some else None


def sort_by_time(events: LiveEvents, is_export: bool) -> list[Reading]:
    """The counted readings of a register by their moments, whatever the order of the site is."""
    return sorted((one for _, one in events.readings(is_export)), key=lambda one: one.at or 0)


def share_by_time(had: Reading, one: Reading, seconds: int) -> Iterator[tuple[int, int]]:
    """What periods get of the energy between a reading and the next one, where it is shared by time: net, in mWh."""
    assert had.at is not None and one.at is not None
    # A reading beside an end of a period is at it.
    first = int((had.at + BESIDE) // seconds) * seconds
    last = int((one.at - BESIDE) // seconds) * seconds
    net = (had.mwh - one.mwh) if one.is_export else (one.mwh - had.mwh)
    if not net or first >= last or last - first > MOST_PERIODS * seconds:
        return
    for start in range(first, last + seconds, seconds):
        part = min(one.at, start + seconds) - max(had.at, start)
        if part > 0:
            yield start, round(net * part / (one.at - had.at))


def find_periods_with_gaps(events: Sequence[Event], seconds: int, gaps: Gaps) -> Iterator[int]:
    """The periods in which numbers of a session are missing: from the event before a gap to the one behind it."""
    for first, last in find_holes(events, gaps):
        start = int(first // seconds) * seconds
        yield from range(start, min(int(last) + 1, start + MOST_PERIODS * seconds), seconds)


def find_holes(events: Sequence[Event], gaps: Gaps) -> Iterator[tuple[float, float]]:
    """The times between which numbers of a session are missing: those of the events beside each gap."""
    numbers = [event.number for event in events] if gaps else []
    for a, _ in gaps:
        place = bisect_left(numbers, a)
        if not 0 < place < len(events):
            continue
        before, after = events[place - 1].at, events[place].at
        if before is not None and after is not None:
            yield min(before, after), max(before, after)
