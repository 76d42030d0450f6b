"""What is doubtful in the data of one transaction: findings, each with a name, a sentence, and how often it is so."""

from collections.abc import Iterable, Iterator, Sequence
from datetime import datetime
from itertools import pairwise
from typing import NamedTuple

from ocpp_board.energies import MWH_OF_A_KWH, kwh
from ocpp_board.ledger.events import Counted, LiveEvents
from ocpp_board.ledger.kinds import Effect as Effect  # noqa: F401
from ocpp_board.ledger.kinds import Kind as Kind
from ocpp_board.messages.transactions import (
    NOTHING_MEASURED,
    Event,
    Measured,
    Reading,
    moment,
)
from ocpp_board.records import Rules


# Measurands that are named of a session.
MOST_SEEN = 6
# The greatest power of an EVSE in kW, where nothing else is said.
MOST_KW = 400
# A fall of a register by so many mWh at least may be that of a meter that was reset.
LEAST_RESET = 1_000_000
MWH_OF_A_WH = 1_000
# Seconds by which a reading may be later than its event, and up to which power counts from one value to the next.
MOST_LATER, LONGEST_POWER = 60, 3_600
# The least energy in mWh by power that a register is compared with.
LEAST_POWER = 100_000


class Finding(NamedTuple):
    """A finding of a session: how often, when first (where that has a time), and what it is of."""

    kind: Kind
    times: int
    first: datetime | None = None
    detail: str = ""


def sort_findings(found: Iterable[Finding]) -> list[Finding]:
    """Findings, the gravest first."""
    return sorted(found, key=lambda one: ORDER[one.kind])


# The places of the kinds.
ORDER = {kind: place for place, kind in enumerate(Kind)}


def make_finding(kind: Kind, noted: Sequence[tuple[Event, str]]) -> Iterator[Finding]:
    """A finding as often as there are events of it, with the detail of the first; none where there are none."""
    if noted:
        first = min((event.at for event, _ in noted if event.at is not None), default=None)
        yield Finding(kind, len(noted), moment(first), noted[0][1])


def name_order_option(site: str, where: str = "") -> str:
    """The option of the tools that has a site's readings taken by moment, and the line of a script that does, which has
    its place there."""
    line = f"`order {site} moment`{' ' if where else ''}{where}"
    return f"`--order {site}=moment` of report, follow or log-to-script (in a script line {line})"


class Fall(NamedTuple):
    """A reading that is less than the one before it, which this register had, with its event."""

    event: Event
    had: Reading
    one: Reading


def is_reset(fall: Fall, readings: Sequence[Reading]) -> bool:
    """Whether a register of these readings was reset where it fell: it began below the session's first reading, and
    does not leap from there to where it was before, as it does behind a wrong reading."""
    own = [one for one in readings if one.is_export == fall.one.is_export]
    start = own[0].mwh
    if fall.had.mwh - fall.one.mwh < LEAST_RESET or fall.one.mwh >= start:
        return False
    for one, after in pairwise(own[own.index(fall.one) :]):
        if one.mwh - after.mwh >= LEAST_RESET:
            break
        if one.mwh < start and after.mwh >= fall.had.mwh:
            return False
    return True


def report_falls(falls: Sequence[Fall], readings: Sequence[Reading]) -> Iterator[Finding]:
    """Falls of registers of a session with these readings: those of meters that were reset, and the others."""
    resets = [fall for fall in falls if is_reset(fall, readings)]
    others = [fall for fall in falls if fall not in resets]
    for kind, some in ((Kind.REGISTER_FALLS, others), (Kind.RESET, resets)):
        lost = describe_falls(some)
        yield from make_finding(kind, [(fall.event, lost) for fall in some])


def describe_falls(falls: Sequence[Fall]) -> str:
    """What was lost by falls, with the reading before and after each."""
    lost = sum(fall.had.mwh - fall.one.mwh for fall in falls)
    each = ", ".join(
        f"from {kwh(fall.had.mwh)} to {kwh(fall.one.mwh)} kWh" for fall in falls[:MOST_SEEN]
    )
    return f"{kwh(lost)} kWh lost: {each}"


def is_begin(event: Event, one: Reading, first: Reading) -> bool:
    """Whether an end lists the session's first reading again, as it was or rounded to whole kWh."""
    if event.kind != "Ended":
        return False
    is_whole = one.mwh % MWH_OF_A_KWH == 0 and abs(one.mwh - first.mwh) < MWH_OF_A_KWH
    return one.mwh == first.mwh or is_whole


class Doubts:
    """What is doubtful in a transaction. It takes the events and the counted readings in their order, each once: so
    where a transaction goes on, nothing of it is looked at again."""

    def __init__(self, by_sequence: str | None, rules: Rules) -> None:
        """`by_sequence`: what would have the site's readings taken by moment, where they are not."""
        self.by_sequence, self.most_kw = by_sequence, rules.most_kw
        self.resolution, self.within = rules.resolution * MWH_OF_A_WH, rules.reading_within
        # The doubtful events by their kinds, with a detail each.
        self.noted: dict[Kind, list[tuple[Event, str]]] = {}
        self.last_at: float | None = None
        self.last_read: float | None = None
        self.evse = 0
        self.begin: Event | None = None
        self.end: Event | None = None
        # Events behind the end, and whether one of them begins a session.
        self.behind: list[tuple[Event, str]] = []
        self.begins_again = False
        # By register, the first reading, where its power was too great, where it fell, and whether it rose all the
        # time; whether two readings differ, and the last begin that an end lists again.
        self.firsts: list[Reading | None] = [None, None]
        self.powers: tuple[list[tuple[Event, str]], ...] = [], []
        self.falls: tuple[list[Fall], ...] = [], []
        self.rises = [True, True]
        self.has_several = False
        self.begun: list[Fall | None] = [None, None]
        self.peak = 0.0
        self.course = Power()

    def note(self, kind: Kind, event: Event, detail: str = "") -> None:
        """Notes a doubtful event."""
        self.noted.setdefault(kind, []).append((event, detail))

    def take_events(self, events: Iterable[Event]) -> None:
        """Takes further events."""
        for event in events:
            at = event.at
            if at is not None:
                if self.last_at is not None and at < self.last_at:
                    self.take_earlier(event)
                self.last_at = at
                for one in event.readings:
                    when = one.at
                    if when is not None:
                        if when > at + MOST_LATER:
                            self.note(Kind.READ_LATER, event, describe_later(event, one))
                        if self.last_read is None or when > self.last_read:
                            self.last_read = when
            if event.is_far:
                self.note(Kind.CLOCK_FAR, event)
            if event.others:
                self.note(Kind.OTHER_ENERGY, event)
            for said in event.unlike:
                self.note(Kind.SIGNED, event, said)
            if event.measured is not NOTHING_MEASURED:
                self.take_measured(event)
            if event.evse and event.evse != self.evse:
                if self.evse:
                    self.note(Kind.EVSE_CHANGES, event, f"{self.evse}, then {event.evse}")
                self.evse = event.evse
            if event.kind != "Updated" or self.end:
                self.take_bounds(event)

    def take_earlier(self, event: Event) -> None:
        """Takes an event that has an earlier time than the one before. Where its readings are as late as they should
        be, and it is neither the start nor the end, nothing comes of it."""
        moments = [one.at for one in event.readings if one.at is not None]
        last = self.last_read
        if event.kind != "Updated" or not moments or last is None or min(moments) < last:
            self.note(Kind.CLOCK_BACK, event)

    def take_measured(self, event: Event) -> None:
        """Takes what an event measures beside the registers."""
        if event.measured.unit:
            self.note(
                Kind.UNIT, event, f"a member `unit` beside the value says {event.measured.unit}"
            )
        self.course.take(event.measured)

    def take_bounds(self, event: Event) -> None:
        """Takes an event that begins or ends the session, or that is behind its end."""
        if self.end:
            self.behind.append((event, ""))
            self.begins_again = self.begins_again or event.kind == "Started"
        elif event.kind == "Ended":
            self.end = event
        if event.kind == "Started" and self.begin is None:
            self.begin = event

    def take_readings(self, is_export: bool, had: Reading | None, found: Iterable[Counted]) -> None:
        """Takes further readings of a register. `had`: the one before them."""
        first = self.firsts[is_export]
        for event, one in found:
            if had is None or first is None:
                first = self.firsts[is_export] = one
            elif one.mwh < had.mwh:
                self.has_several = True
                if is_begin(event, one, first):
                    # What follows is compared with the reading before.
                    self.begun[is_export] = Fall(event, had, one)
                    continue
                self.rises[is_export] = False
                if had.mwh - one.mwh >= self.resolution:
                    self.falls[is_export].append(Fall(event, had, one))
            elif one.mwh > had.mwh:
                self.has_several = True
                self.begun[is_export] = None
                power = find_power(had, one)
                if power > self.peak and is_a_minute(had, one):
                    self.peak = power
                if power > self.most_kw:
                    self.powers[is_export].append((event, describe_rise(had, one)))
            elif is_later(had, one):
                self.has_several = True
            else:
                self.rises[is_export] = False
            had = one

    def find(
        self,
        events: LiveEvents,
        conflicts: Sequence[Event],
        is_complete: bool,
        times: tuple[float, float] | None,
    ) -> list[Finding]:
        """The findings so far, the gravest first. `events`: all that were taken; `conflicts`: those that conflicted
        with them; `times`: of the first and the last reading."""
        if not events:
            return []
        noted = self.noted.get
        orders = list(self.compare_orders(events))
        found = [*self.find_no_energy(events, is_complete), *self.find_id_again(conflicts)]
        found += self.find_lacking(times, events)
        if orders:
            found += [one for one in orders if one.detail]
        elif self.by_sequence is None and any(self.falls):
            found += report_falls(sum(self.falls, []), events.list_readings())
        elif self.by_sequence is not None and not all(self.rises):
            found += find_falls_by_sequence(events, self.by_sequence, self.resolution)
        found += make_finding(Kind.POWER, sum(self.powers, []))
        found += self.find_begun(events)
        for kind in (
            Kind.SIGNED,
            Kind.CLOCK_BACK,
            Kind.CLOCK_FAR,
            Kind.READ_LATER,
            Kind.EVSE_CHANGES,
        ):
            found += make_finding(kind, noted(kind, []))
        found += self.find_units(events)
        if (
            (first := events.first_number)
            and self.begin is None
            and not self.has_voided_begin(events)
        ):
            found += make_finding(Kind.NUMBERS_ABOVE_0, [(events[0], f"the first is {first}")])
        return sort_findings(found)

    def find_resets(self, events: LiveEvents) -> list[Fall]:
        """Where a register of the session was reset. `events`: all that were taken."""
        falls, readings = [*self.falls[0], *self.falls[1]], events.list_readings()
        if self.by_sequence is not None:
            falls, readings, _ = list_falls_by_sequence(events, self.resolution)
        return [fall for fall in falls if is_reset(fall, readings)]

    @staticmethod
    def has_voided_begin(events: LiveEvents) -> bool:
        """Whether a Started event came that somebody voided."""
        return "Started" in events.voided.values()

    def find_no_energy(self, events: LiveEvents, is_complete: bool) -> Iterator[Finding]:
        """Whether a session has no reading that counts."""
        if events.has_readings():
            return
        if others := self.noted.get(Kind.OTHER_ENERGY):
            seen = sorted({one for event, _ in others for one in event.others})
            more = f" and {len(seen) - MOST_SEEN:,} more" if len(seen) > MOST_SEEN else ""
            sums = (
                f": {kwh(self.course.intervals)} kWh by intervals" if self.course.intervals else ""
            )
            detail = ", ".join(seen[:MOST_SEEN]) + more + sums
            yield from make_finding(Kind.OTHER_ENERGY, [(event, detail) for event, _ in others])
        elif is_complete:
            yield from make_finding(Kind.NO_READING, [(events[-1], "")])

    def find_lacking(
        self, times: tuple[float, float] | None, events: LiveEvents
    ) -> Iterator[Finding]:
        """Whether a session that is over lacks a reading of its start or of its end."""
        if times is None or self.end is None:
            return
        if not self.has_several:
            detail = f"{kwh(events.list_readings()[0].mwh)} kWh"
            yield from make_finding(Kind.ONE_READING, [(self.end, detail)])
            return
        if late := self.find_late(self.begin, times[0]):
            detail = f"the first reading is {describe_time(late)} after the start"
            yield from make_finding(Kind.NO_BEGIN, [(self.begin or self.end, detail)])
        if early := self.find_late(self.end, times[1]):
            detail = f"the last reading is {describe_time(early)} before the end"
            yield from make_finding(Kind.NO_END, [(self.end, detail)])

    def find_late(self, event: Event | None, at: float) -> float:
        """How long a reading lies beside the start or the end, where that is too long; else 0."""
        if event is None or event.at is None:
            return 0
        beside = at - event.at if event.kind == "Started" else event.at - at
        return beside if beside > self.within else 0

    def name_measured(self, times: tuple[float, float] | None) -> str:
        """Whether the session's energy is measured: yes, part of it, or no."""
        if times is None or not self.has_several:
            return "no"
        if self.begin is None or self.end is None:
            return "part"
        is_late = self.find_late(self.begin, times[0]) or self.find_late(self.end, times[1])
        return "part" if is_late else "yes"

    def find_id_again(self, conflicts: Sequence[Event]) -> Iterator[Finding]:
        """The events of another session that came under the id after its first end: one that begins, and what came with
        it. Two ends of a session, or an update behind its end, are none."""
        end = self.end
        if end is None:
            return
        after = [
            one
            for one in conflicts
            if one.at is not None and end.at is not None and one.at > end.at
        ]
        if not self.begins_again and not any(one.kind == "Started" for one in after):
            return
        yield from make_finding(Kind.ID_AGAIN, [*self.behind, *((one, "") for one in after)])

    def find_begun(self, events: LiveEvents) -> Iterator[Finding]:
        """Whether a register ends with the begin that the end lists again."""
        for is_export, fall in zip((False, True), self.begun):
            order = events.orders[is_export]
            if fall is not None and order and order[-1] == (fall.event, fall.one):
                detail = f"{kwh(fall.had.mwh)} kWh, then {kwh(fall.one.mwh)} kWh"
                yield from make_finding(Kind.BEGIN_LAST, [(fall.event, detail)])

    def find_units(self, events: LiveEvents) -> Iterator[Finding]:
        """Whether a register rose by a thousandth of what the measured power gives, by a thousand times as much, or
        not at all."""
        if own := self.noted.get(Kind.UNIT):
            yield from make_finding(Kind.UNIT, own)
            return
        order, gives = events.orders[0], self.course.mwh
        if gives < LEAST_POWER or len(order) < 2:
            return
        rise = order[-1][1].mwh - order[0][1].mwh
        detail = f"the register rose by {kwh(rise)} kWh, and the measured power gives {kwh(round(gives))} kWh"
        if 0 <= rise < self.resolution:
            if rise * 2_000 < gives or not rise:
                kind = Kind.UNIT if rise * 500 > gives / 4 else Kind.STANDS_STILL
                yield from make_finding(kind, [(order[-1][0], detail)])
        elif gives / 2_000 < rise < gives / 500 or gives * 500 < rise < gives * 2_000:
            yield from make_finding(Kind.UNIT, [(order[-1][0], detail)])

    def compare_orders(self, events: LiveEvents) -> Iterator[Finding]:
        """Where a clock was set back: whether the session's energy differs by the order of its readings. Without a
        detail where it does not, and only this order has falls."""
        if not (self.noted.keys() & {Kind.CLOCK_BACK, Kind.READ_LATER}):
            return
        places = {event.number: place for place, event in enumerate(events)}
        listed = [
            sorted(order, key=lambda counted: places[counted[0].number]) for order in events.orders
        ]
        sequence = [find_course(drop_repeats(order), self.resolution) for order in listed]
        timed = [
            find_course(
                sorted((one for _, one in order), key=lambda one: one.at or 0), self.resolution
            )
            for order in listed
        ]
        own, other = (timed, sequence) if self.by_sequence is None else (sequence, timed)
        own_falls, other_falls = (any(falls for _, falls in some) for some in (own, other))
        nets = [
            sum(net if not k else -net for k, (net, _) in enumerate(some))
            for some in (sequence, timed)
        ]
        if not own_falls:
            return
        event = (self.noted.get(Kind.CLOCK_BACK) or self.noted[Kind.READ_LATER])[0][0]
        if nets[0] == nets[1]:
            if not other_falls:
                yield from make_finding(Kind.ORDERS, [(event, "")])
            return
        names = "by moment", "by sequence"
        can = names[own is timed] if not other_falls else ""
        which = (
            f"{can} the register never falls, so this can be"
            if can
            else "in both the register falls"
        )
        yield from make_finding(
            Kind.ORDERS,
            [(event, f"{kwh(nets[0])} kWh by sequence, {kwh(nets[1])} kWh by moment: {which}")],
        )


def drop_repeats(order: Iterable[Counted]) -> list[Reading]:
    """Readings in the order of their events, without those that are listed again."""
    return list(dict.fromkeys(one for _, one in order))


def find_course(readings: Sequence[Reading], resolution: int) -> tuple[int, bool]:
    """By how much a register rose in all, and whether it fell on the way."""
    if not readings:
        return 0, False
    falls = any(had.mwh - one.mwh >= resolution for had, one in pairwise(readings))
    return readings[-1].mwh - readings[0].mwh, falls


def list_falls_by_sequence(
    events: LiveEvents, resolution: int
) -> tuple[list[Fall], list[Reading], list[Event]]:
    """Where a register falls from one reading to the next by more than it resolves, its readings, and the events that
    list readings again."""
    seen = set[Reading]()
    before: dict[bool, Reading] = {}
    firsts: dict[bool, Reading] = {}
    falls, repeats, readings = list[Fall](), list[Event](), list[Reading]()
    for event in events:
        listed = [one for one in event.readings if one in seen]
        # The last reading once more changes nothing.
        if any(one != before.get(one.is_export) for one in listed):
            repeats += [event] * len(listed)
        for one in event.readings:
            if one in seen:
                continue
            had = before.get(one.is_export)
            first = firsts.setdefault(one.is_export, one)
            if had and one.mwh < had.mwh and is_begin(event, one, first):
                continue
            if had and had.mwh - one.mwh >= max(resolution, 1):
                falls.append(Fall(event, had, one))
            readings.append(one)
            before[one.is_export] = one
        seen.update(event.readings)
    return falls, readings, repeats


def find_falls_by_sequence(
    events: LiveEvents, remedy: str, resolution: int = 1
) -> Iterator[Finding]:
    """Where a register falls by the sequence of the events, and where readings are listed again."""
    falls, readings, repeats = list_falls_by_sequence(events, resolution)
    yield from report_falls(falls, readings)
    by_moment = f"{remedy} takes them by moment"
    yield from make_finding(Kind.REPEATED, [(event, by_moment) for event in repeats])


class Power:
    """What the measured power of a session gives, and its interval values."""

    def __init__(self) -> None:
        self.last: tuple[float, float] | None = None
        self.mwh, self.intervals = 0.0, 0

    def take(self, measured: Measured) -> None:
        """Takes what a message measures."""
        self.intervals += sum(mwh for _, mwh in measured.intervals)
        for at, watts in measured.powers:
            if self.last and 0 < at - self.last[0] <= LONGEST_POWER:
                # Watt-seconds are 3.6ths of milliwatt-hours.
                self.mwh += (at - self.last[0]) * (watts + self.last[1]) / 2 / 3.6
            self.last = at, watts


def describe_later(event: Event, one: Reading) -> str:
    """How much later than its event a reading is."""
    assert event.at is not None and one.at is not None
    return f"{describe_time(one.at - event.at)} later"


def describe_time(seconds: float) -> str:
    """A length of time for a reader."""
    if seconds < 3_600:
        return f"{seconds / 60:.0f} min"
    return f"{seconds / 3_600:.1f} h"


def is_a_minute(had: Reading, one: Reading) -> bool:
    """Whether a reading is a minute or more after the one before."""
    return had.at is not None and one.at is not None and one.at - had.at >= 60


def find_power(had: Reading, one: Reading) -> float:
    """The power in kW by which a register rose from one reading to the next; 0 where that has an earlier time."""
    if had.at is None or one.at is None or one.at < had.at:
        return 0
    seconds = one.at - had.at
    # Moments are given to a second; readings of one moment may be of the same minute.
    return (one.mwh - had.mwh) * 3600 / MWH_OF_A_KWH / (seconds + 1 if seconds else 60)


def describe_rise(had: Reading, one: Reading) -> str:
    """What a register rose by, and in which time."""
    assert had.at is not None and one.at is not None
    return f"{kwh(one.mwh - had.mwh)} kWh in {one.at - had.at:,.0f} s"


def is_later(had: Reading, one: Reading) -> bool:
    """Whether a reading has a later time than the one before."""
    return had.at is not None and one.at is not None and had.at < one.at
