"""A replay in plain Python, to compare the program with: each board is worked out from scratch, by whole lists.

    tests/one reference < SCRIPT

answers the lines of a script as `ocpp_board replay` does, as far as tests need: declarations, events, the operator's
commands, questions and boards. It knows no limits and checks no message; one that is no event is answered without a
payload.
"""

import json
import sys
from collections.abc import Iterable, Iterator
from dataclasses import dataclass, field
from datetime import UTC, datetime, timedelta
from decimal import Decimal
from itertools import pairwise
from typing import Any, NamedTuple

IMPORT, EXPORT = "Energy.Active.Import.Register", "Energy.Active.Export.Register"
PERIODS, ORDERS = ("300", "900", "1800", "3600"), ("sequence", "moment")
RULES = ("later", "closing", "even")
EPOCH, FIRST, DAY = (
    datetime(1970, 1, 1, tzinfo=UTC),
    datetime(2000, 1, 1, tzinfo=UTC),
    timedelta(days=1),
)
FLOW = ("up", "down", "export_up", "export_down")
COUNTS = ("events", "voided", "transactions", "complete", "missing")


class Reading(NamedTuple):
    """A counted reading in milliwatt-hours."""

    at: datetime
    mwh: int
    is_export: bool


class Event(NamedTuple):
    """What is compared of an event."""

    kind: str
    at: datetime
    evse: int | None
    readings: tuple[Reading, ...]


def readings_of(payload: dict[str, Any]) -> Iterator[Reading]:
    """The counted readings of an event, in the order sent."""
    for value in payload.get("meterValue") or ():
        for one in value["sampledValue"]:
            measurand = one.get("measurand") or IMPORT
            is_counted = measurand in (IMPORT, EXPORT) and one.get("phase") is None
            if is_counted and one.get("location") in (None, "Outlet"):
                unit = one.get("unitOfMeasure") or {}
                power = (unit.get("multiplier") or 0) + (6 if unit.get("unit") == "kWh" else 3)
                level = int(Decimal(one["value"]).scaleb(power))
                yield Reading(
                    datetime.fromisoformat(value["timestamp"]), level, measurand == EXPORT
                )


def event_of(payload: dict[str, Any]) -> Event:
    """The event that a payload has."""
    evse = (payload.get("evse") or {}).get("id")
    at = datetime.fromisoformat(payload["timestamp"])
    return Event(payload["eventType"], at, evse, tuple(readings_of(payload)))


class Pair(NamedTuple):
    """A reading's difference from the one before it, and when both were taken."""

    since: datetime
    at: datetime
    difference: int
    is_export: bool

    def part(self, difference: int) -> "Pair":
        """A part of it."""
        return self._replace(difference=difference)


class Whole(dict[str, int]):
    """Numbers by name."""

    def add(self, other: dict[str, int]) -> None:
        for name, number in other.items():
            self[name] = self.get(name, 0) + number

    def said(self, names: Iterable[str]) -> str:
        return " ".join(f"{name}={self.get(name, 0)}" for name in names)


def energy(pairs: Iterable[Pair]) -> Whole:
    """What these pairs rise and fall by."""
    whole = Whole()
    for pair in pairs:
        front = "export_" if pair.is_export else ""
        whole.add({front + ("up" if pair.difference > 0 else "down"): abs(pair.difference)})
    return whole


@dataclass
class Site:
    """How a site's boards are made, and its stations."""

    seconds: int = 900
    is_by_moment: bool = False
    rule: str = "later"
    stations: list[str] = field(default_factory=list)


class Station:
    """What a station has stored: events by transaction and number, and which of them are voided."""

    def __init__(self, site: Site) -> None:
        self.site = site
        self.events: dict[str, dict[int, Event]] = {}
        self.voided = set[tuple[str, int]]()
        self.changes = 0

    def live(self, tx: str) -> list[tuple[int, Event]]:
        """The live events of a transaction, by their numbers."""
        events = sorted(self.events[tx].items())
        return [(number, event) for number, event in events if (tx, number) not in self.voided]

    def shown(self) -> list[str]:
        """The transactions with a live event, by their ids' bytes."""
        return sorted(tx for tx in self.events if self.live(tx))

    def pairs(self, tx: str) -> list[Pair]:
        """Each reading with the one before it: by their numbers, or these sorted by moment."""
        return [
            Pair(before.at, after.at, after.mwh - before.mwh, is_export)
            for is_export in (False, True)
            for (*_, before), (*_, after) in pairwise(self.placed(tx, is_export))
        ]

    def placed(self, tx: str, is_export: bool) -> list[tuple[int, int, Reading]]:
        """The live readings of a direction, each with the number of its event and its place there."""
        found = []
        for number, event in self.live(tx):
            own = (one for one in event.readings if one.is_export == is_export)
            found += [(number, place, one) for place, one in enumerate(own)]
        if self.site.is_by_moment:
            # Python's sort keeps equals in their order.
            found.sort(key=lambda one: one[2].at)
        return found

    def all_pairs(self) -> list[Pair]:
        """The pairs of all transactions."""
        return [pair for tx in self.shown() for pair in self.pairs(tx)]

    def gaps(self, tx: str) -> list[tuple[int, int]]:
        """The ranges of numbers between the first and the last that are not live."""
        numbers = [number for number, _ in self.live(tx)]
        return [(a + 1, b - 1) for a, b in zip(numbers, numbers[1:]) if a + 1 < b]

    def missing(self, tx: str) -> int:
        """How many numbers between the first and the last are not live."""
        return sum(last - first + 1 for first, last in self.gaps(tx))

    def is_complete(self, tx: str) -> bool:
        """Whether a transaction has its start, its end and all between."""
        kinds = [event.kind for _, event in self.live(tx)]
        inner = {"Started", "Ended"} & set(kinds[1:-1])
        ends = len(kinds) > 1 and (kinds[0], kinds[-1]) == ("Started", "Ended")
        return ends and not inner and not self.missing(tx)

    def evse(self, tx: str) -> int:
        """The EVSE of the first event that names one."""
        return next((event.evse for _, event in self.live(tx) if event.evse is not None), 0)

    def total(self) -> Whole:
        """The station's figures."""
        whole = energy(self.all_pairs())
        for tx in self.shown():
            whole.add({"events": len(self.live(tx)), "transactions": 1})
            whole.add({"complete": int(self.is_complete(tx)), "missing": self.missing(tx)})
        whole.add({"voided": len(self.voided)})
        return whole

    def periods(self) -> dict[int, Whole]:
        """The station's energy by the beginnings of periods, in seconds since 1970."""
        found: dict[int, list[Pair]] = {}
        for pair in self.all_pairs():
            for start, part in self.parts(pair):
                found.setdefault(start, []).append(part)
        return {start: energy(pairs) for start, pairs in found.items()}

    def parts(self, pair: Pair) -> Iterable[tuple[int, Pair]]:
        """The parts of a difference, each with the beginning of its period."""
        is_shared = pair.since < pair.at <= pair.since + DAY and self.site.rule == "even"
        return self.shares(pair) if is_shared else [(self.period(pair.at), pair)]

    def period(self, at: datetime) -> int:
        """The period that a moment lies in, or that it closes, by its beginning."""
        start = (at - EPOCH) // timedelta(seconds=self.site.seconds) * self.site.seconds
        is_closed = at > FIRST and at == EPOCH + timedelta(seconds=start)
        return start - self.site.seconds * (is_closed and self.site.rule != "later")

    def shares(self, pair: Pair) -> Iterator[tuple[int, Pair]]:
        """What of a difference belongs to each period between its readings, by time in whole seconds."""
        second = timedelta(seconds=1)
        first, last = (pair.since - EPOCH) // second, (pair.at - EPOCH) // second
        start, shared = first - first % self.site.seconds, 0
        sign = 1 if pair.difference > 0 else -1
        while EPOCH + timedelta(seconds=start + self.site.seconds) < pair.at:
            gone = start + self.site.seconds - first
            level = abs(pair.difference) * gone // (last - first)
            yield start, pair.part(sign * (level - shared))
            start, shared = start + self.site.seconds, level
        yield start, pair.part(pair.difference - sign * shared)

    def lines(self) -> Iterator[str]:
        """The station's lines of a board."""
        yield f"total {self.total().said((*COUNTS, *FLOW))}"
        for number in sorted({self.evse(tx) for tx in self.shown()}):
            own = [
                pair for tx in self.shown() if self.evse(tx) == number for pair in self.pairs(tx)
            ]
            yield f"evse {number} {energy(own).said(FLOW)}"
        yield from period_lines(self.periods())
        for tx in self.shown():
            numbers = [number for number, _ in self.live(tx)]
            yield (
                f"tx {tx} evse={self.evse(tx)} events={len(numbers)} first={numbers[0]} last={numbers[-1]} "
                f"complete={'yes' if self.is_complete(tx) else 'no'} missing={self.missing(tx)} "
                f"{energy(self.pairs(tx)).said(FLOW)}"
            )
            for first, last in self.gaps(tx):
                yield f"gap {first}..{last}"

    def event_list(self, name: str, tx: str) -> Iterator[str]:
        """The list of a transaction's events."""
        live = len(self.live(tx))
        yield f"events {name} {tx} live={live} voided={len(self.events[tx]) - live}"
        for number, event in sorted(self.events[tx].items()):
            state = "voided" if (tx, number) in self.voided else "live"
            front = f"event {number} {event.kind} {exact(event.at)} evse={event.evse or 0}"
            yield f"{front} readings={len(event.readings)} {state}"
        yield "end"

    def reading_list(self, name: str, tx: str) -> Iterator[str]:
        """The list of a transaction's readings."""
        order = " order=moment" if self.site.is_by_moment else ""
        settle = f" settle={self.site.rule}" if self.site.rule != "later" else ""
        yield f"readings {name} {tx}{order}{settle} {energy(self.pairs(tx)).said(FLOW)}"
        for is_export, word in ((False, "import"), (True, "export")):
            before = None
            for number, place, one in self.placed(tx, is_export):
                line = f"{word} {number}.{place} {exact(one.at)} {one.mwh}"
                if before is None:
                    yield line
                else:
                    # What one direction shows is written without its name.
                    pair = Pair(before.at, one.at, one.mwh - before.mwh, False)
                    yield f"{line} {energy([pair]).said(FLOW[:2])}"
                    for start, part in self.parts(pair):
                        at = datetime.fromtimestamp(start, UTC)
                        yield f"part {at:%Y-%m-%dT%H:%M:%SZ} {energy([part]).said(FLOW[:2])}"
                before = one
        yield "end"

    def deliver(self, tx: str, number: int, event: Event) -> str | None:
        """Takes an event, and gives why not."""
        stored = self.events.setdefault(tx, {})
        if number in stored:
            return None if stored[number] == event else "ConflictingEvent"
        stored[number] = event
        self.changes += 1
        return None

    def operate(self, command: str, tx: str, number: int) -> str:
        """Carries out an operator's command."""
        key, is_voided = (tx, number), (tx, number) in self.voided
        if number not in self.events.get(tx, {}):
            return "refused NoSuchEvent"
        if is_voided == (command == "void"):
            return "refused AlreadyVoided" if is_voided else "refused NotVoided"
        if command == "void":
            self.voided.add(key)
        else:
            self.voided.discard(key)
        if command == "erase":
            del self.events[tx][number]
            if not self.events[tx]:
                del self.events[tx]
        self.changes += 1
        return f"accepted {self.changes}"


def exact(at: datetime) -> str:
    """A moment, with its nanoseconds if it is no whole second."""
    fraction = f".{at.microsecond:06}000" if at.microsecond else ""
    return f"{at.astimezone(UTC):%Y-%m-%dT%H:%M:%S}{fraction}Z"


def period_lines(periods: dict[int, Whole]) -> Iterator[str]:
    """The lines of periods, rising."""
    for start in sorted(periods):
        at = datetime.utcfromtimestamp(start)
        yield f"period {at:%Y-%m-%dT%H:%M:%SZ} {periods[start].said(FLOW)}"


class Replay:
    """The plan and the stations so far."""

    def __init__(self) -> None:
        self.sites: dict[str, Site] = {}
        self.stations: dict[str, Station] = {}
        self.is_open = False

    def board(self, name: str) -> Iterator[str]:
        """The lines of a site's board."""
        site = self.sites[name]
        order = " order=moment" if site.is_by_moment else ""
        settle = f" settle={site.rule}" if site.rule != "later" else ""
        yield f"board {name} period={site.seconds}{order}{settle}"
        total, periods = Whole(), dict[int, Whole]()
        for station in (self.stations[one] for one in site.stations):
            total.add(station.total())
            for start, numbers in station.periods().items():
                periods.setdefault(start, Whole()).add(numbers)
        yield f"total {total.said((*COUNTS, *FLOW))}"
        yield from period_lines(periods)
        for one in site.stations:
            yield f"station {one}"
            yield from self.stations[one].lines()
        yield "end"

    def declare(self, kind: str, words: list[str]) -> str | None:
        """A declaration; its fault, where it is one."""
        if self.is_open:
            return "fault DeclaredLate"
        site = self.sites.get(words[0])
        if kind == "limits":
            return "fault PlanLimit" if "0" in words else None
        if kind == "station":
            site = self.sites.setdefault(words[0], Site())
            site.stations.append(words[1])
            self.stations[words[1]] = Station(site)
        elif kind == "period" and words[1] not in PERIODS:
            return "fault PlanLimit"
        elif kind in ("period", "order", "settle") and site is None:
            return "fault UnknownSite"
        elif site and kind == "period":
            site.seconds = int(words[1])
        elif site and kind == "order":
            site.is_by_moment = words[1] == "moment"
        elif site:
            site.rule = words[1]
        return None

    def answer(self, line: str) -> Iterator[str]:
        """What a line writes."""
        kind, *words = line.split(" ", 2) if line.startswith("msg ") else line.split(" ")
        if not line or line.startswith("#") or kind == "now":
            return
        if is_bad(kind, words):
            yield "fault BadLine"
        elif kind == "mark":
            yield line
        elif kind in ("limits", "station", "period", "order", "settle"):
            if fault := self.declare(kind, words):
                yield fault
        else:
            self.is_open = True
            yield from self.asked(kind, words)

    def asked(self, kind: str, words: list[str]) -> Iterator[str]:
        """What a line that needs the ledgers writes."""
        station = self.stations.get(words[0])
        if kind == "board":
            yield from self.board(words[0]) if words[0] in self.sites else ["fault UnknownSite"]
        elif station is None:
            yield "fault UnknownStation"
        elif kind == "msg":
            yield reply(station, words[1])
        elif kind in ("void", "restore", "erase"):
            yield station.operate(kind, words[1].lower(), int(words[2]))
        elif kind in ("events", "readings"):
            tx = words[1].lower()
            lists = {"events": station.event_list, "readings": station.reading_list}
            yield from lists[kind](words[0], tx) if tx in station.events else [
                "fault UnknownTransaction"
            ]
        elif kind == "total":
            yield f"total {station.total().said((*COUNTS, *FLOW))}"
        else:
            whole, front = station.total(), "export_" if kind == "export" else ""
            yield f"{kind} up={whole.get(f'{front}up', 0)} down={whole.get(f'{front}down', 0)}"


# How many words there are behind the first one of a line.
WORDS = {"limits": 4, "void": 3, "restore": 3, "erase": 3, "station": 2, "period": 2, "order": 2}
WORDS |= {"settle": 2, "msg": 2, "energy": 1, "export": 1, "total": 1, "board": 1}
WORDS |= {"events": 2, "readings": 2, "mark": 1}


def is_bad(kind: str, words: list[str]) -> bool:
    """Whether a line is none, as far as the words of tests go."""
    if len(words) != WORDS.get(kind):
        return True
    if words[1:] and words[1] not in {"order": ORDERS, "settle": RULES}.get(kind, words):
        return True
    return kind != "msg" and "/" in words[0]


def reply(station: Station, text: str) -> str:
    """The reply to a message."""
    _, number, action, payload = json.loads(text, parse_float=Decimal)
    if action != "TransactionEvent":
        return f'[3,"{number}",{{}}]'
    tx = payload["transactionInfo"]["transactionId"].lower()
    if fault := station.deliver(tx, payload["seqNo"], event_of(payload)):
        return f'[4,"{number}","GenericError","{fault}",{{}}]'
    token = '{"idTokenInfo":{"status":"Accepted"}}' if payload.get("idToken") else "{}"
    return f'[3,"{number}",{token}]'


def answers(script: Iterable[str]) -> Iterator[str]:
    """What each line of a script writes."""
    replay = Replay()
    for line in script:
        yield "".join(f"{text}\n" for text in replay.answer(line.rstrip("\n")))


def replayed(script: Iterable[str]) -> str:
    """What a script writes."""
    return "".join(answers(script))


if __name__ == "__main__":
    for answer in answers(sys.stdin):
        sys.stdout.write(answer)
        sys.stdout.flush()
