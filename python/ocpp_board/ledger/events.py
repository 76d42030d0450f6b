"""What only the messages of a transaction have, joined with the lists by which the program says what counts."""

import re
from collections.abc import Iterable
from dataclasses import dataclass, field
from datetime import datetime
from functools import lru_cache

from ocpp_board.ledger.answers import Listed, Lists, Placed, read_listed, read_placed
from ocpp_board.messages.meter_values import JSON
from ocpp_board.messages.times import seconds_of
from ocpp_board.messages.transactions import (
    NOTHING_BESIDE,
    Beside,
    Event,
    Reading,
    is_far,
    read_beside,
)
from ocpp_board.records import DELIVER, Line

# The members of messages of which the program's lists say nothing.
BESIDE = "measurand phase location signedMeterValue stoppedReason idToken remoteStartId offline"
BESIDE_WORDS = tuple(f'"{name}"' for name in BESIDE.split())
# A unit that is beside its value.
UNIT_WORD, UNIT_HOLDER = '"unit"', '"unitOfMeasure"'
# The number of an event, in a text that has one member of this name.
NUMBER_WORD = '"seqNo"'
NUMBER = re.compile(r'"seqNo"[ \t\r\n]*:[ \t\r\n]*([0-9]+)(?![0-9.eE])')
# Conflicting messages that have their events kept, since they are read again with each line of their transaction.
KEPT_CONFLICTS = 5_000
# A counted reading with its event.
Counted = tuple[Event, Reading]


@dataclass(slots=True)
class History:
    """What the accepted lines of a transaction have: by the numbers of events their lines, voided ones included, and
    what operators voided, who and why."""

    lines: dict[int, Line] = field(default_factory=dict)
    voids: dict[int, tuple[str, str]] = field(default_factory=dict)
    # Its id as it was sent first: two that differ only in letters' sizes are one.
    sent: str = ""
    received_until: datetime | None = None

    def take(self, lines: Iterable[Line]) -> None:
        """Takes further lines."""
        until = self.received_until
        for line in lines:
            received = line.received
            if received and (until is None or received > until):
                until = received
            if not line.text.startswith(DELIVER):
                self.take_deed(line)
                continue
            if not self.sent:
                self.sent = JSON.decode(cut_message(line.text))[3]["transactionInfo"][
                    "transactionId"
                ]
            self.lines[read_number(line.text)] = line
        self.received_until = until

    def take_deed(self, line: Line) -> None:
        """Takes an operator's line."""
        word, _, rest = line.text.partition(" ")
        number = int(rest.rpartition(" ")[2])
        self.voids.pop(number, None)
        if word == "void":
            self.voids[number] = line.who, line.why
        elif word == "erase":
            self.lines.pop(number, None)


def cut_message(text: str) -> str:
    """The message of a line `deliver`."""
    return text.split(" ", 2)[2]


def read_number(text: str) -> int:
    """The number of the event of a line `deliver` that the program took."""
    if "\\" not in text and text.count(NUMBER_WORD) == 1 and (found := NUMBER.search(text)):
        return int(found[1])
    return int(JSON.decode(cut_message(text))[3]["seqNo"])


def find_beside(text: str) -> Beside:
    """What the message of a line `deliver` has beside what the program's lists say of it."""
    if "\\" not in text:
        for word in BESIDE_WORDS:
            if word in text:
                break
        else:
            if UNIT_WORD not in text or UNIT_HOLDER in text:
                return NOTHING_BESIDE
    return read_beside(JSON.decode(cut_message(text))[3])


@lru_cache(KEPT_CONFLICTS)
def read_conflict(text: str) -> Event:
    """The event of a line `deliver` that conflicted with another one: its number, kind and time."""
    payload = JSON.decode(cut_message(text))[3]
    at = seconds_of(payload["timestamp"])
    return Event(int(payload["seqNo"]), payload["eventType"], at, (), (), False, "")


class LiveEvents(list[Event]):
    """The live events of a transaction by their numbers, and its counted readings in the order of its site: of the
    import and of the export register. `voided`: the kinds of its voided events by their numbers."""

    def __init__(self) -> None:
        super().__init__()
        self.orders: tuple[list[Counted], list[Counted]] = [], []
        self.voided = dict[int, str]()
        self.first_number: int | None = None

    def readings(self, is_export: bool) -> list[Counted]:
        """The counted readings of a register, each with its event, in the order in which the ledger takes them."""
        return self.orders[is_export]

    def list_readings(self) -> list[Reading]:
        """The counted readings of the import register, then those of the export register."""
        return [one for found in self.orders for _, one in found]

    def has_readings(self) -> bool:
        """Whether a reading counts."""
        return any(self.orders)

    def take(self, lists: Lists, history: History) -> None:
        """Takes what these lists have, which is behind all that was taken before."""
        placed = read_placed(lists.imported, False)
        exported = read_placed(lists.exported, True)
        own = group_readings([*placed, *exported])
        events = dict[int, Event]()
        for line in lists.events:
            listed = read_listed(line)
            if self.first_number is None:
                self.first_number = listed.number
            if listed.is_live:
                event = make_event(
                    listed, own.get(listed.number, ()), history.lines.get(listed.number)
                )
                events[listed.number] = event
            else:
                self.voided[listed.number] = listed.kind
        self += events.values()
        self.orders[0].extend([(events[number], reading) for number, _, reading in placed])
        self.orders[1].extend([(events[number], reading) for number, _, reading in exported])


def make_event(listed: Listed, readings: tuple[Reading, ...], line: Line | None) -> Event:
    """A live event by the program's list, with what its message has beside."""
    beside = find_beside(line.text) if line else NOTHING_BESIDE
    receipt = line.received.timestamp() if line and line.received else None
    return Event(
        listed.number,
        listed.kind,
        listed.at,
        readings,
        beside.others,
        is_far(listed.at, receipt, beside.is_offline),
        beside.reason,
        listed.evse,
        beside.unlike,
        beside.details,
        beside.measured,
    )


def group_readings(readings: Iterable[Placed]) -> dict[int, tuple[Reading, ...]]:
    """The readings of each event by its number: of the import register by their places, then of the export register."""
    found = dict[int, list[tuple[bool, int, Reading]]]()
    for number, place, reading in readings:
        found.setdefault(number, []).append((reading.is_export, place, reading))
    return {
        number: tuple([reading for _, _, reading in (sorted(own) if own[1:] else own)])
        for number, own in found.items()
    }
