"""Stations that come near to what their limits have room for; each is reported once."""

import math
import re
from collections.abc import Iterator
from dataclasses import dataclass, field

from ocpp_board.limits import DEFAULT_LIMITS

TRANSACTION = re.compile(r'"transactionId"\s*:\s*"([^"\\]*+(?:\\.[^"\\]*+)*+)"')
NAMES = tuple(DEFAULT_LIMITS)
# Values of registers have a measurand of these, or none.
VALUE = '"value"'
OTHER = re.compile(r'"measurand"\s*:\s*"(?!Energy\.Active\.(?:Import|Export)\.Register")')
REMEDY = (
    "give it more by a line `limits <transactions> <events> <readings> <changes>` before its `station` line, "
    "--limits of log-to-script; or erase what was voided"
)
# What a station keeps without a line `limits`.
Limits = tuple[int, ...]
USUAL: Limits = tuple(DEFAULT_LIMITS.values())


@dataclass
class Counts:
    """What a station sent and was taken, what came again included."""

    limits: Limits
    # The numbers from which on a limit is reported; past all numbers once it was.
    marks: list[float]
    transactions: set[str] = field(default_factory=set)
    events: int = 0
    readings: int = 0

    def take(self, message: str) -> None:
        """Takes an event."""
        if transaction := TRANSACTION.search(message):
            self.transactions.add(transaction[1].lower())
        self.events += 1
        self.readings += message.count(VALUE)
        if '"measurand"' in message:
            self.readings -= len(OTHER.findall(message))

    def report(self) -> Iterator[str]:
        """What is reported of limits that are reached to nine tenths. A change is an event."""
        numbers = (len(self.transactions), self.events, self.readings, self.events)
        for place, (number, mark) in enumerate(zip(numbers, self.marks)):
            if number >= mark:
                self.marks[place] = math.inf
                yield f"{number:,} {NAMES[place]}, repeats included, and keeps {self.limits[place]:,} at most"


class NearLimits:
    """What stations sent and was taken, beside their limits."""

    def __init__(self) -> None:
        self.limits: dict[str, Limits] = {}
        self.counts: dict[str, Counts] = {}

    def take(self, station: str, message: str) -> list[str]:
        """Counts a message that was taken, and gives what is to be reported of limits since."""
        if '"TransactionEvent"' not in message:
            return []
        counts = self.counts.get(station)
        if counts is None:
            limits = self.limits.get(station, USUAL)
            marks: list[float] = [-(-9 * most // 10) for most in limits]
            counts = self.counts[station] = Counts(limits, marks)
        counts.take(message)
        return [f"station {station} sent {said}" for said in counts.report()]
