"""What is known of a transaction as far as its lines came: it goes on with what comes behind them."""

from collections.abc import Sequence
from math import gcd
from typing import NamedTuple

from ocpp_board.ledger.answers import Figures, Lists
from ocpp_board.ledger.events import History, LiveEvents
from ocpp_board.ledger.findings import Doubts, name_order_option
from ocpp_board.ledger.periods import Spans
from ocpp_board.messages.bills import NOTHING, Details, Signed
from ocpp_board.messages.transactions import Event
from ocpp_board.records import DELIVER, Line, Rules

# Bytes that are known of a line beside its text, about.
BYTES_OF_A_LINE = 1_500
# The least bytes of a reading.
LEAST_READING = 11


class Block(NamedTuple):
    """Lines as a script has them, how many they are, and the readings that they have at most."""

    text: str = ""
    lines: int = 0
    readings: int = 0

    def add(self, lines: Sequence[Line]) -> "Block":
        """With further lines."""
        text = "".join([f"{line.text}\n" for line in lines])
        if "\\" in text:
            readings = len(text) // LEAST_READING
        else:
            readings = text.count('"value"')
        if "\r\n" in text:
            # The program drops one carriage return before a line feed: a message's own stays.
            text = text.replace("\r\n", "\r\r\n")
        return Block(self.text + text, self.lines + len(lines), self.readings + readings)


NO_LINES = Block()


class Facts:
    """What a bill needs of a transaction's live events."""

    def __init__(self) -> None:
        # The first that begins it, the last that ends it, and whether another than the first begins or ends it.
        self.started: Event | None = None
        self.ended: Event | None = None
        self.is_misplaced = False
        # The first token and remote start, the first and the last signed value, and the first and the last key.
        self.token, self.remote_start = NOTHING, ""
        self.signed: list[Signed] = []
        self.keys: list[str] = []
        # The last number, and the greatest step by which all numbers rise.
        self.number: int | None = None
        self.bounds = 0
        self.step = 0

    def take_events(self, events: Sequence[Event], is_first: bool) -> None:
        """Takes further events in their order. `is_first`: there was none before."""
        for place, event in enumerate(events):
            if self.number is not None:
                self.step = gcd(self.step, event.number - self.number)
            self.number = event.number
            if event.kind != "Updated":
                self.bounds += 1
                self.is_misplaced = self.is_misplaced or place > 0 or not is_first
                if event.kind == "Ended":
                    self.ended = event
                elif self.started is None:
                    self.started = event
            if event.details is not NOTHING:
                self.take_details(event.details)

    def find_step(self, figures: Figures) -> int:
        """The step of more than 1 by which a session counts that lacks nothing else; 0 where it does not."""
        if (
            self.step < 2
            or self.started is None
            or self.ended is None
            or self.is_misplaced_but_end()
        ):
            return 0
        is_whole = figures.last - figures.first == self.step * (figures.events - 1)
        return self.step if is_whole and figures.events > 2 else 0

    def is_misplaced_but_end(self) -> bool:
        """Whether the end has not the last number, or the session begins or ends more than once."""
        assert self.ended is not None
        return self.ended.number != self.number or self.bounds > 2

    def take_details(self, details: Details) -> None:
        """Takes what an event has for a bill."""
        if details.token and not self.token.token:
            self.token = details
        self.remote_start = self.remote_start or details.remote_start
        for one in details.signed:
            self.signed[1:] = [one]
            if one.key:
                self.keys[1:] = [one.key]

    def list_signed(self) -> list[list[str]]:
        """The first and the last signed value, each with its key: one that was sent without has the one that was sent
        last, or else first; none where there is none."""
        if not self.signed:
            return []
        keys = self.keys or [""]
        return [[self.signed[place].data, keys[place]] for place in (0, -1)]


class Course:
    """What is known of the lines of a transaction, and of what the program lists of them."""

    def __init__(self, site: str, rules: Rules) -> None:
        self.rules, self.block, self.history = rules, NO_LINES, History()
        self.lists = Lists([], [], [])
        self.events, self.facts, self.spans = (
            LiveEvents(),
            Facts(),
            Spans(rules.period, rules.reading_within),
        )
        by_sequence = None if rules.order == "moment" else name_order_option(site)
        self.doubts = Doubts(by_sequence, rules)

    def measure(self) -> int:
        """About how many bytes this and the lines take."""
        return 2 * len(self.block.text) + BYTES_OF_A_LINE * self.block.lines + 1_000

    def goes_on(self, lines: Sequence[Line], lists: Lists, rules: Rules) -> bool:
        """Whether further lines leave what is known as it is, by these lists of the program."""
        return (
            rules == self.rules
            and all(line.text.startswith(DELIVER) for line in lines)
            and all(now[: len(known)] == known for now, known in zip(lists, self.lists))
        )

    def take(self, lines: Sequence[Line], lists: Lists) -> None:
        """Takes further lines, and what these lists have behind those of the lines before."""
        self.block = self.block.add(lines)
        self.history.take(lines)
        new = Lists(*(now[len(known) :] for now, known in zip(lists, self.lists)))
        self.lists = lists
        count, counts = len(self.events), [len(found) for found in self.events.orders]
        self.events.take(new, self.history)
        events = self.events[count:]
        self.facts.take_events(events, count == 0)
        self.doubts.take_events(events)
        self.spans.take_events(events)
        for is_export, count in zip((False, True), counts):
            found = self.events.orders[is_export]
            had = found[count - 1][1] if count else None
            self.doubts.take_readings(is_export, had, found[count:])
            self.spans.take_readings(is_export, had, found[count:])
