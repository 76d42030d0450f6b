"""Whole scripts of a site's lines: for comparing a store with the program, and for taking lines out of it."""

from collections.abc import Callable, Iterable, Iterator, Sequence
from dataclasses import dataclass, field, replace
from itertools import groupby
from operator import attrgetter

from ocpp_board.ledger.course import LEAST_READING
from ocpp_board.limits import GREATEST_LIMITS, MOST_READINGS, MOST_STATIONS, ORDERS
from ocpp_board.records import DELIVER, Rules
from ocpp_board.store.database import Row

# The orders that a transaction may have, and first none of its own.
OWN_ORDERS = ("", *ORDERS)
# Readings of one message that count, at most.
MOST_OF_A_MESSAGE = 1_024
# Bytes of a script: after so many another one begins.
MOST_BYTES = 32 * 1_048_576
# The same of a script that is only answered.
JOINED_BYTES = 8 * 1_048_576


def count_readings(text: str) -> int:
    """How many readings a line has, at most."""
    if "\\" in text:
        return min(MOST_OF_A_MESSAGE, len(text) // LEAST_READING + 1)
    return min(MOST_OF_A_MESSAGE, text.count('"value"'))


@dataclass(slots=True)
class Use:
    """What the lines of a station need in a script."""

    transactions: int = 0
    events: int = 0
    readings: int = 0

    def plus(self, events: int, readings: int) -> "Use":
        """With one more transaction."""
        return Use(self.transactions + 1, self.events + events, self.readings + readings)

    def fits(self) -> bool:
        """Whether a station can have so much."""
        return (
            self.transactions <= GREATEST_LIMITS["transactions"]
            and self.events <= GREATEST_LIMITS["events"]
            and self.readings <= GREATEST_LIMITS["readings"]
        )


@dataclass(slots=True)
class Script:
    """A script of a site's lines that grows. `order`: that of its transactions, where it is not the site's; `most`:
    after so many bytes another one begins."""

    order: str = ""
    most: int = MOST_BYTES
    uses: dict[str, Use] = field(default_factory=dict)
    lines: list[str] = field(default_factory=list)
    size: int = 0

    def takes(self, station: str, events: int, readings: int, size: int) -> bool:
        """Whether there is room for another transaction."""
        if not self.lines:
            return True
        use = self.uses.get(station, Use()).plus(events, readings)
        return (
            use.fits()
            and (station in self.uses or len(self.uses) < MOST_STATIONS)
            and sum(one.readings for one in self.uses.values()) + readings <= MOST_READINGS
            and self.size + size <= self.most
        )

    def add(self, station: str, lines: Sequence[str], events: int, readings: int) -> None:
        """Adds a transaction."""
        self.uses[station] = self.uses.get(station, Use()).plus(events, readings)
        self.lines += lines
        self.size += sum(map(len, lines))

    def write(self, site: str, rules: Rules) -> bytes:
        """The script, with a line `board` at its end."""
        heads = list[str]()
        for station, use in self.uses.items():
            events, readings = max(use.events, 1), max(use.readings, 1)
            heads.append(f"limits {use.transactions} {events} {readings} {2**63}")
            heads.append(f"station {site} {station}")
        heads += write_rules(site, replace(rules, order=self.order) if self.order else rules)
        return "\n".join([*heads, *self.lines, f"board {site}", ""]).encode()


def write_rules(site: str, rules: Rules) -> list[str]:
    """The lines of a script that declare a site's rules."""
    return [
        f"period {site} {rules.period}",
        f"order {site} {rules.order}",
        f"settle {site} {rules.settle}",
    ]


def part_scripts(
    rows: Iterable[Row], write: Callable[[Row], Iterator[str]], order: str = ""
) -> Iterator[Script]:
    """Scripts of a site's lines, which come by station and transaction. `write`: the lines of a script for a stored
    one, of which the last is the line itself; `order`: as in Script."""
    script = Script(order)
    for (station, _), some in groupby(rows, attrgetter("station", "transaction_id")):
        stored = list(some)
        texts = [row.line for row in stored if row.line.startswith(DELIVER)]
        events, readings = len(texts), sum(map(count_readings, texts))
        lines = [line for row in stored for line in write(row)]
        if not script.takes(station, events, readings, sum(map(len, lines))):
            yield script
            script = Script(order)
        script.add(station, lines, events, readings)
    if script.lines:
        yield script


def join_scripts(rows: Iterable[Row], order: str) -> Iterator[tuple[Script, int]]:
    """Scripts of a site's transactions, each with how many lines it has. Each row has all lines of a transaction as one
    text."""
    script, count = Script(order, JOINED_BYTES), 0
    for row in rows:
        if not row.text:
            continue
        # The program drops one carriage return before a line feed: a message's own stays.
        text = f"{row.text}\n".replace("\r\n", "\r\r\n")[:-1]
        lines, readings = text.count("\n") + 1, text.count('"value"')
        if "\\" in text:
            readings = sum(map(count_readings, text.split("\n")))
        if not script.takes(row.station, lines, readings, len(text)):
            yield script, count
            script, count = Script(order, JOINED_BYTES), 0
        script.add(row.station, [text], lines, readings)
        count += lines
    if script.lines:
        yield script, count


def write_line(row: Row) -> Iterator[str]:
    """A stored line. The program drops one carriage return before a line feed: the message's own stays."""
    yield row.line + "\r" if row.line.endswith("\r") else row.line
