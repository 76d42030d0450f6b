"""The one reader of what the proved program writes: answers to lines, boards, and the lists of transactions."""

from collections.abc import Iterable, Iterator, Sequence
from dataclasses import dataclass, field
from datetime import datetime, timezone
from functools import lru_cache
from typing import NamedTuple

from ocpp_board.energies import Flow
from ocpp_board.errors import ProgramError
from ocpp_board.messages.times import SECOND
from ocpp_board.messages.transactions import Reading
from ocpp_board.records import Answer

# How many moments have their values kept, since many lines have the same.
KEPT = 65_536


class Wish(NamedTuple):
    """What a text asks for. `outcome`: `event` (with its transaction as boards show it and its number), `reply`,
    `silent` or `fault`; `text`: the transaction, the ready reply, or the fault's name."""

    outcome: str
    text: str = ""
    number: int = 0


class Listed(NamedTuple):
    """An event of a list."""

    number: int
    kind: str
    at: float
    evse: int
    is_live: bool


# A reading with the number of its event, and its place among that event's readings of this register.
Placed = tuple[int, int, Reading]


class Total(NamedTuple):
    """The figures of a site or a station."""

    events: int = 0
    voided: int = 0
    transactions: int = 0
    complete: int = 0
    missing: int = 0
    flow: Flow = Flow()


class Figures(NamedTuple):
    """A transaction's line of a board."""

    evse: int
    events: int
    first: int
    last: int
    complete: bool
    missing: int
    flow: Flow


@dataclass(slots=True)
class BoardPart:
    """What a board says of its site or of a station: energies by EVSE and by the beginnings of periods (seconds since
    1970), and transactions with their gaps."""

    total: Total = Total()
    evses: dict[int, Flow] = field(default_factory=dict)
    periods: dict[int, Flow] = field(default_factory=dict)
    transactions: dict[str, Figures] = field(default_factory=dict)
    gaps: dict[str, list[tuple[int, int]]] = field(default_factory=dict)


@dataclass(slots=True)
class Board:
    """A board: what it says of its site and of each station."""

    site: str
    own: BoardPart = field(default_factory=BoardPart)
    stations: dict[str, BoardPart] = field(default_factory=dict)


class Lists(NamedTuple):
    """The lines of a transaction's lists: of its events by their numbers, voided ones included, and of the readings of
    the import and of the export register, each with its parts of periods behind it."""

    events: list[str]
    imported: list[str]
    exported: list[str]


@lru_cache(KEPT)
def read_seconds(text: str) -> float:
    """A moment that the program writes, in seconds since 1970."""
    whole, _, part = text.removesuffix("Z").partition(".")
    seconds = int(datetime.fromisoformat(whole).replace(tzinfo=timezone.utc).timestamp())
    return (seconds * SECOND + int(part or 0)) / SECOND


def read_numbers(words: Sequence[str]) -> list[int]:
    """The numbers of words such as `events=3`."""
    return [int(word[word.index("=") + 1 :]) for word in words]


def read_answer(line: str, transaction: str | None = None) -> Answer:
    """The answer to a line `deliver`, `void`, `restore` or `erase` of a transaction."""
    word, _, rest = line.partition(" ")
    if word == "accepted":
        count, _, reply = rest.partition(" ")
        return Answer("accepted", "", reply or None, transaction, int(count))
    if word == "refused":
        name, _, reply = rest.partition(" ")
        return Answer("refused", name, reply or None, transaction)
    if word in ("repeat", "reply"):
        return Answer(word, "", rest, transaction)
    if line == "silent":
        return Answer("silent", transaction=transaction)
    if word == "fault":
        return Answer("fault", rest, transaction=transaction)
    raise ProgramError(f"the program wrote {line[:80]!r}, which answers no line")


def read_wish(line: str) -> Wish:
    """The answer to a line `asks`."""
    word, _, rest = line.partition(" ")
    if word == "event":
        transaction, _, number = rest.partition(" ")
        return Wish("event", transaction, int(number))
    if word in ("reply", "fault"):
        return Wish(word, rest)
    if line == "silent":
        return Wish("silent")
    raise ProgramError(f"the program wrote {line[:80]!r}, which answers no line `asks`")


def read_listed(line: str) -> Listed:
    """A line of a list of events."""
    _, number, kind, at, evse, _, state = line.split(" ")
    return Listed(int(number), kind, read_seconds(at), int(evse[5:]), state == "live")


def read_placed(lines: Iterable[str], is_export: bool) -> list[Placed]:
    """The readings of a register that these lines of a list have."""
    found = list[Placed]()
    for line in lines:
        if not line.startswith("part "):
            _, place, at, level, *_ = line.split(" ", 4)
            number, _, rank = place.partition(".")
            reading = Reading(read_seconds(at), int(level), is_export)
            found.append((int(number), int(rank), reading))
    return found


@lru_cache(KEPT)
def read_period(line: str) -> tuple[int, Flow]:
    """A line of a board with a period: its beginning in seconds since 1970, and its energy."""
    _, start, *words = line.split(" ")
    return int(read_seconds(start)), Flow(*read_numbers(words))


class AnswerReader:
    """Reads what the program wrote of a script, answer by answer, in the order of its lines."""

    def __init__(self, text: bytes) -> None:
        self.lines = text.decode("utf-8").split("\n")
        self.at = 0
        # Whether some list has readings of the export register.
        self.has_exports = b"\nexport " in text

    def read(self) -> str:
        """The next line. Raises ProgramError where there is none."""
        # Behind the last line feed is an empty text.
        if self.at >= len(self.lines) - 1:
            raise ProgramError("the program wrote fewer answers than the script has lines")
        self.at += 1
        return self.lines[self.at - 1]

    def look(self) -> str:
        """The next line, which stays the next one. Raises ProgramError where there is none."""
        line = self.read()
        self.at -= 1
        return line

    def read_up_to(self, mark: str) -> str:
        """The line before the next one that is this mark, which is read too; empty where there is none before it."""
        line = self.read()
        if line == mark:
            return ""
        if self.read() != mark:
            raise ProgramError(f"the program wrote {line[:80]!r} and more of a line that declares")
        return line

    def skip_list(self) -> None:
        """Passes over a list."""
        while self.read() != "end":
            pass

    def read_some(self, count: int) -> list[str]:
        """So many lines. Raises ProgramError where there are fewer."""
        lines = self.lines[self.at : self.at + count]
        self.at += count
        if self.at >= len(self.lines):
            raise ProgramError("the program wrote fewer answers than the script has lines")
        return lines

    def read_whole(self) -> list[str]:
        """The next answer: one line, or those of a board or list up to its line `end`. Raises ProgramError where there
        is none."""
        line = self.read()
        if not line.startswith(("board ", "events ", "readings ")):
            return [line]
        first = self.at - 1
        while self.lines[self.at - 1] != "end":
            self.read()
        return self.lines[first : self.at]

    def read_list(self, word: str) -> Iterator[str]:
        """The lines of a board or list, up to its line `end`; none of a fault."""
        line = self.read()
        if line.startswith("fault "):
            return iter(())
        if not line.startswith(word):
            raise ProgramError(f"the program wrote {line[:80]!r} where `{word}` begins")
        first = self.at - 1
        try:
            end = self.lines.index("end", first)
        except ValueError:
            raise ProgramError(f"the program ended within `{word}`") from None
        self.at = end + 1
        return iter(self.lines[first:end])

    def read_board(self, has_own: bool = True) -> Board:
        """The next board. `has_own`: with the periods of the site."""
        lines = self.read_list("board ")
        board = Board(next(lines, "board").split(" ")[1])
        part, transaction = board.own, ""
        for line in lines:
            if line.startswith("period "):
                if has_own or part is not board.own:
                    start, flow = read_period(line)
                    part.periods[start] = flow
                continue
            words = line.split(" ")
            word = words[0]
            if word == "tx":
                transaction = words[1]
                evse, events, first, last = read_numbers(words[2:6])
                missing, *energy = read_numbers(words[7:])
                part.transactions[transaction] = Figures(
                    evse, events, first, last, words[6] == "complete=yes", missing, Flow(*energy)
                )
            elif word == "gap":
                first, last = map(int, words[1].split(".."))
                part.gaps.setdefault(transaction, []).append((first, last))
            elif word == "evse":
                part.evses[int(words[1])] = Flow(*read_numbers(words[2:]))
            elif word == "total":
                numbers = read_numbers(words[1:])
                events, voided, transactions, complete, missing, *energy = numbers
                part.total = Total(events, voided, transactions, complete, missing, Flow(*energy))
            elif word == "station":
                part = board.stations[words[1]] = BoardPart()
            else:
                raise ProgramError(f"the program wrote {line[:80]!r} on a board")
        return board

    def read_lists(self) -> Lists:
        """The next list of events and the next list of readings; empty ones of an unknown transaction."""
        events = list(self.read_list("events "))[1:]
        readings = list(self.read_list("readings "))[1:]
        if not self.has_exports:
            return Lists(events, readings, [])
        first = next((n for n, line in enumerate(readings) if line.startswith("export ")), None)
        return Lists(events, readings[:first], [] if first is None else readings[first:])
