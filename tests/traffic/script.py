"""Writes a script of N transaction events for `ocpp_board replay`, for measuring.

    tests/one traffic 1000000 | ocpp_board replay | tail -n 16

Stations take turns, event by event. Each charges in transactions of 48 events, five minutes and 250 Wh apart,
with one reading each, the first Started and the last Ended. There are as many stations as N events need, or
those of --stations, and a `limits` line that has room for all of them, so that none is refused: up to 65,536
events a station and 1,048,576 in all.

With `unchanging` four events of one station are followed by N heartbeats and repeats of these events, in turn.

The script ends with an `energy` line for each station, and what these must print is known without the
program: 250,000 mWh for each of its events but the first of each transaction.

With `troubles` N transactions of each kind of trouble come, each kind from a station of its name: what stations do
wrong, what the ledger refuses, and what an operator voids. Before each message is the time of its receipt, as a
comment, and the script ends with a board.

With `repeats` N transactions of each of four stations come. Three stations list readings again in the Ended event: all
of them, only that of the start, or all of two registers. The site is read by moment, so its board is that of
`sessions`, which is the same without what is listed again and without the line `order`.

With `month` comes the log of a month of N stations at two sites, with findings and doubts:

    tests/one traffic 8 month | ocpp-board log-to-script --received | ocpp_board replay
"""

import argparse
from collections.abc import Iterator, Sequence
from dataclasses import dataclass
from datetime import datetime, timedelta, timezone

from ocpp_board import reporting
from ocpp_board.limits import GREATEST_LIMITS, MOMENT, MOST_READINGS, MOST_STATIONS
from ocpp_board.statuses import Status, ended
from tests.traffic import month_traffic, repeats, troubles
from ocpp_board.words import Parser

# Events of a session, seconds from one to the next, and what the register reads first and rises by each time, in Wh.
SESSION, STEP, START, RISE = 48, 300, 1000, 250
FIRST = datetime(2026, 3, 1, tzinfo=timezone.utc)
# How many sessions of each station there may be, by the kinds that have sessions.
SESSIONS = {
    "troubles": troubles.MOST_SESSIONS,
    "repeats": repeats.MOST_SESSIONS,
    "sessions": repeats.MOST_SESSIONS,
    "month": MOST_STATIONS,
}


def name(station: int) -> str:
    """The name of the station of this number, from 0 on."""
    return f"CS-{station + 1:02}"


def message(number: int, kind: str, time: datetime, seq: int, transaction: str, energy: int) -> str:
    """The message of an event with one reading, in Wh."""
    moment = time.strftime(MOMENT)
    return (
        f'[2,"{number}","TransactionEvent",{{"eventType":"{kind}","timestamp":"{moment}",'
        f'"triggerReason":"MeterValuePeriodic","seqNo":{seq},'
        f'"transactionInfo":{{"transactionId":"{transaction}"}},'
        f'"meterValue":[{{"timestamp":"{moment}","sampledValue":[{{"value":{energy}}}]}}]}}]'
    )


def kind_of(seq: int, last: int) -> str:
    """The kind of an event of a session; its last event has this number."""
    return "Started" if seq == 0 else "Ended" if seq == last else "Updated"


def event(number: int, stations: int) -> str:
    """The line of the event of this number, counted over all stations."""
    own, station = divmod(number, stations)
    session, seq = divmod(own, SESSION)
    time = FIRST + timedelta(seconds=STEP * own)
    text = message(number, kind_of(seq, SESSION - 1), time, seq, f"S-{session}", START + RISE * own)
    return f"msg {name(station)} {text}"


def script(count: int, stations: int) -> Iterator[str]:
    """The lines of a script of so many events of so many stations."""
    most = max(1, -(-count // stations))
    yield f"limits {-(-most // SESSION)} {most} {most} {most}"
    for station in range(stations):
        yield f"station north {name(station)}"
    for number in range(count):
        yield event(number, stations)
    for station in range(stations):
        yield f"energy {name(station)}"


def unchanging(count: int) -> Iterator[str]:
    """The lines of a script of four events, and so many messages that change nothing."""
    yield f"station north {name(0)}"
    for number in range(4):
        yield event(number, 1)
    for number in range(count):
        yield event(
            number % 4, 1
        ) if number % 2 else f'msg {name(0)} [2,"{number}","Heartbeat",{{}}]'
    yield f"energy {name(0)}"


@dataclass(frozen=True)
class Options:
    """What the words ask for: how many of what, and how many stations take turns."""

    count: int
    kind: str | None
    stations: int


def arguments(argv: Sequence[str], prog: str) -> Options:
    """What the words ask for. Wrong ones end the program with status 2."""
    parser = Parser(
        prog=prog, description=__doc__, formatter_class=argparse.RawDescriptionHelpFormatter
    )
    parser.add_argument(
        "count",
        type=int,
        metavar="N",
        help="how many events, messages that change nothing, transactions of each station, or stations of a month",
    )
    parser.add_argument(
        "kind",
        nargs="?",
        choices=["unchanging", *SESSIONS],
        metavar="unchanging|troubles|repeats|sessions|month",
        help="messages that change nothing, transactions with troubles, transactions that list readings again, the "
        "same without that, or the log of a month",
    )
    parser.add_argument(
        "--stations",
        type=int,
        metavar="COUNT",
        help="how many stations take turns, up to 64 (default: as few as have room)",
    )
    words = parser.parse_args(argv)
    reporting.set_up(prog)
    if words.count < 0 or words.kind is None and words.count > MOST_READINGS:
        parser.error(f"N is from 0 to {MOST_READINGS:,}")
    if words.kind in SESSIONS and words.count > SESSIONS[words.kind]:
        parser.error(f"N is from 0 to {SESSIONS[words.kind]} with {words.kind}")
    fewest = max(1, -(-words.count // GREATEST_LIMITS["events"]))
    stations = fewest if words.stations is None else words.stations
    if words.kind is None and not fewest <= stations <= MOST_STATIONS:
        parser.error(f"{words.count:,} events need {fewest} to {MOST_STATIONS} stations")
    if words.kind is None and -(-words.count // stations) * stations > MOST_READINGS:
        parser.error(
            f"{stations} stations with room for the same number each have none for {words.count:,}"
        )
    return Options(words.count, words.kind, stations)


def lines_of(asked: Options) -> Iterator[str]:
    """The lines of the script that is asked for."""
    if asked.kind == "troubles":
        return troubles.script(asked.count)
    if asked.kind == "month":
        return month_traffic.log(asked.count)
    if asked.kind in ("repeats", "sessions"):
        return repeats.script(asked.count, asked.kind == "repeats")
    if asked.kind == "unchanging":
        return unchanging(asked.count)
    return script(asked.count, asked.stations)


def write(asked: Options) -> int:
    """Writes the script to standard output, and gives the exit status."""
    for line in lines_of(asked):
        print(line)
    return Status.DONE


def main(argv: Sequence[str], prog: str) -> int:
    """Runs the tool with these words; gives its exit status."""
    asked = arguments(argv, prog)
    return ended(lambda: write(asked))
