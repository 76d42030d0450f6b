"""Writes a script of messages of some 270 bytes, of stations that take turns, for measuring.

    tests/one measure.script in_order|repeats|many|shuffled [--messages 200000] [--stations 16]

`in_order`: one transaction a station, whose events come in their order. `repeats`: eight events of
each station again and again. `many`: a transaction for each 50 events. `shuffled`: the events of
`in_order`, each station's in an order drawn by chance, the same in each run.
"""

import argparse
import random
import sys
from collections.abc import Iterator, Sequence
from datetime import timedelta

from tests.traffic.script import FIRST, START, kind_of, message, name

ORDERS = ("in_order", "repeats", "many", "shuffled")
# Events of a transaction of `many`, and events of `repeats`.
OF_MANY, REPEATED = 50, 8
# Seconds from one event to the next, and what the register rises by in that time, in Wh.
STEP, RISE = 5, 15
# The most events that a station keeps by default.
MOST_EVENTS = 16_384


def numbers(order: str, events: int, draws: random.Random) -> list[int]:
    """Which event a station sends at each of its turns, by its place in the order in which it happened."""
    if order == "repeats":
        return [turn % REPEATED for turn in range(events)]
    places = list(range(events))
    if order == "shuffled":
        draws.shuffle(places)
    return places


def line(order: str, events: int, number: int, station: int, place: int) -> str:
    """The line of the event of this place, which is the message of this number."""
    session, seq, last = 1, place, events - 1
    if order == "many":
        (session, seq), last = divmod(place, OF_MANY), OF_MANY - 1
    elif order == "repeats":
        last = REPEATED - 1
    time = FIRST + timedelta(seconds=STEP * place)
    text = message(number, kind_of(seq, last), time, seq, f"S-{session}", START + RISE * place)
    return f"msg {name(station)} {text}"


def script(order: str, messages: int, stations: int) -> Iterator[str]:
    """The lines of a script of so many messages, or a few less, of so many stations."""
    events = messages // stations
    draws = random.Random(1)
    turns = [numbers(order, events, draws) for _ in range(stations)]
    for station in range(stations):
        yield f"station north {name(station)}"
    for turn in range(events):
        for station in range(stations):
            yield line(order, events, turn * stations + station, station, turns[station][turn])
    yield "board north"


def main(words: Sequence[str]) -> None:
    """Writes the script that the words ask for."""
    parser = argparse.ArgumentParser(prog="measure.script", description=__doc__)
    parser.formatter_class = argparse.RawDescriptionHelpFormatter
    parser.add_argument("order", choices=ORDERS)
    parser.add_argument("--messages", type=int, default=200_000)
    parser.add_argument("--stations", type=int, default=16, choices=range(1, 65), metavar="1..64")
    asked = parser.parse_args(words)
    if asked.order != "repeats" and asked.messages // asked.stations > MOST_EVENTS:
        parser.error(f"a station keeps {MOST_EVENTS} events")
    for line in script(asked.order, asked.messages, asked.stations):
        sys.stdout.write(line + "\n")


if __name__ == "__main__":
    main(sys.argv[1:])
