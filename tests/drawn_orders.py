"""Compares what a program says of drawn commands with plain lists, at a site by moment and at one by sequence.

    tests/one drawn_orders PROGRAM [--commands 3000] [--seed 1]

The same commands go to a station of each site: new events, repeats, late and conflicting ones, several readings of
one moment, clocks that go back, readings that are listed again, imported and exported, voids, restorations, erasures.
Behind each command comes the station's total, and each hundred the boards and the lists of all transactions. The
status is 1 if a line differs.
"""

import argparse
import json
import random
import subprocess
import sys
from datetime import datetime, timedelta, timezone
from typing import Any

from tests.reference import EXPORT, IMPORT, replayed

FIRST = datetime(2026, 3, 1, 10, tzinfo=timezone.utc)
STATIONS = {"A": "north", "B": "south", "C": "east"}
# Transactions, numbers of each, minutes in which their readings lie, and readings of an event.
TRANSACTIONS, NUMBERS, MINUTES, READINGS = 4, 24, 40, 6


class Drawn:
    """Commands that are drawn by chance, but the same in each run of a seed."""

    def __init__(self, seed: int) -> None:
        self.draws = random.Random(seed)
        # What was sent of a transaction so far.
        self.listed: dict[int, list[dict[str, Any]]] = {}

    def reading(self) -> dict[str, Any]:
        """A meter value. Its moment is often that of another one and may be within a minute."""
        draws = self.draws
        at = FIRST + timedelta(minutes=draws.randrange(MINUTES))
        if draws.randrange(4) == 0:
            at += timedelta(milliseconds=draws.randrange(1_000))
        value: dict[str, Any] = {"value": draws.randrange(1_000, 1_020)}
        if draws.randrange(3) == 0:
            value["measurand"] = draws.choice([IMPORT, EXPORT])
        return {"timestamp": at.isoformat(timespec="milliseconds"), "sampledValue": [value]}

    def event(self) -> dict[str, Any]:
        """The payload of an event, which lists again what came before, or not."""
        draws = self.draws
        tx, number = draws.randrange(TRANSACTIONS), draws.randrange(NUMBERS)
        before = self.listed.setdefault(tx, [])
        values = [self.reading() for _ in range(draws.randrange(READINGS))]
        if before and draws.randrange(3) == 0:
            values = draws.sample(before, min(len(before), draws.randrange(1, READINGS))) + values
        before += values
        return {
            "eventType": {0: "Started", NUMBERS - 1: "Ended"}.get(number, "Updated"),
            "timestamp": (FIRST + timedelta(minutes=number)).isoformat(),
            "triggerReason": "MeterValuePeriodic",
            "seqNo": number,
            "transactionInfo": {"transactionId": f"T{tx}"},
            "meterValue": values,
        }

    def command(self) -> str:
        """A command for a station: its name replaces `<>`."""
        draws = self.draws
        if draws.randrange(5) < 2:
            text = json.dumps([2, "1", "TransactionEvent", self.event()], separators=(",", ":"))
            return f"msg <> {text}"
        kind = draws.choice(["void", "void", "restore", "erase", "erase"])
        return f"{kind} <> T{draws.randrange(TRANSACTIONS)} {draws.randrange(NUMBERS)}"


def script_of(seed: int, count: int) -> list[str]:
    """A script with so many commands for each station."""
    drawn, sent = Drawn(seed), list[str]()
    lines = [f"station {site} {station}" for station, site in STATIONS.items()]
    lines += ["order north moment", "settle north closing", "order east moment", "settle east even"]
    # By turns the third site is by sequence, too.
    lines += ["order east sequence"] * (seed % 2)
    for number in range(count):
        # Some of what was sent comes again.
        again = sent and drawn.draws.randrange(6) == 0
        sent.append(drawn.draws.choice(sent) if again else drawn.command())
        for station in STATIONS:
            lines += [sent[-1].replace("<>", station, 1), f"total {station}"]
        if number % 100 == 99:
            lines += [f"board {site}" for site in STATIONS.values()]
            lines += [
                f"{what} {station} T{tx}"
                for station in STATIONS
                for tx in range(TRANSACTIONS)
                for what in ("events", "readings")
            ]
    return lines


def main() -> int:
    """Compares them, and gives the exit status."""
    parser = argparse.ArgumentParser(
        description=__doc__, formatter_class=argparse.RawDescriptionHelpFormatter
    )
    parser.add_argument("program", metavar="PROGRAM")
    parser.add_argument("--commands", type=int, default=3_000, help="for each station")
    parser.add_argument("--seed", type=int, default=1)
    words = parser.parse_args()
    lines = script_of(words.seed, words.commands)
    script = "".join(line + "\n" for line in lines)
    run = subprocess.run(
        [words.program, "replay"], input=script.encode(), stdout=subprocess.PIPE, check=False
    )
    found, wanted = run.stdout.decode().splitlines(), replayed(lines).splitlines()
    pairs = zip([*found, "the end"], [*wanted, "the end"])
    differ = [(number, *pair) for number, pair in enumerate(pairs, 1) if pair[0] != pair[1]]
    for number, one, other in differ[:3]:
        print(f"line {number} of what is written: {one!r}, and not {other!r}")
    accepted = sum(line.startswith(("[3,", "accepted")) for line in wanted)
    print(
        f"drawn commands: {2 * words.commands}, taken: {accepted}, lines that differ: {len(differ)}"
    )
    return 1 if differ or run.returncode else 0


if __name__ == "__main__":
    sys.exit(main())
