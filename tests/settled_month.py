"""How much energy of a month a site's rule of settling shows in a wrong period, where the true energy is known.

    tests/one settled_month PROGRAM [--days 31] [--seed 1]

Five stations charge in the same drawn sessions, with a power that changes each minute. They differ in when they read
their registers: at the beginnings of periods (and at begin and end), the same but up to 0.9 seconds beside, each five
minutes, the same with all readings listed again at the end (at a site by moment), and at begin and end only. For each
station and each rule it prints which share of the energy PROGRAM shows in a wrong period, in a hundred. The status is 1
if a share is not as docs/rules.md has it, within a tenth, or if two rules show different totals.
"""

import argparse
import json
import random
import subprocess
import sys
from collections.abc import Iterator
from datetime import datetime, timedelta, timezone
from typing import NamedTuple

BEGIN = datetime(2026, 3, 1, tzinfo=timezone.utc)
PERIOD, MINUTE = 900, 60
RULES = ("later", "closing", "even")
# By station, the shares by each rule, of the month of 31 days and seed 1.
STORED = {
    "clock": (15.6, 0.0, 0.0),
    "jitter": (27.2, 27.1, 0.0),
    "five": (3.0, 3.0, 0.3),
    "again": (3.0, 3.0, 0.3),
    "ends": (95.5, 95.5, 12.3),
}
# The site of a station, where it is not north.
SITES = {"again": "south"}


class Charge(NamedTuple):
    """A session: its begin and end in seconds since the month began, and its energy in mWh up to each whole minute."""

    begin: int
    end: int
    levels: list[int]

    def level(self, second: float) -> int:
        """The energy up to this second."""
        whole, rest = divmod(second - self.begin, MINUTE)
        before, after = (
            self.levels[int(whole)],
            self.levels[min(int(whole) + 1, len(self.levels) - 1)],
        )
        return before + int((after - before) * rest / MINUTE)


def charges(draws: random.Random, days: int) -> Iterator[Charge]:
    """The sessions of a station, three a day of 20 minutes to 5 hours, with pauses between."""
    for day in range(days):
        for hour in (0, 8, 16):
            begin = day * 86_400 + hour * 3_600 + draws.randrange(2 * 3_600)
            minutes = draws.randrange(20, 300)
            levels, watts = [0], draws.randrange(3_000, 22_000)
            for _ in range(minutes):
                watts = max(1_400, min(22_000, watts + draws.randrange(-1_500, 1_501)))
                # So many watts for a minute, in mWh.
                levels.append(levels[-1] + watts * 1_000 // 60)
            yield Charge(begin, begin + minutes * MINUTE, levels)


def moments(kind: str, charge: Charge, draws: random.Random) -> list[float]:
    """When a station of this kind reads its register in a session."""
    first = (charge.begin // PERIOD + 1) * PERIOD
    found: list[float] = []
    if kind == "clock":
        found = [*range(first, charge.end, PERIOD)]
    elif kind == "jitter":
        found = [at + draws.uniform(-0.9, 0.9) for at in range(first, charge.end, PERIOD)]
    elif kind in ("five", "again"):
        found = [*range(charge.begin + 300, charge.end, 300)]
    inside = [at for at in found if charge.begin < at < charge.end]
    return [charge.begin, *inside, charge.end]


def messages(
    kind: str, number: int, charge: Charge, register: int, draws: random.Random
) -> Iterator[str]:
    """The messages of a session of the station of this kind, whose register showed so much at the beginning."""
    times, values = moments(kind, charge, draws), list[str]()
    for seq, at in enumerate(times):
        what = "Started" if seq == 0 else "Ended" if seq == len(times) - 1 else "Updated"
        time = (BEGIN + timedelta(seconds=at)).isoformat(timespec="milliseconds")
        mwh = register + charge.level(at)
        wh = f"{mwh // 1000}.{mwh % 1000:03}"
        values.append(f'{{"timestamp":"{time}","sampledValue":[{{"value":{wh}}}]}}')
        sent = values if kind == "again" and what == "Ended" else values[-1:]
        payload = {
            "eventType": what,
            "timestamp": time,
            "triggerReason": "MeterValuePeriodic",
            "seqNo": seq,
            "transactionInfo": {"transactionId": f"T{number}"},
            "meterValue": [],
        }
        text = json.dumps([2, "1", "TransactionEvent", payload], separators=(",", ":"))
        yield f"msg {kind} {text.replace('[]', '[' + ','.join(sent) + ']')}"


def truth(charge: Charge, into: dict[int, int]) -> None:
    """Adds the energy of a session to the periods in which it was charged."""
    edges = [*range((charge.begin // PERIOD + 1) * PERIOD, charge.end, PERIOD), charge.end]
    before = charge.begin
    for edge in edges:
        start = before // PERIOD * PERIOD
        into[start] = into.get(start, 0) + charge.level(edge) - charge.level(before)
        before = edge


def shown(text: str) -> dict[str, dict[int, int]]:
    """The energy by station and period that boards show."""
    stations, periods = dict[str, dict[int, int]](), dict[int, int]()
    for line in text.splitlines():
        words = line.split(" ")
        if words[0] == "board":
            periods = {}
        elif words[0] == "station":
            periods = stations.setdefault(words[1], {})
        elif words[0] == "period":
            start = datetime.fromisoformat(words[1].replace("Z", "+00:00"))
            periods[int((start - BEGIN).total_seconds())] = int(words[2].partition("=")[2])
    return stations


def wrong(found: dict[int, int], true: dict[int, int]) -> float:
    """Which share of the energy is in a wrong period, in a hundred."""
    apart = sum(abs(found.get(at, 0) - true.get(at, 0)) for at in {*found, *true})
    return 50 * apart / sum(true.values())


def main() -> int:
    """Compares the shares with those of docs/rules.md, and gives the exit status."""
    parser = argparse.ArgumentParser(
        description=__doc__, formatter_class=argparse.RawDescriptionHelpFormatter
    )
    parser.add_argument("program", metavar="PROGRAM")
    parser.add_argument("--days", type=int, default=31)
    parser.add_argument("--seed", type=int, default=1)
    words = parser.parse_args()
    drawn = list(charges(random.Random(words.seed), words.days))
    true = dict[int, int]()
    lines, registers = list[str](), dict.fromkeys(STORED, 0)
    for number, charge in enumerate(drawn):
        truth(charge, true)
        for kind in STORED:
            draws = random.Random(f"{words.seed} {kind} {number}")
            lines += messages(kind, number, charge, registers[kind], draws)
            registers[kind] += charge.levels[-1]
    shares, totals = dict[str, list[float]](), dict[str, set[int]]()
    for rule in RULES:
        plan = [f"station {SITES.get(kind, 'north')} {kind}" for kind in STORED]
        plan += [f"settle north {rule}", f"settle south {rule}", "order south moment"]
        script = "".join(f"{line}\n" for line in (*plan, *lines, "board north", "board south"))
        run = subprocess.run(
            [words.program, "replay"], input=script.encode(), stdout=subprocess.PIPE, check=True
        )
        for kind, periods in shown(run.stdout.decode()).items():
            shares.setdefault(kind, []).append(wrong(periods, true))
            totals.setdefault(kind, set()).add(sum(periods.values()))
    is_right = all(len(sums) == 1 for sums in totals.values())
    is_month = (words.days, words.seed) == (31, 1)
    for kind, stored in STORED.items():
        said = ", ".join(f"{rule} {share:.2f}" for rule, share in zip(RULES, shares[kind]))
        print(f"{kind}: {said}")
        near = all(abs(one - two) <= 0.1 for one, two in zip(shares[kind], stored))
        is_right = is_right and (near or not is_month)
    return 0 if is_right else 1


if __name__ == "__main__":
    sys.exit(main())
