"""Compares what two programs write of drawn scripts, the one on one, two and four processors and through a pipe.

    tests/one drawn_scripts PROGRAM OTHER [--scripts 1000] [--first 1] [--least 1] [--most 8]

Each script has so many MiB and ends anywhere. It has new events of several stations, repeats, late
ones and ones with other readings, messages of other actions and with faults, texts of many readings,
an operator's lines, questions, boards, moments, comments and lines with a fault, with either line
end. The status is 1 if a text or an exit status differs.
"""

import argparse
import hashlib
import os
import random
import subprocess
import sys
import tempfile
from collections.abc import Iterator

MIB = 1_048_576
# The processors on which the first program runs.
PROCESSORS = (1, 2, 4)
# Lines that are drawn again and again.
POOL = 600


def reading(draws: random.Random) -> str:
    """A meter value of one reading."""
    minute, second = draws.randrange(60), draws.randrange(60)
    measurand = draws.choice(["", "", ',"measurand":"Energy.Active.Export.Register"'])
    value = draws.randrange(1_000, 9_000)
    return (
        f'{{"timestamp":"2026-03-01T10:{minute:02}:{second:02}Z",'
        f'"sampledValue":[{{"value":{value}{measurand}}}]}}'
    )


def event(draws: random.Random, identifier: str, tx: int, number: int, kind: str) -> str:
    """A message with an event, mostly of one reading, and sometimes of hundreds."""
    count = draws.choice([1] * 40 + [0, 2, 5]) if draws.randrange(200) else draws.randrange(400)
    values = ",".join(reading(draws) for _ in range(count))
    token = draws.choice(["", "", "", ',"idToken":{"idToken":"A","type":"Local"}'])
    return (
        f'[2,"{identifier}","TransactionEvent",{{"eventType":"{kind}",'
        f'"timestamp":"2026-03-01T10:{number % 60:02}:00Z","triggerReason":"MeterValuePeriodic",'
        f'"seqNo":{number},"transactionInfo":{{"transactionId":"T{tx}"}}{token},"meterValue":[{values}]}}]'
    )


def other(draws: random.Random, stations: list[str]) -> str:
    """A line of another kind."""
    station = draws.choice([*stations, "nobody"])
    key = f"{station} T{draws.randrange(4)} {draws.randrange(60)}"
    return draws.choice(
        [
            f'msg {station} [2,"h","Heartbeat",{{}}]',
            f'msg {station} [2,"s","StatusNotification",{{"connectorStatus":"Available"}}]',
            f'msg {station} [2,"f","TransactionEvent",{{}}]',
            f'msg {station} [3,"a",{{}}]',
            f"msg {station} [2,",
            f"now 2026-03-01T11:{draws.randrange(60):02}:00Z",
            f"void {key}",
            f"restore {key}",
            f"erase {key}",
            f"energy {station}",
            f"export {station}",
            f"total {station}",
            f"events {station} T{draws.randrange(5)}",
            f"readings {station} T{draws.randrange(5)}",
            "mark drawn",
            "# a comment",
            "",
            "no line",
            "msg",
            f"station north {station}",
        ]
    )


def pool_of(draws: random.Random, stations: list[str]) -> list[str]:
    """Lines to draw from: events that come again, late or with other readings, and lines of other kinds."""
    lines = list[str]()
    for number in range(POOL):
        if draws.randrange(4):
            kind = draws.choice(["Started", "Updated", "Updated", "Updated", "Ended"])
            text = event(draws, f"p{number}", draws.randrange(4), draws.randrange(60), kind)
            lines.append(f"msg {draws.choice(stations)} {text}")
        else:
            lines.append(other(draws, stations))
    return lines


def script_of(seed: int, least: int, most: int) -> bytes:
    """A script of so many MiB at least and at most, the same in each run of a seed."""
    draws = random.Random(seed)
    stations = [f"S{number}" for number in range(draws.choice([1, 3, 16, 48]))]
    size = draws.randrange(least * MIB, most * MIB)
    share = draws.random()
    return "".join(drawn(draws, stations, size, share)).encode()[:size]


def drawn(draws: random.Random, stations: list[str], size: int, share: float) -> Iterator[str]:
    """Its lines; this share of them is of new events."""
    made = 0
    for number, station in enumerate(stations):
        yield f"station {'north' if number % 3 else 'south'} {station}\n"
    pool = pool_of(draws, stations)
    values = [reading(draws) for _ in range(50)]
    numbers = [0] * len(stations)
    ends = draws.choice([["\n"], ["\r\n"], ["\n", "\r\n"]])
    while made < size:
        if draws.random() < share:
            at = draws.randrange(len(stations))
            numbers[at] += 1
            line = (
                f'msg {stations[at]} [2,"{made}","TransactionEvent",{{"eventType":"Updated",'
                f'"timestamp":"2026-03-01T10:{numbers[at] % 60:02}:00Z","triggerReason":"MeterValuePeriodic",'
                f'"seqNo":{numbers[at]},"transactionInfo":{{"transactionId":"N"}},'
                f'"meterValue":[{draws.choice(values)}]}}]'
            )
        elif draws.randrange(2_000) == 0:
            line = "board north"
        else:
            line = draws.choice(pool)
        line += draws.choice(ends)
        made += len(line)
        yield line


def written(program: str, path: str, processors: int, is_piped: bool = False) -> tuple[str, int]:
    """What a program writes of a script on so many processors, as a sum of its bytes, and its exit status."""
    source = ["cat", path] if is_piped else ["true"]
    with open(path, "rb") as file, subprocess.Popen(source, stdout=subprocess.PIPE) as writer:
        run = subprocess.run(
            [program, "replay"],
            stdin=writer.stdout if is_piped else file,
            stdout=subprocess.PIPE,
            stderr=subprocess.DEVNULL,
            check=False,
            preexec_fn=lambda: os.sched_setaffinity(0, range(processors)),
        )
    return hashlib.sha256(run.stdout).hexdigest(), run.returncode


def others(program: str, other: str, script: bytes, folder: str) -> list[str]:
    """Where the program writes another text than the other one."""
    path = f"{folder}/script"
    with open(path, "wb") as file:
        file.write(script)
    wanted = written(other, path, max(PROCESSORS))
    found = [f"on {number}" for number in PROCESSORS if written(program, path, number) != wanted]
    if written(program, path, max(PROCESSORS), is_piped=True) != wanted:
        found.append("through a pipe")
    return found


def main() -> int:
    """Compares them, and gives the exit status."""
    parser = argparse.ArgumentParser(
        description=__doc__, formatter_class=argparse.RawDescriptionHelpFormatter
    )
    parser.add_argument("program", metavar="PROGRAM")
    parser.add_argument("other", metavar="OTHER")
    parser.add_argument("--scripts", type=int, default=1_000)
    parser.add_argument("--first", type=int, default=1, help="the seed of the first script")
    parser.add_argument("--least", type=int, default=1, help="MiB of a script")
    parser.add_argument("--most", type=int, default=8, help="MiB of a script")
    words = parser.parse_args()
    differ, size = list[str](), 0
    with tempfile.TemporaryDirectory() as folder:
        for seed in range(words.first, words.first + words.scripts):
            script = script_of(seed, words.least, words.most)
            size += len(script)
            for which in others(words.program, words.other, script, folder):
                differ.append(f"seed {seed} {which}")
    for which in differ[:5]:
        print(f"another text: {which}")
    print(
        f"drawn scripts: {words.scripts}, of {size / MIB:.0f} MiB, texts that differ: {len(differ)}"
    )
    return 1 if differ else 0


if __name__ == "__main__":
    sys.exit(main())
