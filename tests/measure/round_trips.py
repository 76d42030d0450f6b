"""Measures what a server takes of the processors for a message, beside an echo.

    tests/one measure.round_trips PROGRAM [--connections 16] [--kinds again ..] [--rounds 9] [--messages 14000]
        [--environment NAME=VALUE ..]

Each round begins with another kind, and has one run of the echo. It needs `rustc`, which builds the
client and the echo of `round_trips.rs`. A line a kind: microseconds of processor time a message, how many times
the echo's that is (the middle of the rounds' own), messages a second, the median and the 99th
percentile of a round trip in microseconds, and the server's memory.
"""

import argparse
import os
import subprocess
import sys
import tempfile
from collections.abc import Sequence
from dataclasses import dataclass
from pathlib import Path
from statistics import median
from subprocess import PIPE

from tests.measure.rounds import stolen

STATIONS = 64
# What is sent. `journalled` are new events at a server with a journal.
KINDS = ("again", "new", "heartbeat", "journalled")
ECHO, JOURNALLED = "echo", "journalled"


@dataclass(frozen=True)
class Trips:
    """What one run gave: microseconds a message, messages a second, microseconds of a round trip, memory in KiB."""

    processor: float
    rate: float
    middle: float
    slow: float
    memory: int


def memory_of(process: int) -> int:
    """The most memory that a process had, in KiB."""
    lines = Path(f"/proc/{process}/status").read_text(encoding="ascii").splitlines()
    return next(int(line.split()[1]) for line in lines if line.startswith("VmHWM"))


def started(words: Sequence[str], folder: str, variables: Sequence[str]) -> subprocess.Popen[str]:
    """A server. What it writes to standard output with a journal goes to a file of this folder."""
    environment = os.environ | dict(each.split("=", 1) for each in variables)
    if "--journal" not in words:
        return subprocess.Popen(words, stdin=PIPE, stdout=PIPE, text=True, env=environment)
    with open(f"{folder}/journal", "wb") as journal:
        return subprocess.Popen(
            words, stdin=PIPE, stdout=journal, stderr=PIPE, text=True, env=environment
        )


def measured(folder: str, kind: str, asked: argparse.Namespace) -> Trips:
    """One run of messages of a kind, or of the echo with messages of the first kind."""
    client = f"{folder}/round_trips"
    if kind == ECHO:
        server = started([client, ECHO], folder, [])
    else:
        stations = [f"north/CS-{station:02}" for station in range(STATIONS)]
        kept = ["--journal"] if kind == JOURNALLED else []
        words = [asked.program, "serve", "--live", *kept, *stations]
        server = started(words, folder, asked.environment)
    reported = server.stdout or server.stderr
    assert reported is not None
    port = reported.readline().strip().rpartition(":")[2]
    sent = asked.kinds[0] if kind == ECHO else kind
    sent = "new" if sent == JOURNALLED else sent
    load = [client, "load", port, str(asked.connections), str(asked.messages), sent]
    try:
        words = [*load, str(server.pid)]
        figures = subprocess.run(words, stdout=PIPE, text=True, check=True).stdout
        memory = memory_of(server.pid)
    finally:
        if kind == ECHO:
            server.kill()
        server.communicate()
    processor, rate, middle, slow = (float(word) for word in figures.split())
    return Trips(processor, rate, middle, slow, memory)


def report(kind: str, runs: Sequence[Trips], echoes: Sequence[Trips]) -> str:
    """The line of a kind."""
    times = median(run.processor / echo.processor for run, echo in zip(runs, echoes, strict=True))
    return (
        f"{kind}: {median(run.processor for run in runs):.2f} µs, {times:.2f} times the echo's; "
        f"{median(run.rate for run in runs):.0f} a second; median {median(run.middle for run in runs):.1f}, "
        f"99th {median(run.slow for run in runs):.0f} µs; {median(run.memory for run in runs):.0f} KiB"
    )


def main(words: Sequence[str]) -> None:
    """Measures the program that the words name."""
    parser = argparse.ArgumentParser(prog="measure.round_trips", description=__doc__)
    parser.formatter_class = argparse.RawDescriptionHelpFormatter
    parser.add_argument("program")
    parser.add_argument(
        "--connections", type=int, default=16, choices=range(1, 65), metavar="1..64"
    )
    parser.add_argument("--kinds", nargs="+", default=["again"], choices=KINDS)
    parser.add_argument("--rounds", type=int, default=9)
    parser.add_argument("--messages", type=int, default=14_000, help="of each connection")
    parser.add_argument("--environment", nargs="*", default=[], metavar="NAME=VALUE")
    asked = parser.parse_args(words)
    cases = [ECHO, *asked.kinds]
    runs: dict[str, list[Trips]] = {case: [] for case in cases}
    before = stolen()
    with tempfile.TemporaryDirectory() as folder:
        source = str(Path(__file__).with_suffix(".rs"))
        built = ["rustc", "--edition", "2021", "-O", "-o", f"{folder}/round_trips", source]
        subprocess.run(built, check=True)
        for turn in range(asked.rounds):
            first = turn % len(cases)
            for case in cases[first:] + cases[:first]:
                runs[case].append(measured(folder, case, asked))
    for case in cases:
        print(report(case, runs[case], runs[ECHO]))
    print(f"stolen: {stolen() - before} ticks")


if __name__ == "__main__":
    main(sys.argv[1:])
