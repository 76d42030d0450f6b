"""Measures gateways on this machine: messages a second, waits, and processor time of a message by part.

    tests/one gateway.figures --gateways 1 --lanes 3 --stations 400 --events 48
    tests/one gateway.figures --rate 300 --stations 900 --events 48
    tests/one gateway.figures --stations 5000 --events 1

PostgreSQL, with `fsync` on, the gateways and a load generator for each are processes of their own. All stations connect
before the first one sends.
"""

import argparse
import subprocess
import sys
import time

from tests.cluster import (
    TOP,
    Cluster,
    GatewayPart,
    count_seconds,
    keep_cluster,
    list_children,
)
from tests.gateway.conftest import fill_store


class Times:
    """Seconds of processors by part, since it was begun."""

    def __init__(self, cluster: Cluster, gateways: list[GatewayPart]) -> None:
        self.cluster, self.gateways = cluster, gateways
        self.before = self.count()

    def count(self) -> dict[str, float]:
        """The seconds of each part since its processes began."""
        assert self.cluster.process
        settlers = [pid for one in self.gateways for pid in list_children(one.pid)]
        server = [self.cluster.process.pid, *list_children(self.cluster.process.pid)]
        return {
            "gateways": sum(count_seconds(one.pid) for one in self.gateways),
            "settling": sum(map(count_seconds, settlers)),
            "PostgreSQL": sum(map(count_seconds, server)),
        }

    def take(self) -> dict[str, float]:
        """The seconds of each part since the last time."""
        now = self.count()
        found = {name: seconds - self.before[name] for name, seconds in now.items()}
        self.before = now
        return found


def make_load(words: argparse.Namespace, number: int, url: str) -> list[str]:
    """The load generator of a gateway."""
    stations = words.stations // words.gateways
    parts = {
        "stations": stations,
        "first": stations * number,
        "events": words.events,
        "rate": words.rate / words.gateways,
    }
    more = [word for name, value in parts.items() for word in (f"--{name}", str(value))]
    return [sys.executable, "-m", "tests.gateway.load", url, "--together", *more]


def measure(words: argparse.Namespace, cluster: Cluster) -> int:
    """Runs the load, and prints what was seen."""
    name = fill_store(cluster.create("ledger"), words.stations, "L")
    gateways = [GatewayPart(name, "--lanes", words.lanes) for _ in range(words.gateways)]
    try:
        times, began = Times(cluster, gateways), time.monotonic()
        loads = [
            subprocess.Popen(
                make_load(words, number, one.url), stdout=subprocess.PIPE, text=True, cwd=TOP
            )
            for number, one in enumerate(gateways)
        ]
        texts = [one.communicate()[0] for one in loads]
        seconds, parts = time.monotonic() - began, times.take()
    finally:
        for one in gateways:
            one.stop()
    count = words.stations // words.gateways * words.gateways * words.events
    print(*texts, sep="\n")
    print(f"{count} messages of {words.stations} stations in {seconds:.1f} s, signing in included")
    for part, took in parts.items():
        print(f"{part}: {took:.1f} s of a processor, {1000 * took / count:.3f} ms a message")
    return max(one.returncode for one in loads)


def main() -> int:
    """Measures what the words ask for."""
    parser = argparse.ArgumentParser(
        description=__doc__, formatter_class=argparse.RawDescriptionHelpFormatter
    )
    for name, usual, about in (
        ("gateways", 1, "how many gateways"),
        ("lanes", 2, "lanes of each"),
        ("stations", 400, "how many stations"),
        ("events", 48, "events of a transaction; each station has one"),
    ):
        parser.add_argument(f"--{name}", type=int, default=usual, help=f"{about} ({usual})")
    parser.add_argument(
        "--rate", type=float, default=0.0, help="messages a second (as fast as they are answered)"
    )
    words = parser.parse_args()
    with keep_cluster(is_durable=True) as cluster:
        return measure(words, cluster)


if __name__ == "__main__":
    sys.exit(main())
