"""Measures what settling costs on a PostgreSQL of its own, in a process that keeps what it stored last.

    tests/one measure.settling growing --events 480
    tests/one measure.settling batches --events 48

`growing`: a transaction of so many events; the last of them come by themselves, and what each costs is shown.
`batches`: 60 stations send transactions of so many events, each a message in each batch. Times are those of a
processor, in milliseconds a message: of this process, with the library's part of them, and of PostgreSQL's process.
"""

import argparse
import os
import sys
import time
from collections.abc import Callable, Sequence
from datetime import timedelta
from pathlib import Path
from typing import Any

from ocpp_board.ledger.engine import settle
from ocpp_board.ledger.program import find_program
from ocpp_board.records import Asked, Message, Rules
from ocpp_board.store.database import Database, open_store
from ocpp_board.store.lines import Warm
from tests.cluster import keep_cluster
from tests.store.scene import check, plan
from tests.traffic.script import FIRST, START, kind_of, message

STATIONS, ROUNDS, LAST = 60, 3, 200
SITE_SECONDS, RISE = 60, 50


class Spent:
    """Seconds of processors since it was made: of this process, of the library and of PostgreSQL's process."""

    def __init__(self, store: Database) -> None:
        (row,) = store.fetch("select pg_backend_pid() as pid")
        self.pid, self.library = row.pid, 0.0
        self.own, self.other = time.process_time(), self.read_other()

    def read_other(self) -> float:
        """The seconds of PostgreSQL's process."""
        words = Path(f"/proc/{self.pid}/stat").read_text().rpartition(")")[2].split()
        return (int(words[11]) + int(words[12])) / os.sysconf("SC_CLK_TCK")

    def watch(self, call: Callable[..., Any]) -> Callable[..., Any]:
        """The same call, whose seconds are counted as the library's."""

        def run(*words: Any) -> Any:
            began = time.process_time()
            found = call(*words)
            self.library += time.process_time() - began
            return found

        return run

    def report(self, messages: int) -> str:
        """What a message cost."""
        own, other = time.process_time() - self.own, self.read_other() - self.other
        each = [1_000 * one / messages for one in (own + other, own, self.library, other)]
        return (
            "{:.2f} ms a message: {:.2f} here ({:.2f} by the library), {:.2f} by PostgreSQL".format(
                *each
            )
        )


def make_message(station: str, transaction: str, number: int, events: int) -> Message:
    """The message of an event."""
    at = FIRST + timedelta(seconds=SITE_SECONDS * number)
    text = message(
        number, kind_of(number, events - 1), at, number, transaction, START + RISE * number
    )
    return Message(station, text, at, f"gateway {station}")


def measure(store: Database, batches: Sequence[Sequence[Asked]], warm: Warm) -> str:
    """What the messages of these batches cost."""
    spent, program = Spent(store), find_program()
    for name in ("answer", "ask"):
        setattr(program, name, spent.watch(getattr(program, name)))
    for batch in batches:
        assert all(one.outcome == "accepted" for one in settle(store, batch, warm=warm))
    return spent.report(sum(map(len, batches)))


def measure_growing(store: Database, events: int) -> str:
    """What the last events of a transaction cost, one by one."""
    plan(store)
    lines = [make_message("CS-01", "T1", number, events + 1) for number in range(events)]
    warm = Warm()
    settle(store, lines[:-LAST], warm=warm)
    for line in lines[-LAST : -LAST // 2]:
        settle(store, [line], warm=warm)
    return measure(store, [[line] for line in lines[-LAST // 2 :]], warm)


def measure_batches(store: Database, events: int) -> str:
    """What messages of different transactions cost in batches."""
    stations = [f"CS-{number:02}" for number in range(STATIONS)]
    plan(store, Rules(), "north", *stations)
    batches = [
        [make_message(station, f"T{n}", number, events) for station in stations]
        for n in range(ROUNDS)
        for number in range(events)
    ]
    warm = Warm()
    for batch in batches[:events]:
        settle(store, batch, warm=warm)
    return measure(store, batches[events:], warm)


def main() -> None:
    """Measures what the words name."""
    parser = argparse.ArgumentParser(
        description=__doc__, formatter_class=argparse.RawDescriptionHelpFormatter
    )
    parser.add_argument("what", choices=["growing", "batches"])
    parser.add_argument("--events", type=int, default=48, metavar="N")
    words = parser.parse_args(sys.argv[1:])
    with keep_cluster(is_durable=False) as cluster, open_store(cluster.create("ledger")) as store:
        run = measure_growing if words.what == "growing" else measure_batches
        print(run(store, words.events))
        check(store)


if __name__ == "__main__":
    main()
