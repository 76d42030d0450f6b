"""Measures what one appended line costs until its pages and tables are written, as `follow --out` does it.

    tests/one measure.renewing STORE OUT [--lines N]

A station of the store begins a transaction and sends its events one by one; each is settled, and what it changed is
written to OUT. First all pages and tables are written there, with a process for each processor. Times are those of a
processor.
"""

import argparse
import json
import os
import resource
import statistics
import time
from datetime import datetime, timedelta, timezone
from pathlib import Path

from ocpp_board.commands.renewing import Renewer, Shown
from ocpp_board.ledger.engine import settle
from ocpp_board.records import Message
from ocpp_board.store.database import open_store
from ocpp_board.writers.tables import TableOptions

FIVE = timedelta(minutes=5)
# Lines that are sent before those that count.
FIRST = 3


def write_event(station: str, tx: str, number: int, at: datetime) -> Message:
    """Writes an event of a transaction."""
    moment = f"{at:%Y-%m-%dT%H:%M:%SZ}"
    payload = {
        "eventType": "Updated" if number else "Started",
        "timestamp": moment,
        "triggerReason": "MeterValuePeriodic",
        "seqNo": number,
        "transactionInfo": {"transactionId": tx},
        "meterValue": [{"timestamp": moment, "sampledValue": [{"value": 1_000 + 250 * number}]}],
    }
    text = json.dumps([2, f"{tx}-{number}", "TransactionEvent", payload], separators=(",", ":"))
    return Message(station, text, at, "a log")


def main() -> None:
    """Prints how long a line takes, in the median and at most."""
    parser = argparse.ArgumentParser(
        description=__doc__, formatter_class=argparse.RawDescriptionHelpFormatter
    )
    parser.add_argument("store")
    parser.add_argument("out", type=Path)
    parser.add_argument("--lines", type=int, default=30)
    words = parser.parse_args()
    with open_store(words.store) as store:
        workers = len(os.sched_getaffinity(0))
        renewer = Renewer(store, Shown(words.out, 10, None, TableOptions()), workers)
        begun = time.monotonic()
        renewer.renew(set(), None)
        seconds = time.monotonic() - begun
        print(f"{renewer.pages:,} pages and {renewer.tables:,} tables in {seconds:.1f} s at first")
        lines = store.fetch("select count(*) as times from line")[0].times
        station = store.fetch("select min(station) as station from station")[0].station
        row = store.fetch("select max(last_at) as last_at from session")[0]
        at, tx, took = row.last_at, f"measured-{time.time():.0f}", list[float]()
        for number in range(FIRST + words.lines):
            at += FIVE
            message = write_event(station, tx, number, at)
            before, pages, tables = time.process_time(), renewer.pages, renewer.tables
            (answer,) = settle(store, [message])
            renewer.renew({(station, tx)}, at.astimezone(timezone.utc))
            took.append(1_000 * (time.process_time() - before))
            assert answer.outcome == "accepted", answer
        median, most = statistics.median(took[FIRST:]), max(took[FIRST:])
        written = f"{renewer.pages - pages} pages and {renewer.tables - tables} tables a line"
        memory = resource.getrusage(resource.RUSAGE_SELF).ru_maxrss // 1_024
        print(f"{lines:,} lines: {median:.1f} ms, at most {most:.1f}; {written}; {memory} MB")


if __name__ == "__main__":
    main()
