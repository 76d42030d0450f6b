"""What a closing of many periods takes, in a SQLite store and in a PostgreSQL one.

    PYTHONPATH=python:. python3 -m tests.measure.closings [STORE]

Without a STORE it makes a SQLite file of its own. The store must be empty: it gets a site with 100 stations, 12,500
sessions and 100,000 periods.
"""

import sys
import tempfile
import time
from datetime import date, datetime, timedelta, timezone
from typing import Any

from ocpp_board.store.closing import close_day
from ocpp_board.store.database import Database, open_store

BEGIN, QUARTER = datetime(2026, 3, 1, tzinfo=timezone.utc), timedelta(minutes=15)
NOW = datetime(2026, 4, 2, 12, tzinfo=timezone.utc)
SESSIONS, STATIONS, PERIODS = 12_500, 100, 8
CHANGE = """
update part set up = 2000 where station = 'CS-007' and transaction_id = 'tx-000007'
"""
TOUCH = """
update session set lines = 13, changed_at = :at where station = 'CS-007' and transaction_id = 'tx-000007'
"""


def fill(store: Database) -> None:
    """A site with its sessions and their periods."""
    sessions, parts = list[dict[str, Any]](), list[dict[str, Any]]()
    for number in range(SESSIONS):
        station, name = f"CS-{number % STATIONS:03}", f"tx-{number:06}"
        begin = BEGIN + number // STATIONS * PERIODS * QUARTER
        end = begin + PERIODS * QUARTER
        key = {"station": station, "transaction_id": name}
        moments = {"began": begin, "first_at": begin, "ended": end, "last_at": end}
        sums = {"site": "north", "lines": 12, "events": 12, "complete": True, "up": 1_000 * PERIODS}
        sessions.append(key | moments | sums | {"changed_at": begin})
        for place in range(PERIODS):
            flow = {"up": 1_000, "down": 0, "export_up": 0, "export_down": 0}
            facts = {"on_board": True, "measured": True, "shared": None, "numbers_missing": False}
            parts.append(key | {"starts": begin + place * QUARTER} | flow | facts)
    with store.transaction():
        store.execute("insert into site (site) values ('north')")
        store.insert_each("session", sessions)
        store.insert_each("part", parts)


def close(store: Database, what: str) -> None:
    """Closes the month, and prints what that took."""
    begin = time.perf_counter()
    done = close_day(store, "north", date(2026, 3, 31), "a measure", NOW)
    took = time.perf_counter() - begin
    print(
        f"{what}: {done.periods:,} rows of periods, {done.corrections:,} corrections, {took:.2f} s"
    )


def main() -> None:
    """Measures a first closing, one where nothing changed, and one of a changed session."""
    name = sys.argv[1] if len(sys.argv) > 1 else tempfile.mkdtemp() + "/ledger.db"
    with open_store(name) as store:
        fill(store)
        close(store, "the first closing")
        close(store, "nothing changed")
        store.execute(TOUCH, at=NOW)
        store.execute(CHANGE)
        close(store, "a session changed")


if __name__ == "__main__":
    main()
