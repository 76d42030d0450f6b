"""Makes a store with many sites, stations and sessions by inserting rows, for measures of pages and queries.

    tests/one store.big_store STORE [--sites N] [--stations N] [--days N] [--sessions N] [--lines]

Each station of a site has so many sessions a day; a session takes two to four hours on one of two EVSEs, has a reading
each quarter of an hour, and one in 50 lacks numbers. `--lines` adds the lines of messages, too. The rows are those that
the engine would write, but that no program computed them: `verify` has nothing to compare without lines.
"""

import argparse
import json
import random
import time
from collections.abc import Iterator
from datetime import datetime, timedelta, timezone
from typing import Any

from ocpp_board.store.database import Database, count_days, open_store

QUARTER = timedelta(minutes=15)
BEGIN = datetime(2026, 1, 1, tzinfo=timezone.utc)
ROWS_AT_ONCE = 20_000


def write_message(station: str, tx: str, number: int, kind: str, at: datetime, wh: int) -> str:
    """Writes the line of an event."""
    payload = {
        "eventType": kind,
        "timestamp": f"{at:%Y-%m-%dT%H:%M:%SZ}",
        "triggerReason": "MeterValuePeriodic",
        "seqNo": number,
        "transactionInfo": {"transactionId": tx},
        "evse": {"id": 1},
        "idToken": {"idToken": "04A2F7C9D1", "type": "ISO14443"},
        "meterValue": [
            {"timestamp": f"{at:%Y-%m-%dT%H:%M:%SZ}", "sampledValue": [{"value": wh}]},
        ],
    }
    return f"deliver {station} " + json.dumps(
        [2, f"{tx}-{number}", "TransactionEvent", payload], separators=(",", ":")
    )


def make_session(
    draw: random.Random,
    site: str,
    station: str,
    tx: str,
    began: datetime,
    registers: dict[tuple[str, int], int],
) -> tuple[dict[str, Any], list[dict[str, Any]]]:
    """Makes the row of a session and its parts. `registers`: what those of EVSEs read."""
    quarters = draw.randrange(8, 17)
    begin = began.replace(minute=began.minute // 15 * 15, second=0)
    lacks = draw.randrange(50) == 0
    energies = [draw.randrange(1_000, 5_500) * 1_000 for _ in range(quarters)]
    ended = begin + quarters * QUARTER
    evse = 1 + began.hour // 4 % 2
    register = registers.setdefault((station, evse), draw.randrange(10**6) * 1_000)
    registers[station, evse] += sum(energies)
    session: dict[str, Any] = {
        "station": station,
        "transaction_id": tx,
        "site": site,
        "sent_id": tx.upper(),
        "lines": quarters + 1,
        "events": quarters + 1 - lacks,
        "evse": evse,
        "voided": 0,
        "first_number": 0,
        "last_number": quarters,
        "complete": not lacks,
        "missing": int(lacks),
        "gaps": "3..3" if lacks else "",
        "up": sum(energies),
        "state": "numbers missing" if lacks else "messages complete",
        "began": began,
        "ended": ended,
        "first_at": began,
        "last_at": ended,
        "last_day": count_days(ended),
        "first_register": register,
        "last_register": register + sum(energies),
        "stopped_reason": "EVDisconnected",
        "token": "04A2F7C9D1",
        "token_type": "ISO14443",
        "received_until": ended,
        "changed_at": ended,
        "energy_measured": "yes",
        "first_reading_at": began,
        "last_reading_at": ended,
        "peak_w": max(energies) * 4 // 1_000,
    }
    parts: list[dict[str, Any]] = [
        {
            "station": station,
            "transaction_id": tx,
            "starts": begin + place * QUARTER,
            "up": mwh,
            "down": 0,
            "export_up": 0,
            "export_down": 0,
            "on_board": True,
            "measured": True,
            "shared": None,
            "numbers_missing": lacks and place == 3,
        }
        for place, mwh in enumerate(energies)
    ]
    return session, parts


def make_lines(session: dict[str, Any], parts: list[dict[str, Any]]) -> Iterator[dict[str, Any]]:
    """Makes the lines of a session."""
    wh = session["first_register"] // 1_000
    for number in range(session["last_number"] + 1):
        kind = "Started" if number == 0 else "Updated"
        kind = "Ended" if number == session["last_number"] else kind
        at = session["began"] if number == 0 else parts[number - 1]["starts"] + QUARTER
        wh += parts[number - 1]["up"] // 1_000 if number else 0
        text = write_message(session["station"], session["sent_id"], number, kind, at, wh)
        yield {
            "station": session["station"],
            "transaction_id": session["transaction_id"],
            "number": number + 1,
            "received": at,
            "line": text,
            "origin": "big_store",
        }


class Writer:
    """Inserts rows, many at once."""

    def __init__(self, store: Database) -> None:
        self.store = store
        self.rows: dict[str, list[dict[str, Any]]] = {}

    def add(self, table: str, row: dict[str, Any]) -> None:
        """Adds a row."""
        rows = self.rows.setdefault(table, [])
        rows.append(row)
        if len(rows) == ROWS_AT_ONCE:
            self.flush()

    def flush(self) -> None:
        """Inserts what is waiting."""
        with self.store.transaction():
            for table, rows in self.rows.items():
                if self.store.kind == "postgresql" and rows:
                    copy_rows(self.store, table, rows)
                else:
                    self.store.insert_each(table, rows)
        self.rows = {}


def copy_rows(store: Any, table: str, rows: list[dict[str, Any]]) -> None:
    """Inserts rows by PostgreSQL's COPY."""
    names = list(rows[0])
    with store.connection.cursor() as cursor:
        with cursor.copy(f"copy {table} ({', '.join(names)}) from stdin") as copy:
            for row in rows:
                copy.write_row([row[name] for name in names])


def fill(
    store: Database, sites: int, stations: int, days: int, sessions: int, has_lines: bool = False
) -> int:
    """Fills a store, and gives how many sessions it has."""
    draw, writer, count = random.Random(7), Writer(store), 0
    registers = dict[tuple[str, int], int]()
    for one in range(sites):
        site = f"site-{one:03}"
        writer.add("site", {"site": site, "zone": "Europe/Berlin" if one % 2 else "UTC"})
        for other in range(stations):
            writer.add("station", {"station": f"S{one:03}-{other:04}", "site": site})
    writer.flush()
    for day in range(days):
        for one in range(sites):
            for other in range(stations):
                station = f"S{one:03}-{other:04}"
                for number in range(sessions):
                    at = BEGIN + timedelta(days=day, hours=number * 24 // sessions)
                    at += timedelta(seconds=draw.randrange(3_600 * max(1, 20 // sessions)))
                    tx = f"tx{day:03}{number:02}-{station.lower()}"
                    session, parts = make_session(
                        draw, f"site-{one:03}", station, tx, at, registers
                    )
                    writer.add("session", session)
                    for part in parts:
                        writer.add("part", part)
                    if not session["complete"] and count % 5 == 0:
                        writer.add("finding", make_finding(session))
                    for line in make_lines(session, parts) if has_lines else ():
                        writer.add("line", line)
                    count += 1
    writer.flush()
    store.execute("analyze")
    return count


def make_finding(session: dict[str, Any]) -> dict[str, Any]:
    """Makes a finding of a session."""
    return {
        "station": session["station"],
        "transaction_id": session["transaction_id"],
        "kind": "clock goes back",
        "times": 1,
        "first_at": session["first_at"],
        "detail": "",
    }


def main() -> None:
    """Makes the store that the words ask for."""
    parser = argparse.ArgumentParser(
        description=__doc__, formatter_class=argparse.RawTextHelpFormatter
    )
    parser.add_argument("store")
    for name, default in (("sites", 100), ("stations", 50), ("days", 365), ("sessions", 1)):
        parser.add_argument(f"--{name}", type=int, default=default)
    parser.add_argument("--lines", action="store_true")
    words = parser.parse_args()
    begun = time.time()
    with open_store(words.store, is_durable=False) as store:
        count = fill(store, words.sites, words.stations, words.days, words.sessions, words.lines)
    print(f"{count:,} sessions in {time.time() - begun:.0f} s")


if __name__ == "__main__":
    main()
