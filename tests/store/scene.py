"""Scenes for tests of the store: plans, messages, and what must be so after each."""

import json
from collections.abc import Iterator, Sequence
from datetime import datetime, timedelta, timezone
from typing import Any

from ocpp_board.ledger.engine import change_site, settle
from ocpp_board.ledger.verify import verify
from ocpp_board.records import Answer, Asked, Deed, Message, Rules
from ocpp_board.store.database import Database
from ocpp_board.store.plan import Author, write_station

AUTHOR = Author("jo", "a test")
START = datetime(2026, 3, 1, 10, 0, tzinfo=timezone.utc)
# What a comparison of stores looks at: the columns of each table that don't say when something was written.
TABLES = {
    "line": "station, transaction_id, number, line, who, why",
    "part": "*",
    "finding": "*",
    "meter_value": "*",
    "refusal": "station, cause, transaction_id, number, what, text, times",
    "stray": "station, text, times",
    "deed": "station, transaction_id, number, word, who, why, outcome, name, count",
}


def plan(store: Database, rules: Rules = Rules(), site: str = "north", *stations: str) -> None:
    """A site with its stations; CS-01 and CS-02 where none is named."""
    change_site(store, site, rules, AUTHOR)
    with store.transaction():
        for station in stations or ("CS-01", "CS-02"):
            write_station(store, station, site, AUTHOR)


def write_event(
    transaction: str,
    number: int,
    kind: str,
    minute: int,
    readings: Sequence[tuple[int, int]] = (),
    **more: Any,
) -> str:
    """A TransactionEvent so many minutes after START, with readings in Wh, each so many minutes after it."""

    def write_at(minutes: int) -> str:
        return (START + timedelta(minutes=minutes)).isoformat().replace("+00:00", "Z")

    payload = {
        "eventType": kind,
        "timestamp": write_at(minute),
        "triggerReason": "MeterValuePeriodic",
        "seqNo": number,
        "transactionInfo": {"transactionId": transaction} | more.pop("info", {}),
        "meterValue": [
            {"timestamp": write_at(at), "sampledValue": [{"value": value}]}
            for at, value in readings
        ],
    }
    return json.dumps([2, f"{transaction}-{number}", "TransactionEvent", payload | more])


def message(station: str, text: str, minute: int | None = None, origin: str = "") -> Message:
    """A message that was received so many minutes after START."""
    received = None if minute is None else START + timedelta(minutes=minute)
    return Message(station, text, received, origin)


def deed(word: str, station: str, transaction: str, number: int, minute: int = 0) -> Deed:
    """An operator's line."""
    at = START + timedelta(minutes=minute)
    return Deed(word, station, transaction, number, "jo", "a test", at, "operator jo")


def write_session(station: str, transaction: str, count: int, first: int = 0) -> Iterator[Message]:
    """A whole session of so many events with a reading each, a quarter of an hour apart."""
    for number in range(count):
        kind = "Started" if not number else "Ended" if number == count - 1 else "Updated"
        minute = first + 15 * number
        text = write_event(transaction, number, kind, minute, [(minute, 1_000 + 250 * number)])
        yield message(station, text, minute + 1)


def ask(store: Database, *asked: Asked) -> list[Answer]:
    """The answers, after which the store has to show the program's figures."""
    answers = settle(store, asked)
    check(store)
    return answers


def check(store: Database) -> int:
    """The store shows the program's figures, and has some."""
    verified = verify(store)
    assert not verified.difference, verified.difference
    return verified.figures


def list_outcomes(answers: Sequence[Answer]) -> list[str]:
    """What became of each, with the name of a refusal."""
    return [f"{one.outcome} {one.name}".strip() for one in answers]


def read_all(store: Database) -> dict[str, list[Any]]:
    """All that a store has, but for when it was written."""
    found = {
        table: sorted(map(repr, store.fetch(f"select {columns} from {table}")))
        for table, columns in TABLES.items()
    }
    rows = store.fetch("select * from session")
    found["session"] = sorted(repr(row._replace(changed_at=None)) for row in rows)
    return found
