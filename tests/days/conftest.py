"""Stores in both databases with a site, and messages of its stations."""

import json
import subprocess
import sys
from collections.abc import Iterator
from datetime import datetime, timedelta, timezone

import pytest

from ocpp_board.ledger.engine import change_site, settle
from ocpp_board.records import Answer, Deed, Message, Rules
from ocpp_board.store.database import Database, open_store
from ocpp_board.store.plan import Author, write_station
from tests.store.conftest import found_program, named_store, running_cluster
from tests.traffic.troubles import Sent, Session

# The fixtures of all tests on stores.
__all__ = ["found_program", "named_store", "running_cluster"]
SITE, ZONE = "north", "Europe/Berlin"
AUTHOR = Author("tests", "a test")


@pytest.fixture(name="store")
def planned_store(store_name: str) -> Iterator[Database]:
    """A store with the site `north` in Berlin and its stations A and B."""
    with open_store(store_name) as opened:
        change_site(opened, SITE, Rules(zone=ZONE), AUTHOR)
        with opened.transaction():
            for station in ("A", "B"):
                write_station(opened, station, SITE, AUTHOR)
        yield opened


def write_message(sent: Sent) -> str:
    """The text of a message."""
    return json.dumps([2, "m", sent.action, sent.payload], separators=(",", ":"))


def send(store: Database, station: str, *sessions: Session) -> list[Answer]:
    """Settles the messages of sessions."""
    return settle(
        store,
        [
            Message(station, write_message(one), one.received, "a log")
            for session in sessions
            for one in session
        ],
    )


def run(*words: str) -> "subprocess.CompletedProcess[str]":
    """Runs a command of `ocpp-board`."""
    return subprocess.run(
        [sys.executable, "-m", "ocpp_board", *words], capture_output=True, text=True, check=False
    )


def operate(
    store: Database, word: str, station: str, transaction: str, number: int, at: datetime
) -> Answer:
    """Settles an operator's line."""
    deed = Deed(word, station, transaction, number, "jo", "it was wrong", at, "operator jo")
    return settle(store, [deed])[0]


def read_noon(day: str) -> datetime:
    """Noon of a day, in UTC."""
    return datetime.fromisoformat(day).replace(tzinfo=timezone.utc) + timedelta(hours=12)
