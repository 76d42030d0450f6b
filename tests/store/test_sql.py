"""The questions of docs/sql.md: each is answered in both databases as the page says."""

import re
from datetime import date, datetime, timedelta, timezone
from decimal import Decimal
from pathlib import Path
from typing import Any, NamedTuple

import pytest

from ocpp_board.ledger.engine import settle
from ocpp_board.records import Deed
from ocpp_board.store.closing import close_day
from ocpp_board.store.database import Database
from tests.store.scripts import EXAMPLES, SITE_DAY, load_script

PAGE = Path(__file__).parents[2] / "docs" / "sql.md"
SESSION = "6f1c2b7e-93d4-4a52-8e0b-5d2a7c41f9e3"
DAY = date(2026, 3, 2)
QUESTION = re.compile(r"\*\*(.+?)\*\*.*?\n```sql\n(.*?)\n```\n```\n(.*?)\n```", re.DOTALL)


class Question(NamedTuple):
    """A question of the page, its statement, and its answer."""

    text: str
    sql: str
    answer: str


QUESTIONS = [Question(*found) for found in QUESTION.findall(PAGE.read_text("utf-8"))]


@pytest.fixture(name="closed")
def closed_store(store: Database) -> Database:
    """The store of the page: a day that was closed, a void, and the day closed again."""
    for script in (EXAMPLES / "day.script", SITE_DAY):
        load_script(store, script)
    now = datetime(2026, 3, 5, tzinfo=timezone.utc)
    close_day(store, "riverside", DAY, "jo", now)
    void = Deed("void", "RV-FAST-01", SESSION, 4, "jo", "meter exchanged", now, "operator jo")
    assert settle(store, [void])[0].outcome == "accepted"
    close_day(store, "riverside", DAY, "jo", now + timedelta(days=1))
    return store


def write_value(value: Any) -> str:
    """A value as the page writes it."""
    if value is None:
        return ""
    if isinstance(value, datetime):
        return f"{value:%Y-%m-%d %H:%M:%S}"
    if isinstance(value, (float, Decimal)):
        return f"{float(value):g}"
    return str(value)


def test_ten_questions() -> None:
    """The page has ten questions, and each statement has an answer."""
    assert len(QUESTIONS) == 10 == PAGE.read_text("utf-8").count("```sql")


def test_answers(closed: Database) -> None:
    """Each question has its answer."""
    for question in QUESTIONS:
        rows = closed.fetch(question.sql)
        found = "\n".join("|".join(map(write_value, row)) for row in rows)
        assert found == question.answer, question.text


def test_each_view_is_named(store: Database) -> None:
    """The page names views that are there."""
    for name in re.findall(r"`([a-z_]+)`", PAGE.read_text("utf-8").partition("The tables")[0]):
        if name.startswith(("board_", "evse_", "settled_")) or name in (
            "energy",
            "lacking",
            "silent_station",
            "all_finding",
            "refused",
            "session_state",
            "correction",
            "bill",
            "hold",
            "adjusted_session",
        ):
            assert store.fetch(f"select * from {name}") == []
