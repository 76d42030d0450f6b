"""Texts of hostile stations: each is settled or refused in both databases, and harms no other message of its batch."""

from collections.abc import Callable
from datetime import datetime, timezone

import pytest

from ocpp_board.ledger.engine import settle
from ocpp_board.ledger.verify import verify
from ocpp_board.records import Message
from ocpp_board.store.database import open_store
from tests.gateway.client import make_event

Make = Callable[..., str]
NOW = datetime(2026, 3, 1, 12, tzinfo=timezone.utc)


@pytest.mark.parametrize(
    ("token", "outcome"),
    [("a\\u0000b", "accepted"), ("\\ud800x", "refused"), ("\\u00e9\\ud83d\\ude00", "accepted")],
    ids=["zero", "half a pair", "others"],
)
def test_escapes(make_store: Make, token: str, outcome: str) -> None:
    """A zero character, half a surrogate pair and other letters, each as an escape, in a token, a reason and an id."""
    texts = [
        make_event("a", 0).replace("ABCD1234", token),
        make_event("a", 1, 2).replace("EVDisconnected", token),
        make_event("a", 2).replace('"a-2"', f'"{token}"'),
    ]
    with open_store(make_store()) as store:
        asked = [Message("CS-0", text, NOW, "a test") for text in texts]
        asked += [Message("CS-1", make_event("b", 0), NOW, "a test")]
        answers = [one.outcome for one in settle(store, asked)]
        assert answers == [outcome] * 3 + ["accepted"]
        assert not verify(store).difference


@pytest.mark.parametrize(
    "text",
    [
        "",
        "\0",
        "[2,\0]",
        "[" * 10_000,
        '[2,"a","TransactionEvent",{"x":"' + "y" * 262_144 + '"}]',
        "\r",
    ],
    ids=["nothing", "zero", "zero in a list", "deep", "long", "carriage return"],
)
def test_texts_that_are_no_messages(make_store: Make, text: str) -> None:
    """They are answered, whatever they are."""
    with open_store(make_store()) as store:
        asked = [Message("CS-0", one, NOW, "a test") for one in (text, make_event("b", 0))]
        answers = settle(store, asked)
        assert answers[0].outcome in ("refused", "fault", "silent")
        assert answers[1].outcome == "accepted"
        assert not verify(store).difference
