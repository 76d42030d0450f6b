"""Quotas against hostile stations: each message above one is refused by its name, counted and listed."""

import asyncio
import json
import time
import urllib.request
from collections.abc import Callable

import pytest

from ocpp_board.errors import InputError
from ocpp_board.gateway.pace import BURST, Pace
from ocpp_board.ledger import quotas
from ocpp_board.ledger.engine import settle, take_strays
from ocpp_board.records import Message
from ocpp_board.store.database import open_store
from ocpp_board.store.plan import Author, write_station
from ocpp_board.store.stations import write_quota
from tests.cluster import GatewayPart, find_port
from tests.gateway.client import ask, connect_station, make_event, make_reply

Make = Callable[..., str]
AUTHOR = Author("jo", "a trial")


def count_rows(name: str, table: str) -> int:
    """How many rows a table has."""
    with open_store(name) as store:
        (row,) = store.fetch(f"select count(*) as n from {table}")
    return int(row.n)


def list_refused(name: str) -> list[tuple[str, int]]:
    """The causes of refused messages, with how often."""
    with open_store(name) as store:
        asked = "select cause, cast(sum(times) as bigint) as n from refusal group by cause order by cause"
        return [(row.cause, row.n) for row in store.fetch(asked)]


def read_reply(reply: str | None) -> list[object]:
    """A reply that is an error."""
    found: list[object] = json.loads(reply or "null")
    return found[:4]


def test_open_transactions(make_store: Make) -> None:
    """One more open transaction than the quota is refused; once one ends, the next one may begin."""
    name = make_store()
    with open_store(name) as store:
        write_quota(store, "depot", AUTHOR, {"most_open": 2})

        def send(
            transaction: str, number: int, station: str = "CS-0"
        ) -> tuple[str, str, str | None]:
            text = make_event(transaction, number, 2)
            (one,) = settle(store, [Message(station, text, None, "a test")])
            return one.outcome, one.name, one.reply

        assert send("a", 0)[0] == send("b", 0)[0] == "accepted"
        outcome, cause, reply = send("c", 0)
        assert (outcome, cause) == ("refused", "TooManyOpen")
        assert read_reply(reply) == [4, "c-0", "InternalError", "TooManyOpen"]
        assert send("c", 0, "CS-1")[0] == "accepted"
        assert send("a", 0)[0] == "repeat"
        assert send("a", 1)[0] == "accepted"
        assert send("c", 0)[0] == "accepted"
        # Of several in one batch, those that there is room for.
        texts = [make_event(one, 0, 2) for one in ("d", "e", "f", "d")]
        answers = settle(store, [Message("CS-2", text, None, "a test") for text in texts])
        assert [one.outcome for one in answers] == ["accepted", "accepted", "refused", "repeat"]
    assert list_refused(name) == [("TooManyOpen", 2)]
    assert count_rows(name, "line") == 7


def test_bytes_a_day(make_store: Make) -> None:
    """What goes beyond a day's bytes is refused; other stations and ready replies are not."""
    name = make_store()
    size = len(make_event("a", 1))
    with open_store(name) as store:
        write_quota(store, "depot", AUTHOR, {"most_bytes": 5 * size})
        texts = [make_event("a", number) for number in range(1, 9)]
        answers = settle(store, [Message("CS-0", text, None, "a test") for text in texts])
        assert [one.outcome for one in answers] == ["accepted"] * 5 + ["refused"] * 3
        assert answers[-1].name == "TooManyBytes"
        assert read_reply(answers[-1].reply)[3] == "TooManyBytes"
        (again,) = settle(store, [Message("CS-0", make_event("b", 1), None, "a test")])
        assert again.name == "TooManyBytes"
        (beat,) = settle(store, [Message("CS-0", '[2,"h","Heartbeat",{}]', None, "a test")])
        assert beat.outcome == "reply"
        (other,) = settle(store, [Message("CS-1", texts[0], None, "a test")])
        assert other.outcome == "accepted"
        rows = store.fetch("select station, bytes, messages from usage order by station")
        assert [tuple(row) for row in rows] == [("CS-0", 5 * size, 5), ("CS-1", size, 1)]
        write_quota(store, "depot", AUTHOR, {"most_bytes": 0})
        (again,) = settle(store, [Message("CS-0", make_event("b", 1), None, "a test")])
        assert again.outcome == "accepted"
    assert list_refused(name) == [("TooManyBytes", 4)]


def test_events_and_readings_of_a_transaction(make_store: Make) -> None:
    """The limits of the site's rules, by the program."""
    name = make_store()
    with open_store(name) as store:
        store.execute("update site set events = 3, readings = 2")
        texts = [make_event("a", number) for number in range(4)]
        answers = [settle(store, [Message("CS-0", text, None, "a test")])[0] for text in texts]
        assert [one.name for one in answers] == ["", "", "ReadingsFull", "ReadingsFull"]
        store.execute("update site set readings = 99")
        answers = [settle(store, [Message("CS-0", text, None, "a test")])[0] for text in texts]
        assert [one.outcome for one in answers] == ["repeat", "repeat", "accepted", "refused"]
        assert answers[-1].name == "EventsFull"


def test_a_gateway_counts_what_it_refuses(make_store: Make) -> None:
    """By name, at /metrics."""
    name, port = make_store(), find_port()
    with open_store(name) as store:
        write_quota(store, "depot", AUTHOR, {"most_open": 1})

    async def play(url: str) -> None:
        station = await connect_station(url, "CS-0")
        assert await ask(station, make_event("a", 0)) == make_reply("a", 0)
        assert read_reply(await ask(station, make_event("b", 0)))[3] == "TooManyOpen"

    with GatewayPart(name, "--metrics", port) as gateway:
        asyncio.run(play(gateway.url))
        with urllib.request.urlopen(f"http://127.0.0.1:{port}/metrics") as answer:
            text = answer.read().decode()
    assert 'ocpp_board_gateway_refused_total{name="TooManyOpen"} 1.0' in text
    assert 'ocpp_board_gateway_messages_total{outcome="accepted"} 1.0' in text


def test_messages_a_second_at_a_gateway(make_store: Make) -> None:
    """A minute's worth at once; what is above is refused by its name, listed and counted, and another station is not
    concerned. A quota that changes counts for connections that are open."""
    name, port = make_store(), find_port()
    with open_store(name) as store:
        write_quota(store, "depot", AUTHOR, {"most_rate": 1})

    async def play(url: str) -> int:
        began, refused = time.monotonic(), 0
        for number in range(BURST + 20):
            # By another connection it is the same station.
            if number % 20 == 0:
                station = await connect_station(url, "CS-0")
            reply = await ask(station, make_event("a", number))
            if reply != make_reply("a", number):
                assert read_reply(reply) == [4, f"a-{number}", "InternalError", "TooManyMessages"]
                refused += 1
        seconds = time.monotonic() - began
        assert 20 - seconds - 1 < refused <= 20
        other = await connect_station(url, "CS-1")
        assert await ask(other, make_event("b", 0)) == make_reply("b", 0)
        with open_store(name) as store:
            write_quota(store, "depot", AUTHOR, {"most_rate": 0})
        await asyncio.sleep(2)
        for _ in range(5):
            assert (await ask(station, '[2,"h","Heartbeat",{}]')).startswith('[3,"h"')
        return refused

    with GatewayPart(name, "--metrics", port) as gateway:
        refused = asyncio.run(play(gateway.url))
        assert refused, "the machine is too slow: there was no more than one message a second"
        with urllib.request.urlopen(f"http://127.0.0.1:{port}/metrics") as answer:
            text = answer.read().decode()
    assert list_refused(name) == [("TooManyMessages", refused)]
    assert f'ocpp_board_gateway_refused_total{{name="TooManyMessages"}} {refused}.0' in text
    with open_store(name) as store:
        (row,) = store.fetch("select count(*) as n from line where station = 'CS-0'")
    assert row.n == BURST + 20 - refused


def test_what_a_pace_has_room_for() -> None:
    """A minute's worth at once, then so many a second; who waits a minute has a minute's worth again."""
    pace = Pace()
    assert [pace.find_quota(2, 1000.0) for _ in range(121)] == [""] * 120 + ["TooManyMessages"]
    assert pace.find_quota(2, 1000.4) == "TooManyMessages"
    assert pace.find_quota(2, 1000.5) == ""
    assert pace.find_quota(2, 1000.5) == "TooManyMessages"
    assert pace.find_quota(0, 1000.5) == ""
    assert not pace.is_over(1010.0) and pace.is_over(1061.0)
    assert [pace.find_quota(2, 1061.0) for _ in range(121)].count("") == 120


@pytest.mark.parametrize(
    "quota", [{"most_rate": -1}, {"most_open": 2**31}, {"most_bytes": 2**63}], ids=str
)
def test_quotas_that_can_not_be(make_store: Make, quota: dict[str, int]) -> None:
    """They are refused, and nothing changed."""
    with open_store(make_store()) as store:
        with pytest.raises(InputError, match="0 for any number"):
            write_quota(store, "depot", AUTHOR, quota)
        assert not store.fetch("select id from change")


def test_texts_of_a_station_that_no_site_has(
    make_store: Make, monkeypatch: pytest.MonkeyPatch
) -> None:
    """So many are kept; further ones are refused by their name, but for those that came before."""
    monkeypatch.setattr(quotas, "MOST_STRAYS", 3)
    name = make_store()
    with open_store(name) as store:

        def send(numbers: list[int], station: str = "nobody") -> list[str]:
            texts = [make_event("a", number) for number in numbers]
            answers = settle(store, [Message(station, text, None, "a test") for text in texts])
            return [one.name if one.outcome == "refused" else one.outcome for one in answers]

        assert send([0, 1]) == ["stray"] * 2
        assert send([0, 2, 3, 2, 4]) == [
            "stray",
            "stray",
            "TooManyStrays",
            "stray",
            "TooManyStrays",
        ]
        assert send([3], "another") == ["stray"]
        assert send([1, 3]) == ["stray", "TooManyStrays"]
        assert list_refused(name) == [("TooManyStrays", 3)]
        with store.transaction():
            write_station(store, "nobody", "depot", AUTHOR)
        assert [one.outcome for one in take_strays(store, ["nobody"])] == ["accepted"] * 3
        assert send([3]) == ["accepted"]
