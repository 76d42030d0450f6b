"""Batches: what is settled at once, and what becomes of one that can't be settled as it is."""

import asyncio
import time
from collections.abc import Callable, Sequence
from concurrent.futures import ThreadPoolExecutor
from datetime import datetime, timezone

import pytest

from ocpp_board.errors import StoreAway
from ocpp_board.gateway import settler
from ocpp_board.gateway.lanes import Fate, Lanes, Request, Settled, TooLate
from ocpp_board.gateway.settler import Desk
from ocpp_board.ledger.engine import settle
from ocpp_board.records import Message
from ocpp_board.store.database import open_store
from tests.gateway.client import make_event, make_reply

Make = Callable[..., str]
NOW = datetime(2026, 3, 1, 12, tzinfo=timezone.utc)


class FakeSettler:
    """A settling process that has time for so many messages at once, and fails at one text."""

    def __init__(self, most: int) -> None:
        self.most, self.sizes = most, list[int]()

    async def settle(self, requests: Sequence[Request]) -> Settled:
        """What became of a batch."""
        self.sizes.append(len(requests))
        await asyncio.sleep(0)
        if len(requests) > self.most:
            return Settled(Fate.LATE, [], "it takes too long")
        if any(one.text == "bad" for one in requests):
            return Settled(Fate.FAILED, [], "one of them is bad")
        return Settled(Fate.ANSWERED, [("reply", "", f"to {one.text}") for one in requests])

    def kill(self) -> None:
        """Nothing is there."""


def play(most: int, texts: list[str]) -> tuple[FakeSettler, list[str | None], Lanes]:
    """Has texts settled in one lane, and gives the replies; None where one was given up."""
    lanes, fake = Lanes([""], 1, 1.0), FakeSettler(most)
    lanes.lanes[0].settler = fake  # type: ignore[assignment]

    async def ask(text: str) -> str | None:
        try:
            return await lanes.ask("CS-0", text, "a test")
        except TooLate:
            return None

    async def run() -> list[str | None]:
        job = asyncio.create_task(lanes.run())
        replies = await asyncio.gather(*map(ask, texts))
        job.cancel()
        await asyncio.gather(job, return_exceptions=True)
        return replies

    return fake, asyncio.run(run()), lanes


def test_what_comes_while_a_batch_is_settled_is_the_next_one() -> None:
    """All that waits is settled at once, up to the size of a batch."""
    fake, replies, _ = play(1_000, [str(k) for k in range(600)])
    assert replies == [f"to {k}" for k in range(600)]
    assert fake.sizes == [250, 250, 100]


def test_a_batch_without_an_answer_in_time_is_settled_in_smaller_ones() -> None:
    """So that many long transactions at once can't stop a lane for ever; later batches grow again."""
    fake, replies, _ = play(20, [str(k) for k in range(300)])
    assert replies == [f"to {k}" for k in range(300)]
    assert fake.sizes[:4] == [250, 62, 15, 30]


def test_a_message_that_fails_stops_no_other_one() -> None:
    """It gets no reply, is counted, and its batch is settled message by message."""
    texts = ["a", "b", "bad", "c"]
    fake, replies, lanes = play(1_000, texts)
    assert replies == ["to a", "to b", None, "to c"]
    assert lanes.counts["failed"] == 1
    assert fake.sizes[:2] == [4, 1]


def test_a_process_that_is_stopped_lets_go_of_what_it_holds(
    make_fleet: Make, monkeypatch: pytest.MonkeyPatch
) -> None:
    """PostgreSQL ends its transaction, so another process settles the same; the first one then finds the store away,
    and settles again."""
    monkeypatch.setattr(settler, "SILENT", 1.0)
    name = make_fleet()
    first, asked = Desk(name), [Message("CS-0", make_event("t", 0), NOW, "a test")]

    def settle_beside() -> str | None:
        with open_store(name) as other:
            return settle(other, asked)[0].reply

    with ThreadPoolExecutor(1) as threads:
        store = first.open_store()
        with pytest.raises(StoreAway):
            with store.transaction():
                store.execute(
                    "insert into session (station, transaction_id, site) values ('CS-0', 't', 'depot')"
                )
                beside = threads.submit(settle_beside)
                time.sleep(0.5)
                assert not beside.done()
                assert beside.result(20) == make_reply("t", 0)
                store.fetch("select lines from session where station = 'CS-0'")
        store.close()
    monkeypatch.undo()
    assert [one.outcome for one in first.settle(asked)] == ["repeat"]
