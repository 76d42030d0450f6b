"""A drawn month: late messages, voids and corrections of settled days. Each closing has the figures of its day."""

import random
from collections import defaultdict
from datetime import date, datetime, timedelta, timezone

import pytest

from ocpp_board.ledger.corrections import Correction, correct, prepare
from ocpp_board.ledger.engine import settle
from ocpp_board.ledger.program import find_program
from ocpp_board.ledger.verify import verify
from ocpp_board.records import Asked, Deed, Message
from ocpp_board.store.closing import close_day
from ocpp_board.store.database import Database
from tests.days.conftest import AUTHOR, SITE, read_noon, write_message
from tests.days.test_closing import expect, read_settled
from tests.traffic.troubles import Sent, event

DAYS = 12


def draw_session(draw: random.Random, name: str, begin: datetime) -> list[Sent]:
    """A session of 3 to 8 events, with readings that rise unevenly, at one of two EVSEs."""
    count, wh, evse = draw.randint(3, 8), draw.randint(0, 9_000), draw.randint(1, 2)
    kinds = ["Started", *(count - 2) * ["Updated"], "Ended"]
    session, at = list[Sent](), begin
    for number, kind in enumerate(kinds):
        one = event(name, number, kind, at, wh)
        one.payload["evse"] = {"id": evse}
        session.append(one)
        at, wh = at + timedelta(minutes=draw.randint(4, 50)), wh + draw.randint(0, 3_000)
    return session


def draw_messages(draw: random.Random) -> dict[int, list[Asked]]:
    """The messages of some days by the day on which they come: some come days later."""
    found = defaultdict[int, list[Asked]](list)
    for day in range(DAYS):
        for number in range(4):
            begin = datetime(2026, 3, 1 + day, draw.randint(0, 23), tzinfo=timezone.utc)
            station, name = "AB"[number % 2], f"t{day}-{number}"
            for one in draw_session(draw, name, begin):
                late = draw.randint(1, 5) if draw.random() < 0.1 else 0
                received = one.received + timedelta(days=late)
                text = write_message(one)
                found[day + late].append(Message(station, text, received, "a log"))
    return found


def draw_deeds(draw: random.Random, store: Database, day: int) -> list[Asked]:
    """Voids and restorations of events of any day before."""
    rows = store.fetch(
        "select station, transaction_id, last_number from session where events > 0 "
        "order by station, transaction_id"
    )
    at = datetime(2026, 3, 1 + day, 23, tzinfo=timezone.utc)
    return [
        Deed(
            draw.choice(["void", "void", "restore"]),
            row.station,
            row.transaction_id,
            draw.randint(0, row.last_number),
            "jo",
            "drawn",
            at,
            f"drawn {place}",
        )
        for place, row in enumerate(draw.sample(rows, min(3, len(rows))))
    ]


def correct_one(draw: random.Random, store: Database) -> None:
    """Corrects the last reading of a session that is complete."""
    rows = store.fetch(
        "select station, transaction_id, last_number, last_register from session where complete "
        "order by station, transaction_id"
    )
    row = draw.choice(rows)
    mwh = row.last_register + 1_000 * draw.randint(0, 5_000)
    wanted = Correction(row.station, row.transaction_id, row.last_number, 0, mwh)
    correct(store, prepare(store, find_program(), [wanted], AUTHOR))


@pytest.mark.parametrize("seed", [1, 2])
def test_each_closing_has_the_figures_of_its_day(store: Database, seed: int) -> None:
    draw = random.Random(seed)
    messages, corrections = draw_messages(draw), 0
    for day in range(DAYS):
        settle(store, messages[day])
        settle(store, draw_deeds(draw, store, day))
        if day % 3 == 2:
            correct_one(draw, store)
        if draw.random() < 0.2:
            continue
        closed = date(2026, 3, 1 + day)
        now = read_noon(f"{closed}") + timedelta(days=1)
        corrections += close_day(store, SITE, closed, "jo", now).corrections
        assert read_settled(store) == expect(store, closed)
        assert close_day(store, SITE, closed, "jo", now).number is None
    last = date(2026, 3, DAYS + 1)
    settle(store, [one for day in messages if day >= DAYS for one in messages[day]])
    close_day(store, SITE, last, "jo", read_noon("2026-03-20"))
    assert read_settled(store) == expect(store, last)
    assert verify(store).difference == ""
    # What corrections say adds up to what changed, and sessions have the sums of their periods.
    assert corrections > 10
    sums = "select cast(sum(up) as bigint) as up, cast(sum(down) as bigint) as down from {}"
    assert store.fetch(sums.format("settled_period")) == store.fetch(sums.format("session"))
    first = store.fetch(
        sums.format(
            "closed_part where not exists (select 1 from correction c where "
            "c.station = closed_part.station and c.transaction_id = closed_part.transaction_id and "
            "c.starts = closed_part.starts and c.closing = closed_part.closing)"
        )
    )[0]
    changed = store.fetch(sums.format("correction"))[0]
    whole = store.fetch(sums.format("session"))[0]
    assert (first.up + changed.up, first.down + changed.down) == tuple(whole)
