"""Rows by growing, line by line, are those from scratch, whatever comes: readings of both registers, in their order and
out of it, falls, late and repeated events, conflicts, and events that operators void, restore and erase."""

import json
import random
from collections.abc import Iterator
from datetime import datetime, timedelta, timezone

import pytest

from ocpp_board.errors import StoreError
from ocpp_board.ledger.course import Course
from ocpp_board.ledger.engine import change_site, settle
from ocpp_board.ledger.program import Program
from ocpp_board.ledger.rows import CONFLICT, Work, rows_of, work_out
from ocpp_board.records import DEEDS, DELIVER, Line, Rules
from ocpp_board.store.database import Database
from ocpp_board.store.lines import Warm
from ocpp_board.store.plan import write_station
from tests.store.scene import AUTHOR, check, deed, plan, read_all, write_session

FIRST = datetime(2026, 3, 1, tzinfo=timezone.utc)
SCRIPTS, EVENTS = 250, 25
REGISTERS = (None, None, None, "Energy.Active.Import.Register", "Energy.Active.Export.Register")
OTHERS = ("Energy.Active.Import.Interval", "Voltage")


def draw_values(draws: random.Random, at: datetime, level: int) -> Iterator[dict[str, object]]:
    """Meter values of an event at this time, with readings from this level on."""
    for place in range(draws.choice([0, 1, 1, 1, 2])):
        moment = at + timedelta(seconds=draws.choice([0, 0, place, -600, 1]))
        sampled: dict[str, object] = {"value": max(0, level + draws.choice([0, 100, 100, -900]))}
        if measurand := draws.choice([*REGISTERS, draws.choice(OTHERS)]):
            sampled["measurand"] = measurand
        if not draws.randrange(8):
            sampled["signedMeterValue"] = {"signedMeterData": f"<{level}>", "publicKey": str(place)}
        yield {"timestamp": f"{moment:%Y-%m-%dT%H:%M:%SZ}", "sampledValue": [sampled]}


def draw_event(draws: random.Random, number: int, last: int) -> str:
    """The text of an event of this number."""
    step = draws.choice([60, 300, 900]) * number + draws.choice([0, 0, 0, 0, 1, -1_000, 40_000])
    at = FIRST + timedelta(seconds=step)
    kind = "Ended" if number == last else "Updated" if number else "Started"
    payload = {
        "eventType": kind,
        "timestamp": f"{at:%Y-%m-%dT%H:%M:%SZ}",
        "triggerReason": "MeterValuePeriodic",
        "seqNo": number,
        "transactionInfo": {"transactionId": "T\\u0031" if not draws.randrange(9) else "T1"},
        "meterValue": [*draw_values(draws, at, 10_000 + 300 * number)],
    }
    if not draws.randrange(6):
        payload |= {"idToken": {"idToken": f"A{number}", "type": "Local"}, "offline": True}
    return json.dumps([2, str(number), "TransactionEvent", payload])


def draw_lines(draws: random.Random) -> Iterator[Line]:
    """The lines of a transaction: its events, mostly in their order, with what goes wrong among them."""
    first, last = draws.choice([0, 0, 3]), draws.choice([EVENTS, EVENTS - 5])
    numbers = [number for number in range(first, EVENTS) if draws.randrange(15)]
    is_wild = not draws.randrange(4)
    for number in numbers:
        some = [number]
        if not draws.randrange(3 if is_wild else 12):
            some = draws.choice([[draws.choice(numbers)], [number, number], [number + 2, number]])
        for one in some:
            at = FIRST + timedelta(minutes=5 * number + draws.choice([0, 200]))
            yield Line(0, f"{DELIVER}CS-01 {draw_event(draws, one, last)}", at, "", "", "a.log:1")
        if not draws.randrange(2 if is_wild else 25):
            text = f"{draws.choice(DEEDS)} CS-01 T1 {draws.choice(numbers)}"
            yield Line(0, text, None, "jo", "a test", "operator jo")


def draw_rules(draws: random.Random) -> Rules:
    """The rules of a site."""
    period, order = draws.choice([300, 900, 3_600]), draws.choice(["moment", "sequence"])
    return Rules(period, order, draws.choice(["later", "closing", "even"]), most_kw=20)


def test_rows_by_growing(program: Program) -> None:
    """After each line that changes something the rows are those of all lines."""
    grown = begun = 0
    for seed in range(SCRIPTS):
        draws = random.Random(seed)
        rules, stored = draw_rules(draws), list[Line]()
        conflicts = list[str]()
        course: Course | None = None
        for line in draw_lines(draws):
            work = Work("CS-01", "t1", "north", rules, stored, [line], conflicts, course=course)
            (done,) = work_out(program, [work])
            if done.rows is None:
                continue
            stored = [*stored, *done.accepted]
            if done.answers[0].name == CONFLICT and line.text.startswith(DELIVER):
                conflicts = [*dict.fromkeys([*conflicts, line.text])]
            wanted = rows_of(program, stored, rules, "CS-01", "t1", "north", conflicts)
            assert done.rows == wanted, f"seed {seed}, line {len(stored)}"
            grown, begun = grown + (done.course is course), begun + (done.course is not course)
            course = done.course
    assert grown > 4 * SCRIPTS and begun > 4 * SCRIPTS


def test_warm_settling(store: Database) -> None:
    """A process that keeps what it stored leaves what one leaves that reads it each time, also where a database
    transaction fails, where another process writes, and where rules change meanwhile."""
    plan(store)
    lines = [*write_session("CS-01", "T1", 9)]
    settle(store, lines)
    wanted = read_all(store)
    for table in ("line", "part", "finding", "session"):
        store.execute(f"delete from {table}")

    def fail(_: Database) -> None:
        raise StoreError("the disk is full")

    warm = Warm()
    for number, line in enumerate(lines[:6]):
        if number == 3:
            with pytest.raises(StoreError):
                settle(store, [line], also=fail, warm=warm)
        settle(store, [line], warm=warm)
        check(store)
    change_site(store, "north", Rules(period=3_600), AUTHOR)
    settle(store, [lines[6]], warm=warm)
    check(store)
    settle(store, [deed("void", "CS-01", "T1", 2), deed("restore", "CS-01", "T1", 2)])
    change_site(store, "north", Rules(), AUTHOR)
    with store.transaction():
        write_station(store, "CS-01", "north", AUTHOR)
    settle(store, lines[7:], warm=warm)
    check(store)
    found = read_all(store)
    assert found["part"] == wanted["part"] and found["finding"] == wanted["finding"]
