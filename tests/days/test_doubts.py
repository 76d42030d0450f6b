"""Findings, holds and adjustments beside settled figures and bills, and what it costs to ask for them."""

import re
from datetime import date, timedelta
from pathlib import Path
from typing import Any

import pytest

from ocpp_board.store.closing import close_day
from ocpp_board.store.database import Database
from ocpp_board.store.decisions import adjust, declare_credit, release
from ocpp_board.store.plan import write_station
from ocpp_board.writers.bills import FINDINGS, HOLDS, SESSIONS
from ocpp_board.writers.pages import PageOptions, write_pages
from tests.days.conftest import AUTHOR, SITE, read_noon, send
from tests.traffic.troubles import FIRST, KINDS, event, power, reset, sound

ASKED = {"site": SITE, "begin": FIRST, "end": FIRST + timedelta(days=30), "first_day": 20_513}
WRITTEN = PageOptions(written=FIRST + timedelta(days=90))


def send_troubles(store: Database) -> None:
    """Sessions of each kind of trouble, and two that overlap, twenty of 7 kW and one of 50, and one meter of two."""
    with store.transaction():
        for name in KINDS:
            write_station(store, name, SITE, AUTHOR)
    for name, make in KINDS.items():
        send(store, name, make("t1", FIRST), make("t2", FIRST + timedelta(hours=3)))
    for number in range(21):
        begin, kwh = FIRST + timedelta(hours=number), 50 if number == 20 else 7
        register = 10_000 * number
        session = [event(f"p{number}", 0, "Started", begin, register)]
        session += [
            event(f"p{number}", 1, "Ended", begin + timedelta(minutes=30), register + 500 * kwh)
        ]
        send(store, "B", session)
    half, hour = FIRST + timedelta(minutes=30), FIRST + timedelta(hours=1)
    first = [event("o1", 0, "Started", FIRST, 1_000), event("o1", 1, "Ended", hour, 5_000)]
    second = [event("o2", 0, "Started", half, 3_000), event("o2", 1, "Ended", hour, 5_000)]
    send(store, "A", first, second)


def test_each_session_has_as_many_doubts_as_the_views_have_rows(store: Database) -> None:
    send_troubles(store)
    (held,) = store.fetch(
        "select transaction_id, kind from hold where station = 'power' order by 1 limit 1"
    )
    release(store, "power", held.transaction_id, AUTHOR)
    wanted = dict[tuple[str, str], list[int]]()
    for place, asked in enumerate(("all_finding", "hold")):
        where = "where released_at is null" if asked == "hold" else "where transaction_id <> ''"
        for row in store.fetch(f"select station, transaction_id from {asked} {where}"):
            wanted.setdefault((row.station, row.transaction_id), [0, 0])[place] += 1
    rows = store.fetch("select station, transaction_id, findings, holds from session_doubt")
    found = {(row.station, row.transaction_id): [row.findings, row.holds] for row in rows}
    assert {key: some for key, some in found.items() if any(some)} == wanted
    kinds = {row.kind for row in store.fetch("select kind from all_finding")}
    assert {"sessions overlap", "more power than before", "refused messages wait"} <= kinds


@pytest.mark.parametrize("store_name", ["sqlite"], indirect=True)
@pytest.mark.parametrize(
    ("asked", "values"),
    [
        (SESSIONS, ASKED),
        (FINDINGS, ASKED),
        (HOLDS, ASKED),
        ("select * from bill where station = 'A' and transaction_id = 't1'", {}),
        (f"select * from settled_session where site = '{SITE}' and closing = 1", {}),
    ],
)
def test_no_table_is_walked_for_some_sessions(
    store: Database, asked: str, values: dict[str, Any]
) -> None:
    """Each step finds rows by an index: no other year is read, and no other session of a station."""
    steps = [row.detail for row in store.fetch(f"explain query plan {asked}", **values)]
    made = {
        word for step in steps for word in re.findall(r"^(?:CO-ROUTINE|MATERIALIZE) (\S+)", step)
    }
    walked = {word for step in steps for word in re.findall(r"^SCAN (\S+)$", step)} - made
    assert not walked, "\n".join(steps)
    of_sessions = [step for step in steps if "SEARCH" in step and "USING" not in step]
    assert not of_sessions


def test_settled_sessions_carry_what_is_doubtful(store: Database, tmp_path: Path) -> None:
    send(store, "A", power("t1", FIRST), reset("t2", FIRST + timedelta(hours=3)))
    send(store, "B", sound("t3", FIRST))
    close_day(store, SITE, date(2026, 3, 1), "jo", read_noon("2026-03-03"))
    adjust(store, declare_credit(store, "A", "t2", 10_000_000, 0), AUTHOR)
    rows = store.fetch("select * from settled_session order by transaction_id")
    first, second, third = rows
    assert (first.findings, first.holds, first.energy_measured) == (1, 1, "yes")
    assert (second.adjustments, second.adjusted_import) == (1, 10_000_000)
    assert second.import_sum == second.up - second.down + 10_000_000
    assert (third.findings, third.holds, third.adjustments, third.import_sum) == (0, 0, 0, third.up)
    write_pages(store, tmp_path, WRITTEN)
    page = (tmp_path / SITE / "closing-1.html").read_text()
    rows = re.findall(r"session-(t\d)\.html(.*?)</tr>", page, re.DOTALL)
    cells = {name: re.findall(r"<td[^>]*>(.*?)</td>", text)[1:] for name, text in rows}
    assert cells["t1"][1:6] == ["1,000.750", "yes", "–", "1", "1"]
    assert cells["t2"][2:6] == ["yes", "9.995", "2", "1"]
    assert cells["t3"] == ["messages complete", "0.750", "yes", "–", "0", "0", "4"]
    release(store, "A", "t1", AUTHOR)
    assert [
        row.holds
        for row in store.fetch("select holds from settled_session order by transaction_id")
    ][0] == 0
