"""Closings: a month with late messages, voids of settled days and corrections, on both databases."""

import csv
import io
import multiprocessing
import os
import signal
import time
from datetime import date, datetime, timedelta, timezone

import pytest

from ocpp_board.commands.corrections import list_rows
from ocpp_board.errors import InputError, UsageError
from ocpp_board.ledger.answers import AnswerReader, BoardPart
from ocpp_board.ledger.engine import change_site
from ocpp_board.ledger.program import find_program
from ocpp_board.records import Rules
from ocpp_board.store import closing
from ocpp_board.store.closing import Closing, close_day, end_day
from ocpp_board.store.database import Database, open_store
from tests.days.conftest import AUTHOR, SITE, ZONE, operate, read_noon, run, send
from tests.traffic.troubles import STEP, Session, event, sound

Figures = dict[tuple[str, datetime], tuple[int, ...]]
SETTLED = "select station, starts, up, down, export_up, export_down from settled_period"


def replay(store: Database) -> dict[str, BoardPart]:
    """The stations' boards by one whole script of all lines."""
    lines = [f"station {SITE} A", f"station {SITE} B"]
    lines += [f"period {SITE} 900", f"order {SITE} moment", f"settle {SITE} even"]
    rows = store.fetch("select line from line order by station, transaction_id, number")
    lines += [row.line for row in rows] + [f"board {SITE}"]
    reader = AnswerReader(find_program().answer("\n".join([*lines, ""]).encode()))
    assert all(one.startswith("accepted ") for one in reader.read_some(len(rows)))
    return reader.read_board().stations


def expect(store: Database, day: date) -> Figures:
    """What whole scripts say of the stations' periods up to the end of a day."""
    until = end_day(day, ZONE)
    return {
        (station, at): tuple(flow)
        for station, part in replay(store).items()
        for start, flow in part.periods.items()
        if (at := datetime.fromtimestamp(start, timezone.utc)) < until
    }


def read_settled(store: Database) -> Figures:
    """What is settled of the stations' periods."""
    return {(row.station, row.starts): tuple(row[2:]) for row in store.fetch(SETTLED)}


def close(store: Database, day: str) -> Closing:
    """Closes a day at the next noon, and compares what is settled with a replay of that moment."""
    now = read_noon(day) + timedelta(days=1)
    done = close_day(store, SITE, date.fromisoformat(day), "jo", now)
    assert read_settled(store) == expect(store, date.fromisoformat(day))
    return done


def morning(day: int) -> datetime:
    """Eight o'clock of a day in March, UTC."""
    return datetime(2026, 3, day, 8, tzinfo=timezone.utc)


def find_state(store: Database, transaction: str) -> str:
    """The state of a session."""
    rows = store.fetch(
        "select state from session_state where transaction_id = :name", name=transaction
    )
    return str(rows[0].state)


def test_a_month_ends_with_the_figures_of_each_closing(store: Database) -> None:
    whole = {day: sound(f"t{day}", morning(day)) for day in range(1, 6)}
    late = whole[1].pop(2)
    late.payload["meterValue"][0]["sampledValue"][0]["value"] += 100
    for station in ("A", "B"):
        send(store, station, whole[1])
    assert close(store, "2026-03-01").corrections == 0
    assert find_state(store, "t1") == "provisional"

    # A late message of a settled day, and a day that was left out.
    send(store, "A", [late])
    for day in (2, 3):
        send(store, "A", whole[day])
    assert expect(store, date(2026, 3, 1)) != read_settled(store)
    done = close(store, "2026-03-03")
    assert (done.number, done.corrections) == (2, 2)
    assert [
        row.state
        for row in store.fetch("select state from session_state order by station, transaction_id")
    ] == ["settled", "settled", "settled", "provisional"]

    # A void of a settled day.
    assert operate(store, "void", "A", "t2", 3, morning(4)).outcome == "accepted"
    send(store, "B", whole[4])
    assert find_state(store, "t2") == "provisional"
    assert close(store, "2026-03-04").corrections > 0
    assert find_state(store, "t2") == "provisional"
    assert operate(store, "restore", "A", "t2", 3, morning(5)).outcome == "accepted"
    send(store, "B", whole[5])
    assert close(store, "2026-03-05").corrections > 0
    assert find_state(store, "t2") == "settled"

    # A session that nobody sent before, of the first day.
    send(store, "B", sound("forgotten", morning(1) + timedelta(hours=4)))
    done = close(store, "2026-03-05")
    assert done.corrections == done.periods > 0
    corrections = store.fetch("select * from correction order by closing, station, starts")
    first = [row for row in corrections if row.closing == 2]
    assert {(row.transaction_id, row.first_line, row.last_line) for row in first} == {("t1", 4, 4)}
    assert {(row.first_line, row.last_line) for row in corrections if row.closing == 3} == {(5, 5)}
    assert {(row.first_line, row.last_line) for row in corrections if row.closing == 5} == {(1, 4)}


def test_closing_again_changes_nothing(store: Database) -> None:
    send(store, "A", sound("t1", morning(1)))
    first = close(store, "2026-03-01")
    before = [
        store.fetch(f"select * from {name}")
        for name in ("closing", "closed_part", "closed_session")
    ]
    again = close(store, "2026-03-01")
    assert (first.number, again.number) == (1, None)
    assert before == [
        store.fetch(f"select * from {name}")
        for name in ("closing", "closed_part", "closed_session")
    ]
    # A day before the last closed one is closed with that.
    send(store, "A", sound("t2", morning(1)))
    done = close_day(store, SITE, date(2026, 2, 27), "jo", read_noon("2026-03-02"))
    assert (done.number, done.day) == (2, date(2026, 3, 1))
    assert read_settled(store) == expect(store, date(2026, 3, 1))


def test_a_session_over_midnight_is_settled_with_its_end(store: Database) -> None:
    begin = datetime(2026, 3, 1, 22, 45, tzinfo=timezone.utc)
    send(store, "A", sound("night", begin))
    close(store, "2026-03-01")
    assert {row.starts for row in store.fetch("select starts from settled_period")} == {begin}
    assert not store.fetch("select * from settled_session")
    assert close(store, "2026-03-02").corrections == 0
    (row,) = store.fetch("select * from settled_session")
    assert (row.settled, row.net, row.day) == ("complete", 750_000, date(2026, 3, 2))


def test_a_voided_session_leaves_its_periods(store: Database) -> None:
    session = [
        event("t1", 0, "Started", morning(1), 1_000),
        event("t1", 1, "Ended", morning(1) + STEP, 2_000),
    ]
    send(store, "A", session)
    close(store, "2026-03-01")
    for number in (0, 1):
        operate(store, "void", "A", "t1", number, morning(2))
    assert close(store, "2026-03-01").corrections == 1
    assert read_settled(store) == {}
    (row,) = store.fetch("select net, parts from correction")
    assert tuple(row) == (-1_000_000, -1)


def test_rules_are_fixed_once_a_day_is_settled(store: Database) -> None:
    send(store, "A", sound("t1", morning(1)))
    change_site(store, SITE, Rules(zone=ZONE, period=3600), AUTHOR)
    close_day(store, SITE, date(2026, 3, 1), "jo", read_noon("2026-03-02"))
    (row,) = store.fetch("select first_settled_day from site")
    assert row.first_settled_day == date(2026, 3, 1)
    with pytest.raises(InputError, match="fixed, since its first day is settled"):
        change_site(store, SITE, Rules(zone=ZONE), AUTHOR)


def test_mistakes_have_named_errors(store: Database) -> None:
    with pytest.raises(UsageError, match="no site 'south'"):
        close_day(store, "south", None, "jo")
    with pytest.raises(UsageError, match="2026-03-01 is not over at north"):
        close_day(
            store, SITE, date(2026, 3, 1), "jo", datetime(2026, 3, 1, 22, 59, tzinfo=timezone.utc)
        )
    assert not store.fetch("select * from closing")
    # In Berlin the day ends an hour before.
    at = datetime(2026, 3, 1, 23, 0, tzinfo=timezone.utc)
    assert close_day(store, SITE, None, "jo", at).day == date(2026, 3, 1)


def close_once(store_name: str, ready: "multiprocessing.synchronize.Barrier") -> None:
    """Closes a day at once with other processes."""
    with open_store(store_name) as store:
        ready.wait()
        close_day(store, SITE, date(2026, 3, 1), "jo", read_noon("2026-03-02"))


def test_two_closings_at_once_close_once(store: Database, store_name: str) -> None:
    send(store, "A", *(sound(f"t{number}", morning(1) + number * STEP) for number in range(40)))
    context = multiprocessing.get_context("spawn")
    ready = context.Barrier(3)
    closings = [context.Process(target=close_once, args=(store_name, ready)) for _ in range(3)]
    for one in closings:
        one.start()
    for one in closings:
        one.join()
    assert [one.exitcode for one in closings] == [0, 0, 0]
    assert len(store.fetch("select * from closing")) == 1
    assert read_settled(store) == expect(store, date(2026, 3, 1))


def close_and_die(store_name: str) -> None:
    """Dies by a kill between the statements of a closing."""
    count = closing.COUNTS
    with open_store(store_name) as store:
        fetch = store.fetch

        def die(statement: str, **values: object) -> list[object]:
            if statement == count:
                os.kill(os.getpid(), signal.SIGKILL)
            return fetch(statement, **values)

        setattr(store, "fetch", die)
        close_day(store, SITE, date(2026, 3, 1), "jo", read_noon("2026-03-02"))


def test_a_closing_that_is_killed_leaves_nothing(store: Database, store_name: str) -> None:
    send(store, "A", sound("t1", morning(1)))
    one = multiprocessing.get_context("spawn").Process(target=close_and_die, args=(store_name,))
    one.start()
    one.join()
    assert one.exitcode == -signal.SIGKILL
    for table in ("closing", "closed_part", "closed_session"):
        assert not store.fetch(f"select * from {table}")
    assert not store.fetch("select 1 as one from site where first_settled_day is not null")
    assert close(store, "2026-03-01").number == 1


def write_many(store_name: str, ready: "multiprocessing.synchronize.Barrier") -> None:
    """Settles sessions while another process closes."""
    with open_store(store_name) as store:
        ready.wait()
        for number in range(8):
            send(store, "A", sound(f"t{number}", morning(1) + number * timedelta(minutes=3)))


def test_what_comes_during_closings_is_settled_once(store: Database, store_name: str) -> None:
    context = multiprocessing.get_context("spawn")
    ready = context.Barrier(2)
    writer = context.Process(target=write_many, args=(store_name, ready))
    writer.start()
    ready.wait()
    end = time.monotonic() + 30
    while writer.is_alive() and time.monotonic() < end:
        close_day(store, SITE, date(2026, 3, 1), "jo", read_noon("2026-03-02"))
    writer.join()
    close(store, "2026-03-01")
    sums = store.fetch("select cast(sum(up) as bigint) as up from closed_part")
    assert sums[0].up == 8 * 750_000


def test_corrections_name_their_lines(store: Database) -> None:
    session = sound("t1", morning(1))
    send(store, "A", session)
    close(store, "2026-03-01")
    operate(store, "void", "A", "t1", 3, datetime(2026, 3, 2, 9, tzinfo=timezone.utc))
    close(store, "2026-03-02")
    heads, *rows = list_rows(store, SITE, date(2026, 3, 3))
    found = [dict(zip(heads, row, strict=True)) for row in rows]
    assert {row["lines"] for row in found} == {
        "5: void of event 3 at 2026-03-02T09:00:00Z by jo: it was wrong"
    }
    assert sum(float(row["net_kwh"]) for row in found) == pytest.approx(-0.25)
    assert found[0]["period_start_local"] == "2026-03-01 09:15"
    assert {(row["figure"], row["findings"], row["holds"]) for row in found} == {
        ("measured", "0", "0")
    }
    assert len(list(list_rows(store, SITE, date(2026, 3, 4)))) == 1


def test_the_commands(store: Database, store_name: str) -> None:
    late: Session = sound("t1", morning(1))
    send(store, "A", late[:3])
    words = [
        "close-day",
        "--store",
        store_name,
        "--site",
        SITE,
        "--who",
        "jo",
        "--day",
        "2026-03-01",
    ]
    assert "closing 1 of north up to 2026-03-01: 1 sessions" in run(*words).stdout
    assert "nothing changed since" in run(*words).stdout
    send(store, "A", late[3:])
    assert run(*words).returncode == 0
    made = run("corrections", "--store", store_name, "--site", SITE, "--since", "2026-01-01")
    rows = list(csv.DictReader(io.StringIO(made.stdout)))
    assert [row["imported_kwh"] for row in rows] == ["0.25"]


@pytest.mark.parametrize(
    ("words", "said"),
    [
        (["close-day", "--site", "south", "--who", "jo"], "no site 'south'"),
        (["close-day", "--site", SITE, "--who", "jo", "--day", "2026-02-30"], "no day such as"),
        (
            ["close-day", "--site", SITE, "--who", "jo", "--day", "2090-01-01"],
            "is not over at north",
        ),
        (["corrections", "--site", "south", "--since", "2026-03-01"], "no site 'south'"),
        (["corrections", "--site", SITE, "--since", "March"], "no day such as"),
    ],
)
def test_wrong_words_have_a_named_error(
    store: Database, store_name: str, words: list[str], said: str
) -> None:
    made = run(words[0], "--store", store_name, *words[1:])
    assert (made.returncode, made.stdout) == (2, "")
    assert said in made.stderr
