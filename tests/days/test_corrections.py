"""Corrected readings, settlement files by metering point, and the list of what lacks messages."""

import csv
import io
from datetime import date, datetime, timedelta, timezone
from pathlib import Path

import pytest

from ocpp_board.commands.correct import read_table
from ocpp_board.commands.lacking import list_silent
from ocpp_board.errors import InputError, UsageError
from ocpp_board.ledger.corrections import Correction, correct, describe, prepare
from ocpp_board.ledger.program import find_program
from ocpp_board.ledger.verify import verify
from ocpp_board.messages.corrected import correct_reading
from ocpp_board.store.closing import close_day
from ocpp_board.store.database import Database
from ocpp_board.store.decisions import adjust, declare_credit
from ocpp_board.writers.settlement import list_settlement, round_together, write_points
from tests.days.conftest import AUTHOR, SITE, read_noon, run, send
from tests.traffic.troubles import EXPORT, FIRST, STEP, event, power, reset, sound

EVENT = (
    '[2,"m","TransactionEvent",{"seqNo":1.0,"meterValue":[{"timestamp":"t","sampledValue":[%s]}]}]'
)


@pytest.mark.parametrize(
    ("value", "mwh", "written"),
    [
        ('{"value":1}', 1_500_000, '{"value":1500}'),
        ('{"value":1}', 1_500, '{"value":1.5}'),
        (
            '{"value":1e3,"unitOfMeasure":{"unit":"kWh"}}',
            1_500,
            '{"value":0.0015,"unitOfMeasure":{"unit":"kWh"}}',
        ),
        (
            '{"value":1,"unitOfMeasure":{"unit":"Wh","multiplier":3}}',
            2_000_000,
            '{"value":2,"unitOfMeasure":{"unit":"Wh","multiplier":3}}',
        ),
        (
            '{"value":7,"phase":"L1"},{"value":1}',
            3_000,
            '{"value":7,"phase":"L1"},{"value":3}',
        ),
    ],
)
def test_a_reading_is_written_in_its_unit(value: str, mwh: int, written: str) -> None:
    assert correct_reading(EVENT % value, 0, False, mwh) == EVENT % written
    assert correct_reading(EVENT % value, 1, False, mwh) is None
    assert correct_reading(EVENT % value, 0, True, mwh) is None


def test_a_correction_keeps_the_session_complete(store: Database) -> None:
    session = power("t1", FIRST)
    send(store, "A", session)
    close_day(store, SITE, None, "jo", read_noon("2026-03-02"))
    (row,) = store.fetch("select up, complete, lines from session")
    wanted = [
        Correction("A", "T1", number, 0, (1_000 + number * 250) * 1_000) for number in range(1, 4)
    ]
    prepared = prepare(store, find_program(), wanted, AUTHOR)
    assert store.fetch("select lines from session")[0].lines == row.lines == 4
    assert "then 0.750 kWh; messages complete, then messages complete" in describe(prepared[0])[0]
    correct(store, prepared)
    (after,) = store.fetch("select up, down, complete, lines from session")
    assert tuple(after) == (750_000, 0, True, 13)
    assert [row.kind for row in store.fetch("select kind from finding")] == []
    lines = store.fetch("select line, who, why, origin from line where number > 4 order by number")
    assert [row.line.split(" ")[0] for row in lines] == ["void", "erase", "deliver"] * 3
    assert {(row.who, row.why) for row in lines if row.who} == {("tests", "a test")}
    assert {row.origin for row in lines if not row.who} == {"corrected by tests: a test"}
    assert verify(store).difference == ""
    done = close_day(store, SITE, None, "jo", read_noon("2026-03-02"))
    assert done.corrections > 0


def test_an_export_register_is_corrected(store: Database) -> None:
    session = sound("t1", FIRST)
    for one in session:
        reading = {"value": 100 + one.payload["seqNo"], "measurand": EXPORT}
        one.payload["meterValue"][0]["sampledValue"].append(reading)
    send(store, "A", session)
    wanted = [Correction("A", "t1", 3, 0, 105_000, True)]
    correct(store, prepare(store, find_program(), wanted, AUTHOR))
    (row,) = store.fetch("select up, export_up from session")
    assert tuple(row) == (750_000, 5_000)


@pytest.mark.parametrize(
    ("wanted", "said"),
    [
        (Correction("A", "t9", 0, 0, 1), "no transaction 't9' of station 'A'"),
        (Correction("A", "t1", 9, 0, 1), "has no event 9 that counts"),
        (Correction("A", "t1", 1, 1, 1), "has no reading 1 of the import register"),
        (Correction("A", "t1", 1, 0, -1), "would not take the correction: .*Decimal"),
    ],
)
def test_what_can_not_be_corrected_is_named(store: Database, wanted: Correction, said: str) -> None:
    send(store, "A", sound("t1", FIRST))
    with pytest.raises(InputError, match=said):
        prepare(store, find_program(), [wanted], AUTHOR)
    assert store.fetch("select lines from session")[0].lines == 4


def test_a_table_of_corrections(store: Database, store_name: str, tmp_path: Path) -> None:
    send(store, "A", sound("t1", FIRST), sound("t2", FIRST + timedelta(days=1)))
    path = tmp_path / "c.csv"
    path.write_text("station,transaction,number,place,kwh\nA,t1,3,0,2\nA,t2,3,0,3.5\n", "utf-8")
    words = ["operate", "--store", store_name, "correct", "--table", str(path)]
    words += ["--why", "read at the meter"]
    assert "nothing is changed" in run(*words, "--preview").stdout
    assert [row.up for row in store.fetch("select up from session")] == [750_000] * 2
    made = run(*words)
    assert (made.returncode, made.stderr) == (0, "")
    rows = store.fetch("select up from session order by transaction_id")
    assert [row.up for row in rows] == [1_000_000, 2_500_000]


@pytest.mark.parametrize(
    ("text", "said"),
    [
        ("station,transaction\n", "no column number, place, kwh"),
        ("station,transaction,number,place,kwh\nA,t1,x,0,2\n", "c.csv:2: 'x' is no number"),
        ("station,transaction,number,place,kwh\nA,t1,1,0,2kWh\n", "c.csv:2: '2kWh' is no energy"),
        ("station,transaction,number,place,kwh\nA,t1,1\n", "c.csv:2: "),
    ],
)
def test_faults_of_tables_have_their_line(tmp_path: Path, text: str, said: str) -> None:
    path = tmp_path / "c.csv"
    path.write_text(text, "utf-8")
    with pytest.raises(InputError, match=said):
        read_table(path)


def test_roundings_add_up() -> None:
    amounts = [333, 333, 334, 1_499, -600, 501, 0, 999_999]
    rounded = list(round_together(amounts))
    for count in range(len(amounts) + 1):
        assert sum(rounded[:count]) == (sum(amounts[:count]) + 500) // 1_000
    assert sum(rounded) * 1_000 == pytest.approx(sum(amounts), abs=500)


def read_settlement(store: Database, is_provisional: bool = False) -> list[dict[str, str]]:
    """The settlement file of March."""
    heads, *rows = list_settlement(store, SITE, 2026, 3, is_provisional, False)
    return [dict(zip(heads, row, strict=True)) for row in rows]


def test_a_month_by_metering_point(store: Database) -> None:
    second = sound("t2", FIRST + STEP / 3)
    for one in second:
        one.payload["evse"]["id"] = 2
    send(store, "A", sound("t1", FIRST), second)
    send(store, "B", reset("t3", FIRST))
    with pytest.raises(UsageError, match="north is not closed yet"):
        read_settlement(store)
    with pytest.raises(UsageError, match="has a metering point; name it in --points"):
        read_settlement(store, True)
    write_points(store, SITE, [("", -1, "DE-SITE"), ("A", 2, "DE-EVSE")])
    close_day(store, SITE, date(2026, 3, 31), "jo", datetime(2026, 4, 2, tzinfo=timezone.utc))
    adjust(store, declare_credit(store, "A", "t1", -50_000, 0), AUTHOR)
    rows = read_settlement(store)
    # 31 days, of which one has 23 hours.
    assert len(rows) == 2 * (31 * 96 - 4)
    sums = {
        point: sum(float(row["import_kwh"]) for row in rows if row["metering_point"] == point)
        for point in ("DE-SITE", "DE-EVSE")
    }
    assert sums["DE-EVSE"] == pytest.approx(0.75)
    assert sums["DE-SITE"] == pytest.approx(0.75 - 0.05 - 0.005)
    busy = {
        (row["metering_point"], row["quality"]) for row in rows if float(row["import_kwh"]) != 0
    }
    assert ("DE-EVSE", "measured") not in busy and ("DE-SITE", "substitute") in busy
    assert {row["quality"] for row in rows if row["start"] > "2026-03-02"} == {"measured"}
    assert rows[0]["start"] == "2026-02-28T23:00:00Z"
    assert rows[0]["start_local"] == "2026-03-01T00:00:00+0100"


def test_measured_periods_are_called_so(store: Database) -> None:
    quarter = timedelta(minutes=15)
    kinds = ("Started", "Updated", "Updated", "Ended")
    session = [
        event("t1", number, kind, FIRST + number * quarter, 1_000 + 250 * number)
        for number, kind in enumerate(kinds)
    ]
    send(store, "A", session)
    write_points(store, SITE, [("", -1, "DE-SITE")])
    busy = [row for row in read_settlement(store, True) if float(row["import_kwh"])]
    assert [(row["import_kwh"], row["quality"]) for row in busy] == [("0.250", "measured")] * 3


def test_what_lacks_messages_is_listed(store: Database, store_name: str) -> None:
    send(store, "A", sound("Silent", FIRST)[:3])
    send(store, "B", sound("Running", FIRST + timedelta(days=1))[:3], sound("Whole", FIRST))
    rows = list_silent(store, FIRST + timedelta(hours=12), None)
    assert [(row.station, row.sent_id, row.state) for row in rows] == [
        ("A", "Silent", "no end yet")
    ]
    assert list_silent(store, FIRST + timedelta(hours=12), "south") == []
    made = run("lacking", "--store", store_name, "--hours", "1")
    found = list(csv.DictReader(io.StringIO(made.stdout)))
    assert made.returncode == 1
    assert [row["transactionId"] for row in found] == ["Silent", "Running"]
    assert found[0]["since"] == "2026-03-01T08:20:02Z"


@pytest.mark.parametrize(
    ("words", "said"),
    [
        (
            ["operate", "correct", "A", "t1", "1", "--kwh", "1", "--why", "w"],
            "name STATION TRANSACTION NUMBER PLACE",
        ),
        (["operate", "correct", "A", "t1", "-1", "0", "--kwh", "1", "--why", "w"], "error"),
        (["settlement", "--site", "south", "--month", "2026-03"], "no site 'south'"),
        (["lacking", "--hours", "x"], "no count from 1"),
    ],
)
def test_wrong_words_have_a_named_error(tmp_path: Path, words: list[str], said: str) -> None:
    made = run(words[0], "--store", str(tmp_path / "a.db"), *words[1:])
    assert (made.returncode, made.stdout) == (2, "")
    assert said in made.stderr
