"""Bills of a month with every doubt, and what people decide about its sessions."""

import base64
import csv
import io
from datetime import datetime, timedelta, timezone
from pathlib import Path
from xml.etree import ElementTree

import pytest

from ocpp_board.errors import UsageError
from ocpp_board.ledger.engine import settle
from ocpp_board.records import Message
from ocpp_board.store.closing import close_day
from ocpp_board.ledger.program import find_program
from ocpp_board.ledger.resets import list_resets
from ocpp_board.store.database import Database
from ocpp_board.store.decisions import (
    adjust,
    declare_credit,
    declare_estimate,
    declare_exchange,
    list_open,
    release,
    settle_by_rule,
)
from ocpp_board.store.plan import write_station
from ocpp_board.writers.bills import HEADS, BillOptions, list_bills, write_csv
from tests.days.conftest import AUTHOR, SITE, operate, read_noon, run, send, write_message
from tests.traffic.troubles import FIRST, KINDS, STEP, event, reset, signed_differs, sound

Bills = dict[str, dict[str, str]]
# What a session of each kind is held for, and what is found in it.
HELD = {
    "register-falls": "register falls",
    "id-again": "transaction id used again",
    "power": "power that cannot be",
    "signed-differs": "signed value differs",
    "reset": "register reset or exchanged",
}


def read_bills(store: Database, options: BillOptions = BillOptions(), month: int = 3) -> Bills:
    """The bills of a month by station."""
    heads, *rows = list_bills(store, SITE, 2026, month, options)
    return {row[4]: dict(zip(heads, row, strict=True)) for row in rows}


def send_month(store: Database) -> None:
    """A session of each kind of trouble, each at a station of its name."""
    with store.transaction():
        for station in KINDS:
            write_station(store, station, SITE, AUTHOR)
    asked = [
        Message(station, write_message(one), one.received, "a log")
        for station, kind in KINDS.items()
        for one in kind("T1", FIRST)
    ]
    settle(store, asked)


def test_a_month_has_every_doubt_beside_its_sessions(store: Database) -> None:
    send_month(store)
    bills = read_bills(store)
    assert set(bills) == set(KINDS)
    for row in store.fetch(
        "select station, up - down as net, export_up - export_down as fed from session"
    ):
        assert float(bills[row.station]["total_energy"]) * 1e6 == pytest.approx(row.net)
        assert float(bills[row.station]["exported_energy"]) * 1e6 == pytest.approx(row.fed)
    held = {station: row["hold"] for station, row in bills.items() if row["hold"]}
    assert {station for station in held if station not in HELD} == {"negative"} & set(held)
    for station, kind in HELD.items():
        assert f"held: {kind}" in held[station], station
    found = {station: row["findings"] for station, row in bills.items()}
    for row in store.fetch("select station, kind from finding"):
        assert row.kind in found[row.station]
    assert found["sound"] == "" and "later than its event" in found["clock-back"]
    assert (
        bills["no-reading"]["energy_measured"]
        == bills["interval-energy"]["energy_measured"]
        == "no"
    )
    assert (bills["no-end"]["messages_complete"], bills["no-end"]["end_date_time"]) == ("no", "")
    assert bills["missing-number"]["missing"] == "1"
    assert read_bills(store, month=2) == {}


def test_bills_have_ocpis_names_and_tokens_by_choice(store: Database, tmp_path: Path) -> None:
    session = signed_differs("T-Big", FIRST)
    session[1].payload["idToken"] = {"idToken": "=Ab12", "type": "ISO14443"}
    session[0].payload["transactionInfo"]["remoteStartId"] = 77
    send(store, "A", session)
    row = read_bills(store, BillOptions(signed=tmp_path))["A"]
    assert tuple(row) == HEADS
    assert (row["session_id"], row["sent_id"], row["evse_uid"]) == ("t-big", "T-Big", "1")
    assert (row["start_date_time"], row["end_date_time"]) == (
        "2026-03-01T08:00:00Z",
        "2026-03-01T08:30:00Z",
    )
    assert (row["total_energy"], row["total_time"]) == ("0.75", "0.5000")
    assert (row["id_token"], row["id_token_type"], row["remote_start_id"]) == ("", "", "77")
    assert read_bills(store, BillOptions("plain"))["A"]["id_token"] == "'=Ab12"
    assert len(read_bills(store, BillOptions("hash"))["A"]["id_token"]) == 64
    assert base64.b64decode(row["last_signed_value"]).decode().startswith("OCMF|")
    (path,) = tmp_path.glob("*.xml")
    values = ElementTree.parse(path).getroot().findall("value")
    assert [one.get("context") for one in values] == ["Transaction.Begin", "Transaction.End"]


def test_a_month_is_that_of_the_sites_zone(store: Database) -> None:
    begin = datetime(2026, 3, 31, 22, 5, tzinfo=timezone.utc)
    send(store, "A", sound("april", begin))
    send(store, "B", sound("march", begin - 4 * STEP))
    assert set(read_bills(store)) == {"B"}
    assert set(read_bills(store, month=4)) == {"A"}


def test_bills_say_what_is_settled(store: Database) -> None:
    for number, station in enumerate(("A", "B")):
        send(store, station, sound("t1", FIRST + number * STEP))
    close_day(store, SITE, None, "jo", read_noon("2026-03-02"))
    operate(store, "void", "B", "t1", 2, read_noon("2026-03-02"))
    bills = read_bills(store)
    assert (bills["A"]["settled"], bills["A"]["settled_by"]) == ("settled", "complete")
    assert bills["B"]["settled"] == "provisional"
    operate(store, "erase", "B", "t1", 2, read_noon("2026-03-02"))
    send(
        store,
        "B",
        [event("t1", 2, "Updated", FIRST + 3 * STEP, 1_500), event("t1", 4, "Updated", FIRST, 900)],
    )
    operate(store, "void", "B", "t1", 4, read_noon("2026-03-02"))
    operate(store, "void", "B", "t1", 3, read_noon("2026-03-02"))
    operate(store, "erase", "B", "t1", 3, read_noon("2026-03-02"))
    send(store, "B", [event("t1", 3, "Ended", FIRST + 4 * STEP, 1_800)])
    close_day(store, SITE, None, "jo", read_noon("2026-03-03"))
    bills = read_bills(store)
    assert (bills["B"]["settled"], bills["B"]["total_energy"]) == ("corrected", "0.8")


def test_a_held_session_is_released_for_the_figures_that_it_has(store: Database) -> None:
    send_month(store)
    assert release(store, "power", "T1", AUTHOR) == ["power that cannot be"]
    assert read_bills(store)["power"]["hold"] == "released: power that cannot be, by tests: a test"
    with pytest.raises(UsageError, match="is not held"):
        release(store, "power", "T1", AUTHOR)
    with pytest.raises(UsageError, match="no transaction 'T9'"):
        release(store, "power", "T9", AUTHOR)
    # Other figures are held again.
    operate(store, "void", "power", "t1", 3, FIRST)
    hold = read_bills(store)["power"]["hold"]
    assert hold == "" or hold.startswith("held:")
    before = read_bills(store)["register-falls"]
    release(store, "register-falls", "T1", AUTHOR)
    operate(store, "void", "register-falls", "t1", 3, FIRST)
    after = read_bills(store)["register-falls"]
    assert before["total_energy"] != after["total_energy"]
    assert after["hold"] == "held: negative energy; held: register falls"


def test_adjustments_stand_beside_the_ledgers_number(store: Database) -> None:
    send(store, "A", reset("t1", FIRST))
    (one,) = list_resets(store, find_program(), SITE)
    assert (one.old_end, one.new_begin, one.at) == (10_000_000, 0, FIRST + 1.5 * STEP)
    before = read_bills(store)["A"]
    assert before["total_energy"] == "-0.005" and "negative energy" in before["hold"]
    adjust(store, declare_exchange(store, "A", 1, one.at, 10_400_000, 0), AUTHOR)
    after = read_bills(store)["A"]
    # 5.4 by the old meter, 4.995 by the new one.
    assert (after["total_energy"], after["adjusted_energy"]) == ("-0.005", "10.395")
    assert after["adjustments"] == "exchange 10.4 kWh by tests: a test"
    assert "negative energy" not in after["hold"]
    assert not [*list_resets(store, find_program(), SITE)]
    adjust(store, declare_credit(store, "A", "T1", -400_000, 0), AUTHOR)
    assert read_bills(store)["A"]["adjusted_energy"] == "9.995"
    with pytest.raises(UsageError, match="no session of EVSE 2 of A ran at"):
        declare_exchange(store, "A", 2, FIRST, 0, 0)


def test_an_estimate_closes_a_session(store: Database) -> None:
    session = sound("t1", FIRST)
    send(store, "A", session[:3])
    with pytest.raises(UsageError, match="no session of EVSE 1 of A began later"):
        declare_estimate(store, "A", "t1", None)
    later = sound("t2", FIRST + timedelta(hours=3))
    for one in later:
        one.payload["meterValue"][0]["sampledValue"][0]["value"] += 800
    send(store, "A", later)
    estimate = declare_estimate(store, "A", "T1", None)
    assert (estimate.imported, estimate.detail) == (
        300_000,
        "transaction t2 began at 1.800 kWh, its last reading is 1.500 kWh",
    )
    with pytest.raises(UsageError, match="below the last reading"):
        declare_estimate(store, "A", "t1", 1_000)
    adjust(store, estimate, AUTHOR)
    row = store.fetch("select * from adjusted_session where transaction_id = 't1'")[0]
    assert (row.imported, row.adjusted_import, row.import_sum) == (500_000, 300_000, 800_000)


def test_sessions_are_settled_by_rule(store: Database) -> None:
    send(store, "A", sound("open", FIRST)[:3])
    send(store, "B", sound("whole", FIRST))
    now = read_noon("2026-03-02")
    assert close_day(store, SITE, None, "jo", now).sessions == 2
    assert read_bills(store)["A"]["settled"] == "provisional"
    assert [row.transaction_id for row in list_open(store, SITE, now)] == ["open"]
    assert len(settle_by_rule(store, SITE, now, AUTHOR)) == 1
    assert list_open(store, SITE, now) == settle_by_rule(store, SITE, now, AUTHOR) == []
    close_day(store, SITE, None, "jo", now)
    row = read_bills(store)["A"]
    assert (row["settled"], row["settled_by"], row["messages_complete"]) == (
        "settled",
        "rule",
        "no",
    )
    # What comes later is a correction.
    send(store, "A", sound("open", FIRST)[3:])
    assert close_day(store, SITE, None, "jo", now).corrections > 0
    assert read_bills(store)["A"]["settled_by"] == "complete"


def test_semicolons_have_a_decimal_comma(store: Database) -> None:
    send(store, "A", sound("t1", FIRST))
    file = io.StringIO()
    write_csv(list_bills(store, SITE, 2026, 3, BillOptions(is_semicolon=True)), file, True)
    text = file.getvalue()
    assert text.startswith("\N{ZERO WIDTH NO-BREAK SPACE}start_date_time;")
    assert ";0,75;0;0,5000;" in text


def test_the_command(store: Database, store_name: str) -> None:
    send(store, "A", sound("t1", FIRST))
    made = run("bills", "--store", store_name, "--site", SITE, "--month", "2026-03")
    assert made.returncode == 0
    (row,) = csv.DictReader(io.StringIO(made.stdout))
    assert (row["location_id"], row["total_energy"], row["hold"]) == (SITE, "0.75", "")


@pytest.mark.parametrize(
    ("words", "said"),
    [
        (["bills", "--site", "south", "--month", "2026-03"], "no site 'south'"),
        (["bills", "--site", SITE, "--month", "2026-13"], "no month such as 2026-03"),
        (["bills", "--site", SITE, "--month", "2026-03", "--tokens", "all"], "invalid choice"),
        (["release"], "name a STATION and a TRANSACTION"),
        (["release", "A", "t1"], "a release needs its reason"),
        (["release", "A", "t1", "--why", "w"], "no transaction 't1' of station 'A'"),
        (["adjust", "credit", "A", "t1", "--kwh", "1,5", "--why", "w"], "no energy in kWh"),
        (["adjust", "estimate", "A", "t1", "--register", "x", "--why", "w"], "no energy in kWh"),
        (["settle-by-rule", "--site", SITE, "--days", "0", "--why", "w"], "no count from 1"),
        (["settle-by-rule", "--site", "south", "--days", "3", "--why", "w"], "no site 'south'"),
    ],
)
def test_wrong_words_have_a_named_error(tmp_path: Path, words: list[str], said: str) -> None:
    made = run(words[0], "--store", str(tmp_path / "a.db"), *words[1:])
    assert (made.returncode, made.stdout) == (2, "")
    assert said in made.stderr
