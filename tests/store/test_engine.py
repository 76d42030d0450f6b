"""The engine: what each text and each operator's line is answered, and what is stored then."""

import os
import signal
import sqlite3
import subprocess
import sys
import time
from collections import Counter
from pathlib import Path

import pytest

from ocpp_board.errors import StoreError
from ocpp_board.ledger.engine import change_site, settle, take_strays
from ocpp_board.ledger.settlers import Settlers
from ocpp_board.records import Asked, Limits, Message, Rules, Untaken
from ocpp_board.store.database import Database, open_store
from ocpp_board.store.plan import retire_station, write_station
from tests.store.scene import (
    AUTHOR,
    START,
    ask,
    check,
    deed,
    list_outcomes,
    message,
    plan,
    read_all,
    write_event,
    write_session,
)

HEARTBEAT = '[2,"h","Heartbeat",{}]'


def test_session(store: Database) -> None:
    """A session in order: its line of the board, its periods, its facts."""
    plan(store)
    answers = ask(store, *write_session("CS-01", "T1", 5))
    assert list_outcomes(answers) == ["accepted"] * 5
    assert [one.count for one in answers] == [1, 2, 3, 4, 5]
    assert {one.transaction for one in answers} == {"t1"}
    assert answers[0].reply == '[3,"T1-0",{}]'
    (row,) = store.fetch("select * from session")
    assert (row.site, row.lines, row.events, row.complete, row.missing) == ("north", 5, 5, True, 0)
    assert (row.up, row.down, row.state, row.sent_id) == (1_000_000, 0, "messages complete", "T1")
    assert (row.first_register, row.last_register) == (1_000_000, 2_000_000)
    assert (row.began, row.first_at) == (START, START)
    parts = store.fetch("select starts, up, measured from part order by starts")
    assert [(one.up, one.measured) for one in parts] == [(250_000, True)] * 4
    assert parts[0].starts == START


def test_ready_replies(store: Database) -> None:
    """What stores nothing is answered with the moment of its receipt, or not at all."""
    plan(store)
    answers = ask(store, message("CS-01", HEARTBEAT, 5), message("CS-01", '[3,"x",{}]'))
    assert list_outcomes(answers) == ["reply", "silent"]
    assert answers[0].reply == '[3,"h",{"currentTime":"2026-03-01T10:05:00Z"}]'
    assert answers[1].reply is None


def test_repeats_change_no_row(store: Database) -> None:
    """The same lines again, refused ones and an operator's included, change no row."""
    plan(store)
    lines = list(write_session("CS-01", "T1", 4))
    conflict = write_event("T1", 2, "Updated", 31)
    lines += [message("CS-01", conflict, 40, "a.log:5"), message("CS-01", "no JSON", 41, "a.log:6")]
    lines += [message("CS-09", HEARTBEAT, 41, "a.log:7"), message("CS-09", conflict, 41, "a.log:8")]
    void = deed("void", "CS-01", "T1", 3)
    first = ask(store, *lines, void)
    before = read_all(store)
    assert list_outcomes(first) == [
        *["accepted"] * 4,
        "refused ConflictingEvent",
        "refused NotJson",
        *["stray UnknownStation"] * 2,
        "accepted",
    ]
    again = ask(store, *lines, void)
    assert list_outcomes(again)[:4] == ["repeat"] * 4
    assert list_outcomes(again)[4:] == list_outcomes(first)[4:]
    assert [one.reply for one in again[:4]] == [one.reply for one in first[:4]]
    assert read_all(store) == before


def test_one_by_one_is_as_at_once(store: Database) -> None:
    """Lines that come one by one leave what they leave at once."""
    plan(store)
    lines: list[Asked] = [
        *write_session("CS-01", "T1", 6),
        deed("void", "CS-01", "T1", 2),
        message("CS-01", write_event("T1", 2, "Updated", 99)),
        *write_session("CS-02", "T1", 3),
        deed("erase", "CS-01", "T1", 2),
        message("CS-01", write_event("T1", 2, "Updated", 30, [(30, 1_400)])),
    ]
    for line in lines:
        ask(store, line)
    one_by_one = read_all(store)
    for table in ("line", "part", "finding", "session", "refusal", "deed"):
        store.execute(f"delete from {table}")
    ask(store, *lines)
    assert read_all(store) == one_by_one


def test_order_of_arrival(store: Database) -> None:
    """Events that come in any order give the same figures."""
    plan(store)
    lines = list(write_session("CS-01", "T1", 6))
    ask(store, *lines)
    shown = store.fetch("select * from board_period")
    for table in ("line", "part", "finding", "session"):
        store.execute(f"delete from {table}")
    for line in reversed(lines):
        ask(store, line)
    assert store.fetch("select * from board_period") == shown


def test_deeds(store: Database) -> None:
    """Voids, restorations and erasures, each refused where it can't be, and who did them in the state."""
    plan(store)
    ask(store, *write_session("CS-01", "T1", 4))
    asked = [
        deed("restore", "CS-01", "T1", 1, 1),
        deed("void", "CS-01", "T1", 1, 2),
        deed("void", "CS-01", "t1", 1, 3),
        deed("void", "CS-01", "T1", 9, 4),
        deed("void", "CS-01", "T2", 0, 5),
        deed("void", "CS-77", "T2", 0, 5),
        deed("void", "CS-01", "T1", 2, 6),
        deed("restore", "CS-01", "T1", 2, 7),
    ]
    assert list_outcomes(ask(store, *asked)) == [
        "refused NotVoided",
        "accepted",
        "refused AlreadyVoided",
        "refused NoSuchEvent",
        "refused NoSuchEvent",
        "fault UnknownStation",
        "accepted",
        "accepted",
    ]
    (row,) = store.fetch("select * from session")
    assert (row.events, row.voided, row.missing, row.gaps) == (3, 1, 1, "1..1")
    assert row.state == "voided by jo"
    assert len(store.fetch("select * from deed")) == 7
    assert list_outcomes(ask(store, deed("erase", "CS-01", "T1", 1, 8))) == ["accepted"]
    late = message("CS-01", write_event("T1", 1, "Updated", 15, [(15, 1_300)]))
    assert list_outcomes(ask(store, late)) == ["accepted"]
    (row,) = store.fetch("select * from session")
    assert (row.events, row.voided, row.complete, row.state) == (4, 0, True, "messages complete")


def test_all_voided(store: Database) -> None:
    """A transaction whose events are all voided stays, and counts nothing."""
    plan(store)
    ask(store, *write_session("CS-01", "T1", 2))
    ask(store, deed("void", "CS-01", "T1", 0), deed("void", "CS-01", "T1", 1))
    (row,) = store.fetch("select * from session")
    assert (row.events, row.voided, row.state, row.up) == (0, 2, "all voided", 0)
    assert not store.fetch("select * from part")
    (row,) = store.fetch("select * from board_site")
    assert (row.transactions, row.voided) == (0, 2)


def test_refusals(store: Database) -> None:
    """Each refused message is a row with its text, its cause and what it names."""
    plan(store)
    ask(store, *write_session("CS-01", "T1", 2))
    bad = write_event("T1", 5, "Sideways", 1)
    conflict = write_event("T1", 1, "Updated", 3)
    other = '[2,"x","Authorize",{}]'
    asked = [message("CS-01", text, 9) for text in (bad, conflict, other, '[2,"x","Oops",{}]', "")]
    answers = ask(store, *asked, message("CS-01", bad, 12))
    assert list_outcomes(answers) == [
        "refused Range",
        "refused ConflictingEvent",
        "reply UnknownAction",
        "refused UnknownAction",
        "refused NotJson",
        "refused Range",
    ]
    rows = {row.cause: row for row in store.fetch("select * from refusal")}
    assert sorted(rows) == ["ConflictingEvent", "NotJson", "Range", "UnknownAction"]
    assert (rows["Range"].text, rows["Range"].times, rows["Range"].number) == (bad, 2, 5)
    assert rows["Range"].last_at > rows["Range"].first_at
    assert (rows["ConflictingEvent"].transaction_id, rows["ConflictingEvent"].number) == ("t1", 1)
    (found,) = [row for row in store.fetch("select * from refused") if row.cause == "Range"]
    assert (found.site, found.times, found.sent_id, found.sent_number) == ("north", 2, "T1", "5")


def test_texts_of_any_kind(store: Database) -> None:
    """Line feeds, carriage returns, zero bytes, halves of surrogate pairs and long texts are answered and kept."""
    plan(store)
    spread = write_event("T1", 0, "Started", 0).replace(", ", ",\n") + "\r"
    asked = [
        message("CS-01", text)
        for text in (spread, "\0", "\ud800", "x" * 300_000, '[2,"\\u0000","Heartbeat",{}]')
    ]
    assert list_outcomes(ask(store, *asked)) == [
        "accepted",
        "refused NotJson",
        "fault BadLine",
        "fault LineTooLong",
        "reply",
    ]
    assert list_outcomes(ask(store, asked[0])) == ["repeat"]
    assert {row.cause for row in store.fetch("select cause from refusal")} == {
        "NotJson",
        "BadLine",
        "LineTooLong",
    }


def test_ids(store: Database) -> None:
    """Ids with capitals, escapes and names that come twice are the program's word."""
    plan(store)
    text = write_event("AbC", 0, "Started", 0)
    escaped = text.replace("AbC", "\\u0061B\\u0063")
    twice = text.replace('"transactionId"', '"transactionId": "other", "transactionId"')
    answers = ask(store, *(message("CS-01", one) for one in (text, escaped, twice)))
    assert list_outcomes(answers) == ["accepted", "repeat", "repeat"]
    assert {one.transaction for one in answers} == {"abc"}


def test_strays(store: Database) -> None:
    """Messages of unknown stations are kept, and taken once the plan has the station."""
    plan(store)
    lines = [one._replace(site="south") for one in write_session("CS-03", "T1", 3)]
    assert {one.outcome for one in ask(store, *lines)} == {"stray"}
    assert {one.outcome for one in ask(store, *lines[:1])} == {"stray"}
    assert sorted(row.times for row in store.fetch("select times from stray")) == [1, 1, 2]
    assert not store.fetch("select * from line")
    assert not take_strays(store)
    plan(store, Rules(), "south", "CS-03")
    assert list_outcomes(take_strays(store)) == ["accepted"] * 3
    assert not store.fetch("select * from stray")
    (row,) = store.fetch("select site, events, complete from session")
    assert tuple(row) == ("south", 3, True)
    check(store)


def test_untaken(store: Database) -> None:
    """A line that no source can take is a row until its event is taken."""
    plan(store)
    untaken = Untaken("CS-01", "T1", 0, "no time", "mend it", "{..}", None, "a.log:1")
    assert list_outcomes(ask(store, untaken, untaken)) == ["untaken"] * 2
    (row,) = store.fetch("select * from refusal")
    assert (row.cause, row.times, row.text) == ("Untaken", 1, "{..}")
    ask(store, *write_session("CS-01", "T1", 1))
    assert not store.fetch("select * from refusal")


def test_limits_of_a_transaction(store: Database) -> None:
    """A transaction keeps as many events and readings as its site says; others go on."""
    plan(store, Rules(limits=Limits(3, 4)))
    lines = list(write_session("CS-01", "T1", 5))
    assert list_outcomes(ask(store, *lines)) == ["accepted"] * 3 + ["refused EventsFull"] * 2
    many = write_event("T2", 0, "Started", 0, [(at, 1_000 + at) for at in range(5)])
    assert list_outcomes(ask(store, message("CS-01", many))) == ["refused ReadingsFull"]
    assert list_outcomes(ask(store, *write_session("CS-01", "T3", 2))) == ["accepted"] * 2
    assert not store.fetch("select * from session where transaction_id = 't2'")
    ask(store, deed("void", "CS-01", "T1", 2, 1), deed("erase", "CS-01", "T1", 2, 2))
    assert list_outcomes(ask(store, lines[4])) == ["accepted"]


def test_many_transactions(store: Database) -> None:
    """A station has any number of transactions, more than one script has room for stations."""
    plan(store)
    lines = [
        one for number in range(150) for one in write_session("CS-01", f"T{number}", 2, number)
    ]
    assert set(list_outcomes(ask(store, *lines))) == {"accepted"}
    (row,) = store.fetch("select * from board_station where station = 'CS-01'")
    assert (row.transactions, row.complete_transactions, row.events) == (150, 150, 300)


def test_rules_change(store: Database) -> None:
    """Other rules of a site compute its rows again, and only its own."""
    plan(store)
    plan(store, Rules(), "south", "CS-03")
    ask(store, *write_session("CS-01", "T1", 5), *write_session("CS-03", "T1", 5))
    south = store.fetch("select * from board_period where site = 'south'")
    before = store.fetch("select starts, up from board_period where site = 'north' order by 1")
    assert change_site(store, "north", Rules(settle="later"), AUTHOR) == 1
    check(store)
    after = store.fetch("select starts, up from board_period where site = 'north' order by 1")
    assert [row.starts for row in after] == [row.starts for row in before[1:]] + [after[-1].starts]
    assert store.fetch("select * from board_period where site = 'south'") == south
    assert change_site(store, "north", Rules(settle="later", period=3_600), AUTHOR) == 1
    assert check(store)
    assert change_site(store, "north", Rules(settle="later", period=3_600), AUTHOR) == 0
    assert len(store.fetch("select * from change where name = 'north'")) == 3


def test_station_that_moves(store: Database) -> None:
    """A station that moves keeps the transactions that it began where they are."""
    plan(store)
    first, *more = write_session("CS-01", "T1", 3)
    ask(store, first)
    plan(store, Rules(period=300, settle="later"), "south", "CS-01")
    ask(store, *more, *write_session("CS-01", "T2", 3))
    rows = store.fetch("select transaction_id, site, events from session order by 1")
    assert [tuple(row) for row in rows] == [("t1", "north", 3), ("t2", "south", 3)]


def test_meter_values(store: Database) -> None:
    """Readings outside transactions: of those in a row with one level the first and the last are kept."""
    plan(store)

    def read(minute: int, value: int, evse: int = 1) -> Message:
        at = f"2026-03-01T10:{minute:02}:00Z"
        payload = f'{{"evseId":{evse},"meterValue":[{{"timestamp":"{at}","sampledValue":[{{"value":{value}}}]}}]}}'
        return message("CS-01", f'[2,"m{minute}","MeterValues",{payload}]', minute)

    lines = [read(minute, 100) for minute in range(5)] + [read(6, 120), read(1, 7, 2)]
    assert list_outcomes(ask(store, *lines)) == ["reply"] * 7
    wanted = [(1, 0, 100_000), (1, 4, 100_000), (1, 6, 120_000), (2, 1, 7_000)]
    rows = store.fetch("select evse, at, up_register from meter_value order by evse, at")
    assert [(row.evse, row.at.minute, row.up_register) for row in rows] == wanted
    ask(store, read(6, 120), message("CS-01", '[2,"m","MeterValues",{"evseId":[]}]'))
    assert len(store.fetch("select * from meter_value")) == 4


def test_settlers(store: Database, store_name: str) -> None:
    """Processes that settle at once, each its own stations, leave what one leaves, and count its outcomes."""
    plan(store, Rules(), "north", *(f"CS-{number:02}" for number in range(20)))
    lines: list[Asked] = [
        one
        for number in range(60)
        for one in write_session(f"CS-{number % 20:02}", f"T{number}", 4, number)
    ]
    lines += [deed("void", "CS-01", "T1", 1), message("CS-77", HEARTBEAT), lines[0]]
    lines.append(message("CS-02", write_event("T2", 1, "Ended", 7), 9))
    alone = settle(store, lines)
    rows = read_all(store)
    for table in ("line", "part", "finding", "session", "refusal", "deed"):
        store.execute(f"delete from {table}")
    with Settlers(store_name, 3) as settlers:
        pending = [settlers.submit(lines[at : at + 100]) for at in range(0, len(lines), 100)]
        counts = [one.get() for one in pending]
    parts = [alone[at : at + 100] for at in range(0, len(lines), 100)]
    assert counts == [Counter(answer.outcome for answer in part) for part in parts]
    assert read_all(store) == rows
    check(store)


def test_what_commits_beside_it(store: Database) -> None:
    """What is written beside the lines is committed with them, or not at all."""
    plan(store)

    def note(store: Database) -> None:
        store.execute("insert into source (origin, place) values ('a.log', 7)")

    def fail(store: Database) -> None:
        note(store)
        raise StoreError("the disk is full")

    def forget(store: Database) -> None:
        store.execute("delete from source")

    lines = list(write_session("CS-01", "T1", 2))
    with pytest.raises(StoreError):
        settle(store, lines, also=fail)
    assert not store.fetch("select * from line") and not store.fetch("select * from source")
    settle(store, lines, also=note)
    assert store.fetch("select place from source")[0].place == 7
    settle(store, [], also=forget)
    assert not store.fetch("select * from source")


def test_damaged_store_is_no_answer(store: Database) -> None:
    """A line that the store has lost or that was changed is found, and nothing is answered."""
    plan(store)
    *lines, last = write_session("CS-01", "T1", 4)
    ask(store, *lines)
    store.execute("delete from line where station = 'CS-01' and number = 2")
    with pytest.raises(StoreError):
        settle(store, [last])


def test_retired_station(store: Database) -> None:
    """A retired station keeps what it has, and may come again."""
    plan(store)
    ask(store, *write_session("CS-01", "T1", 2))
    with store.transaction():
        retire_station(store, "CS-01", AUTHOR)
        retire_station(store, "CS-01", AUTHOR)
    assert check(store)
    with store.transaction():
        assert write_station(store, "CS-01", "north", AUTHOR)
    assert len(store.fetch("select * from change where name = 'CS-01'")) == 3


# Writers at once, and kills ------------------------------------------------------------------------------------------

WRITER = """
import sys
from contextlib import nullcontext
from ocpp_board.ledger.engine import settle
from ocpp_board.store.database import open_store
from tests.store.scene import deed, write_session
name, which = sys.argv[1], int(sys.argv[2])
lines = [one for number in range(12) for one in write_session("CS-01", f"T{number}", 4, number)]
if which:
    lines.reverse()
with open_store(name) as store:
    print("open", flush=True)
    for at in range(0, len(lines), 3):
        answers = settle(store, lines[at : at + 3], guard=nullcontext() if which else None)
        print(" ".join(one.outcome for one in answers), flush=True)
"""


def start_writer(name: str, which: int) -> "subprocess.Popen[str]":
    """A process that settles lines of one station, in batches of three."""
    top = Path(__file__).parent.parent.parent
    path = os.pathsep.join([str(top / "python"), str(top)])
    return subprocess.Popen(
        [sys.executable, "-c", WRITER, name, str(which)],
        stdout=subprocess.PIPE,
        text=True,
        env=os.environ | {"PYTHONPATH": path},
    )


def test_two_writers(store: Database, store_name: str) -> None:
    """Two processes that settle the same lines at once: each line is accepted once, and all figures are right."""
    plan(store)
    writers = [start_writer(store_name, which) for which in (0, 1)]
    texts = [writer.communicate(timeout=300)[0].split()[1:] for writer in writers]
    assert [writer.returncode for writer in writers] == [0, 0]
    outcomes = [one for text in texts for one in text]
    assert outcomes.count("accepted") == outcomes.count("repeat") == 48
    assert len(store.fetch("select * from line")) == 48
    assert check(store)


@pytest.mark.parametrize("after", [0.0, 0.02, 0.11])
def test_kill(store: Database, store_name: str, after: float) -> None:
    """A process that is killed at any moment leaves whole batches, and what it answered is stored."""
    plan(store)
    writer = start_writer(store_name, 0)
    assert writer.stdout
    seen = [writer.stdout.readline() for _ in range(4)]
    time.sleep(after)
    writer.send_signal(signal.SIGKILL)
    seen += writer.stdout.read().splitlines(keepends=True)
    writer.wait()
    answered = sum(line.split().count("accepted") for line in seen if line.endswith("\n"))
    stored = len(store.fetch("select * from line"))
    assert stored in (answered, answered + 3) and stored % 3 == 0
    check(store)
    again = start_writer(store_name, 1)
    assert again.communicate(timeout=300)[0].split().count("accepted") == 48 - stored
    check(store)


def test_second_writer_of_sqlite_waits(tmp_path: Path, program: object) -> None:
    """While one writer holds the file, another one waits and then goes on."""
    assert program
    name = str(tmp_path / "ledger.db")
    with open_store(name) as store:
        plan(store)
        other = sqlite3.connect(name, isolation_level=None)
        other.execute("begin immediate")
        writer = start_writer(name, 0)
        assert writer.stdout and writer.stdout.readline() == "open\n"
        time.sleep(0.5)
        assert writer.poll() is None
        other.execute("commit")
        assert writer.communicate(timeout=300)[0].split().count("accepted") == 48
        check(store)
