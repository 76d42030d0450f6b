"""The commands `plan`, `operate`, `verify` and `export` on a store."""

import csv
import io
import subprocess
import sys
from pathlib import Path
from typing import NamedTuple

import pytest

from ocpp_board.ledger.engine import settle
from ocpp_board.ledger.program import Program
from ocpp_board.processes import environment
from ocpp_board.records import Limits, Rules
from ocpp_board.store.database import Database
from ocpp_board.store.plan import find_rules
from ocpp_board.ledger.verify import verify_within
from tests.store.scene import check, deed, message, plan, write_event, write_session


class Ran(NamedTuple):
    """How a command ended, and what it wrote."""

    status: int
    out: str
    err: str


def run(*words: str) -> Ran:
    """Runs a command as a process of its own."""
    done = subprocess.run(
        [sys.executable, "-m", "ocpp_board", *words],
        capture_output=True,
        text=True,
        check=False,
        env=environment(),
    )
    return Ran(done.returncode, done.stdout, done.stderr)


def test_plan(store: Database, store_name: str) -> None:
    """Sites and stations by words: each change is a row, and the plan is listed as CSV."""
    words = ["plan", "--store", store_name]
    why = ["--who", "jo", "--why", "opened"]
    assert run(*words, "site", "north", "--zone", "Europe/Berlin", *why).status == 0
    assert run(*words, "site", "north", "--period", "3600", "--events", "100", *why).status == 0
    assert find_rules(store, "north") == Rules(
        3_600, zone="Europe/Berlin", limits=Limits(100, 16_384)
    )
    assert run(*words, "station", "CS-01", "CS-02", "--site", "north", *why).status == 0
    assert run(*words, "retire", "CS-02", *why).status == 0
    changes = store.fetch(
        "select who, why, what, name, before_text, after_text from change order by id"
    )
    assert [(row.what, row.name) for row in changes] == [
        ("site", "north"),
        ("site", "north"),
        ("station", "CS-01"),
        ("station", "CS-02"),
        ("station", "CS-02"),
    ]
    assert {(row.who, row.why) for row in changes} == {("jo", "opened")}
    assert '"period": 900' in changes[1].before_text and '"period": 3600' in changes[1].after_text
    table = list(csv.reader(io.StringIO(run(*words).out)))
    assert table[1][:5] == ["north", "CS-01", "", "3600", "moment"] and len(table) == 2


def test_plan_of_a_file(store: Database, store_name: str, tmp_path: Path) -> None:
    """A CSV file adds sites and stations, and takes what came before; the list of a plan is such a file."""
    settle(store, list(write_session("CS-01", "T1", 3)))
    file = tmp_path / "plan.csv"
    file.write_text(
        "site,station,zone,settle\nnorth,,Europe/Berlin,later\nnorth,CS-01,,\nsouth,CS-02,,\n"
    )
    words = ["plan", "--store", store_name]
    assert (
        "3 messages that came before: 3 accepted"
        in run(*words, "csv", str(file), "--why", "March").out
    )
    assert find_rules(store, "north") == Rules(zone="Europe/Berlin", settle="later")
    assert find_rules(store, "south") == Rules()
    check(store)
    file.write_text(run(*words).out)
    changes = len(store.fetch("select id from change"))
    assert run(*words, "csv", str(file), "--why", "the same").status == 0
    assert len(store.fetch("select id from change")) == changes


@pytest.mark.parametrize(
    ("text", "said"),
    [
        ("station\nCS-01\n", "there is no column `site`"),
        ("site,color\nnorth,red\n", "no column 'color' is known"),
        ("site,period\nnorth,77\n", "plan.csv:2: a period of 77 seconds"),
        ("site,period\nnorth,x\n", "plan.csv:2: period is 'x', which is no number"),
        ("site,zone\nnorth,Mars/Base\n", "plan.csv:2: no time zone 'Mars/Base'"),
        ("site,station\nnorth,a b\n", "plan.csv:2: 'a b' is no name of a station"),
        ("site,station\n,CS-01\n", "plan.csv:2: '' is no name of a site"),
        ("site,events\nnorth,0\n", "plan.csv:2: 0 events"),
    ],
)
def test_mistakes_of_a_plan(
    store: Database,
    store_name: str,
    tmp_path: Path,
    text: str,
    said: str,
) -> None:
    """A row that can't be taken is named with its file and line."""
    assert store
    file = tmp_path / "plan.csv"
    file.write_text(text)
    ran = run("plan", "--store", store_name, "csv", str(file), "--why", "March")
    assert ran.status == 1 and said in ran.err


def test_plan_computes_again(store: Database, store_name: str) -> None:
    """Other rules compute rows again, up to the first settled day."""
    plan(store)
    settle(store, list(write_session("CS-01", "T1", 5)))
    words = ["plan", "--store", store_name, "site", "north", "--why", "as agreed"]
    assert "north: 1 transactions computed again" in run(*words, "--settle", "later").out
    check(store)
    store.execute("update site set first_settled_day = '2026-03-01' where site = 'north'")
    ran = run(*words, "--settle", "even")
    assert ran.status == 1 and "fixed, since its first day is settled" in ran.err
    assert run(*words, "--most-kw", "50").status == 0
    check(store)


def test_operate(store: Database, store_name: str) -> None:
    """An operator's line says what it changed, or why it was refused, and is kept."""
    plan(store)
    settle(store, list(write_session("CS-01", "T1", 3)))
    words, why = ["operate", "--store", store_name], ["--who", "jo", "--why", "meter exchanged"]
    ran = run(*words, "void", "CS-01", "T1", "2", *why)
    assert ran.status == 0
    assert (
        ran.out
        == "accepted 4: 0.500 kWh, messages complete before, 0.250 kWh, voided by jo: no end now\n"
    )
    ran = run(*words, "void", "CS-01", "T1", "2", *why)
    assert ran.status == 1
    assert ran.out.startswith("refused AlreadyVoided: the event is voided already")
    ran = run(*words, "void", "CS-77", "T1", "2", *why)
    assert ran.status == 1 and "no site has this station" in ran.out
    for wrong in (["a b", "T1", "2"], ["CS-01", "T 1", "2"], ["CS-01", "T1", "02"]):
        assert run(*words, "void", *wrong, *why).status == 2
    assert run(*words, "restore", "CS-01", "t1", "2", *why).status == 0
    rows = store.fetch("select word, who, why, outcome from deed order by at")
    assert [(row.word, row.outcome) for row in rows] == [
        ("void", "accepted"),
        ("void", "refused"),
        ("restore", "accepted"),
    ]
    assert {(row.who, row.why) for row in rows} == {("jo", "meter exchanged")}
    check(store)


DAMAGES = {
    "update part set up = up + 1": "up is 250001, and 250000 by the program",
    "delete from part where up > 0": "is on the program's board and not in the store",
    "update session set missing = 1": "missing is",
    "update session set gaps = '1..1'": "gaps is 1..1, and  by the program",
    "update session set site = 'west'": "no site west",
    "delete from session": "has lines and no row",
    "update part set on_board = not on_board": "is on the program's board and not in the store",
    "update line set line = replace(line, '1250', '1251') where number = 2": "by the program",
    "update line set number = number + 10": "",
}


def test_verify(store: Database) -> None:
    """It finds each damage, and none once it is undone."""
    plan(store)
    plan(store, Rules(), "south", "CS-03")
    settle(store, [*write_session("CS-01", "T1", 3), *write_session("CS-03", "T1", 2)])
    figures = check(store)

    def damage(statement: str) -> None:
        with store.transaction():
            store.execute(statement)
            raise Damaged(verify_within(store).difference)

    for statement, said in DAMAGES.items():
        word = "and" if "where" in statement else "where"
        with pytest.raises(Damaged) as damaged:
            damage(f"{statement} {word} station = 'CS-01'")
        assert said in str(damaged.value) and bool(said) == bool(str(damaged.value)), statement
        assert check(store) == figures


class Damaged(Exception):
    """What was found wrong of a damage, which is undone by it."""


def test_verify_command(store: Database, store_name: str) -> None:
    """It says how many figures it compared, or the first that is not the program's."""
    plan(store)
    settle(store, list(write_session("CS-01", "T1", 3)))
    words = ["verify", "--store", store_name, "--processes", "2"]
    assert (
        run(*words).out == f"verified: {check(store):,} figures are those of the program's boards\n"
    )
    store.execute("update part set up = up + 1 where station = 'CS-01'")
    ran = run(*words)
    assert ran.status == 1 and ran.err.startswith("not verified: site north, period 2026-03-01")
    ran = run(*words, "--site", "nowhere")
    assert ran.status == 1 and "there is no site 'nowhere'" in ran.err


def test_export(
    store: Database,
    store_name: str,
    program: Program,
    tmp_path: Path,
) -> None:
    """A script of a site, a station or a transaction, whose board has the store's figures."""
    plan(store, Rules(settle="later", period=300))
    settle(store, [*write_session("CS-01", "T1", 4), *write_session("CS-02", "T2", 3)])
    settle(
        store,
        [deed("void", "CS-01", "T1", 1), message("CS-01", write_event("T3", 0, "Started", 0))],
    )
    out = tmp_path / "north.script"
    words = ["export", "--store", store_name]
    assert run(*words, "--site", "north", "--out", str(out)).status == 0
    text = program.answer(out.read_bytes()).decode()
    (row,) = store.fetch("select * from board_site")
    assert f"total events={row.events} voided=1 transactions=3 complete=" in text
    assert f" up={row.up} down={row.down} " in text
    assert "refused" not in text and "fault" not in text
    script = out.read_text()
    assert '# operator {"line":"void CS-01 T1 1"' in script.replace('": "', '":"')
    assert "# received 2026-03-01T10:01:00Z\nmsg CS-01 [2," in script
    for words, lines in ((["CS-01"], 6), (["CS-01", "--transaction", "T3"], 1)):
        found = run("export", "--store", store_name, "--station", *words).out
        assert sum(line.startswith(("msg ", "void ")) for line in found.splitlines()) == lines
        answers = program.answer(found.encode())
        assert b"fault" not in answers and b"end\n" in answers
    assert run("export", "--store", store_name, "--station", "CS-77").status == 1
    assert run("export", "--store", store_name, "--transaction", "T1").status == 2


def test_export_of_many_stations(store: Database, store_name: str, tmp_path: Path) -> None:
    """A site of more than 64 stations is several scripts, that can be loaded again."""
    stations = [f"CS-{number:02}" for number in range(70)]
    plan(store, Rules(), "north", *stations)
    settle(store, [one for station in stations for one in write_session(station, "T1", 2)])
    out = tmp_path / "north.script"
    words = ["export", "--store", store_name, "--site", "north"]
    assert run(*words).status == 2
    assert run(*words, "--out", str(out)).status == 0
    files = [out, tmp_path / "north.2.script"]
    texts = [file.read_text() for file in files]
    assert sum(text.count("\nmsg ") for text in texts) == 140
    assert [text.count("\nstation ") for text in texts] == [64, 6]
