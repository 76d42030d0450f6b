"""`ocpp-board report`: the tables of each form of logs and of scripts as they have to be, pages, and what is wrong.

The stored tables were compared with those of an implementation that keeps all boards in memory.
"""

import csv
import gzip
import hashlib
import io
import os
import sqlite3
from contextlib import redirect_stdout
from pathlib import Path
from typing import Any

import pytest

from ocpp_board.cli import main
from ocpp_board.commands import report
from ocpp_board.ledger.program import Program, find_program
from ocpp_board.ledger.verify import Verified
from tests.traffic import script as traffic

TOP = Path(__file__).resolve().parents[2]
EXPECTED, FORMS, EXAMPLES = (
    TOP / "tests/store/expected",
    TOP / "tests/tools/forms",
    TOP / "examples",
)
WRITTEN = ("--written", "2026-03-02T20:00:00Z")
SITES = ("--site", "north", "--site-map", str(FORMS / "sites.txt"))
DAY = (
    *("--site-field", "location", "--station-field", "chargePoint", "--time-field", "at"),
    *("--message-field", "frame", "--json-message", "--direction-field", "from"),
    *("--incoming", "station"),
)
REGEX = r"^(?P<time>[0-9.]+)\|(?P<site>[^/]+)/(?P<station>[^|]+)\|(?P<direction>up|down)\|(?P<message>.*)"
NESTED = (
    *("--time-field", "meta.at", "--site-field", "charger.site", "--station-field", "charger.id"),
    *("--protocol-field", "charger.version", "--message-field", "frame.raw", "--json-message"),
)
# The stored tables, the log or script, its words, and the exit status.
CASES = [
    ("day", EXAMPLES / "day.script", (), 1),
    ("sday", EXAMPLES / "site_day.script", (), 0),
    ("repeats", EXAMPLES / "repeats.script", (), 0),
    ("dayl", EXAMPLES / "day.jsonl", DAY, 0),
    ("sdayl", EXAMPLES / "site_day.jsonl", (), 0),
    ("ocpp", FORMS / "ocpp.log", ("--form", "ocpp", "--site", "north", "--utc"), 0),
    ("maeve", FORMS / "maeve.mqtt", ("--form", "maeve", "--stations", f"{FORMS}/stations.txt"), 0),
    ("citrine", FORMS / "citrineos.jsonl", ("--form", "citrineos", *SITES), 0),
    ("citrine", FORMS / "citrineos.csv", ("--form", "citrineos-csv", *SITES), 0),
    (
        "citrinep",
        FORMS / "citrineos.jsonl",
        ("--form", "citrineos", *SITES, "--period", "1800", "--period", "north=300"),
        0,
    ),
    (
        "citrineo",
        FORMS / "citrineos.jsonl",
        ("--form", "citrineos", *SITES, "--order", "moment", "--order", "north=sequence"),
        0,
    ),
    ("arrows", FORMS / "arrows.log", ("--form", "arrows", "--site", "north"), 0),
    ("regex", FORMS / "regex.log", ("--incoming", "up", "--regex", REGEX), 0),
    ("nested", FORMS / "nested.jsonl", NESTED, 0),
    ("mistakes", FORMS / "mistakes.jsonl", (), 1),
]


@pytest.fixture(autouse=True)
def needed(program: Program, monkeypatch: pytest.MonkeyPatch) -> None:
    """The proved program; standard output stays that of the tests."""
    assert program
    monkeypatch.setattr("ocpp_board.statuses.drop_output", lambda: None)
    find_program.cache_clear()


def write_traffic(path: Path, *words: str) -> Path:
    """Traffic in a file."""
    text = io.StringIO()
    with redirect_stdout(text):
        assert traffic.main(list(words), "traffic") == 0
    path.write_text(text.getvalue())
    return path


def make_report(log: Path | str, out: Path, *words: str, processes: int = 1) -> int:
    """Runs the command, and gives its status."""
    more = ["--processes", str(processes), *WRITTEN]
    return main(["report", "--out", str(out), *more, str(log), *words])


def read_tables(folder: Path) -> dict[str, str]:
    """The tables of a report, each by its site and its name; `-` has what is of no site."""
    tables = {
        f"{path.parent.name}/{path.name}": path.read_text() for path in folder.glob("*/*.csv")
    }
    return tables | {f"-/{path.name}": path.read_text() for path in folder.glob("*.csv")}


def read_rows(text: str) -> list[list[str]]:
    """The rows of a table."""
    return list(csv.reader(text.splitlines()))


def read_expected(name: str) -> dict[str, str]:
    """The stored tables of a case, each by its site and its name."""
    folder = EXPECTED / name
    return {f"{one.parent.name}/{one.name}": one.read_text() for one in folder.glob("*/*.csv")}


def compare(name: str, out: Path) -> None:
    """Compares tables with the stored ones: no row is lost and none is more."""
    found = read_tables(out)
    for table, text in read_expected(name).items():
        assert found.pop(table, "") == text, table
    # Others have heads only.
    assert {len(read_rows(text)) for text in found.values()} <= {1}


@pytest.mark.parametrize(("name", "log", "words", "status"), CASES)
def test_tables(name: str, log: Path, words: tuple[str, ...], status: int, tmp_path: Path) -> None:
    assert make_report(log, tmp_path / "out", *words) == status
    compare(name, tmp_path / "out")
    assert (tmp_path / "out/index.html").exists()


@pytest.mark.parametrize("processes", [1, 2])
def test_each_kind_of_trouble(
    processes: int, store_name: str, tmp_path: Path, capfd: pytest.CaptureFixture[str]
) -> None:
    log = write_traffic(tmp_path / "troubles", "2", "troubles")
    words = ("--store", store_name)
    assert make_report(log, tmp_path / "out", *words, processes=processes) == 0
    compare("troubles", tmp_path / "out")
    signed = [path.name for path in (tmp_path / "out/troubled/signed").iterdir()]
    assert sorted(signed) == ["signed-differs.T1.xml", "signed-differs.T2.xml"]
    said = capfd.readouterr().err
    assert "464 lines read; messages: 202 changed a transaction, 4 were of other actions" in said
    assert "verified: 1,412 figures are those of the program's boards" in said


def test_a_month_of_two_sites_by_any_number_of_processes(tmp_path: Path) -> None:
    """Its files, pages included, have the same bytes by one process and by three; its tables are the stored ones."""
    log = write_traffic(tmp_path / "month", "8", "month")
    files = list[dict[str, bytes]]()
    for processes in (1, 3):
        out = tmp_path / f"out{processes}"
        assert make_report(log, out, processes=processes) == 0
        paths = [path for path in out.rglob("*") if path.is_file()]
        files.append({str(path.relative_to(out)): path.read_bytes() for path in paths})
    assert files[0].keys() == files[1].keys() and len(files[0]) > 500
    assert [name for name in files[0] if files[0][name] != files[1][name]] == []
    for line in (EXPECTED / "month/digests").read_text().splitlines():
        digest, rows, name = line.split()
        assert len(read_rows(files[0][name].decode())) - 1 == int(rows), name
        assert hashlib.sha256(files[0][name]).hexdigest() == digest, name


def dump(path: Path) -> dict[str, list[Any]]:
    """All rows of a store."""
    with sqlite3.connect(path) as database:
        asked = "select name from sqlite_master where type = 'table' and name not like 'sqlite%'"
        names = [name for (name,) in database.execute(asked)]
        return {
            name: sorted(database.execute(f"select * from {name}").fetchall(), key=repr)
            for name in names
        }


def test_the_same_again_changes_no_row(tmp_path: Path) -> None:
    log = write_traffic(tmp_path / "troubles", "1", "troubles")
    store = tmp_path / "store"
    dumps = list[dict[str, list[Any]]]()
    for _ in range(2):
        assert make_report(log, tmp_path / "out", "--store", str(store)) == 0
        dumps.append(dump(store))
    assert dumps[0] == dumps[1]


def test_rotated_and_compressed_logs_in_any_order(tmp_path: Path) -> None:
    lines = (EXAMPLES / "site_day.jsonl").read_text().splitlines(keepends=True)
    (tmp_path / "log").write_text("".join(lines[40:]))
    (tmp_path / "log.1").write_text("".join(lines[20:40]))
    (tmp_path / "log.2.gz").write_bytes(gzip.compress("".join(lines[:20]).encode()))
    more = [str(tmp_path / "log.2.gz"), str(tmp_path / "log.1")]
    assert make_report(tmp_path / "log", tmp_path / "out", *more) == 0
    compare("sdayl", tmp_path / "out")


def test_all_periods_are_there_if_asked_for(tmp_path: Path) -> None:
    words = ("--all-periods", "--tz", "riverside=Europe/Berlin")
    assert make_report(EXAMPLES / "site_day.jsonl", tmp_path / "out", *words) == 0
    rows = list(csv.DictReader((tmp_path / "out/riverside/periods.csv").read_text().splitlines()))
    site = [one for one in rows if one["level"] == "site"]
    assert len(site) == 96 and len(rows) == 96 * 7
    assert site[0]["period start (Europe/Berlin)"] == "2026-03-02T00:00:00+01:00"


def test_tokens_are_on_no_page_unless_asked_for(tmp_path: Path) -> None:
    log = EXAMPLES / "day.script"
    token = "AA11BB22"
    text = log.read_text()
    found = [word for word in text.split('"idToken":"')[1:]]
    token = found[0].split('"')[0] if found else token
    for how in ("none", "hash", "plain"):
        out = tmp_path / how
        make_report(log, out, "--tokens", how)
        texts = [path.read_text() for path in out.rglob("*") if path.suffix in (".html", ".csv")]
        assert any(token in one for one in texts) == (how == "plain" and bool(found))


def test_a_figure_that_differs_ends_it_without_a_page(
    tmp_path: Path, monkeypatch: pytest.MonkeyPatch, capfd: pytest.CaptureFixture[str]
) -> None:
    monkeypatch.setattr(
        report, "verify", lambda _store, pool: Verified(7, "up of station A is 1, and not 2")
    )
    assert make_report(EXAMPLES / "site_day.jsonl", tmp_path / "out") == 1
    assert "up of station A is 1, and not 2; no page is written" in capfd.readouterr().err
    assert list((tmp_path / "out").iterdir()) == []


def test_lines_that_can_not_be_taken_are_reported_and_kept(
    tmp_path: Path, capfd: pytest.CaptureFixture[str]
) -> None:
    log = tmp_path / "log.gz"
    text = (EXAMPLES / "site_day.jsonl").read_text() + "{}\nno JSON\n"
    log.write_bytes(gzip.compress(text.encode()))
    assert make_report(log, tmp_path / "out") == 1
    said = capfd.readouterr().err
    assert f"{log} line 57: 'site' is missing (--site-field names another field)" in said
    assert f"{log} line 58: not JSON: Expecting value at character 1" in said
    rows = read_rows((tmp_path / "out/refused.csv").read_text())
    assert [row[7] for row in rows[1:]] == ["Untaken", "Untaken"]
    log.write_bytes(gzip.compress(text.encode())[:-100])
    assert make_report(log, tmp_path / "cut") == 1
    assert "the gzip is cut short or damaged" in capfd.readouterr().err
    assert len(read_rows((tmp_path / "cut/riverside/transactions.csv").read_text())) > 3


@pytest.mark.parametrize(
    ("words", "status", "said"),
    [
        (("nowhere", *DAY), 2, "No such file or directory: 'nowhere'"),
        (
            ("--form", "ocpp", "--site", "n"),
            1,
            "line 58: neither this line nor one before it is of the form ocpp",
        ),
        (
            ("--form", "ocpp"),
            2,
            "--form ocpp has no sites: --site, --site-map or --stations names them",
        ),
        ((str(FORMS / "ocpp.log"), "--form", "citrineos-csv", "--site", "n"), 2, "names no column"),
        (("--stations", str(EXAMPLES / "day.jsonl")), 2, "line 1: not two names"),
        (
            ("--order", "nroth=moment", *DAY),
            2,
            "--order names the site 'nroth', which the log does not have",
        ),
        (("--store", "/"), 2, "can't be opened as a store"),
        (("--program", "/nowhere/ocpp_board", *DAY), 2, "/nowhere/ocpp_board"),
        (("--out", "/proc/x", *DAY), 2, "/proc/x"),
    ],
)
def test_what_is_wrong_is_said(
    words: tuple[str, ...],
    status: int,
    said: str,
    tmp_path: Path,
    capfd: pytest.CaptureFixture[str],
    monkeypatch: pytest.MonkeyPatch,
) -> None:
    for name in ("OCPP_BOARD_PROGRAM", "OCPP_LEDGER_LIBRARY"):
        monkeypatch.setenv(name, os.environ.get(name, ""))
    assert make_report(EXAMPLES / "day.jsonl", tmp_path / "out", *words) == status
    assert said in capfd.readouterr().err


@pytest.mark.parametrize(
    ("words", "said"),
    [
        (("--tz", "Mars"), "no time zone of this system: 'Mars'"),
        (("--from", "2026-03-02", "--to", "2026-03-01"), "--from is after --to"),
        (("--period", "north=600"), "not 300, 900, 1800 or 3600 seconds: 'north=600'"),
        (("--processes", "0"), "--processes is 1 or more"),
        (("--until", "2026-03-01T10:00:00"), "no time such as 2026-03-01T10:00:00Z"),
    ],
)
def test_words_that_are_wrong(
    words: tuple[str, ...], said: str, tmp_path: Path, capfd: pytest.CaptureFixture[str]
) -> None:
    with pytest.raises(SystemExit) as ended:
        make_report(EXAMPLES / "day.jsonl", tmp_path / "out", *words)
    assert ended.value.code == 2 and said in capfd.readouterr().err
