"""Pages of a store as files: the figures of its views, links, labels, tokens, sizes, and what is written again."""

import hashlib
import json
import os
import re
import subprocess
import sys
from collections.abc import Iterator
from datetime import datetime, timedelta, timezone
from pathlib import Path
from urllib.parse import unquote

import pytest

from ocpp_board.energies import kwh
from ocpp_board.ledger.engine import settle
from ocpp_board.records import LeftOut, Rules
from ocpp_board.store.database import Database
from ocpp_board.store.lines import note_left_out
from ocpp_board.writers.pages import PageOptions, PageWriter, write_pages
from tests.page_check import Check
from tests.store.scene import deed, message, plan, write_event
from tests.store.scripts import EXAMPLES, SITE_DAY, load_script, plan_script, read_records

WRITTEN = datetime(2026, 3, 9, 12, tzinfo=timezone.utc)
OPTIONS = PageOptions(written=WRITTEN)
MOST_BYTES = 300_000
TOKEN = "04A2F7C9D1"
HREF = re.compile(r'href="([^"#]*)')


@pytest.fixture(scope="session", name="troubles")
def troubles_script(tmp_path_factory: pytest.TempPathFactory) -> Path:
    """A script with each kind of trouble."""
    path = tmp_path_factory.mktemp("troubles") / "troubles.script"
    with open(path, "wb") as file:
        words = [sys.executable, "-m", "tests.traffic", "1", "troubles"]
        subprocess.run(words, stdout=file, check=True, cwd=EXAMPLES.parent)
    return path


def list_pages(out: Path) -> dict[str, str]:
    """The pages below a folder, by their paths."""
    return {str(path.relative_to(out)): path.read_text("utf-8") for path in out.rglob("*.html")}


def list_faults(out: Path) -> list[str]:
    """What keeps a reader from the pages below a folder."""
    return [f"{path}: {what}" for path in out.rglob("*.html") for what in Check(path).found()]


def follow_links(out: Path) -> set[str]:
    """The pages that links lead to from the page of all sites."""
    found, waiting = set[str](), [out / "index.html"]
    while waiting:
        path = waiting.pop()
        name = str(path.relative_to(out))
        if name not in found:
            found.add(name)
            for href in HREF.findall(path.read_text("utf-8")):
                waiting.append((path.parent / unquote(href)).resolve())
    return found


def test_figures_of_a_site(store: Database, tmp_path: Path) -> None:
    """A site, its stations, days and sessions show what the views have."""
    load_script(store, SITE_DAY)
    write_pages(store, tmp_path, OPTIONS)
    pages = list_pages(tmp_path)
    site = pages["riverside/index.html"]
    (row,) = store.fetch("select * from board_site where site = 'riverside'")
    assert (row.up, row.transactions, row.complete_transactions) == (77_150_000, 4, 3)
    assert "<dt>Net</dt><dd>77.150 kWh</dd>" in site
    assert "<dt>Of these</dt><dd>75.0% with all messages</dd>" in site
    assert f"<dt>Missing numbers</dt><dd>{row.missing}</dd>" in site
    for one in store.fetch("select * from board_station"):
        assert f">{kwh(one.up - one.down)}</td>" in site
        station = pages[f"riverside/{one.station}/index.html"]
        assert f"<dt>Net</dt><dd>{kwh(one.up - one.down)} kWh</dd>" in station
    for one in store.fetch("select * from board_site_period"):
        day = pages["riverside/2026-03-02.html"]
        assert f'<th scope="row">{one.starts:%H:%M}\N{EN DASH}' in day
        assert f"<td>{kwh(one.up - one.down)}<td>" in day
    for one in store.fetch("select * from session"):
        page = pages[f"riverside/{one.station}/session-{one.transaction_id}.html"]
        assert f"<dt>Net</dt><dd>{kwh(one.up - one.down)} kWh</dd>" in page
        assert f"<h1>Session {one.sent_id}</h1>" in page


def test_what_came_of_a_session(store: Database, tmp_path: Path) -> None:
    """The page of a transaction has each message with its answer, who voided it and why, and what was refused."""
    plan(store)
    conflict = write_event("T1", 1, "Updated", 16)
    settle(
        store,
        [
            message("CS-01", write_event("T1", 0, "Started", 0, [(0, 1_000)]), 0, "a"),
            message("CS-01", write_event("T1", 1, "Updated", 15, [(15, 2_500)]), 15, "a"),
            message("CS-01", conflict, 17, "a"),
            message("CS-01", write_event("T1", 2, "Ended", 30, [(30, 3_000)]), 31, "a"),
            deed("void", "CS-01", "T1", 1, 40),
            deed("void", "CS-01", "T1", 7, 41),
        ],
    )
    write_pages(store, tmp_path, OPTIONS)
    page = (tmp_path / "north/CS-01/session-t1.html").read_text("utf-8")
    rows = re.findall(r"<tr role=\"row\"[^>]*>(.*?)</tr>", page)
    texts = [re.sub(r"<[^>]*>", "|", row).strip("|") for row in rows]
    assert [one.split("||")[0] for one in texts if "|accepted" in one][:3] == [
        "0 Started",
        "1 Updated",
        "2 Ended",
    ]
    assert "accepted; voided by jo: a test" in page
    assert "refused: ConflictingEvent" in page
    assert "refused: NoSuchEvent" in page
    assert "2.500" in page and "deliver CS-01 [2," in page


@pytest.mark.parametrize("name", ["site_day", "day", "troubles"])
def test_pages_can_be_read(store: Database, tmp_path: Path, name: str, troubles: Path) -> None:
    """Labels, contrasts and links are there, no page is too long, and each is reached from the first."""
    load_script(store, troubles if name == "troubles" else EXAMPLES / f"{name}.script")
    count = write_pages(store, tmp_path, OPTIONS)
    pages = list_pages(tmp_path)
    assert count == len(pages)
    assert not list_faults(tmp_path)
    assert follow_links(tmp_path) == {*pages}
    assert max(len(text.encode()) for text in pages.values()) <= MOST_BYTES


def test_findings_are_shown(store: Database, tmp_path: Path, troubles: Path) -> None:
    """Each finding of the store is in the list of its site and on the page of its session."""
    load_script(store, troubles)
    write_pages(store, tmp_path, OPTIONS)
    pages = list_pages(tmp_path)
    found = store.fetch("select * from all_finding")
    assert len({one.kind for one in found}) > 10
    for one in found:
        assert one.kind in pages[f"{one.site}/findings.html"]
        name = f"session-{one.transaction_id}" if one.transaction_id else "index"
        assert one.kind in pages[f"{one.site}/{one.station}/{name}.html"]
        assert one.kind in pages[f"{one.site}/index.html"]


def list_token_pages(store: Database, out: Path, tokens: str) -> Iterator[str]:
    """The pages of a session with a driver's token, when tokens are written so."""
    plan(store)
    token = {"idToken": {"idToken": TOKEN, "type": "ISO14443", "additionalInfo": []}}
    started = write_event("T1", 0, "Started", 0, [(0, 1_000)], **token)
    broken = '[2,"x","TransactionEvent",{"idToken":{"idToken":"' + TOKEN
    settle(store, [message("CS-01", started, 0, "a"), message("CS-01", broken, 1, "b")])
    write_pages(store, out, PageOptions(tokens=tokens, written=WRITTEN))
    yield from list_pages(out).values()


def test_tokens_are_on_no_page(store: Database, tmp_path: Path) -> None:
    """A driver's token is shown only where that was asked for."""
    pages = list(list_token_pages(store, tmp_path / "none", "none"))
    assert pages and not any(TOKEN in page for page in pages)
    assert any("&#34;***&#34;" in page for page in pages)
    hashed = hashlib.sha256(TOKEN.lower().encode()).hexdigest()
    pages = list(list_token_pages(store, tmp_path / "hash", "hash"))
    assert not any(TOKEN in page for page in pages) and any(hashed in page for page in pages)
    assert any(TOKEN in page for page in list_token_pages(store, tmp_path / "plain", "plain"))


def test_changes_are_written_as_all(store: Database, tmp_path: Path, troubles: Path) -> None:
    """Pages that are written after each few lines are in the end those that are written at once."""
    declared, asked = read_records(troubles)
    plan_script(store, declared)
    some = PageWriter(store, tmp_path / "some", OPTIONS)
    some.write_all()
    for first in range(0, len(asked), 5):
        few = asked[first : first + 5]
        answers = settle(store, few)
        some.write_changed(
            [
                (one.station, answer.transaction if answer.outcome == "accepted" else None)
                for one, answer in zip(few, answers)
            ]
        )
    row = store.fetch("select station, transaction_id from session where events > 2")[0]
    for minute, word in enumerate(("void", "restore", "void", "erase")):
        settle(store, [deed(word, row.station, row.transaction_id, 1, minute)])
        some.write_changed([(row.station, row.transaction_id)])
    write_pages(store, tmp_path / "all", OPTIONS)
    written, wanted = list_pages(tmp_path / "some"), list_pages(tmp_path / "all")
    assert {*written} == {*wanted}
    assert [name for name in wanted if written[name] != wanted[name]] == []


def test_processes_write_the_same(store: Database, tmp_path: Path) -> None:
    """Pages that several processes write are those that one writes."""
    load_script(store, SITE_DAY)
    write_pages(store, tmp_path / "one", OPTIONS)
    write_pages(store, tmp_path / "three", PageOptions(written=WRITTEN, workers=3))
    assert list_pages(tmp_path / "three") == list_pages(tmp_path / "one")


def test_old_pages_go(store: Database, tmp_path: Path) -> None:
    """A page of something that is no longer in the store is removed; other files stay."""
    load_script(store, SITE_DAY)
    folder = tmp_path / "riverside" / "RV-FAST-01"
    folder.mkdir(parents=True)
    for name in ("session-gone.html", "notes.html"):
        (folder / name).write_text("")
    write_pages(store, tmp_path, OPTIONS)
    os.utime(folder / "session-gone.html", (0, 0))
    os.utime(folder / "notes.html", (0, 0))
    write_pages(store, tmp_path, OPTIONS)
    assert not (folder / "session-gone.html").exists()
    assert (folder / "notes.html").exists()


def test_pages_that_change_without_a_session(store: Database, tmp_path: Path) -> None:
    """A session becomes silent by time only; stations of another version are named; main meters have a page."""
    plan(store, Rules(), "north", "A", "B")
    settle(store, [message("A", write_event("T1", 0, "Started", 0, [(0, 1_000)]), 0)])
    settle(store, [message("B", write_event("T2", 0, "Started", 900, [(900, 1_000)]), 900)])
    first = datetime(2026, 3, 1, tzinfo=timezone.utc)
    at = min(row.heard_at for row in store.fetch("select heard_at from lacking"))
    writer = PageWriter(store, tmp_path, PageOptions(written=at + timedelta(hours=30)))
    writer.write_all()
    assert writer.write_others() == 0
    pages = list_pages(tmp_path)
    assert "session-t1.html" in pages["north/silent.html"] and at > first
    assert "session-t2.html" not in pages["north/silent.html"]
    assert all(f"session-{name}.html" in pages["north/lacking.html"] for name in ("t1", "t2"))
    writer.options = PageOptions(written=at + timedelta(hours=48), silent=30)
    assert writer.write_others() == 1
    assert "session-t2.html" in (tmp_path / "north/silent.html").read_text()
    assert writer.write_others() == 0
    with store.transaction():
        note_left_out(store, [LeftOut("OLD", "ocpp1.6", "north", None, None)])
        note_left_out(store, [LeftOut("LOST", "ocpp1.6", "nowhere", None, None)])
    assert writer.write_others() == 2
    site, index = (list_pages(tmp_path)[name] for name in ("north/index.html", "index.html"))
    assert "another version of OCPP: OLD (ocpp1.6)." in site and "LOST" not in site
    assert "another version of OCPP: LOST (ocpp1.6)." in index
    value = [{"timestamp": "2026-03-01T10:00:00Z", "sampledValue": [{"value": 1_000}]}]
    value += [{"timestamp": "2026-03-01T11:00:00Z", "sampledValue": [{"value": 5_000}]}]
    text = json.dumps([2, "m", "MeterValues", {"evseId": 0, "meterValue": value}])
    settle(store, [message("A", text, 60)])
    assert writer.write_others() == 1
    page = (tmp_path / "north/site-meter.html").read_text()
    assert page.count(">1.000</td>") == 8 and not list_faults(tmp_path)
