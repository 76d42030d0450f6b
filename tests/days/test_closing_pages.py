"""Pages of closings, as files and by `web`: when, who, what a closing froze, and what it corrected and why."""

from datetime import date, datetime, timedelta, timezone
from pathlib import Path

from ocpp_board.energies import kwh
from ocpp_board.store.closing import close_day
from ocpp_board.store.database import Database
from ocpp_board.writers.pages import PageOptions, PageWriter, write_pages
from tests.days.conftest import SITE, operate, read_noon, send
from tests.page_check import Check
from tests.traffic.troubles import sound

WRITTEN = PageOptions(written=datetime(2026, 4, 1, tzinfo=timezone.utc))


def morning(day: int) -> datetime:
    """Eight o'clock of a day in March, UTC."""
    return datetime(2026, 3, day, 8, tzinfo=timezone.utc)


def close(store: Database, day: int, who: str) -> None:
    """Closes a day in March at the next noon."""
    last = date(2026, 3, day)
    close_day(store, SITE, last, who, read_noon(f"{last}") + timedelta(days=1))


def fill(store: Database) -> None:
    """Two closings: the second one corrects the first by a void."""
    send(store, "A", sound("t1", morning(1)))
    send(store, "B", sound("t2", morning(1)))
    close(store, 1, "jo")
    assert operate(store, "void", "A", "t1", 3, morning(2)).outcome == "accepted"
    send(store, "B", sound("t3", morning(2)))
    close(store, 2, "ann <a>")


def read_pages(folder: Path) -> dict[str, str]:
    """The pages of a site, by their names."""
    return {path.name: path.read_text() for path in (folder / SITE).glob("*.html")}


def test_pages_of_closings(store: Database, tmp_path: Path) -> None:
    fill(store)
    write_pages(store, tmp_path, WRITTEN)
    pages = read_pages(tmp_path)
    listed, first, second = (
        pages[f"{name}.html"] for name in ("closings", "closing-1", "closing-2")
    )
    for name in ("index", "closings", "closing-1", "closing-2"):
        assert not list(Check(tmp_path / SITE / f"{name}.html").found())
    figures = store.fetch("select * from closing_sum order by closing")
    assert [row.corrections > 0 for row in figures] == [False, True]
    for row in figures:
        assert f"closing-{row.closing}.html" in listed and kwh(row.net) in listed
    assert "closings.html" in pages["index.html"]
    # When, who, and what it froze.
    assert "<time>2026-03-01</time>, closed at <time>2026-03-02 13:00:00</time> by jo." in first
    assert "It changed nothing that was settled before." in first
    assert first.count('/A/session-t1.html"') == 1 and '/B/session-t2.html"' in first
    # What it corrected, by how much and why; texts are escaped.
    assert "by ann &lt;a&gt;." in second
    assert second.count("5: void of event 3 at 2026-03-02T08:00:00Z by jo: it was wrong") == (
        figures[1].corrections
    )
    assert kwh(figures[1].corrected) in second and '/B/session-t3.html"' in second
    net = sum(row.net for row in store.fetch("select net from settled_period"))
    assert sum(row.net for row in figures) == net


def test_new_closings_are_written(store: Database, tmp_path: Path) -> None:
    send(store, "A", sound("t1", morning(1)))
    writer = PageWriter(store, tmp_path, WRITTEN)
    writer.write_all()
    assert "No day is closed." in read_pages(tmp_path)["closings.html"]
    assert writer.write_new_closings() == 0
    for day in (1, 2):
        close(store, day, "jo")
        assert writer.write_new_closings() > 0
    assert writer.write_new_closings() == 0
    some = read_pages(tmp_path)
    write_pages(store, tmp_path, WRITTEN)
    assert some == read_pages(tmp_path) and "closing-2.html" in some["closing-1.html"]
