"""One class for both databases: parameters, moments, transactions, faults."""

from datetime import datetime, timedelta, timezone
from pathlib import Path

import pytest

from ocpp_board.errors import StoreError, UsageError
from ocpp_board.store.database import (
    Database,
    choose,
    open_store,
    part_statements,
    write_postgresql,
)

AT = datetime(2026, 3, 1, 10, 0, 0, 5, timezone(timedelta(hours=1)))


def test_values(store: Database) -> None:
    """Moments, days, flags, numbers of 64 bits and texts are the same in both; what is in quotes is no parameter."""
    store.execute(
        "insert into site (site, first_settled_day) values (:site, :day)",
        site="a",
        day="2026-03-01",
    )
    store.execute(
        """insert into part (station, transaction_id, starts, up, down, export_up, export_down, on_board, measured,
        numbers_missing) values (:station, 't:x', :at, :up, 0, 0, 0, :yes, :no, :no)""",
        **{"station": "%s ' :up", "at": AT, "up": 2**62, "yes": True, "no": False},
    )
    (row,) = store.fetch("select *, ':up 100%' as kind from part where transaction_id = 't:x'")
    assert (row.starts, row.up, row.on_board, row.measured) == (AT, 2**62, True, False)
    assert row.starts.tzinfo is not None and (row.station, row.kind) == ("%s ' :up", ":up 100%")
    assert row.shared is None
    (row,) = store.fetch("select first_settled_day from site")
    assert row.first_settled_day.isoformat() == "2026-03-01"
    found = list(
        store.fetch_each("select up from part where up > :up", [{"up": 1}, {"up": 2**62}])
    )
    assert [len(rows) for rows in found] == [1, 0]
    assert [row.up for row in store.stream("select up from part where up > :up", up=1)] == [2**62]
    assert store.fetch_one("select up from part where up = :up", up=0) is None


def test_transactions(store: Database, store_name: str) -> None:
    """What fails is undone; a snapshot sees one moment; another connection sees what was committed."""
    adding = "insert into source (origin) values (:origin)"
    with pytest.raises(KeyError), store.transaction():
        store.execute(adding, origin="a")
        raise KeyError
    assert not store.fetch("select * from source")
    with open_store(store_name) as other:
        with store.snapshot():
            assert not store.fetch("select * from source")
            with other.transaction():
                other.execute(adding, origin="a")
            assert not store.fetch("select * from source")
        assert len(store.fetch("select * from source")) == 1
    with pytest.raises(StoreError), store.transaction():
        store.execute(adding, origin="a")
    with store.transaction():
        store.execute(adding, origin="b")
    assert len(store.fetch("select * from source")) == 2


def test_faults(store: Database) -> None:
    """A fault of the database is an error of the store, which can be used afterwards."""
    with pytest.raises(StoreError, match="nothing"):
        store.fetch("select nothing from line")
    with pytest.raises(StoreError):
        store.execute("insert into part (station) values ('a')")
    assert not store.fetch("select * from line")


@pytest.mark.parametrize("name", ["", "folder", "text", "postgresql://nobody@127.0.0.1:1/x"])
def test_no_store(tmp_path: Path, name: str) -> None:
    """What is no store is said so."""
    (tmp_path / "folder").mkdir()
    (tmp_path / "text").write_text("no store " * 1_000)
    whole = name if not name or ":" in name else str(tmp_path / name)
    with pytest.raises(UsageError if not name else StoreError):
        open_store(whole)


def test_other_version(store: Database, store_name: str) -> None:
    """Tables of another version are left alone."""
    store.execute("update store set version = 99")
    with pytest.raises(StoreError, match="version 99"):
        open_store(store_name)


def test_texts_of_statements() -> None:
    """Marks, parameters, comments and quotes."""
    assert choose("a /*sqlite b*/ /*postgresql c*/", "sqlite").split() == ["a", "b"]
    assert choose("a /*sqlite b*/ /*postgresql c*/", "postgresql").split() == ["a", "c"]
    wanted = "select %(a1)s, ':b', c::int, '%%' -- %(d)s"
    assert write_postgresql("select :a1, ':b', c::int, '%' -- :d") == wanted
    text = "-- a; b\ncreate 'x -- y; z';\n\nselect 1; -- c\n"
    assert part_statements(text) == ["create 'x -- y; z'", "select 1"]
