"""Each statement of the engine names its stations, so PostgreSQL looks at their partitions and at no other ones: what
goes to one node where partitions are on several."""

import json
from collections.abc import Callable, Iterator
from contextlib import contextmanager
from datetime import datetime, timezone
from typing import Any

import pytest

from ocpp_board.ledger.engine import settle, take_strays
from ocpp_board.records import Asked, Deed, Message, Untaken
from ocpp_board.store.database import (
    PARTITIONED,
    PARTITIONS,
    Database,
    PostgresDatabase,
    choose,
    list_sources,
    open_store,
    write_postgresql,
)
from ocpp_board.store.lines import Warm
from ocpp_board.store.plan import Author, write_station
from tests.gateway.client import make_event

Make = Callable[..., str]
Said = tuple[str, dict[str, Any]]
NOW = datetime(2026, 3, 1, 12, tzinfo=timezone.utc)
VALUES = '"meterValue":[{"timestamp":"2026-03-01T1%d:00:00Z","sampledValue":[{"value":5}]}]'
# Words with which a statement begins that has a plan.
PLANNED = ("select", "insert", "update", "delete", "with")


def list_tables() -> list[str]:
    """The tables that have partitions."""
    text = "\n".join(path.read_text("utf-8") for path in list_sources())
    return PARTITIONED.findall(choose(text, "postgresql"))


@contextmanager
def record(monkeypatch: pytest.MonkeyPatch, said: list[Said]) -> Iterator[None]:
    """Notes each statement with its values."""

    def wrap(name: str, has_each: bool) -> None:
        own = getattr(PostgresDatabase, name)

        def run(store: PostgresDatabase, statement: str, *more: Any, **values: Any) -> Any:
            if has_each:
                rows = list(more[0])
                said.extend((statement, dict(one)) for one in rows[:3])
                return own(store, statement, rows)
            said.append((statement, values))
            return own(store, statement, **values)

        monkeypatch.setattr(PostgresDatabase, name, run)

    with monkeypatch.context():
        for name, has_each in (
            ("execute", False),
            ("fetch", False),
            ("execute_each", True),
            ("fetch_each", True),
        ):
            wrap(name, has_each)
        yield
        monkeypatch.undo()


def find_partitions(store: Database, tables: list[str], stations: list[str]) -> set[str]:
    """The partitions of these stations."""
    return {
        f"{table}_{row.n}"
        for table in tables
        for station in stations
        for row in store.fetch(
            f"select n from generate_series(0, {PARTITIONS - 1}) as n "
            f"where satisfies_hash_partition('{table}'::regclass, {PARTITIONS}, n, cast(:station as text))",
            station=station,
        )
    }


def list_relations(plan: Any) -> Iterator[str]:
    """The tables that a plan looks at."""
    if isinstance(plan, list):
        for one in plan:
            yield from list_relations(one)
    elif isinstance(plan, dict):
        if "Relation Name" in plan:
            yield plan["Relation Name"]
        for one in plan.values():
            yield from list_relations(one)


def ask_everything(store: Database) -> None:
    """Has the engine do all that it does of some stations."""
    warm = Warm()
    texts: list[Asked] = [
        Message(station, text, NOW, "a test")
        for station in ("CS-0", "CS-1", "unknown")
        for text in (
            *(make_event("t", n, 5) for n in range(5)),
            make_event("t", 2, 5),
            make_event("t", 3, 5, 99),
            make_event("u", 0),
            "[2,",
            '[2,"h","Heartbeat",{}]',
            f'[2,"m","MeterValues",{{"evseId":1,{VALUES % 1}}}]',
            f'[2,"m","MeterValues",{{"evseId":1,{VALUES % 2}}}]',
            f'[2,"m","MeterValues",{{"evseId":1,{VALUES % 3}}}]',
        )
    ]
    texts.append(Untaken("CS-0", "t", 1, "what", "advice", "text", NOW, "a test"))
    settle(store, texts, warm=warm)
    settle(store, texts, warm=warm)
    settle(store, texts)
    for word in ("void", "restore", "void", "erase"):
        settle(store, [Deed(word, "CS-0", "t", 2, "jo", "why", NOW, "operator jo")])
    settle(store, [Deed("void", "CS-1", "nothing", 2, "jo", "why", NOW, "operator jo")])
    with store.transaction():
        write_station(store, "unknown", "depot", Author("jo", "a trial"))
    take_strays(store, ["unknown"])


def test_statements_look_at_the_partitions_of_their_stations(
    make_fleet: Make, monkeypatch: pytest.MonkeyPatch
) -> None:
    """The plan of each statement that the engine ran has no partition but those of the stations it was asked of."""
    stations = ["CS-0", "CS-1", "unknown"]
    said: list[Said] = []
    with open_store(make_fleet()) as store:
        with record(monkeypatch, said):
            ask_everything(store)
        tables = list_tables()
        assert {"line", "session", "part", "finding", "refusal"} <= set(tables)
        allowed = find_partitions(store, tables, stations)
        assert len(allowed) < PARTITIONS * len(tables) / 2
        every = {f"{table}_{n}" for table in tables for n in range(PARTITIONS)}
        checked, touched = 0, set[str]()
        assert isinstance(store, PostgresDatabase)
        for statement, values in said:
            if not statement.split(None, 1)[0].lower().startswith(PLANNED):
                continue
            with store.connection.transaction(force_rollback=True):
                (row,) = store.connection.execute(
                    "explain (format json) " + write_postgresql(statement), values
                )
            plan = row[0] if not isinstance(row[0], str) else json.loads(row[0])
            found = set(list_relations(plan)) & every
            assert found <= allowed, f"{sorted(found - allowed)[:4]}: {statement}"
            checked += 1
            touched |= {name.rpartition("_")[0] for name in found}
    assert checked > 50
    assert {"line", "session", "part", "finding", "refusal"} <= touched
