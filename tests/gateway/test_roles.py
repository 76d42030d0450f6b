"""The roles of a store in PostgreSQL: each does its work, and nothing that it must not do."""

import asyncio
import subprocess
from collections.abc import Callable
from datetime import datetime, timezone
from pathlib import Path

import psycopg
import pytest

import ocpp_board.store
from ocpp_board.ledger.engine import settle
from ocpp_board.records import Deed, Message
from ocpp_board.store.database import PARTITIONS, open_store
from ocpp_board.store.plan import Author, write_station
from ocpp_board.store.stations import set_password
from tests.cluster import Cluster, GatewayPart
from tests.gateway.client import ask, connect_station, make_event, make_reply

Make = Callable[..., str]
ROLES = Path(ocpp_board.store.__file__).parent / "roles.sql"
NOW = datetime(2026, 3, 1, 12, tzinfo=timezone.utc)


@pytest.fixture(name="store_name", scope="module")
def store_with_roles(cluster: Cluster) -> str:
    """A store with its roles, and with some lines."""
    from tests.gateway.conftest import fill_store

    name = fill_store(cluster.create("ledger_roles"))
    for _ in range(2):
        # The second time changes nothing.
        subprocess.run(
            ["psql", "-Xq", "-v", "ON_ERROR_STOP=1", "-d", name, "-f", str(ROLES)], check=True
        )
    with open_store(name) as store:
        asked = [Message("CS-0", make_event("t", n, 3), NOW, "a test") for n in range(3)]
        assert [one.outcome for one in settle(store, asked)] == ["accepted"] * 3
    return name


def name_as(name: str, role: str) -> str:
    """The store as a role names it."""
    return name.replace("//owner@", f"//ocpp_{role}@")


def test_a_gateway_does_its_work(store_name: str) -> None:
    """Each kind of message: taken, repeated, refused, of a stranger, registers outside transactions; passwords."""
    values = '"meterValue":[{"timestamp":"2026-03-01T10:00:00Z","sampledValue":[{"value":5}]}]'
    texts = {
        make_event("t2", 0): "accepted",
        make_event("t", 1, 3): "repeat",
        make_event("t", 1, 3, 7): "refused",
        "[2,": "refused",
        '[2,"h","Heartbeat",{}]': "reply",
        f'[2,"m","MeterValues",{{"evseId":1,{values}}}]': "reply",
    }
    with open_store(name_as(store_name, "gateway")) as store:
        asked = [Message("CS-0", text, NOW, "a test") for text in texts]
        assert [one.outcome for one in settle(store, asked)] == list(texts.values())
        (answer,) = settle(store, [Message("nobody", make_event("t", 0), NOW, "a test")])
        assert answer.outcome == "stray"

    async def play(url: str) -> None:
        station = await connect_station(url, "CS-1")
        assert await ask(station, make_event("t3", 0)) == make_reply("t3", 0)

    with GatewayPart(name_as(store_name, "gateway")) as gateway:
        asyncio.run(play(gateway.url))
        assert "permission" not in gateway.read_log()


def test_an_operator_does_its_work(store_name: str) -> None:
    """Stations, passwords, deeds."""
    with open_store(name_as(store_name, "operator")) as store:
        author = Author("jo", "a trial")
        with store.transaction():
            write_station(store, "CS-77", "depot", author)
        set_password(store, "CS-77", "a password of 16+", author)
        deed = Deed("void", "CS-0", "t", 1, "jo", "it was a test", NOW, "operator jo")
        assert settle(store, [deed])[0].outcome == "accepted"
        assert store.fetch("select * from board_site")


def test_a_reader_reads(store_name: str) -> None:
    """Boards, lines and findings."""
    with open_store(name_as(store_name, "reader")) as store:
        for view in (
            "board_site",
            "board_station",
            "lacking",
            "refused",
            "line",
            "session",
            "change",
        ):
            store.fetch(f"select * from {view}")


MUST_NOT = {
    "gateway": [
        "update line set line = 'x'",
        "delete from line",
        "truncate line",
        "insert into site (site) values ('mine')",
        "update site set period = 300",
        "insert into station (station, site) values ('mine', 'depot')",
        "update station set site = 'mine'",
        "insert into password (station, hash, salt, cost, set_at) values ('CS-0', '', '', 2, now())",
        "update password set hash = ''",
        "insert into change (at, who, why, what, name) values (now(), 'jo', 'x', 'station', 'CS-0')",
        "select who, why from change",
        "insert into deed (station, transaction_id, number, word, at, outcome) values ('a', 'b', 1, 'void', now(), '')",
        "select * from operator",
        "select * from token",
        "insert into operator (operator) values ('mine')",
        "drop table line",
        "create table mine (a int)",
        "alter table line add column mine int",
        "set role owner",
        "select * from pg_authid",
        "copy line to program 'true'",
    ],
    "operator": [
        "update line set line = 'x'",
        "delete from line",
        "truncate session",
        "update change set who = 'nobody'",
        "delete from change",
        "update deed set who = 'nobody'",
        "delete from deed",
        "insert into operator (operator) values ('mine')",
        "update operator set role = 'owner'",
        "insert into token (token_hash) values ('x')",
        "delete from site",
        "drop table change",
        "create table mine (a int)",
        "set role owner",
    ],
    "reader": [
        "select * from password",
        "select * from operator",
        "select * from token",
        "insert into line (station, transaction_id, number, line) values ('a', 'b', 1, '')",
        "update session set up = 0",
        "delete from finding",
        "insert into change (at, who, why, what, name) values (now(), 'jo', 'x', 'station', 'CS-0')",
        "update site set period = 300",
        "drop view board_site",
        "create table mine (a int)",
        "set role ocpp_operator",
    ],
}
CASES = [(role, statement) for role, statements in MUST_NOT.items() for statement in statements]


@pytest.mark.parametrize(("role", "statement"), CASES)
def test_what_a_role_must_not_do(store_name: str, role: str, statement: str) -> None:
    """The database refuses it for want of a privilege, and for no other reason."""
    with psycopg.connect(name_as(store_name, role)) as connection:
        with pytest.raises(psycopg.errors.InsufficientPrivilege):
            connection.execute(statement)


def test_a_partition_is_no_way_around(store_name: str) -> None:
    """A gateway can't write a line's partition by its own name."""
    with psycopg.connect(name_as(store_name, "gateway"), autocommit=True) as connection:
        for number in range(PARTITIONS):
            with pytest.raises(psycopg.errors.InsufficientPrivilege):
                connection.execute(f"update line_{number} set line = 'x'")
