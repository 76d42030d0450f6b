"""Copies of a store by the tools of its database: VACUUM INTO, pg_basebackup with a replay of the log, and a standby
that is promoted while stations send. Each copy ends with `verify`."""

import asyncio
import shutil
import sqlite3
import time
from collections.abc import Iterator
from datetime import datetime, timezone
from pathlib import Path

import pytest

from ocpp_board.ledger.engine import settle
from ocpp_board.ledger.verify import verify
from ocpp_board.records import Message
from ocpp_board.store.database import open_store
from tests.cluster import BIN, Cluster, GatewayPart
from tests.gateway.client import make_event
from tests.gateway.conftest import fill_store
from tests.gateway.test_faults import STATIONS, check_store, play

NOW = datetime(2026, 3, 1, 12, tzinfo=timezone.utc)


def send(name: str, transaction: str, count: int) -> None:
    """Settles events of a station."""
    with open_store(name) as store:
        texts = [make_event(transaction, number, count) for number in range(count)]
        settle(store, [Message("CS-0", text, NOW, "a test") for text in texts])


def count_lines(name: str) -> int:
    """How many lines a store has; its boards are those of whole scripts."""
    with open_store(name) as store:
        assert not verify(store).difference
        (row,) = store.fetch("select count(*) as n from line")
    return int(row.n)


def test_a_copy_of_a_file(tmp_path: Path) -> None:
    """`VACUUM INTO` copies a store that is in use."""
    name, copy = fill_store(str(tmp_path / "ledger.db")), str(tmp_path / "copy.db")
    send(name, "a", 10)
    with open_store(name) as used:
        assert used.fetch("select station from station")
        with sqlite3.connect(name) as connection:
            connection.execute(f"vacuum into '{copy}'")
        send(name, "b", 5)
    assert (count_lines(copy), count_lines(name)) == (10, 15)


@pytest.fixture(name="servers")
def two_servers() -> Iterator[tuple[Cluster, Cluster]]:
    """A server, and a folder for another one."""
    first, second = Cluster(is_durable=True), Cluster(is_durable=True)
    try:
        first.make()
        yield first, second
    finally:
        first.remove()
        second.remove()


def copy_files(first: Cluster, second: Cluster, *more: str) -> None:
    """Copies a server's files while it runs."""
    shutil.chown(second.folder, second.user.pw_uid, second.user.pw_gid)
    second.folder.chmod(0o755)
    words = ["-D", str(second.data), "-c", "fast", "-h", "127.0.0.1", "-p", str(first.port)]
    second.run(BIN / "pg_basebackup", "-U", "owner", *words, *more)


def test_a_backup_with_its_log(servers: tuple[Cluster, Cluster]) -> None:
    """After a loss of the server the backup and the archived log have all that was committed."""
    first, second = servers
    archive = first.folder / "archive"
    archive.mkdir()
    shutil.chown(archive, first.user.pw_uid, first.user.pw_gid)
    # A file has its name once it is whole: a restore may look for it before.
    keep = f"cp %p {archive}/%f.part && mv {archive}/%f.part {archive}/%f"
    first.start(archive_mode="on", archive_command=keep, archive_timeout=1)
    name = fill_store(first.create("ledger"))
    send(name, "a", 10)
    copy_files(first, second)
    send(name, "b", 20)
    last = first.query("ledger", "select pg_walfile_name(pg_switch_wal())")
    due = time.monotonic() + 30
    while not (archive / last).exists() and time.monotonic() < due:
        time.sleep(0.1)
    first.kill()
    (second.data / "recovery.signal").touch()
    shutil.chown(second.data / "recovery.signal", second.user.pw_uid, second.user.pw_gid)
    second.start(restore_command=f"cp {archive}/%f %p", recovery_target_action="promote")
    for _ in range(200):
        if second.query("ledger", "select pg_is_in_recovery()") == "f":
            break
        time.sleep(0.1)
    assert count_lines(second.name("ledger")) == 30
    send(second.name("ledger"), "c", 5)
    assert count_lines(second.name("ledger")) == 35


def test_a_standby_is_promoted(servers: tuple[Cluster, Cluster]) -> None:
    """The primary is killed while stations send, and its synchronous standby is promoted: libpq finds it."""
    first, second = servers
    first.start(wal_level="replica")
    name = fill_store(first.create("ledger"), STATIONS, "L")
    copy_files(first, second, "-R", "-X", "stream")
    second.start(hot_standby="on")
    first.query("postgres", "alter system set synchronous_standby_names = '*'")
    first.query("postgres", "select pg_reload_conf()")
    for _ in range(100):
        if "sync" in first.query("postgres", "select sync_state from pg_stat_replication"):
            break
        time.sleep(0.1)
    both = f"127.0.0.1:{first.port},127.0.0.1:{second.port}"
    url = f"postgresql://owner@{both}/ledger?target_session_attrs=read-write"

    def promote() -> None:
        first.kill()
        second.run(BIN / "pg_ctl", "promote", "-D", second.data)

    with GatewayPart(url) as gateway:
        seen = asyncio.run(play([gateway.url], promote))
    check_store(second.name("ledger"), seen, "the primary is killed, its standby is promoted")
    assert name
