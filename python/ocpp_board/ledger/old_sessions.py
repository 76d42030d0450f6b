"""Moves old sessions out of a store: their lines as scripts and their rows as CSV into a file, then out of the tables.

The file is whole on disk before anything is removed, and a session goes whole or stays whole.
"""

import csv
import io
import os
import zipfile
from collections.abc import Iterator, Sequence
from dataclasses import dataclass
from datetime import datetime, timezone
from pathlib import Path

from ocpp_board.errors import UsageError
from ocpp_board.ledger.scripts import OWN_ORDERS, part_scripts, write_line
from ocpp_board.records import Rules
from ocpp_board.store.database import Database, Row
from ocpp_board.store.plan import find_rules

# Sessions that are removed in one database transaction.
AT_ONCE = 100
SITES = "select site from site order by site"
# A closing settled them, no line came since, and all that they name is before a moment.
OLD = """
select s.station, s.transaction_id, s.began, s.lines, s.own_order
from session s join session_state t on t.station = s.station and t.transaction_id = s.transaction_id
where s.site = :site and t.state <> 'provisional' and s.last_at < :before
    and (s.received_until is null or s.received_until < :before)
order by s.station, s.transaction_id
"""
OWN_LINES = """
select station, transaction_id, line from line
where station = :station and transaction_id = :transaction_id order by number
"""
# The tables that have something of a session, in the order in which it is removed.
TABLES = (
    *("part", "finding", "closed_part", "closed_session", "adjustment", "release", "rule_settled"),
    *("deed", "refusal", "mended", "line", "session"),
)
OWN = "station = :station and transaction_id = :transaction_id"
LOCK = f"select lines from session where {OWN} for update"
LINES = f"select lines from session where {OWN}"
MOVED = """
insert into exported_session (station, transaction_id, site, began, file, at)
values (:station, :transaction_id, :site, :began, :file, :at)
"""


@dataclass(frozen=True, slots=True)
class Moved:
    """What of a site was moved: into which file, how many sessions, and how many stayed since lines came meanwhile."""

    site: str
    file: Path | None
    sessions: int = 0
    stayed: int = 0


def move_old(store: Database, before: datetime, folder: Path) -> Iterator[Moved]:
    """Moves the settled sessions of each site that are older than a moment into a file in the folder. Raises UsageError
    where there is no such folder."""
    if not folder.is_dir():
        raise UsageError(f"{folder} is no folder; make it first")
    for site in store.fetch(SITES):
        yield move_site(store, site.site, before, folder)


def move_site(store: Database, site: str, before: datetime, folder: Path) -> Moved:
    """Moves the old sessions of a site."""
    with store.snapshot():
        sessions = store.fetch(OLD, site=site, before=before)
        if not sessions:
            return Moved(site, None)
        path = choose_path(folder, f"{site}.before-{before:%Y-%m-%d}")
        write_file(store, site, sessions, path)
    gone = 0
    for start in range(0, len(sessions), AT_ONCE):
        some = sessions[start : start + AT_ONCE]
        with store.transaction():
            gone += sum(remove(store, site, one, path) for one in some)
    return Moved(site, path, gone, len(sessions) - gone)


def choose_path(folder: Path, name: str) -> Path:
    """A file that is not there: an earlier one has what an earlier call moved, or was to move when it ended."""
    number, path = 1, folder / f"{name}.zip"
    while path.exists():
        number += 1
        path = folder / f"{name}.{number}.zip"
    return path


def write_file(store: Database, site: str, sessions: Sequence[Row], path: Path) -> None:
    """Writes the file, whole and on disk, or not at all."""
    rules = find_rules(store, site) or Rules()
    fresh = path.with_name(f"{path.name}.part")
    try:
        with open(fresh, "wb") as file:
            with zipfile.ZipFile(file, "w", zipfile.ZIP_DEFLATED) as packed:
                scripts = (
                    script
                    for order in OWN_ORDERS
                    for script in part_scripts(
                        read_lines(store, sessions, order), write_line, order
                    )
                )
                for number, script in enumerate(scripts, 1):
                    packed.writestr(f"{number}.script", script.write(site, rules))
                for table in TABLES:
                    write_table(store, table, sessions, packed)
            file.flush()
            os.fsync(file.fileno())
        os.link(fresh, path)
    finally:
        fresh.unlink(missing_ok=True)
    holder = os.open(path.parent, os.O_RDONLY)
    try:
        os.fsync(holder)
    finally:
        os.close(holder)


def read_lines(store: Database, sessions: Sequence[Row], order: str) -> Iterator[Row]:
    """The lines of those sessions that have this order of their own."""
    for one in sessions:
        if one.own_order == order:
            yield from store.fetch(OWN_LINES, **name_key(one))


def name_key(one: Row) -> dict[str, str]:
    """The key of a session as values of statements."""
    return {"station": one.station, "transaction_id": one.transaction_id}


def write_table(
    store: Database, table: str, sessions: Sequence[Row], packed: zipfile.ZipFile
) -> None:
    """Writes the rows of a table that are of these sessions."""
    text, writer = io.StringIO(), None
    for one in sessions:
        for row in store.fetch(f"select * from {table} where {OWN}", **name_key(one)):
            if writer is None:
                writer = csv.writer(text, lineterminator="\n")
                writer.writerow(row._fields)
            writer.writerow(row)
    if writer is not None:
        packed.writestr(f"{table}.csv", text.getvalue())


def remove(store: Database, site: str, one: Row, path: Path) -> bool:
    """Removes a session from the tables, if it is the one that was written. Whether it did."""
    key = name_key(one)
    row = store.fetch_one(LOCK if store.kind == "postgresql" else LINES, **key)
    if row is None or row.lines != one.lines:
        return False
    for table in TABLES:
        store.execute(f"delete from {table} where {OWN}", **key)
    now = datetime.now(timezone.utc)
    store.execute(MOVED, **key, site=site, began=one.began, file=path.name, at=now)
    return True
