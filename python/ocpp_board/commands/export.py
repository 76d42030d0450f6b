"""Writes the lines of a site, a station or a transaction as a script, which gives the store's figures again.

    ocpp-board export --store ledger.db --site north --out north.script
    ocpp-board export --store ledger.db --station CS-01 > cs-01.script
    ocpp-board export --store ledger.db --station CS-01 --transaction T-4711 > t.script
    ocpp_board replay < t.script

A script has the declarations, each message that changed something with the time of its receipt, the operators' lines
with who and why, and a line `board` at its end. A script has at most 64 stations; with --out a site of more stations
becomes several files: NAME.script, NAME.2.script and so on. Transactions with an order of their own (`operate order`)
have a script of theirs, which declares that order and says in a comment which they are.
"""

import argparse
import sys
from collections.abc import Iterator
from datetime import datetime, timezone
from pathlib import Path

from ocpp_board.commands.options import add_store
from ocpp_board.errors import InputError, UsageError
from ocpp_board.ledger.scripts import OWN_ORDERS, Script, part_scripts
from ocpp_board.records import DELIVER
from ocpp_board.sources.script import OPERATOR, write_comment
from ocpp_board.statuses import Status
from ocpp_board.store.database import Database, Row, open_store
from ocpp_board.store.plan import find_rules

ENDING = """\
Exit status: 0 when it was written; 1 when the store has no such site, station or transaction; 2 when the words are
wrong or the store or a file can't be used."""
LINES = """
select l.station, l.transaction_id, l.number, l.line, l.received, l.who, l.why from session s
join line l on l.station = s.station and l.transaction_id = s.transaction_id
where s.site = :site and s.own_order = :order order by l.station, l.transaction_id, l.number
"""
ORDERED = """
select station, transaction_id from session where site = :site and own_order = :order order by station, transaction_id
"""
OF_STATION = """
select station, transaction_id, site from session where station = :station order by site, transaction_id
"""


def add_words(parser: argparse.ArgumentParser) -> None:
    """The words of the command."""
    add_store(parser)
    parser.add_argument(
        "--site", help="a site with all its stations, or which of a station that was moved"
    )
    parser.add_argument("--station", help="a station")
    parser.add_argument("--transaction", help="one transaction of the station, by its id")
    parser.add_argument(
        "--out", type=Path, metavar="FILE", help="the file (default: standard output)"
    )


def write_moment(at: datetime) -> str:
    """A moment as scripts write it."""
    return at.astimezone(timezone.utc).isoformat().replace("+00:00", "Z")


def write_line(row: Row) -> Iterator[str]:
    """The lines of a script for a stored one."""
    if not row.line.startswith(DELIVER):
        when = write_moment(row.received) if row.received else ""
        texts = {"line": row.line, "who": row.who, "why": row.why, "time": when}
        texts["answer"] = f"accepted {row.number}"
        yield write_comment(OPERATOR, texts).decode().rstrip("\n")
        yield row.line
        return
    if row.received:
        yield f"# received {write_moment(row.received)}"
    line = f"msg {row.line.removeprefix(DELIVER)}"
    # The program drops one carriage return before a line feed: the message's own stays.
    yield line + "\r" if line.endswith("\r") else line


def find_site(store: Database, words: argparse.Namespace) -> str:
    """The site that the words name, or that of the station. Raises UsageError and InputError."""
    if words.transaction and not words.station:
        raise UsageError("--transaction needs --station")
    if not words.site and not words.station:
        raise UsageError("name a site by --site, or a station by --station")
    if words.site:
        return str(words.site)
    rows = store.fetch(OF_STATION, station=words.station)
    if words.transaction:
        rows = [row for row in rows if row.transaction_id == words.transaction.lower()]
    sites = sorted({row.site for row in rows})
    if not sites:
        which = f"transaction {words.transaction!r} of " if words.transaction else ""
        raise InputError(f"the store has no {which}station {words.station!r}")
    if len(sites) > 1:
        raise UsageError(
            f"{words.station} has transactions of {', '.join(sites)}; name one by --site"
        )
    return str(sites[0])


def list_scripts(store: Database, site: str, words: argparse.Namespace) -> Iterator[Script]:
    """The scripts that the words ask for."""
    statement, values = LINES, {"site": site}
    for column, value in (("station", words.station), ("transaction_id", words.transaction)):
        if value:
            statement = statement.replace("order by", f"and l.{column} = :{column} order by")
            values[column] = value.lower() if column == "transaction_id" else value
    for order in OWN_ORDERS:
        yield from part_scripts(store.stream(statement, **values, order=order), write_line, order)


def describe_order(store: Database, site: str, script: Script) -> bytes:
    """The comment of a script whose transactions have an order of their own."""
    if not script.order:
        return b""
    rows = store.fetch(ORDERED, site=site, order=script.order)
    names = (f"{row.transaction_id} of {row.station}" for row in rows if row.station in script.uses)
    return f"# taken by {script.order}, as operators chose: {', '.join(names)}\n".encode()


def name_file(out: Path, number: int) -> Path:
    """The file of a script by its number, from 1."""
    return out if number == 1 else out.with_name(f"{out.stem}.{number}{out.suffix}")


def run(words: argparse.Namespace) -> int:
    """Writes the scripts."""
    count = 0
    with open_store(words.store) as store, store.snapshot():
        site = find_site(store, words)
        rules = find_rules(store, site)
        if rules is None:
            raise InputError(f"the store has no site {site!r}")
        for count, script in enumerate(list_scripts(store, site, words), 1):
            text = describe_order(store, site, script) + script.write(site, rules)
            if words.out:
                name_file(words.out, count).write_bytes(text)
            elif count > 1:
                raise UsageError(
                    f"{site} takes more than one script; name a file by --out, and further ones are beside it"
                )
            else:
                sys.stdout.buffer.write(text)
    if not count:
        raise InputError(f"the store has no line of {words.transaction or words.station or site}")
    return Status.DONE
