"""Settles sessions that stay incomplete, in bulk: those that sent nothing for so many days.

    ocpp-board settle-by-rule --store ledger.db --site north --days 30 --why "the contract's clearing period" --preview

The next closing settles them with the energy that they have, and marks them: `settled_by` of a bill is `rule`. What
comes later for one of them is a correction. --preview lists them and changes nothing. --listed lists those that were
settled by rule, with when, who and why.
"""

import argparse
from datetime import datetime, timedelta, timezone

from ocpp_board.commands.options import add_site, add_store, add_who, read_author, read_count
from ocpp_board.energies import kwh
from ocpp_board.errors import UsageError
from ocpp_board.statuses import Status
from ocpp_board.store.database import Database, open_store
from ocpp_board.store.decisions import list_by_rule, list_open, settle_by_rule
from ocpp_board.writers.bills import find_zone


def add_words(parser: argparse.ArgumentParser) -> None:
    """The words of the command."""
    add_store(parser)
    add_site(parser)
    parser.add_argument(
        "--days", type=read_count, help="nothing of them is later than so many days ago"
    )
    parser.add_argument("--preview", action="store_true", help="list them and change nothing")
    parser.add_argument("--listed", action="store_true", help="list those that were settled so")
    parser.add_argument("--why", metavar="REASON", help="the reason, which is kept")
    add_who(parser)


def list_settled(store: Database, site: str) -> None:
    """Prints the sessions of a site that somebody settled by rule."""
    for row in list_by_rule(store, site):
        print(
            f"{row.station} {row.transaction_id}: {row.state}, {kwh(row.imported)} kWh, by {row.who} at "
            f"{row.at:%Y-%m-%d}: {row.why}"
        )


def run(words: argparse.Namespace) -> int:
    """Settles sessions by rule, or lists them."""
    if words.listed:
        with open_store(words.store) as store:
            find_zone(store, words.site)
            list_settled(store, words.site)
        return Status.DONE
    if words.days is None or not words.why:
        raise UsageError("name --days and the reason by --why, or --listed")
    before = datetime.now(timezone.utc) - timedelta(days=words.days)
    with open_store(words.store) as store:
        find_zone(store, words.site)
        if words.preview:
            rows = list_open(store, words.site, before)
        else:
            rows = settle_by_rule(store, words.site, before, read_author(words))
    for row in rows:
        missing = f", numbers missing {row.gaps}" if row.gaps else ""
        print(f"{row.station} {row.transaction_id}: {row.state}{missing}, {kwh(row.imported)} kWh")
    done = "would be settled" if words.preview else "are settled by the next closing"
    print(f"{len(rows):,} sessions {done} by rule")
    return Status.DONE
