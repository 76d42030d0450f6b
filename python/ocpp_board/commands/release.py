"""Releases sessions that are held, or lists them.

    ocpp-board release --store ledger.db --site north
    ocpp-board release --store ledger.db CS-01 T-4711 --why "compared with the meter"

A session is held where a finding makes its energy wrong, where its energy is below 0, or where its earlier lines left
for a file: bills name it as held, and it is not to be billed. Released, it is billed as it is. It is held again when
its energy changes.
"""

import argparse

from ocpp_board.commands.options import add_store, add_who, read_author
from ocpp_board.errors import UsageError
from ocpp_board.statuses import Status
from ocpp_board.store.database import Database, open_store
from ocpp_board.store.decisions import release

HELD = """
select station, transaction_id, kind, detail from hold where site = :site and released_at is null
order by station, transaction_id, kind
"""


def add_words(parser: argparse.ArgumentParser) -> None:
    """The words of the command."""
    add_store(parser)
    parser.add_argument("station", nargs="?", metavar="STATION")
    parser.add_argument("transaction", nargs="?", metavar="TRANSACTION")
    parser.add_argument("--site", help="list what is held at this site")
    parser.add_argument("--why", metavar="REASON", help="the reason, which is kept")
    add_who(parser)


def list_held(store: Database, site: str) -> None:
    """Prints what is held at a site."""
    for row in store.fetch(HELD, site=site):
        detail = f": {row.detail}" if row.detail else ""
        print(f"{row.station} {row.transaction_id} {row.kind}{detail}")


def run(words: argparse.Namespace) -> int:
    """Releases a session, or lists what is held."""
    if (words.site is None) == (words.transaction is None):
        raise UsageError("name a STATION and a TRANSACTION to release, or --site to list")
    if words.transaction is not None and not words.why:
        raise UsageError("a release needs its reason: --why REASON")
    with open_store(words.store) as store:
        if words.site is not None:
            list_held(store, words.site)
        else:
            kinds = release(store, words.station, words.transaction, read_author(words))
            print(f"{words.transaction} of {words.station} is released: {', '.join(kinds)}")
    return Status.DONE
