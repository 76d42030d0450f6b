"""Lists sessions that lack messages and went silent, for an alert and for GetTransactionStatus.

    ocpp-board lacking --store ledger.db --hours 24

A session is listed if it lacks messages, nothing came of it for so many hours, and nobody settled it by rule. Columns:
site, station, transactionId (as the station sent it, for GetTransactionStatus), state, missing, gaps (from..to), since
(when something of it came last, by receipt where that is known), and kwh (what it imported so far). The status is 1 if
something is listed.
"""

import argparse
import csv
import sys
from datetime import datetime, timedelta, timezone

from ocpp_board.commands.options import add_store, read_count
from ocpp_board.escapes import csv_cell
from ocpp_board.statuses import Status
from ocpp_board.store.database import Database, Row, open_store
from ocpp_board.writers.bills import write_moment, write_signed_kwh

HEADS = ("site", "station", "transactionId", "state", "missing", "gaps", "since", "kwh")
SILENT = """
select site, station, sent_id, state, missing, gaps, imported, heard_at from lacking where heard_at < :before
order by site, station, transaction_id
"""


def add_words(parser: argparse.ArgumentParser) -> None:
    """The words of the command."""
    add_store(parser)
    parser.add_argument(
        "--hours", required=True, type=read_count, help="nothing came for so many hours"
    )
    parser.add_argument("--site", help="of this site only")


def list_silent(store: Database, before: datetime, site: str | None) -> list[Row]:
    """The sessions that lack messages, of which nothing came since a moment."""
    return [row for row in store.fetch(SILENT, before=before) if site in (None, row.site)]


def run(words: argparse.Namespace) -> int:
    """Writes the list to standard output."""
    before = datetime.now(timezone.utc) - timedelta(hours=words.hours)
    with open_store(words.store) as store:
        rows = list_silent(store, before, words.site)
    writer = csv.writer(sys.stdout, lineterminator="\n")
    writer.writerow(HEADS)
    for row in rows:
        texts = map(csv_cell, (row.site, row.station, row.sent_id, row.state))
        since = write_moment(row.heard_at)
        writer.writerow([*texts, row.missing, row.gaps, since, write_signed_kwh(row.imported)])
    return Status.REPORTED if rows else Status.DONE
