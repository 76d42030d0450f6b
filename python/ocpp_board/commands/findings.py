"""List what is doubtful at a site, the gravest first, with what to do.

    ocpp-board findings --store ledger.db --site north

Columns: station, session_id (empty where a finding is of the station), finding, times, first, detail, effect, held (yes
where its bill is held), meaning.
"""

import argparse
import csv
import sys

from ocpp_board.commands.options import add_site, add_store
from ocpp_board.escapes import csv_cell
from ocpp_board.ledger.findings import ORDER, Kind
from ocpp_board.statuses import Status
from ocpp_board.store.database import open_store
from ocpp_board.writers.bills import find_zone, write_moment

HEADS = (
    "station",
    "session_id",
    "finding",
    "times",
    "first",
    "detail",
    "effect",
    "held",
    "meaning",
)
FOUND = """
select station, transaction_id, kind, times, first_at, detail from all_finding where site = :site
order by station, transaction_id, kind
"""
KINDS = {kind.label: kind for kind in Kind}


def add_words(parser: argparse.ArgumentParser) -> None:
    """The words of the command."""
    add_store(parser)
    add_site(parser)


def run(words: argparse.Namespace) -> int:
    """Writes the list to standard output."""
    with open_store(words.store) as store:
        find_zone(store, words.site)
        rows = store.fetch(FOUND, site=words.site)
    writer = csv.writer(sys.stdout, lineterminator="\n")
    writer.writerow(HEADS)
    for row in sorted(rows, key=lambda row: ORDER[KINDS[row.kind]]):
        kind, names = KINDS[row.kind], map(csv_cell, (row.station, row.transaction_id))
        what = (row.times, write_moment(row.first_at), csv_cell(row.detail))
        held = "yes" if kind.holds else "no"
        writer.writerow([*names, row.kind, *what, kind.effect.value, held, kind.meaning])
    return Status.DONE
