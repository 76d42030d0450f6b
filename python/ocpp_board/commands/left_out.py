"""Lists the stations whose messages are left out since they are of another version of OCPP.

    ocpp-board left-out --store ledger.db

Columns: site, station, version, first and last (when a message came, where the log has times).
"""

import argparse
import csv
import sys

from ocpp_board.commands.options import add_store
from ocpp_board.escapes import csv_cell
from ocpp_board.statuses import Status
from ocpp_board.store.database import open_store
from ocpp_board.writers.bills import write_moment

HEADS = ("site", "station", "version", "first", "last")


def add_words(parser: argparse.ArgumentParser) -> None:
    """The words of the command."""
    add_store(parser)


def run(words: argparse.Namespace) -> int:
    """Writes the list to standard output."""
    with open_store(words.store) as store:
        rows = store.fetch("select * from left_out order by site, station, version")
    writer = csv.writer(sys.stdout, lineterminator="\n")
    writer.writerow(HEADS)
    for row in rows:
        moments = map(write_moment, (row.first_at, row.last_at))
        writer.writerow([*map(csv_cell, (row.site, row.station, row.version)), *moments])
    return Status.DONE
