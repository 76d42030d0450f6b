"""Compare a site's main meter with the sum of its EVSEs, period by period.

    ocpp-board site-meter --store ledger.db --site north --month 2026-03 > losses.csv

The main meter is EVSE 0 of MeterValues; where several stations read one, their sum counts. Columns: start (UTC), site
meter (kWh), EVSEs (kWh), losses (kWh): what the meter rose by more than the EVSEs took. A period is listed if the meter
was read around its start and its end; between two readings its energy is shared by time.
"""

import argparse
import csv
import sys

from ocpp_board.commands.options import add_site, add_store
from ocpp_board.statuses import Status
from ocpp_board.store.database import open_store
from ocpp_board.store.plan import find_rules
from ocpp_board.store.values import compare_main
from ocpp_board.writers.bills import bound_month, find_zone, read_month
from ocpp_board.writers.tables import METER, write_comparison


def add_words(parser: argparse.ArgumentParser) -> None:
    """The words of the command."""
    add_store(parser)
    add_site(parser)
    parser.add_argument("--month", required=True, help="such as 2026-03")


def run(words: argparse.Namespace) -> int:
    """Writes the comparison to standard output."""
    year, month = read_month(words.month)
    with open_store(words.store) as store, store.snapshot():
        zone, rules = find_zone(store, words.site), find_rules(store, words.site)
        assert rules is not None
        bounds = bound_month(zone, year, month)
        rows = list(compare_main(store, words.site, rules.period, bounds["begin"], bounds["end"]))
    writer = csv.writer(sys.stdout, lineterminator="\n")
    writer.writerow(METER)
    writer.writerows(map(write_comparison, rows))
    return Status.DONE
