"""List what sessions took in each period by MeterValues or interval values, where their registers do not say it.

    ocpp-board estimates --store ledger.db --site north

Columns: station, session_id, period_start, imported_kwh, figure. A session is listed if a reading of its start or of
its end lacks, and MeterValues of its EVSE are around it; between two readings energy is shared by time. One without
any register is listed by its interval values, too. `adjust estimate STATION ID --register meter-values` declares the
whole of what MeterValues say.
"""

import argparse
import csv
import sys

from ocpp_board.commands.options import add_site, add_store
from ocpp_board.escapes import csv_cell
from ocpp_board.statuses import Status
from ocpp_board.store.database import open_store
from ocpp_board.writers.bills import find_zone, write_moment
from ocpp_board.writers.tables import BY_VALUES, write_kwh

HEADS = ("station", "session_id", "period_start", "imported_kwh", "figure")
ESTIMATES = """
select p.station, p.transaction_id, p.starts, p.by_values
from session s join part p on p.station = s.station and p.transaction_id = s.transaction_id
where s.site = :site and s.energy_measured <> 'yes' and p.by_values is not null
order by p.station, p.transaction_id, p.starts
"""


def add_words(parser: argparse.ArgumentParser) -> None:
    """The words of the command."""
    add_store(parser)
    add_site(parser)


def run(words: argparse.Namespace) -> int:
    """Writes the list to standard output."""
    with open_store(words.store) as store:
        find_zone(store, words.site)
        rows = store.fetch(ESTIMATES, site=words.site)
    writer = csv.writer(sys.stdout, lineterminator="\n")
    writer.writerow(HEADS)
    for one in rows:
        names = map(csv_cell, (one.station, one.transaction_id))
        writer.writerow([*names, write_moment(one.starts), write_kwh(one.by_values), BY_VALUES])
    return Status.DONE
