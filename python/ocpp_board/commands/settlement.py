"""Writes a site's month of energy by metering point, as a settlement file.

    ocpp-board settlement --store ledger.db --site north --month 2026-03 --points points.csv > north.csv

A row is a settlement period of a metering point: import and export in kWh with three decimals, whose sums are the
rounded sums, and `measured` or `substitute`. A period is a substitute where the figure is estimated, where an
adjustment counts in it, or where a finding makes a session in it wrong. Figures are those that closings settled, and
adjustments; --provisional takes those of the boards for a month that is not closed.

--points gives the site its metering points, which the store keeps: CSV with the columns code, station and evse. A row
without a station is the site's own, for all EVSEs that have none.
"""

import argparse
import csv
import sys
from pathlib import Path

from ocpp_board.commands.options import add_form, add_site, add_store
from ocpp_board.errors import InputError
from ocpp_board.statuses import Status
from ocpp_board.store.database import open_store
from ocpp_board.writers.bills import find_zone, read_month, write_csv
from ocpp_board.writers.settlement import list_settlement, write_points


def add_words(parser: argparse.ArgumentParser) -> None:
    """The words of the command."""
    add_store(parser)
    add_site(parser)
    add_form(parser)
    parser.add_argument("--month", required=True, help="such as 2026-03")
    parser.add_argument("--points", type=Path, metavar="FILE", help="the metering points, as CSV")
    parser.add_argument(
        "--provisional", action="store_true", help="the boards' figures, of a month not closed"
    )


def read_points(path: Path) -> list[tuple[str, int, str]]:
    """The metering points of a table. Raises InputError and OSError."""
    found = dict[tuple[str, int], str]()
    with open(path, encoding="utf-8-sig", newline="") as file:
        reader = csv.DictReader(file)
        if missing := {"code", "station", "evse"} - set(reader.fieldnames or ()):
            raise InputError(f"{path}: the table has no column {', '.join(sorted(missing))}")
        for row in reader:
            where, station, evse = f"{path}:{reader.line_num}", row["station"], row["evse"] or ""
            if not row["code"]:
                raise InputError(f"{where}: the metering point has no code")
            if station and not evse.isdecimal():
                raise InputError(f"{where}: {evse!r} is no number of an EVSE")
            key = (station, int(evse)) if station else ("", -1)
            if key in found:
                raise InputError(f"{where}: {station or 'the site'} {evse} is there twice")
            found[key] = row["code"]
    return [(*key, code) for key, code in found.items()]


def run(words: argparse.Namespace) -> int:
    """Writes the file to standard output."""
    is_semicolon = words.form == "semicolon"
    year, month = read_month(words.month)
    points = read_points(words.points) if words.points else []
    with open_store(words.store) as store:
        find_zone(store, words.site)
        if words.points:
            write_points(store, words.site, points)
        rows = list_settlement(store, words.site, year, month, words.provisional, is_semicolon)
        write_csv(rows, sys.stdout, is_semicolon)
    return Status.DONE
