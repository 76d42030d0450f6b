"""Lists what closings changed of figures that an earlier closing had settled, for whoever has to settle again.

    ocpp-board corrections --store ledger.db --site north --since 2026-03-01 > corrections.csv

A row is a settlement period of a session: by how much it changed, by which closing, and the lines of the session that
made it, each with its sequence in the session, when it came, and for an operator's line who and why; whether the new
figure is measured, and how many findings and holds the session has now. `--since` is a day of the site's zone; closings
of that day and later ones count.
"""

import argparse
import sys
from collections.abc import Iterator
from datetime import date, datetime, time, timezone
from zoneinfo import ZoneInfo

from ocpp_board.commands.options import add_form, add_site, add_store, read_day
from ocpp_board.escapes import csv_cell
from ocpp_board.statuses import Status
from ocpp_board.store.closing import list_corrections
from ocpp_board.store.database import Database, Row, open_store
from ocpp_board.writers.bills import find_zone, write_csv, write_moment, write_signed_kwh
from ocpp_board.writers.causes import describe_causes

HEADS = (
    *(
        "closed_at",
        "closing",
        "site",
        "station",
        "session_id",
        "period_start",
        "period_start_local",
    ),
    *("imported_kwh", "exported_kwh", "net_kwh", "first_line", "last_line", "lines"),
    *("figure", "findings", "holds"),
)


def add_words(parser: argparse.ArgumentParser) -> None:
    """The words of the command."""
    add_store(parser)
    add_site(parser)
    add_form(parser)
    parser.add_argument(
        "--since", type=read_day, required=True, metavar="DAY", help="closings from this day on"
    )


def list_rows(store: Database, site: str, since: date) -> Iterator[list[str]]:
    """The heads, then a row for each correction."""
    zone = find_zone(store, site)
    first = datetime.combine(since, time(), zone).astimezone(timezone.utc)
    yield list(HEADS)
    known = dict[tuple[str, str, int, int], str]()
    for row in list_corrections(store, site, first):
        key = row.station, row.transaction_id, row.first_line, row.last_line
        if key not in known:
            known[key] = describe_causes(store, *key)
        yield write_row(row, zone, known[key])


def write_row(row: Row, zone: ZoneInfo, lines: str) -> list[str]:
    """The cells of a correction."""
    has_lines = row.first_line <= row.last_line
    return [
        write_moment(row.at),
        f"{row.closing}",
        csv_cell(row.site),
        csv_cell(row.station),
        csv_cell(row.transaction_id),
        write_moment(row.starts),
        f"{row.starts.astimezone(zone):%Y-%m-%d %H:%M}",
        write_signed_kwh(row.up - row.down),
        write_signed_kwh(row.export_up - row.export_down),
        write_signed_kwh(row.net),
        f"{row.first_line}" if has_lines else "",
        f"{row.last_line}" if has_lines else "",
        csv_cell(lines),
        *("estimated" if row.estimated > 0 else "measured", f"{row.findings}", f"{row.holds}"),
    ]


def run(words: argparse.Namespace) -> int:
    """Writes the corrections to standard output."""
    with open_store(words.store) as store:
        write_csv(list_rows(store, words.site, words.since), sys.stdout, words.form == "semicolon")
    return Status.DONE
