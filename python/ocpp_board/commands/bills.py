"""Writes a site's month of sessions as CSV, for billing, with what is doubtful beside each.

    ocpp-board bills --store ledger.db --site north --month 2026-03 > north.csv

A session belongs to the month in which it began, in the site's zone; its earliest event decides if its start did not
come. Voided events are not billed. Columns, with OCPI's names of a CDR's fields where it has them:

    start_date_time, end_date_time   UTC; empty where the start or the end did not come
    session_id, location_id, station, evse_uid (the EVSE's number; empty where none was named)
    total_energy, exported_energy    by the ledger: what was imported, and what was fed back, in kWh, exactly
    total_time                       hours
    messages_complete, missing       yes or no; how many messages are missing
    settled                          provisional: its energy may change until a closing settles it, or something came
                                     since; settled; corrected: a later closing found another figure
    sent_id                          its id as the station sent it first
    id_token, id_token_type          of the first event with a token, as --tokens says
    remote_start_id                  of the first event with one
    first_signed_value, first_public_key, last_signed_value, last_public_key
                                     in base64, as OCPP has them
    settled_by                       complete, or rule where somebody settled it though messages lack
    energy_measured                  yes; from .. to .. only, where a reading of the start or the end lacks; no, where
                                     readings do not say it
    adjusted_energy, adjusted_exported_energy
                                     the ledger's energy and all adjustments: what to bill
    adjustments, hold, findings      each with its reason; a session with `held: ..` is not to be billed before
                                     somebody released it

With `--signed FOLDER` each session with signed values has a file FOLDER/STATION.ID.xml for the transparency software of
S.A.F.E.: its first and its last signed value with the public key.
"""

import argparse
import sys
from pathlib import Path

from ocpp_board.commands.options import add_form, add_site, add_store, add_tokens
from ocpp_board.statuses import Status
from ocpp_board.store.database import open_store
from ocpp_board.writers.bills import BillOptions, list_bills, read_month, write_csv


def add_words(parser: argparse.ArgumentParser) -> None:
    """The words of the command."""
    add_store(parser)
    add_site(parser)
    add_tokens(parser)
    add_form(parser)
    parser.add_argument("--month", required=True, help="such as 2026-03")
    parser.add_argument(
        "--signed", type=Path, metavar="FOLDER", help="write the files of signed values there"
    )


def run(words: argparse.Namespace) -> int:
    """Writes the month to standard output."""
    options = BillOptions(words.tokens, words.form == "semicolon", words.signed)
    year, month = read_month(words.month)
    with open_store(words.store) as store:
        rows = list_bills(store, words.site, year, month, options)
        write_csv(rows, sys.stdout, words.form == "semicolon")
    return Status.DONE
