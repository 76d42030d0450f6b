"""Corrects a reading: voids its event, erases it, and delivers the message with the right reading, in one step.

    ocpp-board operate --store ledger.db correct CS-01 T-4711 3 0 --kwh 4711.5 --why "read at the meter"
    ocpp-board operate --store ledger.db correct --table corrections.csv --why "meter class exchanged" --preview

STATION, TRANSACTION and NUMBER (the event's seqNo) name the event; PLACE is the reading's place among the event's
readings of the import register, from 0, as on the transaction's page. With --export it is one of the export register.
The message as it came, who, when and why stay among the session's lines. --preview prints what would change and changes
nothing. A table is CSV with the columns station, transaction, number, place, kwh, and export (yes or no) if it likes.
"""

import argparse
import csv
from pathlib import Path

from ocpp_board.commands.options import add_author, read_author, read_mwh
from ocpp_board.errors import InputError, UsageError
from ocpp_board.ledger.corrections import Correction, correct, describe, prepare
from ocpp_board.ledger.program import find_program
from ocpp_board.limits import GREATEST_SEQ_NO
from ocpp_board.statuses import Status
from ocpp_board.store.database import open_store

COLUMNS = ("station", "transaction", "number", "place", "kwh")


def read_number(text: str) -> int:
    """A sequence number or a place. Raises ArgumentTypeError."""
    if not (text.isascii() and text.isdecimal()) or int(text) > GREATEST_SEQ_NO:
        raise argparse.ArgumentTypeError(f"{text!r} is no number from 0 to {GREATEST_SEQ_NO}")
    return int(text)


def add_words(parser: argparse.ArgumentParser) -> None:
    """The words of the command."""
    parser.add_argument("station", nargs="?", metavar="STATION")
    parser.add_argument("transaction", nargs="?", metavar="TRANSACTION")
    parser.add_argument("number", nargs="?", metavar="NUMBER", type=read_number)
    parser.add_argument("place", nargs="?", metavar="PLACE", type=read_number)
    parser.add_argument("--kwh", type=read_mwh, dest="mwh", metavar="KWH", help="the right reading")
    parser.add_argument("--export", action="store_true", help="of the export register")
    parser.add_argument("--table", type=Path, metavar="FILE", help="corrections as CSV")
    parser.add_argument("--preview", action="store_true", help="print what would change")
    add_author(parser)


def read_table(path: Path) -> list[Correction]:
    """The corrections of a table. Raises InputError and OSError."""
    with open(path, encoding="utf-8-sig", newline="") as file:
        reader = csv.DictReader(file)
        if missing := [name for name in COLUMNS if name not in (reader.fieldnames or ())]:
            raise InputError(f"{path}: the table has no column {', '.join(missing)}")
        found = list[Correction]()
        for row in reader:
            where = f"{path}:{reader.line_num}"
            try:
                found.append(
                    Correction(
                        row["station"],
                        row["transaction"],
                        read_number(row["number"]),
                        read_number(row["place"]),
                        read_mwh(row["kwh"]),
                        row.get("export") == "yes",
                        where,
                    )
                )
            except (argparse.ArgumentTypeError, AttributeError, TypeError) as fault:
                raise InputError(f"{where}: {fault}") from None
    return found


def read_wanted(words: argparse.Namespace) -> list[Correction]:
    """The corrections that the words name. Raises UsageError and InputError."""
    named = [words.station, words.transaction, words.number, words.place, words.mwh]
    if words.table is not None and not any(one is not None for one in named):
        return read_table(words.table)
    if words.table is not None or any(one is None for one in named):
        raise UsageError("name STATION TRANSACTION NUMBER PLACE and --kwh, or a --table")
    return [
        Correction(
            *(words.station, words.transaction, words.number, words.place, words.mwh), words.export
        )
    ]


def run(words: argparse.Namespace) -> int:
    """Corrects readings, or shows what would change."""
    wanted = read_wanted(words)
    with open_store(words.store) as store:
        prepared = prepare(store, find_program(), wanted, read_author(words))
        for one in prepared:
            print("\n".join(describe(one)))
        if not words.preview:
            correct(store, prepared)
    done = "nothing is changed: a preview" if words.preview else "corrected"
    print(f"{len(wanted):,} readings of {len(prepared):,} sessions: {done}")
    return Status.DONE
