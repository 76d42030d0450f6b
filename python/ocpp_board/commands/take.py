"""Takes messages that were refused, or leaves them out: each waits in the store until somebody decides.

    ocpp-board take --store ledger.db                                                      # list what waits
    ocpp-board take --store ledger.db CS-01 --mend unit --why "the vendor writes KWH"
    ocpp-board take --store ledger.db CS-01 T-4711 --as T-4711-2 --why "the station used the id again"
    ocpp-board take --store ledger.db CS-01 T-4711 --as T-4711-2 --since 2026-03-02T10:00:00Z --why "the same"
    ocpp-board take --store ledger.db CS-01 T-4711 --number 3 --why "the stored one was erased"
    ocpp-board take --store ledger.db CS-01 --cause NotJson --text right.json --why "cut by the modem"
    ocpp-board take --store ledger.db CS-01 --cause NotJson --leave --why "cut by the modem; the next one has it all"

STATION, TRANSACTION, --number, --cause and --site choose which; without --why they are listed and nothing changes. A
text is delivered as it came, or after the mends that are named, or under another id. With --since the events that the
transaction took from that time on move to that id, too: they are voided and erased, and delivered again. What is
refused again waits as before. Who decided, when and why stay with the text.
"""

import argparse
import csv
import sys
from pathlib import Path

from ocpp_board.commands.correct import read_number
from ocpp_board.commands.options import (
    add_program,
    add_store,
    add_who,
    choose_program,
    read_author,
    read_time,
)
from ocpp_board.errors import UsageError
from ocpp_board.escapes import csv_cell
from ocpp_board.ledger.taking import Choice, How, Taken, leave_out, list_waiting, take
from ocpp_board.messages.mend import ABOUT, read_fault
from ocpp_board.statuses import Status
from ocpp_board.store.database import Row, open_store
from ocpp_board.words import pick_options
from ocpp_board.writers.bills import write_moment

ENDING = """\
Exit status: 0 when all was taken, left out or listed; 1 when something was refused again; 2 when the words are wrong or
the store or the program can't be used."""
HEADS = ("site", "station", "transactionId", "seqNo", "cause", "times", "first", "what", "advice")


def add_words(parser: argparse.ArgumentParser) -> None:
    """The words of the command."""
    add_store(parser)
    add_program(parser)
    parser.add_argument("station", nargs="?", metavar="STATION")
    parser.add_argument("transaction", nargs="?", metavar="TRANSACTION")
    parser.add_argument("--site", help="of this site only")
    parser.add_argument("--number", type=read_number, metavar="NUMBER", help="of this seqNo only")
    parser.add_argument("--cause", help="of this cause only, such as ConflictingEvent")
    parser.add_argument("--as", dest="new_id", metavar="ID", help="under this id")
    parser.add_argument(
        "--since",
        type=read_time,
        metavar="TIME",
        help="with --as: the transaction's events from this time on move to that id, too",
    )
    parser.add_argument(
        "--until", type=read_time, metavar="TIME", help="only what came before this time"
    )
    parser.add_argument(
        "--mend",
        type=read_fault,
        action="append",
        default=[],
        metavar="FAULT",
        help=f"mend these faults: {'; '.join(f'{fault}, {about}' for fault, about in ABOUT.items())}",
    )
    parser.add_argument("--text", type=Path, metavar="FILE", help="the one text, as it was meant")
    parser.add_argument("--leave", action="store_true", help="leave them out for good")
    parser.add_argument("--why", metavar="REASON", help="the reason, which is kept")
    add_who(parser)


def list_rows(rows: list[Row]) -> None:
    """Writes what waits as CSV."""
    writer = csv.writer(sys.stdout, lineterminator="\n")
    writer.writerow(HEADS)
    for row in rows:
        front = map(csv_cell, (row.site or "", row.station, row.sent_id, row.sent_number))
        words = map(csv_cell, (row.what, row.advice))
        writer.writerow([*front, row.cause, row.times, write_moment(row.first_at), *words])


def name_text(row: Row) -> str:
    """A text for a reader."""
    event = f" {row.sent_id} {row.sent_number}".rstrip()
    return f"{row.station}{event}"


def report(taken: list[Taken]) -> int:
    """Prints what became of texts, and gives the status."""
    lost = [one for one in taken if one.answer.outcome not in ("accepted", "repeat")]
    for one in lost:
        print(f"{name_text(one.row)}: {one.answer.outcome} {one.answer.name}".rstrip())
    print(f"{len(taken) - len(lost):,} of {len(taken):,} texts are taken")
    return Status.REPORTED if lost else Status.DONE


def run(words: argparse.Namespace) -> int:
    """Takes texts, leaves them out, or lists them."""
    choose_program(words.program)
    choice = pick_options(Choice, words)
    text = words.text.read_text("utf-8").strip() if words.text else None
    how = How(dict(words.mend), words.new_id, words.since, text)
    if words.leave and how != How():
        raise UsageError("--leave takes nothing: without --as, --mend and --text")
    if not words.why and (words.leave or how != How()):
        raise UsageError("a decision needs its reason: --why REASON")
    if words.why and not (choice.station or choice.site):
        raise UsageError("name a STATION, or --site")
    if how.new_id and not choice.transaction:
        raise UsageError("--as needs the TRANSACTION under which the texts came")
    with open_store(words.store) as store:
        rows = list_waiting(store, choice)
        if not words.why:
            list_rows(rows)
            return Status.DONE
        if words.leave:
            leave_out(store, rows, read_author(words))
            print(f"{len(rows):,} texts are left out")
            return Status.DONE
        return report(take(store, rows, how, read_author(words)))
