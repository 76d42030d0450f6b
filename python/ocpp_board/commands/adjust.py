"""Declares a fact beside a session's proved number: a meter that was exchanged, an end by estimate, a credit.

    ocpp-board adjust --store ledger.db exchange CS-01 1 --at 2026-03-02T10:15:00Z --old-end 4711.5 --new-begin 0 \\
        --why "meter exchanged"
    ocpp-board adjust --store ledger.db estimate CS-01 T-4711 --register next --why "the station was cut off"
    ocpp-board adjust --store ledger.db credit CS-01 T-4711 --kwh -1.5 --why "the cable was locked"
    ocpp-board adjust --store ledger.db propose --site north

The ledger's number stays. Bills and settlement files have it, the adjustments, each with who and why, and their sum. An
adjustment is never removed: declare one of the opposite amount. `propose` lists each reset of a register within a
session, with the line that adjusts it, so that the session has the rises before and after: put in what the two meters
read, if you know it.
"""

import argparse

from ocpp_board.commands.options import add_author, add_store, read_author, read_mwh, read_time
from ocpp_board.energies import kwh, kwh_of
from ocpp_board.errors import UsageError
from ocpp_board.ledger.program import find_program
from ocpp_board.ledger.resets import list_resets
from ocpp_board.statuses import Status
from ocpp_board.store.database import Database, open_store
from ocpp_board.store.decisions import (
    Adjustment,
    adjust,
    declare_by_values,
    declare_credit,
    declare_estimate,
    declare_exchange,
)
from ocpp_board.writers.bills import find_zone, write_moment, write_signed_kwh


def add_words(parser: argparse.ArgumentParser) -> None:
    """The words of the command."""
    add_store(parser)
    words = parser.add_subparsers(dest="word", metavar="WORD", required=True)
    exchange = words.add_parser("exchange", help="a meter was exchanged, or rolled over")
    exchange.add_argument("station", metavar="STATION")
    exchange.add_argument("evse", metavar="EVSE", type=int)
    exchange.add_argument("--at", required=True, type=read_time, metavar="TIME", help="when")
    exchange.add_argument("--old-end", required=True, type=read_mwh, metavar="KWH")
    exchange.add_argument("--new-begin", required=True, type=read_mwh, metavar="KWH")
    estimate = words.add_parser("estimate", help="a session's end did not come")
    credit = words.add_parser("credit", help="energy beside the ledger's, below 0 for a credit")
    for one in (estimate, credit):
        one.add_argument("station", metavar="STATION")
        one.add_argument("transaction", metavar="TRANSACTION")
    estimate.add_argument(
        "--register",
        required=True,
        metavar="KWH",
        help="what the register read at its end; next: what the next session of the EVSE began with; meter-values: "
        "what MeterValues of the EVSE say from its start to its end",
    )
    credit.add_argument("--kwh", required=True, type=read_mwh, dest="imported", metavar="KWH")
    credit.add_argument("--exported-kwh", default=0, type=read_mwh, dest="exported", metavar="KWH")
    for one in (exchange, estimate, credit):
        add_author(one)
    propose = words.add_parser("propose", help="sessions whose register was reset")
    propose.add_argument("--site", required=True)


def declare(store: Database, words: argparse.Namespace) -> Adjustment:
    """The adjustment that the words declare. Raises UsageError."""
    if words.word == "exchange":
        return declare_exchange(
            store, words.station, words.evse, words.at, words.old_end, words.new_begin
        )
    if words.word == "credit":
        return declare_credit(
            store, words.station, words.transaction, words.imported, words.exported
        )
    if words.register == "meter-values":
        return declare_by_values(store, words.station, words.transaction)
    try:
        register = None if words.register == "next" else read_mwh(words.register)
    except argparse.ArgumentTypeError as fault:
        raise UsageError(f"--register: {fault}") from None
    return declare_estimate(store, words.station, words.transaction, register)


def propose(store: Database, words: argparse.Namespace) -> None:
    """Prints each reset of a register within a session, and how to adjust it."""
    find_zone(store, words.site)
    front = f"  ocpp-board adjust --store {words.store}"
    for one in list_resets(store, find_program(), words.site):
        side = "export register" if one.is_export else "register"
        print(
            f"{one.transaction} of {one.station}, EVSE {one.evse}: the {side} fell from {kwh(one.old_end)} to "
            f"{kwh(one.new_begin)} kWh"
        )
        if one.is_export:
            lost = write_signed_kwh(one.old_end - one.new_begin)
            print(
                f"{front} credit {one.station} {one.transaction} --kwh 0 --exported-kwh {lost} --why 'meter reset'"
            )
            continue
        registers = f"--old-end {kwh_of(one.old_end)} --new-begin {kwh_of(one.new_begin)}"
        print(
            f"{front} exchange {one.station} {one.evse} --at {write_moment(one.at)} {registers} --why 'meter reset'"
        )


def run(words: argparse.Namespace) -> int:
    """Declares an adjustment, or proposes some."""
    with open_store(words.store) as store:
        if words.word == "propose":
            propose(store, words)
            return Status.DONE
        one = declare(store, words)
        adjust(store, one, read_author(words))
    session = one.session
    had = session.up - session.down
    print(
        f"{session.transaction_id} of {session.station}: imported {kwh(had)} kWh by the ledger, adjusted by "
        f"{kwh(one.imported)} kWh"
    )
    return Status.DONE
