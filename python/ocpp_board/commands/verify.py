"""Compares what a store shows with the boards of the proved program, figure by figure.

    ocpp-board verify --store ledger.db
    ocpp-board verify --store postgresql://localhost/ledger --site north

It replays all lines of each site as whole scripts. The totals of sites, stations, EVSEs and periods and all
transactions of the store have to be those of the boards. It says how many figures it compared, or which one differs
first.
"""

import argparse
import multiprocessing
import os
import sys

from ocpp_board.commands.options import add_program, add_store, choose_program
from ocpp_board.errors import InputError
from ocpp_board.ledger.verify import Verified, verify
from ocpp_board.processes import leave_interrupts
from ocpp_board.statuses import Status
from ocpp_board.store.database import open_store

ENDING = """\
Exit status: 0 when all figures are the program's; 1 when one is not; 2 when the store or the program can't be used."""


def add_words(parser: argparse.ArgumentParser) -> None:
    """The words of the command."""
    add_store(parser)
    add_program(parser)
    parser.add_argument(
        "--site", action="append", help="only this site; may be given more than once"
    )
    parser.add_argument(
        "--processes",
        type=int,
        default=os.cpu_count() or 1,
        help="how many scripts are answered at once (default: one for each processor)",
    )


def describe(verified: Verified) -> str:
    """What was found, in a sentence."""
    return f"verified: {verified.figures:,} figures are those of the program's boards"


def run(words: argparse.Namespace) -> int:
    """Verifies the store."""
    choose_program(words.program)
    with open_store(words.store) as store:
        for site in words.site or ():
            if store.fetch_one("select 1 as one from site where site = :site", site=site) is None:
                raise InputError(f"there is no site {site!r} in {words.store}")
        if words.processes > 1:
            with multiprocessing.get_context("forkserver").Pool(
                words.processes, leave_interrupts
            ) as pool:
                verified = verify(store, words.site, pool)
        else:
            verified = verify(store, words.site)
    if verified.difference:
        print(f"not verified: {verified.difference}", file=sys.stderr)
        return Status.REPORTED
    print(describe(verified))
    return Status.DONE
