"""Closes a site's days: fixes the energy of all periods up to a day's end, and of the sessions that are complete.

    ocpp-board close-day --store ledger.db --site north
    ocpp-board close-day --store ledger.db --site north --day 2026-03-01

Without --day it closes yesterday, in the site's zone. A day that was left out is closed with the next one. Late
messages and voids of a closed day are answered as any other; the next closing adds a row for each difference, which
`ocpp-board corrections` lists. A closing where nothing changed changes nothing. From its first closing on a site keeps
its period, its order of readings, its rule of settling and its zone.
"""

import argparse

from ocpp_board.commands.options import add_site, add_store, add_who, read_day, read_who
from ocpp_board.statuses import Status
from ocpp_board.store.closing import Closing, close_day
from ocpp_board.store.database import open_store


def add_words(parser: argparse.ArgumentParser) -> None:
    """The words of the command."""
    add_store(parser)
    add_site(parser)
    add_who(parser)
    parser.add_argument("--day", type=read_day, help="the last day to close (default: yesterday)")


def describe(closing: Closing) -> str:
    """What a closing did, in a sentence."""
    if closing.number is None:
        return f"{closing.site} is closed up to {closing.day}; nothing changed since"
    return (
        f"closing {closing.number} of {closing.site} up to {closing.day}: {closing.sessions:,} sessions looked at, "
        f"{closing.periods:,} rows of periods, {closing.corrections:,} of them corrections"
    )


def run(words: argparse.Namespace) -> int:
    """Closes the day."""
    with open_store(words.store) as store:
        print(describe(close_day(store, words.site, words.day, read_who(words))))
    return Status.DONE
