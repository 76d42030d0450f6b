"""The word `mend` of `plan`: which faults of a site's stations are mended before their messages are settled."""

import argparse
from typing import Any

from ocpp_board.commands.plan import add_word
from ocpp_board.ledger.mending import write_mends
from ocpp_board.messages.mend import ABOUT
from ocpp_board.statuses import Status
from ocpp_board.store.database import Database
from ocpp_board.store.plan import Author

DESCRIPTION = f"""\
Mends these faults, and no others, in what the stations of a site send from now on, whether by a gateway, a feed, a log
or a script: {'; '.join(f'{fault}, {about}' for fault, about in ABOUT.items())}. Each mended message is counted, and the
store keeps it as it came. Gateways follow within a second. Without a fault nothing is mended any more."""


def add_plan_words(group: Any) -> None:
    """The word of `plan`."""
    parser = add_word(group, "mend", "mends faults of a site's stations", change_mends)
    parser.description = DESCRIPTION
    parser.add_argument("site", metavar="SITE")
    parser.add_argument("faults", nargs="*", metavar="FAULT")


def change_mends(store: Database, words: argparse.Namespace, author: Author) -> int:
    """Declares which faults are mended."""
    write_mends(store, words.site, words.faults, author)
    print(f"{words.site}: mends {', '.join(words.faults) or 'nothing'}")
    return Status.DONE
