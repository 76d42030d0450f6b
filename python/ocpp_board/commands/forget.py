"""Takes personal data out of a store: drivers' tokens that are so many days old, one token, or whole years.

    ocpp-board forget --store ledger.db --after 365
    ocpp-board forget --store ledger.db --token 04A2F7C1
    ocpp-board forget --store ledger.db --years 10 --out /var/lib/ocpp-board/old

A token is the `idToken` of a message. It goes from lines, sessions, refused messages and messages of unknown stations.
With --signed signed values go, too, since they may name the driver; keep them as long as a bill may be disputed. No
figure changes: the program computes each session before and after.

--years moves sessions into files: those that a closing settled, that nothing came for since, and that were over before
the year that is so many whole years ago. Each site has a file SITE.before-DAY.zip with the sessions' lines as scripts,
which `ocpp_board replay` reads, and their rows as CSV.
"""

import argparse
import sys
from datetime import datetime, timedelta, timezone
from pathlib import Path

from ocpp_board.commands.options import add_program, add_store, choose_program, read_count
from ocpp_board.errors import UsageError
from ocpp_board.ledger.forgetting import NEVER, Forgotten, Wanted, forget_tokens
from ocpp_board.ledger.old_sessions import move_old
from ocpp_board.ledger.program import find_program
from ocpp_board.statuses import Status
from ocpp_board.store.database import Database, open_store


def read_token(text: str) -> str:
    """A token of the command line. Raises ArgumentTypeError."""
    if not 1 <= len(text) <= 255:
        raise argparse.ArgumentTypeError("a token has 1 to 255 characters")
    return text


def add_words(parser: argparse.ArgumentParser) -> None:
    """The words of the command."""
    add_store(parser)
    add_program(parser)
    what = parser.add_mutually_exclusive_group(required=True)
    what.add_argument(
        "--after", type=read_count, metavar="DAYS", help="all tokens that are so many days old"
    )
    what.add_argument("--token", type=read_token, help="this token, in messages of any age")
    what.add_argument(
        "--years", type=read_count, help="sessions that are older than so many whole years"
    )
    parser.add_argument(
        "--signed", action="store_true", help="signed values, too, where they name the token"
    )
    parser.add_argument("--out", type=Path, metavar="FOLDER", help="where --years writes files")


def describe(found: Forgotten) -> str:
    """What was forgotten, in a sentence."""
    return (
        f"tokens left {found.lines:,} lines of {found.sessions:,} sessions, and {found.texts:,} messages that changed "
        "nothing; all figures are as before"
    )


def forget(store: Database, words: argparse.Namespace) -> int:
    """Forgets tokens, and reports the sessions that kept theirs."""
    now = datetime.now(timezone.utc)
    before = NEVER if words.after is None else now - timedelta(days=words.after)
    found = forget_tokens(store, find_program(), Wanted(words.token, before, words.signed))
    print(describe(found))
    for reason in found.kept:
        print(f"kept its tokens: {reason}", file=sys.stderr)
    return Status.REPORTED if found.kept else Status.DONE


def move(store: Database, words: argparse.Namespace) -> int:
    """Moves old sessions into files."""
    if words.out is None:
        raise UsageError("--years needs --out FOLDER, where it writes what leaves the store")
    before = datetime(datetime.now(timezone.utc).year - words.years, 1, 1, tzinfo=timezone.utc)
    stayed = 0
    for moved in move_old(store, before, words.out):
        if moved.file is None:
            print(f"{moved.site}: no settled session is older than {before:%Y-%m-%d}")
            continue
        stayed += moved.stayed
        print(f"{moved.site}: {moved.sessions:,} sessions left for {moved.file}")
    if stayed:
        print(f"{stayed:,} sessions stay: lines came for them meanwhile", file=sys.stderr)
    return Status.REPORTED if stayed else Status.DONE


def run(words: argparse.Namespace) -> int:
    """Forgets tokens or moves old sessions."""
    choose_program(words.program)
    with open_store(words.store) as store:
        return forget(store, words) if words.years is None else move(store, words)
