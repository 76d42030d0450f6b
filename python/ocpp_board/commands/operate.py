"""Voids, restores and erases events of transactions, corrects readings, and chooses the order of a transaction.

    ocpp-board operate --store ledger.db void CS-01 T-4711 3 --why "meter exchanged"
    ocpp-board operate --store ledger.db restore CS-01 T-4711 3 --why "was right after all"
    ocpp-board operate --store ledger.db erase CS-01 T-4711 3 --why "another message has this number"
    ocpp-board operate --store ledger.db correct CS-01 T-4711 3 0 --kwh 4711.5 --why "read at the meter"
    ocpp-board operate --store ledger.db order CS-01 T-4711 sequence --why "its clock was set back"

A voided event counts no longer and keeps its place; restored, it counts again; erased, its number is free for another
message. Only voided events are restored or erased. `correct` does all three with a reading. `order` has the readings of
one transaction taken by sequence or by moment, whatever the order of its site is. Each line is kept with who, when, why
and its answer, whether it changed something or not. The command prints the answer, and the transaction's energy before
and after.
"""

import argparse
import getpass
import re
from datetime import datetime, timezone

from ocpp_board.commands import correct
from ocpp_board.commands.options import (
    add_author,
    add_program,
    add_store,
    choose_program,
    read_author,
)
from ocpp_board.energies import kwh
from ocpp_board.errors import UsageError
from ocpp_board.ledger.engine import order_session, settle
from ocpp_board.limits import GREATEST_SEQ_NO, ORDERS, TRANSACTION, is_name
from ocpp_board.messages.message_faults import REMEDIES
from ocpp_board.records import DEEDS, Answer, Deed
from ocpp_board.statuses import Status
from ocpp_board.store.database import Database, Row, open_store

ENDING = """\
Exit status: 0 when it was done; 1 when it was refused; 2 when the words are wrong or the store or the program can't be
used."""
NUMBER = re.compile("0|[1-9][0-9]{0,9}")
FOUND = """
select state, up - down - export_up + export_down as net from session
where station = :station and transaction_id = :transaction
"""
ABOUT = {
    "void": "an event counts no longer",
    "restore": "a voided event counts again",
    "erase": "the number of a voided event is free",
}


def add_words(parser: argparse.ArgumentParser) -> None:
    """The words of the command."""
    add_store(parser)
    add_program(parser)
    group = parser.add_subparsers(dest="word", metavar="WORD", required=True)
    for word in DEEDS:
        add_deed(group.add_parser(word, help=ABOUT[word], description=ABOUT[word]))
    correct.add_words(
        group.add_parser(
            "correct",
            help="a reading is another one",
            description=correct.__doc__,
            formatter_class=argparse.RawDescriptionHelpFormatter,
        )
    )
    order = group.add_parser("order", help="the order of a transaction's readings")
    order.add_argument("station", metavar="STATION")
    order.add_argument("transaction", metavar="TRANSACTION")
    order.add_argument("order", choices=ORDERS)
    add_author(order)


def add_deed(parser: argparse.ArgumentParser) -> None:
    """The words of a deed."""
    parser.add_argument("station", metavar="STATION")
    parser.add_argument(
        "transaction", metavar="TRANSACTION", help="its id, in small or capital letters"
    )
    parser.add_argument("number", metavar="NUMBER", help="the event's seqNo")
    add_author(parser)


def check_names(words: argparse.Namespace) -> None:
    """Raises UsageError where a station or a transaction is none, or no reason is given."""
    if not is_name(words.station):
        raise UsageError(f"{words.station!r} is no name of a station")
    if not TRANSACTION.fullmatch(words.transaction):
        raise UsageError(f"{words.transaction!r} is no id of a transaction, as the station sent it")
    if not words.why.strip():
        raise UsageError("no reason is given; give one by --why")


def read_deed(words: argparse.Namespace) -> Deed:
    """The operator's line that the words name. Raises UsageError."""
    check_names(words)
    if not NUMBER.fullmatch(words.number) or int(words.number) > GREATEST_SEQ_NO:
        raise UsageError(f"{words.number!r} is no number of an event, 0 to {GREATEST_SEQ_NO}")
    who = words.who or getpass.getuser()
    return Deed(
        words.word,
        words.station,
        words.transaction,
        int(words.number),
        who,
        words.why.strip(),
        datetime.now(timezone.utc),
        f"operator {who}",
    )


def find_session(store: Database, words: argparse.Namespace) -> Row | None:
    """The state and the energy of the transaction."""
    return store.fetch_one(FOUND, station=words.station, transaction=words.transaction.lower())


def describe(answer: Answer, before: Row | None, after: Row | None) -> str:
    """What became of the line, in a sentence."""
    if answer.outcome != "accepted":
        if answer.name == "UnknownStation":
            return "fault UnknownStation: no site has this station"
        what, advice = REMEDIES.get(
            answer.name, ("the line was not taken", "compare it with the board")
        )
        return f"refused {answer.name}: {what}; {advice}"
    return f"accepted {answer.count}: {describe_change(before, after)}"


def describe_change(before: Row | None, after: Row | None) -> str:
    """A transaction's energy and state before and after, in a sentence."""
    assert after is not None
    had = f"{kwh(before.net)} kWh, {before.state}" if before else "nothing"
    return f"{had} before, {kwh(after.net)} kWh, {after.state} now"


def choose_order(words: argparse.Namespace) -> int:
    """Gives a transaction an order of its own. Raises UsageError and InputError."""
    check_names(words)
    with open_store(words.store) as store:
        before = find_session(store, words)
        order_session(store, words.station, words.transaction, words.order, read_author(words))
        print(f"by {words.order}: {describe_change(before, find_session(store, words))}")
    return Status.DONE


def run(words: argparse.Namespace) -> int:
    """Does the deed."""
    choose_program(words.program)
    if words.word == "correct":
        return correct.run(words)
    if words.word == "order":
        return choose_order(words)
    deed = read_deed(words)
    with open_store(words.store) as store:
        before = find_session(store, words)
        answer = settle(store, [deed])[0]
        print(describe(answer, before, find_session(store, words)))
    return Status.DONE if answer.outcome == "accepted" else Status.REPORTED
