"""Boards with periods that are wrong since stations list readings again, and the line that mends it."""

from collections.abc import Mapping
from typing import NamedTuple

from ocpp_board.ledger.answers import Board, Lists
from ocpp_board.ledger.events import History, LiveEvents
from ocpp_board.ledger.findings import Kind, find_falls_by_sequence, name_order_option
from ocpp_board.ledger.replay import Key


class Hint(NamedTuple):
    """What a board shows, and what mends it."""

    said: str
    remedy: str


def list_falls(board: Board) -> list[Key]:
    """The transactions of a board with a register that fell."""
    return [
        (station, transaction)
        for station, part in board.stations.items()
        for transaction, figures in part.transactions.items()
        if figures.flow.down or figures.flow.export_down
    ]


def is_repeated(lists: Lists) -> bool:
    """Whether a transaction with these lists has readings that are listed again."""
    events = LiveEvents()
    events.take(lists, History())
    found = find_falls_by_sequence(events, "")
    return any(one.kind is Kind.REPEATED for one in found)


def find_hint(site: str, lists: Mapping[Key, Lists]) -> Hint | None:
    """What is reported of a site by sequence, by the lists of its transactions that fell; None where nothing is."""
    found = [key for key, own in lists.items() if is_repeated(own)]
    if not found:
        return None
    sessions = "1 session" if len(found) == 1 else f"{len(found):,} sessions"
    station, transaction = found[0]
    option = name_order_option(site, "behind the first `station` line of the site")
    return Hint(
        f"in {sessions} of site {site}, such as {transaction} of {station}, readings are listed again, and by sequence "
        "that is a fall and a second rise: their periods are wrong",
        f"{option} takes readings by moment",
    )
