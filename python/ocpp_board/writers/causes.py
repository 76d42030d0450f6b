"""What made a correction, in words: the lines of a session that came between two closings."""

from ocpp_board.store.closing import list_causes
from ocpp_board.store.database import Database, Row
from ocpp_board.writers.bills import write_moment


def describe_causes(
    store: Database, station: str, transaction_id: str, first: int, last: int
) -> str:
    """The lines of a session from one to another."""
    lines = "; ".join(map(describe_line, list_causes(store, station, transaction_id, first, last)))
    return lines or "no line: the session's rules changed"


def describe_line(row: Row) -> str:
    """A line in a few words: its place, what it is, when it came, who asked for it and why."""
    word, _, rest = row.line.partition(" ")
    what = "message" if word == "deliver" else f"{word} of event {rest.split(' ')[-1]}"
    at = f" at {write_moment(row.received)}" if row.received else ""
    who = f" by {row.who}: {row.why}" if row.who else ""
    return f"{row.number}: {what}{at}{who}"
