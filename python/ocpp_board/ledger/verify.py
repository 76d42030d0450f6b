"""Compares what a store shows with the boards that the proved program makes of whole scripts, figure by figure.

A site's lines are replayed in scripts of up to 64 stations; boards of scripts that share a site are added up.
"""

from collections.abc import Iterable, Iterator, Sequence
from datetime import datetime, timezone
from itertools import repeat
from typing import Any, NamedTuple, Protocol, TypeVar

from ocpp_board.energies import Flow
from ocpp_board.errors import OcppBoardError
from ocpp_board.ledger.answers import AnswerReader, Board, BoardPart, Figures, Total
from ocpp_board.ledger.program import find_program
from ocpp_board.ledger.scripts import OWN_ORDERS, join_scripts
from ocpp_board.limits import FIRST_MOMENT
from ocpp_board.records import Rules
from ocpp_board.store.database import Database, choose
from ocpp_board.store.plan import RULES_COLUMNS, read_rules

Item = TypeVar("Item")
# Scripts that are made before they are answered.
AT_ONCE = 8
# All lines of a transaction as one text. SQLite joins them in the order in which they come.
SESSIONS = """
select s.station, (
    select /*sqlite group_concat(line, char(10))*/ /*postgresql string_agg(line, chr(10) order by number)*/
    from (
        select l.number, l.line from line l where l.station = s.station and l.transaction_id = s.transaction_id
        order by l.number
    ) as sorted
) as text from session s where s.site = :site and s.own_order = :order order by s.station
"""
COUNTS = ("events", "voided", "transactions", "complete_transactions", "missing")
FLOW = Flow._fields


class Pool(Protocol):
    """Processes that work at once."""

    def imap(self, function: Any, pieces: Iterable[Any], /) -> Iterator[Any]:
        """What the function makes of each piece, in their order."""


class Difference(OcppBoardError):
    """The first figure of a store that is not the program's, in a sentence."""


class Verified(NamedTuple):
    """How many figures were compared, and the first that differs; empty where none does."""

    figures: int
    difference: str = ""


def verify(
    store: Database, sites: Sequence[str] | None = None, pool: Pool | None = None
) -> Verified:
    """Compares the views of a store with the boards of whole scripts. `sites`: None for all. Raises StoreError and
    ProgramError."""
    with store.snapshot():
        return verify_within(store, sites, pool)


def verify_within(
    store: Database, sites: Sequence[str] | None = None, pool: Pool | None = None
) -> Verified:
    """The same within a database transaction of the caller's."""
    figures = 0
    try:
        if sites is None:
            find_orphans(store)
        rows = store.fetch(f"select site, {RULES_COLUMNS} from site order by place, site")
        for row in rows:
            if sites is None or row.site in sites:
                board = replay_site(store, row.site, read_rules(row), pool)
                figures += compare_site(store, row.site, board)
    except Difference as fault:
        return Verified(figures, str(fault))
    return Verified(figures)


def find_orphans(store: Database) -> None:
    """Looks for lines without a transaction's row, and for rows without a site. Raises Difference."""
    row = store.fetch_one(
        """select l.station, l.transaction_id from line l left join session s
        on s.station = l.station and s.transaction_id = l.transaction_id where s.station is null limit 1"""
    )
    if row is not None:
        raise Difference(f"transaction {row.transaction_id} of {row.station} has lines and no row")
    row = store.fetch_one(
        """select s.station, s.transaction_id, s.site from session s left join site i on i.site = s.site
        where i.site is null limit 1"""
    )
    if row is not None:
        at = f"transaction {row.transaction_id} of {row.station}"
        raise Difference(f"{at} is of the site {row.site}, and there is no site {row.site}")


# Replaying -----------------------------------------------------------------------------------------------------------


def replay_site(store: Database, site: str, rules: Rules, pool: Pool | None) -> Board:
    """A site's board by the program, from all its lines. Raises Difference where a line is not accepted."""
    board = Board(site)
    asked = choose(SESSIONS, store.kind)
    scripts = (
        one
        for order in OWN_ORDERS
        for one in join_scripts(store.stream(asked, site=site, order=order), order)
    )
    for some in take_some(scripts, AT_ONCE):
        pieces = [(script.write(site, rules), lines, site) for script, lines in some]
        boards = pool.imap(replay_script, pieces) if pool else map(replay_script, pieces)
        for one in boards:
            add_board(board, one)
    return board


def take_some(scripts: Iterable[Item], count: int) -> Iterator[list[Item]]:
    """Scripts in lists of so many."""
    some = list[Item]()
    for script in scripts:
        some.append(script)
        if len(some) == count:
            yield some
            some = []
    yield some


def replay_script(piece: tuple[bytes, int, str]) -> Board:
    """The board at the end of a script with so many lines that change something. Raises Difference where one does
    not."""
    script, lines, site = piece
    reader = AnswerReader(find_program().answer(script))
    answers = reader.read_some(lines)
    if not all(map(str.startswith, answers, repeat("accepted "))):
        number = next(n for n, line in enumerate(answers) if not line.startswith("accepted "))
        raise Difference(
            f"site {site}: a stored line is answered {answers[number][:80]!r}, line {number + 1} of its script"
        )
    return reader.read_board()


def add_board(whole: Board, more: Board) -> None:
    """Adds a board to another one."""
    add_part(whole.own, more.own)
    for station, part in more.stations.items():
        add_part(whole.stations.setdefault(station, BoardPart()), part)


def add_part(whole: BoardPart, more: BoardPart) -> None:
    """Adds what another board says of a site or a station."""
    a, b = whole.total, more.total
    whole.total = Total(
        a.events + b.events,
        a.voided + b.voided,
        a.transactions + b.transactions,
        a.complete + b.complete,
        a.missing + b.missing,
        a.flow.plus(b.flow),
    )
    for own, others in ((whole.evses, more.evses), (whole.periods, more.periods)):
        for number, energy in others.items():
            own[number] = own.get(number, Flow()).plus(energy)
    whole.transactions |= more.transactions
    whole.gaps |= more.gaps


# Comparing -----------------------------------------------------------------------------------------------------------

Values = dict[Any, tuple[Any, ...]]


def compare_site(store: Database, site: str, board: Board) -> int:
    """Compares a site's views with its board, and returns how many figures there were. Raises Difference."""
    flows, counts = ", ".join(FLOW), ", ".join(COUNTS)
    total = f"select {counts}, {flows} from board_site where site = :site"
    own: Values = {"": tuple(row) for row in store.fetch(total, site=site)}
    figures = compare(f"site {site}", (*COUNTS, *FLOW), own, {"": flatten(board.own.total)})
    asked = f"select station, {counts}, {flows} from board_station where site = :site"
    stations: Values = {name: flatten(part.total) for name, part in board.stations.items()}
    shown = {row[0]: tuple(row[1:]) for row in store.fetch(asked, site=site)}
    nothing = flatten(Total())
    planned = {
        name: values for name, values in shown.items() if name in stations or values != nothing
    }
    figures += compare(f"site {site}, station", (*COUNTS, *FLOW), planned, stations)
    asked = f"select starts, {flows} from board_site_period where site = :site and shown = 1"
    figures += compare(
        f"site {site}, period",
        FLOW,
        {int(row.starts.timestamp()): tuple(row[1:]) for row in store.fetch(asked, site=site)},
        {start: tuple(flow) for start, flow in board.own.periods.items()},
    )
    asked = f"select station, evse, {flows} from board_evse where site = :site"
    figures += compare(
        f"site {site}, EVSE",
        FLOW,
        {tuple(row[:2]): tuple(row[2:]) for row in store.fetch(asked, site=site)},
        {
            (name, evse): tuple(flow)
            for name, part in board.stations.items()
            for evse, flow in part.evses.items()
        },
    )
    asked = f"select station, starts, {flows} from board_period where site = :site and shown = 1"
    figures += compare(
        f"site {site}, station and period",
        FLOW,
        {
            (row.station, int(row.starts.timestamp())): tuple(row[2:])
            for row in store.fetch(asked, site=site)
        },
        {
            (name, start): tuple(flow)
            for name, part in board.stations.items()
            for start, flow in part.periods.items()
        },
    )
    return figures + compare_sessions(store, site, board)


SESSION = ("evse", "events", "first_number", "last_number", "complete", "missing", *FLOW, "gaps")


def compare_sessions(store: Database, site: str, board: Board) -> int:
    """Compares a site's transactions with its board, and returns how many figures there were. Raises Difference."""
    asked = f"select station, transaction_id, {', '.join(SESSION)} from session where site = :site and events > 0"
    shown = {tuple(row[:2]): tuple(row[2:]) for row in store.stream(asked, site=site)}
    wanted: Values = {
        (name, transaction): (*flatten(figures), write_gaps(part.gaps.get(transaction, ())))
        for name, part in board.stations.items()
        for transaction, figures in part.transactions.items()
    }
    return compare(f"site {site}, transaction", SESSION, shown, wanted)


def flatten(values: Total | Figures) -> tuple[Any, ...]:
    """Figures with those of their energy behind them."""
    return (*values[:-1], *values.flow)


def write_gaps(gaps: Iterable[tuple[int, int]]) -> str:
    """Ranges of missing numbers as a store has them."""
    return " ".join(f"{first}..{last}" for first, last in gaps)


def name_key(key: Any) -> str:
    """A part of a key for a reader: a name, the number of an EVSE, or the beginning of a period."""
    if isinstance(key, int) and key >= FIRST_MOMENT.timestamp():
        return f"{datetime.fromtimestamp(key, timezone.utc):%Y-%m-%dT%H:%M:%SZ}"
    return str(key)


def compare(where: str, names: Sequence[str], shown: Values, wanted: Values) -> int:
    """Compares figures by their keys, and returns how many there are. Raises Difference."""
    if shown != wanted:
        for key in sorted({*shown, *wanted}):
            name = " ".join(map(name_key, key if isinstance(key, tuple) else (key,)))
            at = f"{where} {name}".strip()
            if key not in shown:
                raise Difference(f"{at} is on the program's board and not in the store")
            if key not in wanted:
                raise Difference(f"{at} is in the store and not on the program's board")
            for column, had, has in zip(names, shown[key], wanted[key]):
                if had != has:
                    raise Difference(f"{at}: {column} is {had}, and {has} by the program")
    return len(wanted) * len(names)
