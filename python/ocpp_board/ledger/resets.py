"""Resets of a register within a session, as adjustments are proposed for them."""

from collections.abc import Iterator
from datetime import datetime
from typing import NamedTuple

from ocpp_board.ledger.findings import Kind
from ocpp_board.ledger.program import Program
from ocpp_board.ledger.rows import Work, work_out
from ocpp_board.messages.transactions import moment
from ocpp_board.store.database import Database
from ocpp_board.store.lines import read_lines
from ocpp_board.store.plan import find_session_rules

# Sessions with a reset that nobody adjusted but by exchanges.
RESET = f"""
select s.station, s.transaction_id, s.evse from session s
join finding f on f.station = s.station and f.transaction_id = s.transaction_id
where s.site = :site and f.kind = '{Kind.RESET.label}' and not exists (
    select 1 from adjustment a
    where a.station = s.station and a.transaction_id = s.transaction_id and a.kind <> 'exchange')
order by s.first_at, s.station, s.transaction_id
"""
EXCHANGED = """
select at from adjustment where station = :station and transaction_id = :transaction_id and at >= :begin and at <= :end
"""


class Reset(NamedTuple):
    """A register of a session that was reset or exchanged between two readings: what it read before and after, in
    mWh."""

    station: str
    transaction: str
    evse: int
    is_export: bool
    begin: datetime
    end: datetime
    old_end: int
    new_begin: int

    @property
    def at(self) -> datetime:
        """The moment in the middle of the two readings."""
        return (self.begin + (self.end - self.begin) / 2).replace(microsecond=0)


def list_resets(store: Database, program: Program, site: str) -> Iterator[Reset]:
    """The resets of registers at a site that nobody adjusted, in the order of their sessions."""
    for row in store.fetch(RESET, site=site):
        key = {"station": row.station, "transaction_id": row.transaction_id}
        found = find_session_rules(store, row.station, row.transaction_id)
        assert found is not None
        (lines,) = read_lines(store, [(row.station, row.transaction_id)])
        work = Work(row.station, row.transaction_id, *found, list(lines), [], [], True)
        (done,) = work_out(program, [work])
        assert done.course is not None
        for fall in done.course.doubts.find_resets(done.course.events):
            begin, end = moment(fall.had.at), moment(fall.one.at)
            assert begin and end
            one = Reset(
                row.station,
                row.transaction_id,
                row.evse,
                fall.one.is_export,
                *(min(begin, end), max(begin, end)),
                *(fall.had.mwh, fall.one.mwh),
            )
            if not store.fetch(EXCHANGED, begin=one.begin, end=one.end, **key):
                yield one
