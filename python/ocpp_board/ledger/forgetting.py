"""Takes drivers' tokens out of the lines and rows of a store.

A session whose lines were emptied has the figures that it had: the program computes both, and where they differ nothing
of the session is written.
"""

from collections.abc import Collection, Iterator, Sequence
from dataclasses import dataclass, field
from datetime import datetime, timezone
from typing import NamedTuple

from ocpp_board.errors import StoreError
from ocpp_board.ledger.findings import Finding, Kind
from ocpp_board.ledger.program import Program
from ocpp_board.ledger.rows import Rows, Work, work_out
from ocpp_board.messages.tokens import SIGNED, TOKENS, empty_line, empty_tokens
from ocpp_board.records import Line
from ocpp_board.store.database import Database, count_hours
from ocpp_board.store.plan import find_session_rules

# A moment after all that a store has.
NEVER = datetime(9999, 1, 1, tzinfo=timezone.utc)
# Sessions that are rewritten in one database transaction.
AT_ONCE = 100
# What a text with something to forget has: a name may have its letters as `\\u0069`.
MAY_HAVE = """({0} like '%dToken%' or {0} like '%dTag%' or {0} like '%signedMeterValue%' or {0} like '%u00%')"""
LINES = f"""
select l.station, l.transaction_id, l.line
from line l join session s on s.station = l.station and s.transaction_id = l.transaction_id
where coalesce(l.received, s.last_at, s.changed_at) < :before and {MAY_HAVE.format('l.line')}
order by l.station, l.transaction_id
"""
SESSION = """
select last_at, changed_at from session where station = :station and transaction_id = :transaction_id
"""
OWN_LINES = """
select number, received, line, who, why, origin from line
where station = :station and transaction_id = :transaction_id order by number
"""
# The lines of a session are written by nobody else meanwhile. SQLite has one writer at a time anyway.
LOCK = """
select 1 as one from session where station = :station and transaction_id = :transaction_id for update
"""
WRITE_LINE = """
update line set line = :line
where station = :station and transaction_id = :transaction_id and number = :number
"""
# The moment of change has who keeps the lines of a session read them again, and its pages written.
WRITE_SESSION = """
update session set token = :token, token_type = :token_type, signed = :signed, changed_at = :changed_at,
    changed_hour = :changed_hour
where station = :station and transaction_id = :transaction_id
"""
REFUSALS = f"""
select station, cause, digest, text from refusal
where (last_at is null or last_at < :before) and {MAY_HAVE.format('text')}
"""
WRITE_REFUSAL = """
update refusal set text = :text where station = :station and cause = :cause and digest = :digest
"""
STRAYS = f"""
select station, digest, text from stray
where (last_at is null or last_at < :before) and {MAY_HAVE.format('text')}
"""
WRITE_STRAY = "update stray set text = :text where station = :station and digest = :digest"
MENDED = f"""
select station, digest, came as text from mended
where (at is null or at < :before) and {MAY_HAVE.format('came')}
"""
WRITE_MENDED = "update mended set came = :text where station = :station and digest = :digest"
# SQLite writes zeros where a text was, and leaves none in its write-ahead log.
OVERWRITE, EMPTY_WAL = "pragma secure_delete = on", "pragma wal_checkpoint(truncate)"


class Wanted(NamedTuple):
    """What is to be forgotten: one token, or each where there is none named; of texts that came before a moment;
    signed values, too, or not."""

    token: str | None = None
    before: datetime = NEVER
    is_signed: bool = False

    @property
    def members(self) -> Collection[str]:
        """The members of messages that are emptied."""
        return (*TOKENS, SIGNED) if self.is_signed else TOKENS

    def empty(self, text: str) -> str:
        """A message without what is to be forgotten."""
        return empty_tokens(text, self.token, self.members)


@dataclass(slots=True)
class Forgotten:
    """What was forgotten: how many lines of how many sessions, and how many refused texts and strays; `kept`: sessions
    that kept their tokens, each with the reason."""

    lines: int = 0
    sessions: int = 0
    texts: int = 0
    kept: list[str] = field(default_factory=list)


class Emptied(NamedTuple):
    """A session's lines before and after."""

    work: Work
    lines: list[Line]

    @property
    def changed(self) -> list[Line]:
        """The lines that differ."""
        return [new for had, new in zip(self.work.stored, self.lines) if had.text != new.text]


def forget_tokens(store: Database, program: Program, wanted: Wanted) -> Forgotten:
    """Empties tokens in lines, sessions, refused texts and strays. It may end at any time: call it again."""
    if store.kind == "sqlite":
        store.fetch(OVERWRITE)
    found, keys = Forgotten(), list_sessions(store, wanted)
    for start in range(0, len(keys), AT_ONCE):
        with store.transaction():
            write_sessions(store, program, wanted, keys[start : start + AT_ONCE], found)
    with store.transaction():
        write_texts(store, wanted, found)
    if store.kind == "sqlite":
        store.fetch(EMPTY_WAL)
    return found


def list_sessions(store: Database, wanted: Wanted) -> list[tuple[str, str]]:
    """The sessions with a line that has something to forget."""
    found = dict[tuple[str, str], None]()
    for row in store.stream(LINES, before=wanted.before):
        key = row.station, row.transaction_id
        if key not in found and empty_line(row.line, wanted.token, wanted.members) != row.line:
            found[key] = None
    return list(found)


def empty_session(
    store: Database, wanted: Wanted, station: str, transaction: str
) -> Emptied | None:
    """A session's lines as they are and as they are to be; None where it is there no more. The session is locked."""
    key = {"station": station, "transaction_id": transaction}
    if store.kind == "postgresql":
        store.fetch(LOCK, **key)
    row, rules = store.fetch_one(SESSION, **key), find_session_rules(store, station, transaction)
    if row is None or rules is None:
        return None
    had, new = list[Line](), list[Line]()
    for one in store.fetch(OWN_LINES, **key):
        line = Line(one.number, one.line, one.received, one.who, one.why, one.origin)
        had.append(line)
        if (one.received or row.last_at or row.changed_at) < wanted.before:
            text = empty_line(one.line, wanted.token, wanted.members)
            line = Line(one.number, text, one.received, one.who, one.why, one.origin)
        new.append(line)
    return Emptied(Work(station, transaction, *rules, had, [], [], True), new)


def write_sessions(
    store: Database,
    program: Program,
    wanted: Wanted,
    keys: Sequence[tuple[str, str]],
    found: Forgotten,
) -> None:
    """Empties the lines of some sessions, whose figures stay."""
    some = [one for key in keys if (one := empty_session(store, wanted, *key)) and one.changed]
    for one, rows in zip(some, check_figures(program, wanted, some)):
        key = {"station": one.work.station, "transaction_id": one.work.transaction}
        if isinstance(rows, str):
            found.kept.append(f"{one.work.transaction} of {one.work.station}: {rows}")
            continue
        store.execute_each(
            WRITE_LINE, [key | {"number": line.number, "line": line.text} for line in one.changed]
        )
        own, now = rows.session, datetime.now(timezone.utc)
        store.execute(
            WRITE_SESSION,
            **key,
            token=own.token,
            token_type=own.token_type,
            signed=own.signed,
            changed_at=now,
            changed_hour=count_hours(now),
        )
        found.lines += len(one.changed)
        found.sessions += 1


def check_figures(
    program: Program, wanted: Wanted, some: Sequence[Emptied]
) -> Iterator[Rows | str]:
    """The rows of each session by its emptied lines, or why they can't be written."""
    new = [one.work._replace(stored=one.lines) for one in some]
    for had, now in zip(
        compute_rows(program, [one.work for one in some]), compute_rows(program, new)
    ):
        if isinstance(had, str) or isinstance(now, str):
            yield now if isinstance(now, str) else had
        elif leave_tokens(had, wanted.is_signed) != leave_tokens(now, wanted.is_signed):
            yield "its figures would change; report this as a fault of this program"
        else:
            yield now


def compute_rows(program: Program, works: Sequence[Work]) -> list[Rows | str]:
    """The rows of sessions, or why a session has none: one whose lines are damaged costs no other one its rows."""
    found = list[Rows | str]()
    try:
        for done in work_out(program, works):
            assert done.rows is not None
            found.append(done.rows)
    except StoreError as fault:
        if len(works) == 1:
            return [str(fault)]
        return [rows for work in works for rows in compute_rows(program, [work])]
    return found


def leave_tokens(rows: Rows, is_signed: bool) -> Rows:
    """Rows without what may be forgotten."""
    session = rows.session._replace(token="", token_type="")
    findings: list[Finding] = rows.findings
    if is_signed:
        session = session._replace(signed="")
        findings = [one for one in findings if one.kind is not Kind.SIGNED]
    return Rows(session, rows.parts, findings)


def write_texts(store: Database, wanted: Wanted, found: Forgotten) -> None:
    """Empties refused texts, strays, and mended messages as they came."""
    for asked, write, key in (
        (REFUSALS, WRITE_REFUSAL, ("station", "cause", "digest")),
        (STRAYS, WRITE_STRAY, ("station", "digest")),
        (MENDED, WRITE_MENDED, ("station", "digest")),
    ):
        emptied = [
            {name: getattr(row, name) for name in key} | {"text": text}
            for row in store.fetch(asked, before=wanted.before)
            if (text := wanted.empty(row.text)) != row.text
        ]
        store.execute_each(write, emptied)
        found.texts += len(emptied)
