"""Takes texts that were refused: as they are, mended, or under another transaction's id; or leaves them out.

A text waits until somebody decides. What is delivered again is settled as any other message, and the text that came
stays beside it.
"""

from collections import Counter
from collections.abc import Iterable, Sequence
from dataclasses import dataclass, field
from datetime import datetime, timezone
from typing import Any, NamedTuple

from ocpp_board.errors import InputError, UsageError
from ocpp_board.ledger.corrections import find_texts
from ocpp_board.ledger.engine import MENDED, TAKEN, renew_sessions, settle
from ocpp_board.ledger.mending import make_mender
from ocpp_board.limits import TRANSACTION
from ocpp_board.messages.corrected import rename_transaction
from ocpp_board.messages.mend import Fault, Mended, Mender
from ocpp_board.messages.meter_values import JSON
from ocpp_board.messages.times import seconds_of
from ocpp_board.records import Answer, Asked, Deed, Message
from ocpp_board.store.database import Database, Row
from ocpp_board.store.lines import DECIDE, find_sites, read_lines
from ocpp_board.store.plan import Author

LEFT_OUT = "left out"
WAITING = """
select r.station, r.cause, r.digest, r.transaction_id, r.sent_id, r.sent_number, r.number, r.what, r.advice, r.text,
    r.times, r.first_at, coalesce(t.site, r.site) as site
from refusal r left join station t on t.station = r.station
where r.decision = ''
"""
DROP = "delete from refusal where station = :station and digest = :digest and decision = ''"
COUNT_AS_BEFORE = """
update refusal set times = :times where station = :station and digest = :digest and cause = :cause
"""


@dataclass(frozen=True)
class Choice:
    """Which texts are meant: those of a site, a station, a transaction, an event's number or a cause, or that came
    before a time; all where nothing is named."""

    site: str | None = None
    station: str | None = None
    transaction: str | None = None
    number: int | None = None
    cause: str | None = None
    until: datetime | None = None


@dataclass(frozen=True)
class How:
    """How texts are taken: mended, under another id, with the events that the transaction took from `since` on, or as
    another text that somebody corrected."""

    mends: dict[str, Fault] = field(default_factory=dict)
    new_id: str | None = None
    since: datetime | None = None
    text: str | None = None

    @property
    def decision(self) -> str:
        """What becomes of a text that is taken so."""
        if self.new_id:
            return f"{TAKEN} as {self.new_id}"
        return "corrected" if self.text else MENDED if self.mends else TAKEN


class Taken(NamedTuple):
    """A text that was delivered again, and its answer."""

    row: Row
    answer: Answer


def list_waiting(store: Database, choice: Choice) -> list[Row]:
    """The refused texts that wait for a decision, by station and time."""
    text, values = WAITING, dict[str, Any]()
    for column, value in (
        ("coalesce(t.site, r.site)", choice.site),
        ("r.station", choice.station),
        ("r.number", choice.number),
        ("r.cause", choice.cause),
    ):
        if value is not None:
            name = column.rpartition(".")[2].rstrip(")")
            text += f" and {column} = :{name}"
            values[name] = value
    if choice.transaction is not None:
        text += " and (r.transaction_id = :id or lower(r.sent_id) = :id)"
        values["id"] = choice.transaction.lower()
    if choice.until is not None:
        text += " and r.first_at < :until"
        values["until"] = choice.until
    return store.fetch(f"{text} order by r.station, r.first_at, r.number, r.digest", **values)


def leave_out(store: Database, rows: Sequence[Row], author: Author) -> None:
    """Decides that these texts are left out, and computes again what they were doubts of."""
    with store.transaction():
        decide(store, rows, LEFT_OUT, author)
        renew(store, rows)


def decide(store: Database, rows: Iterable[Row], decision: str, author: Author) -> None:
    """Notes what becomes of texts."""
    now = datetime.now(timezone.utc)
    values = {"decision": decision, "at": now, "who": author.who, "why": author.why}
    store.execute_each(
        DECIDE, [{"station": one.station, "digest": one.digest} | values for one in rows]
    )


def renew(store: Database, rows: Iterable[Row]) -> None:
    """Computes the transactions again that texts conflicted with."""
    sites = dict[tuple[str, str], str]()
    for one in rows:
        found = store.fetch_one(
            "select site from session where station = :station and transaction_id = :id and lines > 0",
            station=one.station,
            id=one.transaction_id,
        )
        if found is not None:
            sites[one.station, one.transaction_id] = found.site
    if sites:
        renew_sessions(store, sites)


def take(store: Database, rows: Sequence[Row], how: How, author: Author) -> list[Taken]:
    """Delivers texts again, and notes the decision about those that were taken. The others wait as before. Raises
    InputError and UsageError."""
    check_id(how)
    if how.text is not None and len(rows) != 1:
        raise UsageError(
            f"--text is one text, and {len(rows):,} are chosen; name its --number or --cause"
        )
    mends = {one.site: how.mends for one in rows}
    mender, asked, own = make_mender(store, mends), list[Asked](), list[list[int]]()
    for station, transaction in {(one.station, one.transaction_id): None for one in rows}:
        asked += move_events(store, station, transaction, how, author)
    moved = len(asked)
    for row in rows:
        texts = make_texts(row, how, mender)
        own.append([len(asked) + place for place in range(len(texts.texts))])
        asked += [make_message(row, text, texts, how, author) for text in texts.texts]
    answers = settle(store, asked)
    for one, answer in zip(asked[:moved], answers):
        if answer.outcome not in ("accepted", "repeat"):
            raise InputError(
                f"transaction {answer.transaction} of {one.station} changed meanwhile ({answer.outcome} "
                f"{answer.name}); look at it again"
            )
    with store.transaction():
        done = [
            note(store, row, [(asked[n], answers[n]) for n in some], how, author)
            for row, some in zip(rows, own)
        ]
        renew(store, rows)
    return done


def check_id(how: How) -> None:
    """Raises UsageError where the other id is none, or a time is named without it, or one text is to be several."""
    if how.new_id is not None and not TRANSACTION.fullmatch(how.new_id):
        raise UsageError(f"{how.new_id!r} is no id of a transaction")
    if how.since is not None and how.new_id is None:
        raise UsageError("--since needs --as ID: which id the events get")


def make_texts(row: Row, how: How, mender: Mender) -> Mended:
    """The texts that are delivered in place of a refused one."""
    if how.text is not None:
        return Mended((how.text,), ("corrected",))
    found = mender.mend(row.site, row.station, row.text, row.first_at)
    if how.new_id is None:
        return found
    try:
        return found._replace(
            texts=tuple(rename_transaction(text, how.new_id) for text in found.texts)
        )
    except (ValueError, RecursionError):
        raise InputError(f"{row.station}: a text of {row.cause} names no transaction") from None


def make_message(row: Row, text: str, texts: Mended, how: How, author: Author) -> Message:
    """A message that is delivered again. It is as late as the text that came."""
    words = [*texts.faults, *([f"as {how.new_id}"] if how.new_id else [])]
    came = row.text if text != row.text else ""
    origin = f"taken by {author.who}: {author.why}"
    return Message(row.station, text, row.first_at, origin, row.site, ",".join(words), came)


def move_events(
    store: Database, station: str, transaction: str, how: How, author: Author
) -> list[Asked]:
    """What moves the events that a transaction took from a time on to another id: voids, erasures and messages."""
    if how.since is None or how.new_id is None:
        return []
    (stored,) = read_lines(store, [(station, transaction)])
    asked, now = list[Asked](), datetime.now(timezone.utc)
    who, why, operator = author.who, author.why, f"operator {author.who}"
    for number, came in sorted(find_texts(stored).items()):
        at = seconds_of(JSON.decode(came.text)[3]["timestamp"])
        if at is None or at < how.since.timestamp():
            continue
        asked += [
            Deed(word, station, transaction, number, who, why, now, operator)
            for word in ("void", "erase")
        ]
        text = rename_transaction(came.text, how.new_id)
        origin = f"taken by {author.who}: {author.why}"
        asked.append(
            Message(station, text, came.received, origin, None, f"as {how.new_id}", came.text)
        )
    return asked


def note(
    store: Database, row: Row, done: Sequence[tuple[Asked, Answer]], how: How, author: Author
) -> Taken:
    """Notes what became of a text. One that was refused again waits as it came."""
    lost = [(one, answer) for one, answer in done if answer.outcome not in ("accepted", "repeat")]
    if not lost:
        mark(store, row, how.decision, author)
        return Taken(row, done[-1][1])
    for one, answer in lost:
        assert isinstance(one, Message)
        key = {"station": row.station, "digest": row.digest}
        if answer.name == row.cause:
            store.execute(COUNT_AS_BEFORE, **key, cause=row.cause, times=row.times)
        else:
            # A text that was mended waits with the cause that it had as it came.
            cause = answer.name if one.came else row.cause
            store.execute(f"{DROP} and cause = :cause", **key, cause=cause)
    return Taken(row, lost[0][1])


def mark(store: Database, row: Row, decision: str, author: Author) -> None:
    """Notes who had a text taken, also where the engine noted that it was."""
    store.execute(
        """update refusal set decision = :decision, decided_at = :at, decided_by = :who, decided_why = :why
        where station = :station and digest = :digest and decided_by = ''""",
        decision=decision,
        at=datetime.now(timezone.utc),
        who=author.who,
        why=author.why,
        station=row.station,
        digest=row.digest,
    )


def count_answers(taken: Iterable[Taken]) -> Counter[str]:
    """How many texts became what."""
    return Counter(one.answer.name or one.answer.outcome for one in taken)


def find_planned(store: Database, rows: Sequence[Row]) -> set[str]:
    """Those of the stations of texts that a site has."""
    return set(find_sites(store, sorted({one.station for one in rows})))
