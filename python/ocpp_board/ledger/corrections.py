"""Corrects readings: a void, an erasure and the message with another reading, in one step, with a preview."""

from collections.abc import Sequence
from dataclasses import dataclass
from datetime import datetime, timezone
from typing import NamedTuple

from ocpp_board.energies import kwh
from ocpp_board.errors import InputError
from ocpp_board.ledger.engine import settle
from ocpp_board.ledger.program import Program
from ocpp_board.ledger.rows import Rows, Work, work_out
from ocpp_board.messages.corrected import correct_reading
from ocpp_board.messages.meter_values import JSON
from ocpp_board.records import DELIVER, Asked, Deed, Line, Message
from ocpp_board.store.database import Database
from ocpp_board.store.lines import read_lines
from ocpp_board.store.plan import Author, find_session_rules


@dataclass(frozen=True, slots=True)
class Correction:
    """What a reading is to be: that of an event, at this place among the event's readings of its register, from 0, in
    mWh. `where`: where it was named, for errors."""

    station: str
    transaction: str
    number: int
    place: int
    mwh: int
    is_export: bool = False
    where: str = "correct"


class Came(NamedTuple):
    """The text of an event, and when it came."""

    text: str
    received: datetime | None


class Prepared(NamedTuple):
    """A session's corrections: what is to be asked of the ledger, and its rows before and after; whether a message is
    another one then."""

    station: str
    transaction: str
    asked: list[Asked]
    before: Rows
    after: Rows
    is_other: bool = True


def prepare(
    store: Database, program: Program, wanted: Sequence[Correction], author: Author
) -> list[Prepared]:
    """What corrections would change, session by session. Raises InputError where one can't be done."""
    sessions = dict[tuple[str, str], list[Correction]]()
    for one in wanted:
        sessions.setdefault((one.station, one.transaction.lower()), []).append(one)
    return [prepare_session(store, program, *key, some, author) for key, some in sessions.items()]


def prepare_session(
    store: Database,
    program: Program,
    station: str,
    transaction: str,
    wanted: Sequence[Correction],
    author: Author,
) -> Prepared:
    """What corrections of a session would change. Raises InputError."""
    found = find_session_rules(store, station, transaction)
    if found is None:
        raise InputError(
            f"{wanted[0].where}: the store has no transaction {transaction!r} of station {station!r}"
        )
    (stored,) = read_lines(store, [(station, transaction)])
    texts, asked = find_texts(stored), list[Asked]()
    came = dict(texts)
    now = datetime.now(timezone.utc)
    for one in wanted:
        texts[one.number] = correct_text(texts.get(one.number), one)
    for number in dict.fromkeys(one.number for one in wanted):
        deed = (station, transaction, number, author.who, author.why, now, f"operator {author.who}")
        asked += [Deed("void", *deed), Deed("erase", *deed)]
        # It is as late as the message that it replaces.
        origin = f"corrected by {author.who}: {author.why}"
        asked.append(Message(station, texts[number].text, texts[number].received, origin))
    work = Work(station, transaction, *found, list(stored), [], [], True)
    new = work._replace(new=[write_line(one) for one in asked])
    had, done = work_out(program, [work, new])
    assert had.rows is not None and done.rows is not None
    for answer in done.answers:
        if answer.outcome != "accepted":
            raise InputError(
                f"{wanted[0].where}: transaction {transaction} of {station} would not take the correction: "
                f"{answer.name or answer.reply or answer.outcome}"
            )
    is_other = any(texts[one.number] != came[one.number] for one in wanted)
    return Prepared(station, transaction, asked, had.rows, done.rows, is_other)


def find_texts(lines: Sequence[Line]) -> dict[int, Came]:
    """A session's live events, by their numbers."""
    found, voided = dict[int, Came](), set[int]()
    for line in lines:
        if line.text.startswith(DELIVER):
            text = line.text.split(" ", 2)[2]
            found[int(JSON.decode(text)[3]["seqNo"])] = Came(text, line.received)
            continue
        word, number = line.text.partition(" ")[0], int(line.text.rpartition(" ")[2])
        if word == "void":
            voided.add(number)
        else:
            voided.discard(number)
        if word == "erase":
            found.pop(number, None)
    return {number: came for number, came in found.items() if number not in voided}


def correct_text(came: Came | None, one: Correction) -> Came:
    """The corrected text of an event. Raises InputError where there is no such event or reading."""
    name = f"transaction {one.transaction} of {one.station}"
    if came is None:
        raise InputError(f"{one.where}: {name} has no event {one.number} that counts")
    corrected = correct_reading(came.text, one.place, one.is_export, one.mwh)
    if corrected is None:
        side = "export" if one.is_export else "import"
        raise InputError(
            f"{one.where}: event {one.number} of {name} has no reading {one.place} of the {side} register; places "
            "begin at 0"
        )
    return came._replace(text=corrected)


def write_line(one: Asked) -> Line:
    """The line of what is asked."""
    if isinstance(one, Message):
        return Line(0, f"{DELIVER}{one.station} {one.text}", one.received, "", "", one.origin)
    assert isinstance(one, Deed)
    text = f"{one.word} {one.station} {one.transaction} {one.number}"
    return Line(0, text, one.received, one.who, one.why, one.origin)


def describe(one: Prepared) -> list[str]:
    """What a session's corrections change, in lines: its energy, then each period that changes."""
    had, has = one.before.session, one.after.session
    lines = [
        f"{one.transaction} of {one.station}: imported {kwh(had.up - had.down)} kWh, then "
        f"{kwh(has.up - has.down)} kWh; {had.state}, then {has.state}"
    ]
    flows = [
        {part.starts: part[1:5] for part in rows.parts if part.on_board}
        for rows in (one.before, one.after)
    ]
    for starts in sorted({*flows[0], *flows[1]}):
        was, now = (flow.get(starts, (0, 0, 0, 0)) for flow in flows)
        if was != now:
            lines.append(
                f"  {starts:%Y-%m-%dT%H:%M:%SZ}: {kwh(was[0] - was[1])} kWh, then {kwh(now[0] - now[1])} kWh"
            )
    return lines


def correct(store: Database, prepared: Sequence[Prepared]) -> None:
    """Does corrections that were prepared, all in one database transaction. Raises InputError where something else
    changed one of the sessions meanwhile."""
    asked = [one for some in prepared for one in some.asked]
    for one, answer in zip(asked, settle(store, asked)):
        if answer.outcome not in ("accepted", "repeat"):
            raise InputError(
                f"transaction {answer.transaction} of {one.station} changed meanwhile ({answer.outcome} "
                f"{answer.name}); look at it again"
            )
