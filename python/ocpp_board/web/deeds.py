"""Voids, restorations and erasures of events, and corrections of readings: each asks why, shows what it will change,
and is settled as rows."""

import logging
import re
from collections.abc import Mapping, Sequence
from dataclasses import dataclass
from datetime import datetime, timezone
from http import HTTPStatus
from typing import NamedTuple

from markupsafe import Markup
from starlette.responses import HTMLResponse, Response

from ocpp_board.energies import ENERGY, Flow, kwh, read_mwh
from ocpp_board.errors import InputError
from ocpp_board.ledger.corrections import Correction, Prepared, correct, prepare
from ocpp_board.ledger.engine import settle
from ocpp_board.ledger.program import find_program
from ocpp_board.ledger.rows import Rows, Work, work_out
from ocpp_board.limits import GREATEST_SEQ_NO, TRANSACTION, is_name
from ocpp_board.messages.message_faults import REMEDIES
from ocpp_board.messages.texts import one_line
from ocpp_board.records import DEEDS, DELIVER, Deed, Line, Rules
from ocpp_board.store.database import Database
from ocpp_board.store.lines import read_lines, read_refusals
from ocpp_board.store.plan import Author, find_session_rules
from ocpp_board.web.desk import Request, Wrong, open_view
from ocpp_board.web.signing import OPERATOR
from ocpp_board.web.views import LINKS, make_context
from ocpp_board.writers.calendar import find_calendar
from ocpp_board.writers.pages.cells import TableRow, make_columns, write_ranges
from ocpp_board.writers.pages.reader import read_gaps

log = logging.getLogger(__name__)

TITLE = "Correct, void, restore or erase an event"
# What operators may want done: DEEDS, and the word of a correction.
CORRECT = "correct"
COMMANDS = (CORRECT, *DEEDS)
REGISTERS = ("import", "export")
MEANINGS = {
    CORRECT: "The event is voided and erased, and its message is delivered again with this reading. The message as it "
    "came stays among the lines of the session, which lacks none by that.",
    "void": "The event then counts no longer and keeps its place; it can be restored.",
    "restore": "The event was voided, and counts again.",
    "erase": "The event was voided; its number is then free for another message, and it can't be restored.",
}
# Characters of a reason.
SHORTEST, LONGEST = 3, 200
CHANGES = make_columns("Figure", "Before", "After")
CONFLICT = "ConflictingEvent"


class Words(NamedTuple):
    """What an operator wants done to which event, and why. Of a correction also which reading of the event, by its
    register and its place among the event's readings of it, and what it is to be."""

    word: str
    station: str
    transaction: str
    number: str
    why: str
    register: str = REGISTERS[0]
    place: str = "0"
    kwh: str = ""

    def check(self) -> "Words":
        """These words, with the reason on one line. Raises Wrong where they mean nothing."""
        if self.word not in COMMANDS:
            raise Wrong(
                HTTPStatus.BAD_REQUEST, f"choose one of {', '.join(COMMANDS)}, not {self.word!r}"
            )
        if not is_name(self.station):
            raise Wrong(HTTPStatus.BAD_REQUEST, f"{self.station!r} is no name of a station")
        if not TRANSACTION.fullmatch(self.transaction):
            raise Wrong(
                HTTPStatus.BAD_REQUEST, "a transaction's id has 1 to 36 characters and no blank"
            )
        if not re.fullmatch(r"[0-9]{1,10}", self.number) or int(self.number) > GREATEST_SEQ_NO:
            raise Wrong(
                HTTPStatus.BAD_REQUEST,
                f"a sequence number is 0 to {GREATEST_SEQ_NO:,}, and not {self.number!r}",
            )
        why = " ".join(self.why.split())
        if not SHORTEST <= len(why) <= LONGEST or not why.isprintable():
            raise Wrong(HTTPStatus.BAD_REQUEST, f"say why in {SHORTEST} to {LONGEST} characters")
        if self.word == CORRECT and (
            self.register not in REGISTERS
            or not re.fullmatch(r"[0-9]{1,4}", self.place)
            or not ENERGY.fullmatch(self.kwh)
        ):
            raise Wrong(
                HTTPStatus.BAD_REQUEST,
                "name the reading by its place from 0, and what it is to be in kWh, such as 4711.5",
            )
        return self._replace(number=str(int(self.number)), why=why)

    def write(self) -> str:
        """The operator's line."""
        return f"{self.word} {self.station} {self.transaction} {self.number} {self.name()}".rstrip()

    def name(self) -> str:
        """What a reading is corrected to; empty of another deed."""
        if self.word != CORRECT:
            return ""
        return f"reading {self.place} of the {self.register} register to {self.kwh} kWh"


def read_words(fields: Mapping[str, str]) -> Words:
    """The words of a form or a link."""
    named = {name: fields[name].strip() for name in Words._fields if fields.get(name, "").strip()}
    return Words(**dict.fromkeys(("word", "station", "transaction", "number", "why"), "") | named)


@dataclass(frozen=True)
class Preview:
    """What a deed will be answered, and what it will change: names of figures, each before and after. `prepared`: a
    correction."""

    site: str
    outcome: str
    name: str
    changes: Sequence[TableRow]
    prepared: Prepared | None = None


def preview_correction(
    store: Database, words: Words, author: Author, site: str, rules: Rules
) -> Preview:
    """What a correction will change of a transaction with these rules; nothing is written. Raises Wrong where it can't
    be done."""
    reading = int(words.number), int(words.place), read_mwh(words.kwh)
    wanted = Correction(
        words.station, words.transaction, *reading, words.register == REGISTERS[1], "this"
    )
    try:
        (one,) = prepare(store, find_program(), [wanted], author)
    except InputError as fault:
        raise Wrong(HTTPStatus.CONFLICT, str(fault)) from None
    if not one.is_other:
        raise Wrong(HTTPStatus.CONFLICT, "the reading is so already")
    return Preview(site, "accepted", "", compare_rows(one.before, one.after, rules.zone), one)


def preview(store: Database, words: Words) -> Preview | None:
    """What a deed will change, by the program over the stored lines; nothing is written. None where the store has no
    such transaction."""
    key = words.station, words.transaction.lower()
    found = find_session_rules(store, *key)
    if found is None:
        return None
    site, rules = found
    lines = next(iter(read_lines(store, [key])))
    refused = next(iter(read_refusals(store, [key])))
    texts = (one_line(one.text) for one in refused if one.cause == CONFLICT)
    conflicts = [f"{DELIVER}{key[0]} {text}" for text in texts]
    line = Line(0, f"{words.word} {key[0]} {key[1]} {words.number}")
    works = [Work(*key, site, rules, lines, new, conflicts, True) for new in (list[Line](), [line])]
    before, after = work_out(find_program(), works)
    answer = after.answers[0]
    assert before.rows and after.rows
    changes = compare_rows(before.rows, after.rows, rules.zone)
    return Preview(site, answer.outcome, answer.name, changes)


def compare_rows(before: Rows, after: Rows, zone: str) -> list[TableRow]:
    """What differs between the rows of a transaction."""
    had, has = before.session, after.session
    pairs = [
        ("State", had.state or "no event counts", has.state or "no event counts"),
        ("Events that count", str(had.events), str(has.events)),
        ("Missing numbers", describe_gaps(had.gaps), describe_gaps(has.gaps)),
        ("Net, kWh", kwh(find_net(had)), kwh(find_net(has))),
        ("Up, kWh", kwh(had.up), kwh(has.up)),
        ("Down, kWh", kwh(had.down), kwh(has.down)),
        ("Findings", describe_findings(before), describe_findings(after)),
    ]
    calendar = find_calendar(zone)
    parts = {one.starts: find_net(one) for one in before.parts}
    others = {one.starts: find_net(one) for one in after.parts}
    for starts in sorted(parts.keys() | others.keys()):
        name = f"Period {calendar.minute(starts)}, kWh"
        pairs.append((name, kwh(parts.get(starts, 0)), kwh(others.get(starts, 0))))
    return [TableRow(pair) for pair in pairs if pair[1] != pair[2]]


def find_net(row: object) -> int:
    """The net energy of a row."""
    return Flow(*(getattr(row, name) for name in Flow._fields)).net


def describe_gaps(gaps: str) -> str:
    """Missing numbers for a reader."""
    return write_ranges(read_gaps(gaps)) or "none"


def describe_findings(rows: Rows) -> str:
    """The findings of a transaction for a reader."""
    return ", ".join(sorted(one.kind.label for one in rows.findings)) or "none"


# Views ----------------------------------------------------------------------------------------------------------------


def show_form(asked: Request, words: Words, fault: str = "", status: int = 200) -> Response:
    """The form that names an event, and what was wrong with these words."""
    page = make_context(asked).render(
        "operate.html",
        TITLE,
        find_calendar("UTC"),
        words=words,
        fault=fault,
        commands=COMMANDS,
        registers=REGISTERS,
        longest=LONGEST,
    )
    return HTMLResponse(page, status)


@open_view(OPERATOR)
def ask_words(asked: Request) -> Response:
    """Shows the form, filled in as far as a link says."""
    return show_form(asked, read_words(asked.http.query_params))


def find_preview(asked: Request, words: Words) -> Preview:
    """What a deed will change. Raises Wrong where the operator sees no such transaction."""
    found = find_session_rules(asked.store, words.station, words.transaction.lower())
    if found is not None and asked.operator.sees(found[0]):
        if words.word == CORRECT:
            author = Author(asked.operator.name, words.why)
            return preview_correction(asked.store, words, author, *found)
        if one := preview(asked.store, words):
            return one
    raise Wrong(
        HTTPStatus.NOT_FOUND,
        f"there is no transaction {words.transaction!r} of station {words.station!r}, or not for you",
    )


@open_view(OPERATOR)
def ask_again(asked: Request) -> Response:
    """Shows what a deed will change, and asks again."""
    words = read_words(asked.fields)
    try:
        words = words.check()
        found = find_preview(asked, words)
    except Wrong as fault:
        return show_form(asked, words, str(fault), fault.status)
    if found.outcome != "accepted":
        what, advice = REMEDIES.get(found.name, ("it can't be done", "compare it with the page"))
        said = f"The ledger would refuse it, {found.name}: {what}; {advice}."
        return show_form(asked, words, said, HTTPStatus.CONFLICT)
    page = make_context(asked).render(
        "question.html",
        f"{words.word.capitalize()} this event?",
        find_calendar("UTC"),
        words=words,
        site=found.site,
        meaning=MEANINGS[words.word],
        columns=CHANGES,
        rows=found.changes,
        hidden=[*words._asdict().items(), ("token", asked.make_token("operate", *words))],
    )
    return HTMLResponse(page)


def settle_deed(asked: Request, words: Words, found: Preview, origin: str) -> str:
    """Does a deed, and gives its answer in words."""
    if found.prepared:
        correct(asked.store, [found.prepared])
        return "accepted"
    deed = Deed(
        words.word,
        words.station,
        words.transaction,
        int(words.number),
        asked.operator.name,
        words.why,
        datetime.now(timezone.utc),
        origin,
    )
    answer = settle(asked.store, [deed])[0]
    return answer.outcome if answer.outcome == "accepted" else f"{answer.outcome} {answer.name}"


@open_view(OPERATOR)
def do_deed(asked: Request) -> Response:
    """Does what was asked again, and shows the ledger's answer."""
    words = read_words(asked.fields).check()
    number = asked.check_token("operate", *words)
    found = find_preview(asked, words)
    said = settle_deed(asked, words, found, f"web {number}")
    who = asked.desk.find_address(asked.http), asked.operator.name
    log.info("%s, %s: %s: %s", *who, words.write(), said)
    transaction = words.transaction.lower()
    page: Markup = make_context(asked).render(
        "answer.html",
        "Answer",
        find_calendar("UTC"),
        line=words.write(),
        answer=said,
        session=LINKS.session(found.site, words.station, transaction),
        site=LINKS.site(found.site),
    )
    return HTMLResponse(page)
