"""The rows of transactions from their lines: a pure function, by the proved program and by what messages say.

A transaction's figures depend on its own lines only, so any number of processes may work on different ones.
"""

import json
from collections.abc import Iterable, Iterator, Sequence
from datetime import datetime, timezone
from functools import lru_cache
from typing import NamedTuple

from ocpp_board.energies import Flow
from ocpp_board.errors import ProgramError, StoreError
from ocpp_board.ledger.answers import AnswerReader, BoardPart, Figures, read_answer
from ocpp_board.ledger.course import NO_LINES, Block, Course
from ocpp_board.ledger.events import Counted, History, read_conflict
from ocpp_board.ledger.findings import Effect, Finding
from ocpp_board.ledger.periods import SURE, Doubt, Doubts, Gaps, find_holes
from ocpp_board.ledger.program import Program
from ocpp_board.limits import LONGEST_SCRIPT, MOST_READINGS, MOST_SITES, MOST_STATIONS
from ocpp_board.records import DELIVER, Answer, Line, Rules

# Who voided an event, where no name was given.
SOMEBODY = "an operator"
# Bytes of a script's lines at which another script begins, but for those of one transaction.
MOST_BYTES = 8 * 1_048_576
# Moments that have their values kept, since many periods begin at the same.
KEPT_MOMENTS = 65_536
CONFLICT, NO_FLOW = "ConflictingEvent", Flow()
# What the answers to accepted messages begin with, as many as were needed.
MARKS: list[str] = []


class Session(NamedTuple):
    """A row of `session`, without station, transaction, site and when it changed. Registers and energies are mWh."""

    lines: int
    evse: int
    events: int
    voided: int
    first_number: int | None
    last_number: int | None
    complete: bool
    missing: int
    gaps: str
    up: int
    down: int
    export_up: int
    export_down: int
    state: str
    began: datetime | None
    ended: datetime | None
    first_at: datetime | None
    last_at: datetime | None
    first_register: int | None
    last_register: int | None
    first_export_register: int | None
    last_export_register: int | None
    stopped_reason: str
    sent_id: str
    token: str
    token_type: str
    remote_start_id: str
    signed: str
    holes: str
    reading_moments: int
    boundary_moments: int
    first_boundary_at: datetime | None
    received_until: datetime | None
    energy_measured: str
    first_reading_at: datetime | None
    last_reading_at: datetime | None
    peak_w: int


class Part(NamedTuple):
    """A row of `part`: a settlement period of a transaction. `on_board`: a board shows the period; `shared`: None where
    the figure is measured; `by_values`: what interval values give where no register was read."""

    starts: datetime
    up: int
    down: int
    export_up: int
    export_down: int
    on_board: bool
    measured: bool
    shared: int | None
    by_values: int | None
    numbers_missing: bool


class Rows(NamedTuple):
    """The rows of a transaction."""

    session: Session
    parts: list[Part]
    findings: list[Finding]


class Work(NamedTuple):
    """A transaction with its stored lines and new ones. `conflicts`: lines that conflicted with its events; `has_rows`:
    rows are wanted though nothing changes; `course`: what is known of its stored lines, if something is, and may be
    changed."""

    station: str
    transaction: str
    site: str
    rules: Rules
    stored: list[Line]
    new: list[Line]
    conflicts: list[str]
    has_rows: bool = False
    course: Course | None = None


class Done(NamedTuple):
    """The answers to the new lines of a work, those that were accepted, and its rows after them, with what is known of
    its lines then; None where nothing changed."""

    answers: list[Answer]
    accepted: list[Line]
    rows: Rows | None
    course: Course | None = None


def rows_of(
    program: Program,
    lines: Sequence[Line],
    rules: Rules,
    station: str,
    transaction: str,
    site: str = "",
    conflicts: Sequence[str] = (),
) -> Rows:
    """The rows of a transaction by its lines. Raises StoreError where one of them is no accepted line."""
    work = Work(station, transaction, site, rules, list(lines), [], list(conflicts), True)
    rows = next(work_out(program, [work])).rows
    assert rows is not None
    return rows


def work_out(program: Program, works: Iterable[Work]) -> Iterator[Done]:
    """Answers the new lines of transactions and makes their rows, in their order, with as few scripts as are
    enough."""
    for some in part_works(works):
        reader = AnswerReader(program.answer(write_script(some)))
        answers = [read_answers(one.work, reader) for one in some]
        boards = dict[str, BoardPart]()
        for _ in group_by_rules(some):
            boards |= reader.read_board(has_own=False).stations
        for one, own in zip(some, answers):
            yield finish_work(one.work, own, boards[one.work.station], reader)


def read_answers(work: Work, reader: AnswerReader) -> list[Answer]:
    """The answers to a transaction's new lines; its stored ones have to be accepted. Raises StoreError."""
    stored = reader.read_some(len(work.stored))
    are_whole = not stored or work.stored[-1].number == len(stored)
    if not are_whole or not all(map(str.startswith, stored, write_marks(len(stored)))):
        for line, answer in zip(work.stored, stored):
            mark = f"accepted {line.number}"
            if answer != mark and not answer.startswith(f"{mark} "):
                where = f"line {line.number} of transaction {work.transaction} of {work.station}"
                raise StoreError(f"{where} is answered {answer[:80]!r}: the store is damaged")
    new = reader.read_some(len(work.new))
    return [read_answer(answer, work.transaction) for answer in new]


def write_marks(count: int) -> list[str]:
    """What the answers to so many messages begin with at least that are accepted one after the other."""
    MARKS.extend(f"accepted {number} " for number in range(len(MARKS) + 1, count + 1))
    return MARKS


def finish_work(work: Work, answers: list[Answer], board: BoardPart, reader: AnswerReader) -> Done:
    """What became of a transaction's new lines, and its rows. The reader is before its two lists."""
    lists = reader.read_lists()
    accepted, conflicts = list_accepted(work, answers), work.conflicts
    if len(accepted) < len(work.new):
        conflicts = add_conflicts(work, answers)
    if not accepted and len(conflicts) == len(work.conflicts) and not work.has_rows:
        return Done(answers, accepted, None)
    course, lines = work.course, accepted
    if course is None or not course.goes_on(accepted, lists, work.rules):
        course, lines = Course(work.site, work.rules), [*work.stored, *accepted]
    course.take(lines, lists)
    return Done(answers, accepted, make_rows(work, course, board, conflicts), course)


def add_conflicts(work: Work, answers: Sequence[Answer]) -> list[str]:
    """The lines that conflict with a transaction's events, with those that are new."""
    conflicts = dict.fromkeys(work.conflicts)
    for line, answer in zip(work.new, answers):
        if answer.name == CONFLICT and line.text.startswith(DELIVER):
            conflicts[line.text] = None
    return list(conflicts)


def list_accepted(work: Work, answers: Sequence[Answer]) -> list[Line]:
    """The new lines of a work that were accepted, each with its place among those of its transaction."""
    return [
        Line(answer.count, *line[1:])
        for line, answer in zip(work.new, answers)
        if answer.outcome == "accepted"
    ]


# Scripts --------------------------------------------------------------------------------------------------------------


class Piece(NamedTuple):
    """A work with its stored lines and its new ones as a script has them."""

    work: Work
    stored: Block
    new: Block

    @property
    def size(self) -> int:
        """About how many bytes it has."""
        return len(self.stored.text) + len(self.new.text)

    @property
    def room(self) -> tuple[int, int]:
        """The events and readings that a script keeps for it: as many as its rules have, or as its lines can have, if
        that is less."""
        limits = self.work.rules.limits
        events = min(limits.events, self.stored.lines + self.new.lines)
        return max(events, 1), max(
            min(limits.readings, self.stored.readings + self.new.readings), 1
        )

    @property
    def kind(self) -> "Kind":
        """What its site decides of a board."""
        rules = self.work.rules
        return rules.period, rules.order, rules.settle


# What a site decides of a board.
Kind = tuple[int, str, str]


def make_piece(work: Work) -> Piece:
    """The piece of a script that is a work's."""
    stored = work.course.block if work.course else NO_LINES.add(work.stored)
    return Piece(work, stored, NO_LINES.add(work.new))


def part_works(works: Iterable[Work]) -> Iterator[list[Piece]]:
    """Works in lists that a script has room for, each with a station of its own."""
    some, readings, size = list[Piece](), 0, 0
    stations, kinds = set[str](), set[Kind]()
    for one in map(make_piece, works):
        station, own = one.work.station, one.room[1]
        if (
            station in stations
            or len(some) == MOST_STATIONS
            or some
            and (readings + own > MOST_READINGS or size + one.size > MOST_BYTES)
            or one.kind not in kinds
            and len(kinds) == MOST_SITES
        ):
            yield some
            some, readings, size = [], 0, 0
            stations, kinds = set(), set()
        some.append(one)
        readings, size = readings + own, size + one.size
        stations.add(station)
        kinds.add(one.kind)
    if some:
        yield some


def group_by_rules(pieces: Iterable[Piece]) -> dict[Kind, list[Piece]]:
    """Pieces by what their sites decide of a board."""
    found = dict[Kind, list[Piece]]()
    for one in pieces:
        found.setdefault(one.kind, []).append(one)
    return found


def write_script(pieces: Sequence[Piece]) -> bytes:
    """A script of transactions of different stations: their lines, then the boards, then the lists."""
    sites, texts = group_by_rules(pieces), list[str]()
    for site, ((period, order, settle), some) in enumerate(sites.items()):
        for one in some:
            events, readings = one.room
            texts.append(f"limits 1 {events} {readings} {2**63}\n")
            texts.append(f"station s{site} {one.work.station}\n")
        texts.append(f"period s{site} {period}\norder s{site} {order}\nsettle s{site} {settle}\n")
    for one in pieces:
        texts += [one.stored.text, one.new.text]
    texts += [f"board s{site}\n" for site in range(len(sites))]
    for one in pieces:
        name = f"{one.work.station} {one.work.transaction}"
        texts.append(f"events {name}\nreadings {name}\n")
    data = "".join(texts).encode()
    if len(data) > LONGEST_SCRIPT:
        raise ProgramError(f"a transaction has more than {LONGEST_SCRIPT:,} bytes of lines")
    return data


# Rows -----------------------------------------------------------------------------------------------------------------


def make_rows(work: Work, course: Course, board: BoardPart, conflicts: Sequence[str]) -> Rows:
    """The rows of a transaction by its course, and by the board that the program wrote."""
    figures = board.transactions.get(work.transaction)
    gaps = board.gaps.get(work.transaction, [])
    lost = leave_voided(gaps, course.history)
    findings = course.doubts.find(
        course.events,
        list(map(read_conflict, conflicts)),
        figures is not None and figures.complete,
        course.spans.of_readings,
    )
    session = make_session(work.transaction, course, board, gaps, lost)
    is_wrong = any(one.kind.effect is Effect.WRONG for one in findings)
    doubts = course.spans.find_doubts(course.events, lost)
    return Rows(session, make_parts(board, doubts, is_wrong), findings)


def make_session(
    transaction: str, course: Course, board: BoardPart, gaps: Gaps, lost: Gaps
) -> Session:
    """The row of a transaction. `gaps`: its missing numbers; `lost`: those without what operators voided."""
    figures, total = board.transactions.get(transaction), board.total
    history, events, spans, facts = course.history, course.events, course.spans, course.facts
    holes = list(find_holes(events, lost))
    first_at, last_at = spans.of_events or (None, None)
    first_read, last_read = spans.of_readings or (None, None)
    signed = facts.list_signed()
    return Session(
        course.block.lines,
        figures.evse if figures else 0,
        total.events,
        total.voided,
        figures.first if figures else None,
        figures.last if figures else None,
        figures is not None and figures.complete,
        total.missing,
        " ".join(f"{first}..{last}" for first, last in gaps),
        *total.flow,
        name_state(figures, course) if figures else "all voided",
        to_moment(facts.started.at) if facts.started else None,
        to_moment(facts.ended.at) if facts.ended else None,
        to_moment(first_at),
        to_moment(last_at),
        *find_ends(events.orders[0]),
        *find_ends(events.orders[1]),
        facts.ended.reason if facts.ended else "",
        history.sent or transaction,
        facts.token.token,
        facts.token.kind,
        facts.remote_start,
        json.dumps(signed) if signed else "",
        json.dumps(holes) if holes else "",
        len(spans.readings),
        spans.boundaries,
        to_moment(spans.first_boundary),
        history.received_until,
        course.doubts.name_measured(spans.of_readings),
        to_moment(first_read),
        to_moment(last_read),
        round(course.doubts.peak * 1_000),
    )


def find_ends(found: Sequence[Counted]) -> tuple[int | None, int | None]:
    """The first and the last counted reading of a register, in the order in which the ledger takes them."""
    return (found[0][1].mwh, found[-1][1].mwh) if found else (None, None)


def to_moment(seconds: float | None) -> datetime | None:
    """A moment that is given in seconds since 1970, in UTC."""
    return None if seconds is None else read_moment(seconds)


@lru_cache(KEPT_MOMENTS)
def read_moment(seconds: float) -> datetime:
    """A moment in seconds since 1970, in UTC."""
    return datetime.fromtimestamp(seconds, timezone.utc)


def leave_voided(gaps: Sequence[tuple[int, int]], history: History) -> list[tuple[int, int]]:
    """The ranges of missing numbers without those that an operator voided."""
    voids, found = sorted(history.voids), list[tuple[int, int]]()
    for first, last in gaps:
        for number in voids:
            if first <= number <= last:
                found += [(first, number - 1)] if first < number else []
                first = number + 1
        found += [(first, last)] if first <= last else []
    return found


def name_voiders(voids: Sequence[tuple[str, str]]) -> str:
    """Who voided these events, as a state."""
    return "voided by " + ", ".join(dict.fromkeys(who or SOMEBODY for who, _ in voids))


def name_state(figures: Figures, course: Course) -> str:
    """What can be said of a transaction's end and of its missing numbers."""
    history, events = course.history, course.events
    voids = {number: history.voids[number] for number in sorted(history.voids)}
    if figures.complete:
        return "messages complete"
    if step := course.facts.find_step(figures):
        return f"messages complete, numbers in steps of {step}"
    if figures.missing:
        inside = [one for number, one in voids.items() if figures.first < number < figures.last]
        if not inside:
            return "numbers missing"
        more = "numbers missing, " if len(inside) < figures.missing else ""
        return more + name_voiders(inside)
    if events[0].kind != "Started":
        state, lacks = "no start", "Started"
    elif course.facts.is_misplaced:
        return "a start or end misplaced"
    else:
        state, lacks = "no end yet", "Ended"
    ends = [one for number, one in voids.items() if events.voided.get(number) == lacks]
    return f"{name_voiders(ends)}: {state.removesuffix(' yet')}" if ends else state


def make_parts(board: BoardPart, doubts: Doubts, is_wrong: bool) -> list[Part]:
    """The rows of a transaction's periods: those that its board shows, and those that are doubtful. `is_wrong`: a
    number of the transaction is wrong, so none of its periods is measured."""
    flows = board.periods
    starts = sorted({*flows, *doubts}) if doubts else flows
    found = [make_part(start, flows.get(start), doubts.get(start, SURE)) for start in starts]
    return (
        [one._replace(measured=False, shared=one.shared or 0) for one in found]
        if is_wrong
        else found
    )


def make_part(start: int, flow: Flow | None, doubt: Doubt) -> Part:
    """The row of a period."""
    return Part(
        read_moment(start),
        *(flow or NO_FLOW),
        flow is not None,
        not doubt.is_estimated,
        doubt.shared if doubt.is_estimated else None,
        doubt.by_values,
        doubt.has_gap,
    )
