"""What pages show, as the views of the store have it."""

from collections.abc import Sequence
from datetime import date, datetime
from typing import NamedTuple

from ocpp_board.energies import Flow


class Site(NamedTuple):
    """A site and its rules."""

    name: str
    zone: str = "UTC"
    period: int = 900
    reading_order: str = "moment"
    settle: str = "even"


class Totals(NamedTuple):
    """The figures of a site or a station."""

    transactions: int = 0
    complete: int = 0
    events: int = 0
    voided: int = 0
    missing: int = 0
    flow: Flow = Flow()

    def plus(self, other: "Totals") -> "Totals":
        """Both together."""
        return Totals(
            self.transactions + other.transactions,
            self.complete + other.complete,
            self.events + other.events,
            self.voided + other.voided,
            self.missing + other.missing,
            self.flow.plus(other.flow),
        )


class Period(NamedTuple):
    """A settlement period of a site or a station: how many figures in it are estimated, how many of these by meter
    values, and what the estimates come to."""

    start: datetime
    seconds: int
    flow: Flow
    estimated: int = 0
    by_values: int = 0
    shared: int = 0
    numbers_missing: bool = False

    def plus(self, other: "Period") -> "Period":
        """Both together."""
        return Period(
            self.start,
            self.seconds,
            self.flow.plus(other.flow),
            self.estimated + other.estimated,
            self.by_values + other.by_values,
            self.shared + other.shared,
            self.numbers_missing or other.numbers_missing,
        )


class Found(NamedTuple):
    """A finding. A finding of a station has no transaction."""

    station: str
    transaction_id: str
    kind: str
    times: int
    first_at: datetime | None
    detail: str


class SessionFacts(NamedTuple):
    """A transaction as the store has it."""

    station: str
    transaction_id: str
    site: str
    sent_id: str
    evse: int
    events: int
    first_number: int
    last_number: int
    complete: bool
    missing: int
    gaps: tuple[tuple[int, int], ...]
    flow: Flow
    state: str
    began: datetime | None
    ended: datetime | None
    first_at: datetime | None
    last_at: datetime | None
    registers: tuple[int, int] | None
    export_registers: tuple[int, int] | None
    stopped_reason: str
    token: str
    token_type: str
    holes: tuple[tuple[datetime, datetime], ...] = ()
    # Whether readings say its energy: yes, part or no, and from when to when; the order of its readings, where an
    # operator chose one.
    energy_measured: str = "yes"
    first_reading_at: datetime | None = None
    last_reading_at: datetime | None = None
    own_order: str = ""

    @property
    def seconds(self) -> float | None:
        """How long it was, where its start and its end are known."""
        if self.began is None or self.ended is None:
            return None
        return (self.ended - self.began).total_seconds()


class SessionLine(NamedTuple):
    """A line of a transaction that changed something."""

    number: int
    received: datetime | None
    text: str
    who: str
    why: str
    origin: str


class AnsweredDeed(NamedTuple):
    """An operator's line with its answer."""

    station: str
    transaction_id: str
    number: int
    word: str
    who: str
    why: str
    at: datetime | None
    outcome: str
    name: str


class RefusedText(NamedTuple):
    """What came and changed nothing, with its cause and what to do; the same again is counted."""

    station: str
    transaction_id: str
    number: str
    cause: str
    what: str
    advice: str
    times: int
    first_at: datetime | None
    last_at: datetime | None


class SessionRecord(NamedTuple):
    """What the page of a transaction has beside its figures: its lines, what was refused of it, what operators did."""

    lines: Sequence[SessionLine]
    refused: Sequence[RefusedText]
    deeds: Sequence[AnsweredDeed]


class Closing(NamedTuple):
    """A closing of a site: what it froze, by which rules, and how much of that are corrections."""

    number: int
    day: date
    at: datetime
    who: str
    period: int
    reading_order: str
    settle: str
    zone: str
    sessions: int
    complete: int
    by_rule: int
    net: int
    corrections: int
    corrected: int


class Correction(NamedTuple):
    """What a closing changed of a period of a session that one before had settled: by how much, by how many estimated
    figures, and the lines that made it; how many findings and holds the session has."""

    station: str
    transaction_id: str
    start: datetime
    net: int
    first_line: int
    last_line: int
    estimated: int
    findings: int
    holds: int


class Settled(NamedTuple):
    """What a closing settled of a session, `complete` or by `rule`, and what is beside that: whether readings say its
    energy, findings, holds, and adjustments (net, in mWh)."""

    station: str
    transaction_id: str
    settled: str
    lines: int
    energy_measured: str
    first_reading_at: datetime | None
    last_reading_at: datetime | None
    findings: int
    holds: int
    adjusted: int
    flow: Flow


class LeftOut(NamedTuple):
    """A station whose messages are left out since they are of another version of OCPP."""

    station: str
    version: str


class Lack(NamedTuple):
    """A session that lacks messages: its state, how many numbers are missing, when it began, and whether readings say
    its energy."""

    station: str
    transaction_id: str
    state: str
    missing: int
    first_at: datetime | None
    energy_measured: str = "no"


class Trouble(NamedTuple):
    """A problem of a station: its name, in how many sessions it is, and how often."""

    name: str
    sessions: int
    times: int


class Worst(NamedTuple):
    """A session with troubles: how grave these are (0: a number is wrong), when it began, and its findings."""

    grave: int
    moment: float
    station: str
    transaction_id: str
    findings: tuple[Found, ...]


class StationSummary(NamedTuple):
    """What a site's page shows of a station. `worst`: its sessions with troubles, the gravest and then the latest
    first; `found`: all its findings; `doubtful`: how many sessions have some."""

    name: str
    totals: Totals = Totals()
    troubles: tuple[Trouble, ...] = ()
    worst: tuple[Worst, ...] = ()
    doubtful: int = 0
    found: tuple[Found, ...] = ()
