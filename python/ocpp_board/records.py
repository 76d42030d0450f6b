"""What the packages hand to each other: texts and deeds that are asked for, what can't be taken, and the answers."""

from dataclasses import dataclass
from datetime import datetime
from typing import NamedTuple

# The deeds of operators, and how the line of a message begins.
DEEDS = ("void", "restore", "erase")
DELIVER = "deliver "


class Message(NamedTuple):
    """A text of a station. `origin`: where it is from, for errors and repeats, such as `csms.log:17`; `site`: the site
    that the source names, which the plan may not have. `mends`: the faults that were mended in it, and `came`: the text
    as the station sent it, where some were. `quota`: the one that its source found it above, by which it is refused.
    """

    station: str
    text: str
    received: datetime | None
    origin: str
    site: str | None = None
    mends: str = ""
    came: str = ""
    quota: str = ""


class Deed(NamedTuple):
    """An operator's line. `word`: one of DEEDS; `number`: the event's sequence number."""

    word: str
    station: str
    transaction: str
    number: int
    who: str
    why: str
    received: datetime | None
    origin: str


class Untaken(NamedTuple):
    """What a source can't take: the line's text, the cause in words, and what to do. Texts are empty where they are
    not known. `cause`: the name under which it is listed."""

    station: str
    transaction: str
    number: int | None
    what: str
    advice: str
    text: str
    received: datetime | None
    origin: str
    site: str | None = None
    cause: str = "Untaken"


Asked = Message | Deed | Untaken


class LeftOut(NamedTuple):
    """A station whose messages are left out since they are of another version of OCPP: from when to when, where that is
    known, and the site that the source names, which may be empty."""

    station: str
    version: str
    site: str
    first_at: datetime | None
    last_at: datetime | None

    def join(self, other: "LeftOut") -> "LeftOut":
        """Both together."""
        moments = [self.first_at, self.last_at, other.first_at, other.last_at]
        some = [at for at in moments if at is not None]
        return self._replace(first_at=min(some, default=None), last_at=max(some, default=None))


@dataclass(slots=True)
class Answer:
    """What became of what was asked.

    `outcome`: `accepted` (a change that is stored), `repeat` (stored before), `refused` (by the ledger or by a check of
    the message), `reply` (a ready reply that stores nothing), `silent` (no reply), `stray` (no site has the station),
    `fault` (no line of a ledger), `untaken`. `name`: that of a refusal or a fault; `reply`: the OCPP reply to send;
    `transaction`: the id as the ledger shows it; `count`: the number of the transaction's accepted change; `mends`: the
    faults that were mended as the plan declares.
    """

    outcome: str
    name: str = ""
    reply: str | None = None
    transaction: str | None = None
    count: int = 0
    mends: str = ""


@dataclass(frozen=True, slots=True)
class Limits:
    """What one transaction may keep: events, voided ones included, and readings."""

    events: int = 4_096
    readings: int = 16_384


@dataclass(frozen=True, slots=True)
class Rules:
    """A site's rules: the length of its periods in seconds, the order of readings, the rule of settling, what a
    transaction may keep, the zone of its days, the greatest power of an EVSE that can be, in kW, the seconds from a
    start or an end within which it has its reading, and the Wh below which a register that falls has not fallen.
    """

    period: int = 900
    order: str = "moment"
    settle: str = "even"
    limits: Limits = Limits()
    zone: str = "UTC"
    most_kw: int = 400
    reading_within: int = 300
    resolution: int = 10


class Quota(NamedTuple):
    """A site's quotas for each of its stations: open transactions, and bytes a day; 0: any number."""

    open: int = 0
    bytes: int = 0


class Line(NamedTuple):
    """A line that changed a transaction. `text`: `deliver STATION MESSAGE`, or `void STATION TRANSACTION NUMBER` and
    so on; `number`: its place among the lines of its transaction, from 1."""

    number: int
    text: str
    received: datetime | None = None
    who: str = ""
    why: str = ""
    origin: str = ""
