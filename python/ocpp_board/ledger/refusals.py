"""Why a message changed nothing: the cause by name, the cause and the remedy in words, and what the message names."""

import hashlib
import re
from datetime import datetime
from typing import Any, NamedTuple

from ocpp_board.escapes import shown
from ocpp_board.limits import LONGEST_LINE
from ocpp_board.messages.message_faults import JSON, OTHER_ACTIONS, message_fault
from ocpp_board.messages.meter_values import IMPORT, Level, measurand_of, mwh_of
from ocpp_board.messages.meter_values import JSON as EXACT_JSON
from ocpp_board.messages.texts import CALL, HEAD
from ocpp_board.messages.times import TimeFault, moment_of, seconds_of
from ocpp_board.records import Message, Untaken

# The cause of a line of a source that is no message of a station for the ledger.
UNTAKEN = "Untaken"
CONFLICT = "ConflictingEvent"
UNKNOWN_STATION = "UnknownStation"
# Why a message is no line of a script: the cause in words, and the remedy.
LINE_FAULTS = {
    "LineTooLong": (f"its line has more than {LONGEST_LINE:,} bytes", "a shorter message"),
    "BadLine": ("half a surrogate pair is in it, which UTF-8 can't write", "a message in UTF-8"),
}
# Characters of what a message names that are kept.
LONGEST_NAME = 64
# What is read of a message that is no JSON.
TRANSACTION = re.compile(r'"transactionId"\s*:\s*"([^"\\]{1,36})"')
NUMBER = re.compile(r'"seqNo"\s*:\s*([0-9]{1,10})(?![0-9.eE])')
DESCRIPTION = re.compile(r',"([A-Za-z]+)",\{\}\]$')
# The greatest number of an EVSE and of a register in mWh that is kept of MeterValues, which nothing checks.
GREATEST_EVSE, GREATEST_REGISTER = 2**31 - 1, 10**15


class Named(NamedTuple):
    """What a message names, as far as it can be read: when, which transaction, which number; empty where it can't."""

    at: datetime | None
    sent_id: str
    sent_number: str


class Refusal(NamedTuple):
    """What was refused, as a row of `refusal` has it."""

    cause: str
    what: str
    advice: str
    sent_id: str
    sent_number: str
    text: str
    at: datetime | None

    @property
    def number(self) -> int | None:
        """The event's number, where it is one."""
        is_number = self.sent_number.isascii() and self.sent_number.isdecimal()
        return int(self.sent_number) if is_number and len(self.sent_number) < 11 else None

    @property
    def digest(self) -> str:
        """That of the text; of a stranger without one that of what is said."""
        return digest_text(self.text or self.what)


def digest_text(text: str) -> str:
    """A text's digest, by which it is known again."""
    return hashlib.sha256(text.encode("utf-8", "surrogatepass")).hexdigest()[:32]


def cut_name(value: Any) -> str:
    """A text or a number of JSON as far as a row has room for it; empty where it is neither."""
    if not isinstance(value, str):
        return ""
    # Half a surrogate pair can't be written, and no database keeps a zero byte.
    text = value.encode("utf-8", "replace").decode("utf-8").replace("\0", "?")
    return text if len(text) <= LONGEST_NAME else text[:LONGEST_NAME] + ".."


def find_names(message: str) -> Named:
    """What a TransactionEvent names; of a text that is no JSON what looks like it."""
    try:
        frame = JSON.decode(message)
        payload = frame[3] if isinstance(frame, list) and len(frame) > 3 else {}
    except (ValueError, RecursionError):
        found = [pattern.search(message) for pattern in (TRANSACTION, NUMBER)]
        return Named(None, *(match[1] if match else "" for match in found))
    if not isinstance(payload, dict):
        return Named(None, "", "")
    info = payload.get("transactionInfo")
    sent = info.get("transactionId") if isinstance(info, dict) else None
    at = payload.get("timestamp")
    try:
        moment = moment_of(at) if isinstance(at, str) else None
    except TimeFault:
        moment = None
    return Named(moment, cut_name(sent), cut_name(payload.get("seqNo")))


def name_cause(reply: str) -> str:
    """The name of the fault that a CALLERROR has; empty where the reply is none."""
    if not reply.startswith("[4,"):
        return ""
    found = DESCRIPTION.search(reply)
    return found[1] if found else "refused"


def is_left_out(message: str, cause: str) -> bool:
    """Whether a message has an action of OCPP 2.0.1 of which the ledger keeps nothing: it loses nothing."""
    if cause != "UnknownAction":
        return False
    call = CALL.match(message)
    return call is not None and call[2] in OTHER_ACTIONS


def describe_message(message: str, cause: str, received: datetime | None) -> Refusal:
    """A message that was refused with this cause."""
    named = find_names(message)
    what, advice = LINE_FAULTS.get(cause) or message_fault(message, cause)
    return Refusal(
        cause,
        what,
        advice,
        named.sent_id,
        named.sent_number,
        keep_text(message),
        received or named.at,
    )


def describe_stranger(one: Message) -> Refusal:
    """A message of no transaction, of a station that no site has."""
    what = f"no station {shown(one.station)} is declared"
    advice = f"add it by `plan station {one.station} --site SITE`: what came is taken then"
    return Refusal(UNKNOWN_STATION, what, advice, "", "", "", one.received)


def describe_untaken(one: Untaken) -> Refusal:
    """A line of a source that was not taken."""
    number = "" if one.number is None else str(one.number)
    return Refusal(
        one.cause, one.what, one.advice, one.transaction, number, keep_text(one.text), one.received
    )


def keep_text(text: str) -> str:
    """A text as a database keeps it: no zero byte, no half of a surrogate pair."""
    return (
        text.encode("utf-8", "replace").decode("utf-8").replace("\0", "\N{REPLACEMENT CHARACTER}")
    )


def read_levels(message: str) -> tuple[int, list[Level]]:
    """The EVSE of a MeterValues message and what its import register read. Nothing in it was checked: what is no
    reading is passed over."""
    head = HEAD.match(message)
    if head and head[1] != "MeterValues":
        return 0, []
    try:
        _, _, action, payload = EXACT_JSON.decode(message)
        if action != "MeterValues":
            return 0, []
        evse, values = int(payload["evseId"]), payload["meterValue"]
        found = [
            Level(at, mwh_of(sampled["value"], sampled.get("unitOfMeasure") or {}))
            for value in values
            if (at := seconds_of(value["timestamp"])) is not None
            for sampled in value["sampledValue"]
            if measurand_of(sampled) == IMPORT
        ]
    except (ValueError, ArithmeticError, RecursionError, LookupError, TypeError, AttributeError):
        return 0, []
    if not 0 <= evse <= GREATEST_EVSE:
        return 0, []
    return evse, [level for level in found if 0 <= level.mwh <= GREATEST_REGISTER]
