"""Why a message is refused: which member broke which check, and the remedy."""

import decimal
import difflib
import json
import re
from typing import Any

from ocpp_board.escapes import shown
from ocpp_board.limits import GREATEST_SEQ_NO, TRANSACTION
from ocpp_board.messages.meter_values import EXPORT, IMPORT
from ocpp_board.messages.times import NO_OFFSET, OUT_OF_RANGE, fault_of

ACTIONS = ["BootNotification", "Heartbeat", "StatusNotification", "MeterValues", "TransactionEvent"]
# Actions of OCPP 2.0.1 that a station may call too; the ledger keeps nothing of them.
OTHER_ACTIONS = frozenset(
    """Authorize ClearedChargingLimit DataTransfer FirmwareStatusNotification Get15118EVCertificate GetCertificateStatus
    LogStatusNotification NotifyChargingLimit NotifyCustomerInformation NotifyDisplayMessages NotifyEVChargingNeeds
    NotifyEVChargingSchedule NotifyEvent NotifyMonitoringReport NotifyReport PublishFirmwareStatusNotification
    ReportChargingProfiles ReservationStatusUpdate SecurityEventNotification SignCertificate""".split()
)
# Actions of OCPP 1.6 that 2.0.1 has not.
OLD_ACTIONS = frozenset(("StartTransaction", "StopTransaction", "DiagnosticsStatusNotification"))
COUNTED = (None, IMPORT, EXPORT)
KINDS = ("Started", "Updated", "Ended")
# EVSEs of a station, exponents of a unit's multiplier, and readings of a message.
MOST_EVSES, GREATEST_MULTIPLIER, MOST_READINGS = 64, 12, 1_024
LONGEST_ID = 36
# What is advised where a declared mend takes a message as it is meant, with the mend and what it does.
MEND = (
    "take it {1}: from a log by `--mend SITE={0}` of report, follow or log-to-script; in a store by `ocpp-board take "
    "STATION --mend {0} --why ..`"
)
MEND_VALUE = MEND.format("text-value", "as a number")
MEND_TIME = MEND.format("no-offset:ZONE", "in the zone that is named")
MEND_CLOCK = (
    f"set the station's clock; {MEND.format('unset-clock', 'with the time of its receipt')}"
)
MEND_LISTED = MEND.format("listed-time", "without this reading")
MEND_UNIT = MEND.format("unit", "in Wh or kWh, as its letters mean")
MEND_ID = MEND.format("ids", "without blanks and braces in the id")
MEND_EVSE = MEND.format("evse", "with EVSE 0 as none, and `evse:70:1` EVSE 70 as 1")
MEND_NEGATIVE = MEND.format("negative", "as 0, if it is small")
MEND_PARTED = MEND.format("parted", "in several events")
# What is advised where none does.
CORRECT = (
    "correct the text, or leave it out: in a store by `ocpp-board take STATION --text FILE --why ..`, or `take STATION "
    "--leave`"
)


# Why no other event than the end is parted.
WHOLE = (
    "OCPP counts a transaction's events by 1, and the next number is that of its next event, so only an end can be "
    f"parted: keep at most 1,024 readings, such as those where periods begin; {CORRECT}"
)


class Token(str):
    """A JSON number as it is written."""


def no_constant(token: str) -> Any:
    """NaN and the infinities, which Python's reader would take."""
    raise json.JSONDecodeError(f"{token} is no number of JSON", token, 0)


JSON = json.JSONDecoder(parse_int=Token, parse_float=Token, parse_constant=no_constant)

# A reading: how long it may be written, its exponent, and the most milliwatt-hours.
LONGEST_READING, GREATEST_EXPONENT, MOST_MWH = 36, 99, 10**13
EXPONENT = re.compile(r"[eE]([+-]?)0*([0-9]+)$")
EXACT = decimal.Context(prec=400)

Said = tuple[str, str]  # A cause and its remedy.
Failed = tuple[str, str, str]  # The fault, the member, and what is wrong with it.


def kind_of(value: Any) -> str:
    """The kind of a JSON value, for a reader."""
    if isinstance(value, Token):
        return "a number"
    return {dict: "an object", list: "an array", str: "a text", bool: "true or false"}.get(
        type(value), "null"
    )


WANTED: dict[type, str] = {
    str: "a text",
    dict: "an object",
    list: "an array",
    Token: "a number",
}


def is_reading(token: str, unit: dict[str, Any]) -> bool:
    """Whether a number is a reading in this unit. A unit that is wrong itself is another fault, and counts as Wh."""
    exponent = EXPONENT.search(token)
    if len(token) > LONGEST_READING or exponent and int(exponent[2]) > GREATEST_EXPONENT:
        return False
    multiplier = unit.get("multiplier")
    power = 6 if unit.get("unit") == "kWh" else 3
    if isinstance(multiplier, Token) and re.fullmatch(r"-?[0-9]{1,3}", multiplier):
        power += int(multiplier)
    mwh = decimal.Decimal(token).scaleb(power, EXACT)
    return 0 <= mwh < MOST_MWH + 1


class Checks:
    """The checks of a TransactionEvent's payload, in their order. Each that fails is noted; those of what is in a
    member of the wrong kind are passed over."""

    def __init__(self, payload: Any) -> None:
        self.failed: list[Failed] = []
        # Values that are texts.
        self.texts = set[str]()
        self.readings = 0
        if isinstance(payload, dict):
            self.event(payload)
        else:
            self.note("Format", "the payload", f"is {kind_of(payload)} and not an object")

    def note(self, fault: str, member: str, what: str, value: Any = None) -> None:
        """A check of a member fails, which has this value."""
        self.failed.append((fault, member, what))
        is_text = member.endswith(".value") and isinstance(value, str)
        if is_text and not isinstance(value, Token):
            self.texts.add(member)

    def member(
        self, of: dict[str, Any], path: str, name: str, kind: type, required: bool = True
    ) -> Any:
        """A member of this kind; None where it is not there, or is of another."""
        value, member = of.get(name), f"{path}{name}"
        if value is None:
            if required:
                self.note(
                    "Missing",
                    member,
                    "is missing" if name not in of else "is null, which counts as missing",
                )
            return None
        is_kind = isinstance(value, kind) and (isinstance(value, Token) == (kind is Token))
        if not is_kind:
            self.note("WrongType", member, f"is {kind_of(value)} and not {WANTED[kind]}", value)
            return None
        return value

    def integer(
        self, of: dict[str, Any], path: str, name: str, least: int, most: int, required: bool = True
    ) -> None:
        """Checks an integer from the least to the most one."""
        token = self.member(of, path, name, Token, required)
        if token is None:
            return
        if not re.fullmatch(r"-?[0-9]+", token):
            self.note("WrongType", path + name, f"is {shown(token)}, which is no integer")
        elif not len(token) < 25 or not least <= int(token) <= most:
            self.note("Range", path + name, f"is {shown(token)}, and not from {least} to {most}")

    def time(self, of: dict[str, Any], path: str) -> None:
        """Checks a timestamp."""
        text = self.member(of, path, "timestamp", str)
        if text is not None and (fault := fault_of(text)):
            self.note("Moment", path + "timestamp", f"{fault}: {shown(text)}")

    def event(self, payload: dict[str, Any]) -> None:
        """Checks the members of a TransactionEvent."""
        kind = self.member(payload, "", "eventType", str)
        if kind not in (None, *KINDS):
            self.note("Range", "eventType", f"is {shown(kind)}, and not Started, Updated or Ended")
        self.time(payload, "")
        self.member(payload, "", "triggerReason", str)
        self.integer(payload, "", "seqNo", 0, GREATEST_SEQ_NO)
        info = self.member(payload, "", "transactionInfo", dict)
        if info is not None:
            tx = self.member(info, "transactionInfo.", "transactionId", str)
            if tx is not None and not TRANSACTION.fullmatch(tx):
                self.note(
                    "Range",
                    "transactionInfo.transactionId",
                    f"is {shown(tx)}, and not 1 to 36 characters from ! to ~",
                )
        evse = self.member(payload, "", "evse", dict, False)
        if evse is not None:
            self.integer(evse, "evse.", "id", 1, MOST_EVSES)
        self.member(payload, "", "idToken", dict, False)
        for n, value in enumerate(self.member(payload, "", "meterValue", list, False) or []):
            self.meter_value(value, f"meterValue[{n}]")

    def meter_value(self, value: Any, path: str) -> None:
        """Checks a meter value and its readings."""
        if not isinstance(value, dict):
            self.note("WrongType", path, f"is {kind_of(value)} and not an object")
            return
        self.time(value, path + ".")
        for n, sampled in enumerate(self.member(value, path + ".", "sampledValue", list) or []):
            self.sampled_value(sampled, f"{path}.sampledValue[{n}]")

    def sampled_value(self, sampled: Any, path: str) -> None:
        """Checks a reading that counts."""
        if not isinstance(sampled, dict):
            self.note("WrongType", path, f"is {kind_of(sampled)} and not an object")
            return
        path += "."
        texts = [
            self.member(sampled, path, name, str, False)
            for name in ("measurand", "phase", "location")
        ]
        if texts[0] not in COUNTED or texts[1] is not None or texts[2] not in (None, "Outlet"):
            return
        unit = self.member(sampled, path, "unitOfMeasure", dict, False)
        if unit is not None:
            name = self.member(unit, path + "unitOfMeasure.", "unit", str, False)
            if name not in (None, "Wh", "kWh"):
                self.note(
                    "Range", path + "unitOfMeasure.unit", f"is {shown(name)}, and not Wh or kWh"
                )
            self.integer(
                unit,
                path + "unitOfMeasure.",
                "multiplier",
                -GREATEST_MULTIPLIER,
                GREATEST_MULTIPLIER,
                False,
            )
        token = self.member(sampled, path, "value", Token)
        if token is not None and not is_reading(token, unit or {}):
            self.note(
                "Decimal",
                path + "value",
                f"is {shown(token)}: a reading is no longer than 36 characters, not "
                "negative, with an exponent from -99 to 99, and at most 10000000000 Wh",
            )
        self.readings += 1
        if self.readings == MOST_READINGS + 1:
            self.note(
                "TooManyReadings", path[:-1], "is the 1,025th reading that counts, and 1,024 may"
            )


MORE_ROOM = (
    "more room: in a store by `plan site SITE --events` or `--readings`, then `ocpp-board take STATION ID --why ..`; "
    "in a script by a line `limits <transactions> <events> <readings> <changes>` before its `station` line"
)
REMEDIES = {
    "TextTooLong": ("the message has more than 262,144 bytes", CORRECT),
    "OutOfMemory": ("there was no memory", "run it where there is more, or with less in `limits`"),
    "Format": ("the payload is no object", "an object as the fourth element"),
    "ConflictingEvent": (
        "this transaction already has an event with this seqNo and another kind, time, EVSE or other readings",
        "where the station used the id again for another session: `ocpp-board take STATION ID --as OTHER-ID --why ..` "
        "of a store; where the stored one is wrong: void and erase it (`operate void`, `operate erase`), then send "
        "this one again, or `take` it; else leave it out, or `take --leave`",
    ),
    "TooManyTransactions": (
        "the station has as many transactions as its limits allow",
        MORE_ROOM,
    ),
    "EventsFull": (
        "the station has as many events as its limits allow; voided ones count until they are erased",
        MORE_ROOM,
    ),
    "ReadingsFull": (
        "the station has as many readings as its limits allow",
        MORE_ROOM,
    ),
    "ChangesExhausted": (
        "the station has accepted as many changes as its limits allow",
        MORE_ROOM,
    ),
    "TooManyOpen": (
        "the station has as many transactions without an end as its site's quota allows",
        "look why the station ends none; raise the quota by `plan quota` where it is right, "
        "then `ocpp-board take STATION --why ..`",
    ),
    "TooManyBytes": (
        "the station sent as much on this day (UTC) as its site's quota allows",
        "look what the station sends; raise the quota by `plan quota` where it is right, then "
        "`ocpp-board take STATION --why ..`",
    ),
    "TooManyMessages": (
        "the station sent more messages a second, over a minute, than its site's quota allows",
        "look what the station sends; raise the quota by `plan quota` where it is right, then "
        "`ocpp-board take STATION --why ..`",
    ),
    "TooManyStrays": (
        "as many texts of a station that no site has are kept as there may be",
        "add the station by `plan station`, and have its log read again",
    ),
    "NoSuchEvent": (
        "the station has no event with this transaction id and this number",
        "compare the id and the number with the board; an event that was refused is not there",
    ),
    "AlreadyVoided": ("the event is voided already", "nothing is to be done"),
    "NotVoided": (
        "the event is not voided; only a voided one is restored or erased",
        "void it first",
    ),
}


def unknown_action(action: str) -> Said:
    """Why an action is none that is answered."""
    if action in OTHER_ACTIONS:
        return (
            f"the action {shown(action)} is one of OCPP 2.0.1; the ledger keeps nothing of it",
            "nothing is to be done; whoever answers the station answers it",
        )
    if action in OLD_ACTIONS:
        return (
            f"the action {shown(action)} is one of OCPP 1.6, which the ledger does not read",
            "leave out the messages of this station, which speaks OCPP 1.6",
        )
    near = difflib.get_close_matches(action, [*ACTIONS, *sorted(OTHER_ACTIONS)], 1, 0.6)
    return (
        f"the action {shown(action)} is none that is answered",
        f"the nearest is {near[0]}; {CORRECT}"
        if near
        else "leave it out by `ocpp-board take STATION --leave --why ..`: it keeps nothing of a transaction",
    )


def message_fault(text: str, name: str) -> Said:
    """Why a message was refused with this description."""
    if name in REMEDIES and name != "Format":
        return REMEDIES[name]
    try:
        frame = JSON.decode(text)
    except (json.JSONDecodeError, RecursionError) as fault:
        return unread(text, fault)
    if name == "NotJson":
        return (
            "the message is no JSON, as a number with zeros in front, or is nested deeper than 127",
            CORRECT,
        )
    if name == "NotACall":
        return not_a_call(frame), f'a call is [2,"<id>","<action>",{{<payload>}}]; {CORRECT}'
    if name == "MessageType":
        return (
            f"the message's type is {shown(str(frame[0]))}, and not 2, 3 or 4",
            f"a call has the type 2; {CORRECT}",
        )
    if name == "UnknownAction":
        return unknown_action(frame[2])
    is_moment, checks = name == "Moment", Checks(frame[3])
    other = ("a timestamp", "is no time") if is_moment else ("a member", "broke the check")
    failed = ((member, what) for fault, member, what in checks.failed if fault == name)
    member, what = next(failed, other)
    if name == "TooManyReadings" and frame[3].get("eventType") != "Ended":
        return f"{member} {what}", WHOLE
    return f"{member} {what}", find_remedy(name, member, what, member in checks.texts)


def find_remedy(name: str, member: str, what: str, is_text: bool) -> str:
    """What is advised about a member that is wrong."""
    if name == "Moment" and OUT_OF_RANGE in what:
        return MEND_LISTED if member.startswith("meterValue") else MEND_CLOCK
    if name == "Moment" and NO_OFFSET in what:
        return MEND_TIME
    if is_text:
        return MEND_VALUE
    if name == "Decimal" and "is '-" in what:
        return MEND_NEGATIVE
    for fault, end, remedy in MENDED:
        if name == fault and member.endswith(end):
            return remedy
    return CORRECT


# The faults that mends take, by the end of the member.
MENDED = (
    ("Range", "unitOfMeasure.unit", MEND_UNIT),
    ("Range", "transactionId", MEND_ID),
    ("Range", "evse.id", MEND_EVSE),
    ("TooManyReadings", "", MEND_PARTED),
)


def unread(text: str, fault: json.JSONDecodeError | RecursionError) -> Said:
    """Why Python's reader takes a message for no JSON."""
    if not text.strip():
        what = "the message is empty"
    elif isinstance(fault, RecursionError):
        what = "the message is no JSON: nested too deep"
    else:
        what = f"the message is no JSON: {fault.msg} at character {fault.pos + 1}"
    return what, CORRECT


def not_a_call(frame: Any) -> str:
    """Why a frame is no CALL."""
    if not isinstance(frame, list):
        return f"the message is {kind_of(frame)} and no array"
    if not frame or not isinstance(frame[0], Token):
        return "the first element is no number"
    if len(frame) != 4:
        return f"there are {len(frame)} elements, and not 4"
    if isinstance(frame[1], Token) or not isinstance(frame[1], str) or len(frame[1]) > LONGEST_ID:
        return "the id is no text of at most 36 characters"
    return f"the action is {kind_of(frame[2])} and no text"
