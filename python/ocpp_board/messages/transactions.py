"""Events of transactions as their messages have them.

Which events count, and what their readings come to, the program lists (`ledger.answers`).
"""

from datetime import datetime, timezone
from typing import Any, NamedTuple

from ocpp_board.messages.bills import NOTHING, Details, details_of
from ocpp_board.messages.meter_values import EXPORT, IMPORT, measurand_of
from ocpp_board.messages.meter_values import mwh_of as mwh_of
from ocpp_board.messages.signed_values import unlike_plain
from ocpp_board.messages.times import seconds_of

# What a measurand of active energy begins with, whether its readings count or not.
ENERGY = "Energy.Active."
# The measurands whose readings count.
REGISTERS = (IMPORT, EXPORT)
# Measurands that are compared with registers.
INTERVAL, POWER = "Energy.Active.Import.Interval", "Power.Active.Import"
# The unit of a value that names none.
NO_UNIT: dict[str, Any] = {}
# Seconds by which an event may lie after its receipt, and before it where it was not queued offline.
FAR_AHEAD, FAR_BEHIND = 300, 3_600
# Characters of a text of a message that are kept.
LONGEST_TEXT = 80


class Reading(NamedTuple):
    """A counted reading: when it was taken (seconds since 1970), what the register read, and which one."""

    at: float | None
    mwh: int
    is_export: bool


class Measured(NamedTuple):
    """What a message measures beside the registers that count: power by time (seconds since 1970, and W), interval
    values by time in mWh, and a unit that is beside a value, where OCPP 2.0.1 has none."""

    powers: tuple[tuple[float, float], ...] = ()
    intervals: tuple[tuple[float, int], ...] = ()
    unit: str = ""


NOTHING_MEASURED = Measured()


class Event(NamedTuple):
    """An event. `others`: what it has of energy that doesn't count; `is_far`: whether its time is far from its receipt;
    `evse`: 0 if it names none; `unlike`: signed values that differ from their plain ones; `details`: what it has for a
    bill; `measured`: what it measures beside registers."""

    number: int
    kind: str
    at: float | None
    readings: tuple[Reading, ...]
    others: tuple[str, ...]
    is_far: bool
    reason: str
    evse: int = 0
    unlike: tuple[str, ...] = ()
    details: Details = NOTHING
    measured: Measured = NOTHING_MEASURED


class Beside(NamedTuple):
    """What the message of an event has beside its number, kind, time, EVSE and counted readings."""

    others: tuple[str, ...] = ()
    is_offline: bool = False
    reason: str = ""
    unlike: tuple[str, ...] = ()
    details: Details = NOTHING
    measured: Measured = NOTHING_MEASURED


NOTHING_BESIDE = Beside()


def moment(seconds: float | None) -> datetime | None:
    """A moment that is given in seconds since 1970, in UTC."""
    return None if seconds is None else datetime.fromtimestamp(seconds, timezone.utc)


def plain(value: Any) -> str:
    """A text of a message that the program does not look at: its beginning, without control characters. It is empty
    where it is no text."""
    if not isinstance(value, str):
        return ""
    text = "".join(one if one.isprintable() else "?" for one in value[:LONGEST_TEXT])
    return text if len(value) <= LONGEST_TEXT else text + ".."


def read_beside(payload: dict[str, Any]) -> Beside:
    """What a payload that passed the program's checks has beside what counts."""
    others, unlike = set[str](), list[str]()
    info = payload["transactionInfo"]
    has_details = "idToken" in payload or "remoteStartId" in info
    powers, intervals, unit = list[tuple[float, float]](), list[tuple[float, int]](), ""
    for value in payload.get("meterValue") or ():
        for sampled in value["sampledValue"]:
            measurand = measurand_of(sampled)
            is_counted, is_signed = measurand in REGISTERS, "signedMeterValue" in sampled
            has_details = has_details or is_signed
            if measurand.startswith(ENERGY) and not is_counted:
                others.add(plain(measurand))
                if measurand == INTERVAL and (at := seconds_of(value["timestamp"])) is not None:
                    intervals.append((at, max(read_mwh(sampled), 0)))
            elif measurand == POWER and (at := seconds_of(value["timestamp"])) is not None:
                powers.append((at, read_mwh(sampled) / 1_000))
            if is_counted and sampled.get("unit") not in (None, "Wh"):
                unit = plain(sampled["unit"])
            if is_counted and is_signed:
                mwh = mwh_of(sampled["value"], sampled.get("unitOfMeasure") or NO_UNIT)
                unlike += filter(None, [unlike_plain(sampled, mwh)])
    return Beside(
        tuple(sorted(others)),
        payload.get("offline") is True,
        plain(info.get("stoppedReason")),
        tuple(unlike),
        details_of(payload) if has_details else NOTHING,
        Measured(tuple(powers), tuple(intervals), unit)
        if powers or intervals or unit
        else NOTHING_MEASURED,
    )


def read_mwh(sampled: dict[str, Any]) -> int:
    """A value that nothing checked in thousandths of its unit, kilo or not; 0 where it is no number."""
    unit = sampled.get("unitOfMeasure")
    try:
        power = dict(unit) if isinstance(unit, dict) else NO_UNIT
        if power.get("unit") == "kW":
            power["unit"] = "kWh"
        return mwh_of(sampled["value"], power)
    except (ValueError, ArithmeticError, LookupError, TypeError, AttributeError):
        return 0


def is_far(at: float | None, receipt: float | None, is_offline: bool) -> bool:
    """Whether an event's time is too long after its receipt, or too long before it and it was not offline."""
    if at is None or receipt is None:
        return False
    late = receipt - at
    return late < -FAR_AHEAD or late > FAR_BEHIND and not is_offline
