"""Sessions with troubles, each kind from a station of its name, as `ocpp-board traffic N troubles` writes them."""

import base64
import json
from collections.abc import Callable, Iterator
from datetime import datetime, timedelta, timezone
from typing import Any, NamedTuple

from ocpp_board.limits import MOMENT

SITE = "troubled"
# Sessions of a station, of the 1,024 transactions that it may have without a line `limits`.
MOST_SESSIONS = 1_000
FIRST = datetime(2026, 3, 1, 8, tzinfo=timezone.utc)
# From one event of a session to the next, from its time to its receipt, and from one session to the next.
STEP, DELAY, PAUSE = timedelta(minutes=10), timedelta(seconds=2), timedelta(hours=3)
# What the register reads first and rises by from event to event, in Wh.
START, RISE = 1_000, 250
IMPORT, EXPORT = "Energy.Active.Import.Register", "Energy.Active.Export.Register"

Payload = dict[str, Any]


class Sent(NamedTuple):
    """A message, and when it was received."""

    received: datetime
    payload: Payload
    action: str = "TransactionEvent"


Session = list[Sent]


def reading(at: datetime, wh: int, **more: Any) -> Payload:
    """A meter value with one reading."""
    return {"timestamp": at.strftime(MOMENT), "sampledValue": [{"value": wh, **more}]}


def event(tx: str, number: int, kind: str, at: datetime, wh: int | None = None) -> Sent:
    """An event with one counted reading, or with none."""
    payload: Payload = {
        "eventType": kind,
        "timestamp": at.strftime(MOMENT),
        "triggerReason": "MeterValuePeriodic",
        "seqNo": number,
        "transactionInfo": {"transactionId": tx},
        "evse": {"id": 1},
        "meterValue": [] if wh is None else [reading(at, wh)],
    }
    if kind == "Ended":
        payload["transactionInfo"]["stoppedReason"] = "EVDisconnected"
    return Sent(at + DELAY, payload)


def sound(tx: str, begin: datetime) -> Session:
    """A session of four events without trouble, of 750 Wh."""
    kinds = ("Started", "Updated", "Updated", "Ended")
    return [
        event(tx, number, kind, begin + number * STEP, START + number * RISE)
        for number, kind in enumerate(kinds)
    ]


def changed(session: Session, change: Callable[[Payload], None]) -> Session:
    """The session with each reading changed."""
    for one in session:
        for value in one.payload["meterValue"]:
            change(value["sampledValue"][0])
    return session


def without_readings(tx: str, begin: datetime) -> Session:
    """A session without a reading."""
    session = sound(tx, begin)
    for one in session:
        one.payload["meterValue"] = []
    return session


def interval_energy(tx: str, begin: datetime) -> Session:
    """A session with its energy only by intervals."""
    measurand = "Energy.Active.Import.Interval"
    return changed(sound(tx, begin), lambda one: one.update(measurand=measurand))


def phase_energy(tx: str, begin: datetime) -> Session:
    """A session with its energy only by phase."""
    return changed(sound(tx, begin), lambda one: one.update(measurand=IMPORT, phase="L1"))


def inlet_energy(tx: str, begin: datetime) -> Session:
    """A session with its energy only at the vehicle's inlet."""
    return changed(sound(tx, begin), lambda one: one.update(measurand=IMPORT, location="Inlet"))


def clock_back(tx: str, begin: datetime) -> Session:
    """A session with a third event that is half an hour too early."""
    session = sound(tx, begin)
    session[2].payload["timestamp"] = (begin - STEP).strftime(MOMENT)
    return session


def clock_far(tx: str, begin: datetime) -> Session:
    """A session that is received a day before it is."""
    return [Sent(one.received - timedelta(days=1), one.payload) for one in sound(tx, begin)]


def register_falls(tx: str, begin: datetime) -> Session:
    """A session with a register that begins again at its third event."""
    session = sound(tx, begin)
    for one in session[2:]:
        one.payload["meterValue"][0]["sampledValue"][0]["value"] -= START
    return session


def repeated(tx: str, begin: datetime) -> Session:
    """A session that lists all readings again in its last event."""
    session = sound(tx, begin)
    session[-1].payload["meterValue"] = [
        value for one in session for value in one.payload["meterValue"]
    ]
    return session


def id_again(tx: str, begin: datetime) -> Session:
    """Two sessions of one id: the second one begins at 0 again and goes on past the first one's end."""
    again = [event(tx, 0, "Started", begin + 5 * STEP, START)]
    again += [event(tx, 4, "Updated", begin + 6 * STEP, START + 3 * RISE)]
    return sound(tx, begin) + again


def above_0(tx: str, begin: datetime) -> Session:
    """A session with numbers from 3 on."""
    session = sound(tx, begin)
    for one in session:
        one.payload["seqNo"] += 3
    return session


def missing_number(tx: str, begin: datetime) -> Session:
    """A session that lacks its third event."""
    session = sound(tx, begin)
    return session[:2] + session[3:]


def without_end(tx: str, begin: datetime) -> Session:
    """A session without its end."""
    return sound(tx, begin)[:-1]


def without_start(tx: str, begin: datetime) -> Session:
    """A session of updates and an end, without a start."""
    session = sound(tx, begin)
    session[0].payload["eventType"] = "Updated"
    return session


def conflict(tx: str, begin: datetime) -> Session:
    """A session with a second event that comes once more with another reading."""
    session = sound(tx, begin)
    return session[:2] + [event(tx, 1, "Updated", begin + STEP, START)] + session[2:]


def negative(tx: str, begin: datetime) -> Session:
    """A session with an event more, of a negative reading."""
    session = sound(tx, begin)
    return session[:2] + [event(tx, 9, "Updated", begin + STEP, -1)] + session[2:]


def feeds_back(tx: str, begin: datetime) -> Session:
    """A session with a vehicle that feeds back."""
    return changed(sound(tx, begin), lambda one: one.update(measurand=EXPORT))


def later(session: Session, wh: int) -> Session:
    """The session with its registers so much higher for each session before it."""
    number = int(session[0].payload["transactionInfo"]["transactionId"][1:])
    return changed(session, lambda one: one.update(value=one["value"] + (number - 1) * wh))


def power(tx: str, begin: datetime) -> Session:
    """A session with a register that rises by a megawatt-hour in ten minutes."""
    session = sound(tx, begin)
    changed(session[2:], lambda one: one.update(value=one["value"] + 1_000_000))
    return later(session, 1_000_000 + 3 * RISE)


def signed_differs(tx: str, begin: datetime) -> Session:
    """A session with a signed last reading of a kilowatt-hour more; the others are signed as they are."""
    session = sound(tx, begin)
    for one in session:
        sampled = one.payload["meterValue"][0]["sampledValue"][0]
        more = 1_000 if one is session[-1] else 0
        rd = [
            {"TM": "", "TX": "T", "RV": (sampled["value"] + more) / 1_000, "RU": "kWh", "ST": "G"}
        ]
        data = f'OCMF|{json.dumps({"FV": "1.0", "PG": tx, "RD": rd})}|{json.dumps({"SD": "00"})}'
        sampled["signedMeterValue"] = {
            "signedMeterData": base64.b64encode(data.encode()).decode(),
            "signingMethod": "ECDSA-secp256r1-SHA256",
            "encodingMethod": "OCMF",
            "publicKey": base64.b64encode(b"oca:base16:asn1:00").decode(),
        }
    return session


def reset(tx: str, begin: datetime) -> Session:
    """A session with a meter that is exchanged behind its second event."""
    session = sound(tx, begin)
    for one, wh in zip(session, (5_000, 10_000, 0, 4_995)):
        changed([one], lambda value, wh=wh: value.update(value=wh))  # type: ignore[misc]
    return session


def rose_between(tx: str, begin: datetime) -> Session:
    """A session before which the register rose by half a kilowatt-hour since the one before."""
    return later(sound(tx, begin), 3 * RISE + 500)


def outside(tx: str, begin: datetime) -> Session:
    """A session, after which the register rises without a session."""
    session = sound(tx, begin)
    for number in (4, 5):
        at = begin + number * STEP
        payload = {"evseId": 1, "meterValue": [reading(at, START + (number - 1) * RISE)]}
        session.append(Sent(at + DELAY, payload, "MeterValues"))
    return session


def quarter_hours(tx: str, begin: datetime) -> Session:
    """The register is read where periods begin, in five events."""
    kinds = ("Started", *3 * ("Updated",), "Ended")
    return [
        event(tx, number, kind, begin + number * timedelta(minutes=15), START + number * RISE // 2)
        for number, kind in enumerate(kinds)
    ]


def one_counter(tx: str, begin: datetime) -> Session:
    """A session of a station that counts with one counter: each second one runs at its other EVSE beside the first."""
    is_second = int(tx[1:]) % 2 == 0
    session = sound(tx, begin - PAUSE + STEP / 2 if is_second else begin)
    for one in session:
        one.payload["seqNo"] = 2 * one.payload["seqNo"] + is_second
        one.payload["evse"] = {"id": 1 + is_second}
    return session


# The stations, and what a session of each is.
KINDS: dict[str, Callable[[str, datetime], Session]] = {
    "sound": sound,
    "no-reading": without_readings,
    "interval-energy": interval_energy,
    "phase-energy": phase_energy,
    "inlet-energy": inlet_energy,
    "clock-back": clock_back,
    "clock-far": clock_far,
    "register-falls": register_falls,
    "readings-repeated": repeated,
    "id-again": id_again,
    "above-0": above_0,
    "missing-number": missing_number,
    "no-end": without_end,
    "no-start": without_start,
    "voided": sound,
    "conflict": conflict,
    "negative": negative,
    "feeds-back": feeds_back,
    "power": power,
    "signed-differs": signed_differs,
    "reset": reset,
    "rose-between": rose_between,
    "outside": outside,
    "one-counter": one_counter,
    "quarter-hours": quarter_hours,
}
# A station that sends and is not declared.
UNKNOWN = "unknown"


def messages(station: str, session: Session) -> Iterator[str]:
    """The lines of a session's messages, each behind when it was received."""
    for place, one in enumerate(session):
        info = one.payload.get("transactionInfo")
        number = f"{info['transactionId']}-{one.payload['seqNo']}" if info else f"values-{place}"
        message = json.dumps([2, number, one.action, one.payload], separators=(",", ":"))
        yield f"# received {one.received.strftime(MOMENT)}"
        yield f"msg {station} {message}"


def script(count: int) -> Iterator[str]:
    """The lines of a script with so many sessions of each kind."""
    yield from (f"station {SITE} {station}" for station in KINDS)
    for number in range(count):
        begin = FIRST + number * PAUSE
        for station, kind in KINDS.items():
            yield from messages(station, kind(f"T{number + 1}", begin))
        yield f"void voided t{number + 1} 2"
        yield from messages(UNKNOWN, sound(f"T{number + 1}", begin))
    yield f"board {SITE}"
