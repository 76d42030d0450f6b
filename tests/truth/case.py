"""What a case is, and the short form in which its messages are written.

A line is one message. A time such as `2T10:00` is of a day of March 2026, and the first day may be left out:

    S T1 0 10:00 1000               Started of T1 with number 0 at 10:00, and a reading of 1,000 Wh of that moment
    U T1 1 10:15 1400 kw=1.6        Updated; a power of 1.6 kW is measured beside the reading
    E T1 2 10:30 10:00=1000/B 1700  Ended; it lists the reading of 10:00 again, as Transaction.Begin
    U T1 3 10:40                    without a reading
    M 10:00 evse=1 900              MeterValues of an EVSE

Words with `=` behind the time: `evse` (1 where it is left out, - for none), `at` (when the readings are of), `kw`,
`unit` (of unitOfMeasure), `beside` (a member `unit` beside the value), `measurand`, `phase`, `location`, `received`,
`station` (A where it is left out), `reason`, `version` (that the log names), `more` (JSON merged into the payload).
"""

import json
import re
from collections.abc import Sequence
from dataclasses import dataclass, field
from datetime import datetime, timedelta, timezone
from typing import Any

from ocpp_board.limits import MOMENT

KINDS = {"S": "Started", "U": "Updated", "E": "Ended"}
CONTEXTS = {"B": "Transaction.Begin", "E": "Transaction.End", "P": "Sample.Periodic"}
IMPORT = "Energy.Active.Import.Register"
FIRST = datetime(2026, 3, 1, tzinfo=timezone.utc)
TIME = re.compile(r"(?:(\d+)T)?(\d\d):(\d\d)(?::(\d\d))?")
READING = re.compile(r"(?:((?:\d+T)?\d\d:\d\d(?::\d\d)?)=)?(-?[0-9.]+)(?:/([BEP]))?")
DELAY = timedelta(seconds=1)
VERSION = re.compile(r"\bversion=(\S+)")

Payload = dict[str, Any]


@dataclass(frozen=True)
class Sent:
    """A message of a station, and when it was received."""

    station: str
    text: str
    received: datetime | None


@dataclass(frozen=True)
class Case:
    """What happened, and what has to be said of it. Energies are Wh.

    `truth`: what each session really imported, by station and id; `periods`: what station A took in periods by their
    beginnings, where that is part of the truth; `found`: the findings that have to be there, by session (or station),
    with a part of their details; `fine`: findings that may be there besides; `refused`: how many texts wait for a
    decision; `remedy`: commands of `ocpp-board` without `--store`, whose statuses are those of `status`, or 0 (behind
    `sh:` one whose proposed commands are run); `after`: what sessions have then, where that is not the truth; `rules`:
    what the plan has of the site.

    Messages come to the store, then those of `raw`; or `log` is written to {dir}/log as JSON lines, and the commands of
    `setup` take it. `files`: others of that folder, each of a short line or a text. `unplanned`: stations that the plan
    does not have. `shows`: what commands print in the end, as expressions that have to be found; `written`: what files
    of the folder have then. `is_alarm`: a right
    number is called wrong, since nothing could know better; `is_advised`: what is advised names the remedy.
    """

    name: str
    point: int
    what: str
    sent: str
    truth: dict[str, float]
    periods: dict[str, float] = field(default_factory=dict)
    found: dict[str, dict[str, str]] = field(default_factory=dict)
    fine: tuple[str, ...] = ()
    refused: int = 0
    remedy: tuple[str, ...] = ()
    after: dict[str, float] | None = None
    order: str = "moment"
    settle: str = "even"
    rules: dict[str, Any] = field(default_factory=dict)
    raw: tuple[str, ...] = ()
    log: str = ""
    files: dict[str, str] = field(default_factory=dict)
    setup: tuple[str, ...] = ()
    unplanned: tuple[str, ...] = ()
    status: tuple[int, ...] = ()
    shows: tuple[tuple[str, str], ...] = ()
    written: tuple[tuple[str, str], ...] = ()
    is_alarm: bool = False
    is_advised: bool = True


def read_time(text: str) -> datetime:
    """The moment of a short time."""
    found = TIME.fullmatch(text)
    assert found, text
    day, hour, minute, second = (int(one or 0) for one in found.groups())
    return FIRST + timedelta(days=max(day - 1, 0), hours=hour, minutes=minute, seconds=second)


def write_time(at: datetime) -> str:
    """A moment as messages have it."""
    return at.strftime(MOMENT)


def merge(payload: Payload, more: Payload) -> None:
    """Merges members into a payload; null takes one away."""
    for name, value in more.items():
        if value is None:
            payload.pop(name, None)
        elif isinstance(value, dict) and isinstance(payload.get(name), dict):
            merge(payload[name], value)
        else:
            payload[name] = value


def make_values(words: Sequence[str], at: datetime, options: dict[str, str]) -> list[Payload]:
    """The meter values of a message."""
    values = []
    for word in words:
        found = READING.fullmatch(word)
        assert found, word
        moment, number, context = found.groups()
        value = json.loads(number)
        sampled: Payload = {"value": value}
        if context:
            sampled["context"] = CONTEXTS[context]
        if "measurand" in options:
            sampled["measurand"] = options["measurand"]
        for name in ("phase", "location"):
            if name in options:
                sampled[name] = options[name]
        if "unit" in options:
            sampled["unitOfMeasure"] = {"unit": options["unit"]}
        if "beside" in options:
            sampled["unit"] = options["beside"]
        several = [sampled]
        if "kw" in options:
            power = {"value": float(options["kw"]) * 1000, "measurand": "Power.Active.Import"}
            several.append(power | {"unitOfMeasure": {"unit": "W"}})
        when = read_time(moment) if moment else at
        values.append({"timestamp": write_time(when), "sampledValue": several})
    return values


def read_message(line: str) -> Sent:
    """The message of a short line."""
    front, _, more = line.partition(" more=")
    words = front.split()
    is_event = words[0] in KINDS
    place = 3 if is_event else 1
    options, readings = dict[str, str](), list[str]()
    for word in words[place + 1 :]:
        name, is_option, value = word.partition("=")
        if is_option and name.isalpha():
            options[name] = value
        else:
            readings.append(word)
    at = read_time(words[place])
    values = make_values(readings, read_time(options.get("at", words[place])), options)
    evse = options.get("evse", "1")
    payload: Payload
    if is_event:
        payload = {
            "eventType": KINDS[words[0]],
            "timestamp": write_time(at),
            "triggerReason": "MeterValuePeriodic",
            "seqNo": int(words[2]),
            "transactionInfo": {"transactionId": words[1]},
        }
        if evse != "-":
            payload["evse"] = {"id": int(evse)}
        if values:
            payload["meterValue"] = values
        if words[0] == "E":
            payload["transactionInfo"]["stoppedReason"] = options.get("reason", "EVDisconnected")
    else:
        payload = {"evseId": int(evse), "meterValue": values}
    if more:
        merge(payload, json.loads(more))
    action = "TransactionEvent" if is_event else "MeterValues"
    text = json.dumps([2, "m", action, payload], separators=(",", ":"))
    received = read_time(options["received"]) if "received" in options else at + DELAY
    return Sent(options.get("station", "A"), text, received)


def read_messages(text: str) -> list[Sent]:
    """The messages of short lines."""
    return [read_message(line.strip()) for line in text.splitlines() if line.strip()]


def write_log(text: str) -> str:
    """The lines of a log that has these messages."""
    lines = []
    for line in text.splitlines():
        if line.strip():
            one = read_message(line.strip())
            version = VERSION.search(line)
            entry = {"site": "north", "station": one.station, "message": one.text}
            if one.received:
                entry["time"] = write_time(one.received)
            if version:
                entry["version"] = version[1]
            lines.append(json.dumps(entry) + "\n")
    return "".join(lines)
