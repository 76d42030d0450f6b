"""Declared mending of vendors' faults: what stations of a site send wrong in a known way is put right first.

A mended message keeps the text that came beside the text that is taken. A script has the text that came in a comment in
front of the message.
"""

import argparse
import re
from collections import Counter, OrderedDict
from collections.abc import Callable, Iterable, Iterator, Mapping
from dataclasses import dataclass
from datetime import datetime, timedelta
from typing import Any, NamedTuple
from zoneinfo import ZoneInfo

from ocpp_board.escapes import shown
from ocpp_board.limits import LONGEST_LINE, MOMENT, is_name
from ocpp_board.messages.exact import Number, read_exact, write_exact
from ocpp_board.messages.message_faults import MOST_EVSES, MOST_READINGS
from ocpp_board.messages.meter_values import EXPORT, IMPORT, measurand_of, mwh_of
from ocpp_board.messages.texts import CALL, JSON, blanks, expected
from ocpp_board.messages.times import OUT_OF_RANGE, fault_of, local_of, seconds_of
from ocpp_board.words import read_zone

# The faults that can be mended: a value that is sent as a text, and a time without an offset from UTC,
TEXT_VALUE, NO_OFFSET = "text-value", "no-offset"
# units in other letters, in MWh or beside the value, a listed reading of no time from 2000 to 2099, a small negative
# value, blanks and braces in an id,
UNIT, LISTED_TIME, NEGATIVE, IDS = "unit", "listed-time", "negative", "ids"
# EVSE 0 and numbers above 64, a begin listed at the end's time, more readings than a message may have, and the times of
# a clock that is not set.
EVSE, BEGIN, PARTED, UNSET_CLOCK = "evse", "begin-at-end", "parted", "unset-clock"
# A comment of a script that has a message as it came: the faults, the station and the message.
COMMENT = b"# mended "
ACTIONS = ("TransactionEvent", "MeterValues")
# What may be wrong in a message, as it is looked for before the message is read.
HINT = {
    TEXT_VALUE: re.compile(r'"value"\s*:\s*"'),
    NO_OFFSET: re.compile(r'"timestamp"\s*:\s*"[0-9T :.-]*"'),
    UNIT: re.compile(r'"unit"'),
    LISTED_TIME: re.compile(r'"timestamp"\s*:\s*"(?!20)'),
    NEGATIVE: re.compile(r'"value"\s*:\s*-'),
    IDS: re.compile(r'"transactionId"\s*:\s*"[^"]*[\s{}\\]'),
    EVSE: re.compile(r'"evse"'),
    BEGIN: re.compile(r'"eventType"\s*:\s*"(?:Ended|Started)"'),
    PARTED: re.compile(r'"value"'),
    UNSET_CLOCK: re.compile(r'"timestamp"\s*:\s*"(?!20)'),
}
NUMBER = re.compile(r"-?(0|[1-9][0-9]*)(\.[0-9]+)?([eE][+-]?[0-9]+)?")
# The places of values and of times in a payload.
VALUE = ("meterValue", "", "sampledValue", "", "value")
TIMES = (("timestamp",), ("meterValue", "", "timestamp"))
# Units by their letters, with the power of ten from a unit that the ledger knows.
UNITS = {"wh": ("Wh", 0), "kwh": ("kWh", 0)}
MEGA = ("MWh", "MWH")
# The greatest negative value in Wh that is taken as 0, where no other is said.
SMALL_WH = 100
EVSES = re.compile(r"[0-9]{1,9}:[0-9]{1,2}(,[0-9]{1,9}:[0-9]{1,2})*")
# Sessions whose beginnings are known, for those that list it at their end.
KEPT_BEGINS = 100_000

Zone = ZoneInfo | None


@dataclass(frozen=True)
class Fault:
    """What more is said of a fault. `zone`: that of a time without an offset; `wh`: how far below 0 a value may be;
    `evses`: numbers that stations send, and those that they mean."""

    zone: Zone = None
    wh: int = SMALL_WH
    evses: tuple[tuple[int, int], ...] = ()


Mends = dict[str, dict[str, Fault]]  # By site and fault.
ABOUT = {
    TEXT_VALUE: "a value sent as a text",
    f"{NO_OFFSET}:ZONE": "a time without an offset from UTC, which is one of this zone",
    UNIT: "a unit in other letters (KWH), in MWh, or in a member `unit` beside the value",
    LISTED_TIME: "a listed reading of no time from 2000 to 2099, which is left out",
    f"{NEGATIVE}[:WH]": f"a value down to -{SMALL_WH} Wh, or to -WH, which is 0",
    IDS: "blanks and braces in the id of a transaction, which are left out",
    f"{EVSE}[:70:1,80:2]": "EVSE 0, which is none, and EVSE numbers above 64, which mean others",
    BEGIN: "a Transaction.Begin that is listed with the end's time, which is of the start's",
    PARTED: f"more than {MOST_READINGS:,} readings in an Ended event, which becomes several events",
    UNSET_CLOCK: "an event of no time from 2000 to 2099, which is of the time of its receipt with all its readings",
}


def read_mend(text: str) -> tuple[str, str, Fault]:
    """A site, a fault, and what more is said of it. Raises ArgumentTypeError."""
    site, _, mended = text.rpartition("=")
    if not is_name(site):
        raise argparse.ArgumentTypeError(f"no name of a site: {shown(text)}")
    return site, *read_fault(mended)


def read_fault(text: str) -> tuple[str, Fault]:
    """A fault, and what more is said of it. Raises ArgumentTypeError."""
    fault, _, more = text.partition(":")
    if fault == NO_OFFSET and more:
        return fault, Fault(zone=read_zone(more))
    if fault == NEGATIVE and more.isdecimal():
        return fault, Fault(wh=int(more))
    if fault == EVSE and EVSES.fullmatch(more):
        pairs = [one.split(":") for one in more.split(",")]
        if all(1 <= int(meant) <= MOST_EVSES < int(sent) for sent, meant in pairs):
            return fault, Fault(evses=tuple((int(sent), int(meant)) for sent, meant in pairs))
    if fault in HINT and fault != NO_OFFSET and not more:
        return fault, Fault()
    wanted = ", ".join(ABOUT)
    raise argparse.ArgumentTypeError(f"{shown(text)} is none of {wanted}, such as {NO_OFFSET}:UTC")


def group_mends(words: Iterable[tuple[str, str, Fault]]) -> Mends:
    """What the words declare."""
    mends: Mends = {}
    for site, fault, more in words:
        mends.setdefault(site, {})[fault] = more
    return mends


class Leaf(NamedTuple):
    """A text, a number or the like in a JSON text: from where to where, by which names it is reached, and its value. A
    place in an array has an empty name."""

    start: int
    end: int
    path: tuple[str, ...]
    value: object


def find_leaves(text: str, at: int, path: tuple[str, ...] = ()) -> Iterator[Leaf]:
    """What a JSON text has from here on, up to the end of the value; the last one says where that is, without a path.
    Raises ValueError, and RecursionError."""
    start = blanks(text, at)
    if text[start : start + 1] not in ("{", "["):
        value, end = JSON.raw_decode(text, start)
        yield Leaf(start, end, path, value)
        yield Leaf(end, end, (), None)
        return
    is_object = text[start] == "{"
    after, close = blanks(text, start + 1), "}" if is_object else "]"
    while not text.startswith(close, after):
        name = ""
        if is_object:
            name, after = JSON.raw_decode(text, after)
            after = expected(text, after, ":")
        inner = (*path, name)
        for leaf in find_leaves(text, after, inner):
            if leaf.path:
                yield leaf
        after = blanks(text, leaf.end)
        if not text.startswith(close, after):
            after = blanks(text, expected(text, after, ","))
    yield Leaf(after + 1, after + 1, (), None)


def find_offset(text: str, of_zone: ZoneInfo, received: datetime | None) -> str | None:
    """The offset of a time that has none, in this zone; None where the text is none such. In an hour that comes twice
    it is the one that is nearer to the receipt, or else the first."""
    local = local_of(text)
    if local is None:
        return None
    both = [local.replace(tzinfo=of_zone, fold=fold) for fold in (0, 1)]
    heard = received.timestamp() if received else both[0].timestamp()
    nearest = min(both, key=lambda one: abs(one.timestamp() - heard))
    minutes = int((nearest.utcoffset() or timedelta()).total_seconds() // 60)
    return f"{'-' if minutes < 0 else '+'}{abs(minutes) // 60:02}:{abs(minutes) % 60:02}"


class Mended(NamedTuple):
    """A message as it is taken, in one text or in several, and the names of the faults that were mended."""

    texts: tuple[str, ...]
    faults: tuple[str, ...] = ()


# When a session began, as its station wrote it, where that is known: by station and transaction.
FindBegin = Callable[[str, str], str | None]


class Mender:
    """Mends messages of sites as is declared, and counts them."""

    def __init__(self, mends: Mends, find_begin: FindBegin | None = None) -> None:
        """`find_begin`: where the beginnings of sessions are known whose Started event was not seen."""
        self.mends = mends
        # By site and fault, how many messages were mended.
        self.counts = Counter[tuple[str, str]]()
        self.find_begin = find_begin
        self.begins = OrderedDict[tuple[str, str], str]()

    def find_seen(self, station: str, transaction: str) -> str | None:
        """When a session began whose Started event was seen."""
        return self.begins.get((station, transaction.lower()))

    def mend(self, site: str, station: str, message: str, received: datetime | None) -> Mended:
        """The message as it is taken, and the names of the faults that were mended; the same message and no name where
        it is not mended."""
        rules = self.mends.get(site)
        if not rules or not any(HINT[fault].search(message) for fault in rules):
            return Mended((message,))
        call = CALL.match(message)
        if call is None or call[2] not in ACTIONS:
            return Mended((message,))
        try:
            found = self.mend_call(station, message, rules, received)
        except (ValueError, RecursionError, LookupError, TypeError, AttributeError):
            return Mended((message,))
        if not found.faults or len(write_comment(found.faults, station, message)) > LONGEST_LINE:
            return Mended((message,))
        self.counts.update((site, fault) for fault in found.faults)
        return found

    def mend_call(
        self, station: str, message: str, rules: Mapping[str, Fault], received: datetime | None
    ) -> Mended:
        """A call as it is taken."""
        edits = list(find_edits(message, rules, received))
        faults = {fault for fault, _, _ in edits}
        at = received.strftime(MOMENT) if received else None
        for _, leaf, text in reversed(edits):
            message = message[: leaf.start] + text + message[leaf.end :]
        if not {*rules} - {TEXT_VALUE, NO_OFFSET}:
            return Mended((message,), tuple(sorted(faults)))
        frame = read_exact(message)
        payload = frame[3]
        changed = set[str]()
        if UNSET_CLOCK in rules and at and date_by_receipt(payload, at):
            changed.add(UNSET_CLOCK)
        changed |= {
            fault
            for fault, change in CHANGES.items()
            if fault in rules and change(payload, rules[fault])
        }
        if BEGIN in rules and self.date_begin(station, payload):
            changed.add(BEGIN)
        parts = [payload]
        if PARTED in rules and len(parts := part_readings(payload)) > 1:
            changed.add(PARTED)
        texts: tuple[str, ...] = (message,)
        if changed:
            texts = tuple(write_exact([*frame[:3], one]) for one in parts)
        return Mended(texts, tuple(sorted(faults | changed)))

    def date_begin(self, station: str, payload: dict[str, Any]) -> bool:
        """Gives a Transaction.Begin that an end lists with its own time the time of the start; whether it did."""
        if "transactionInfo" not in payload:
            return False
        transaction, kind = payload["transactionInfo"]["transactionId"], payload["eventType"]
        if kind == "Started":
            self.begins[station, transaction.lower()] = payload["timestamp"]
            if len(self.begins) > KEPT_BEGINS:
                self.begins.popitem(last=False)
        begin = self.find_seen(station, transaction) if kind == "Ended" else None
        if kind == "Ended" and begin is None and self.find_begin:
            begin = self.find_begin(station, transaction)
        if begin is None:
            return False
        end, values = seconds_of(payload["timestamp"]), list[Any]()
        for value in payload.get("meterValue") or ():
            own = [
                one for one in value["sampledValue"] if one.get("context") == "Transaction.Begin"
            ]
            if not own or seconds_of(value["timestamp"]) != end:
                values.append(value)
                continue
            values.append(value | {"timestamp": begin, "sampledValue": own})
            if others := [one for one in value["sampledValue"] if one not in own]:
                values.append(value | {"sampledValue": others})
        is_other = values != (payload.get("meterValue") or [])
        if is_other:
            payload["meterValue"] = values
        return is_other

    def describe(self) -> str:
        """How many messages were mended, for a reader; empty where none was."""
        some = (f"{site}={fault} {count:,}" for (site, fault), count in sorted(self.counts.items()))
        return ", ".join(some)


def find_edits(
    message: str, rules: Mapping[str, Fault], received: datetime | None
) -> Iterator[tuple[str, Leaf, str]]:
    """What is to be changed of texts in a message: the fault, where it is, and the text in its place."""
    if TEXT_VALUE not in rules and NO_OFFSET not in rules:
        return
    of_zone = rules[NO_OFFSET].zone if NO_OFFSET in rules else None
    for leaf in find_leaves(message, 0):
        # The payload is the last element of the call.
        path, value = leaf.path[1:], leaf.value
        if not isinstance(value, str):
            continue
        if TEXT_VALUE in rules and path == VALUE and NUMBER.fullmatch(value):
            yield TEXT_VALUE, leaf, value
        if of_zone and path in TIMES and (end := find_offset(value, of_zone, received)):
            yield NO_OFFSET, leaf, f'{message[leaf.start : leaf.end - 1]}{end}"'


def list_counted(payload: dict[str, Any]) -> Iterator[dict[str, Any]]:
    """The sampled values of registers that count."""
    for value in payload.get("meterValue") or ():
        for sampled in value["sampledValue"]:
            if measurand_of(sampled) in (IMPORT, EXPORT):
                yield sampled


def mend_units(payload: dict[str, Any], _fault: Fault) -> bool:
    """Writes units as the ledger knows them; whether one was written otherwise."""
    is_mended = False
    for sampled in list_counted(payload):
        unit = sampled.get("unitOfMeasure")
        if isinstance(sampled.get("unit"), str) and not (unit or {}).get("unit"):
            unit = (unit or {}) | {"unit": sampled.pop("unit")}
            sampled["unitOfMeasure"] = unit
            is_mended = True
        name = (unit or {}).get("unit")
        if unit is None or not isinstance(name, str) or name in ("Wh", "kWh"):
            continue
        if name in MEGA:
            unit["unit"] = "kWh"
            unit["multiplier"] = Number(int(unit.get("multiplier") or 0) + 3)
        elif name.strip().lower() in UNITS and name[:1] != "m":
            unit["unit"] = UNITS[name.strip().lower()][0]
        else:
            continue
        is_mended = True
    return is_mended


def drop_untimed(payload: dict[str, Any], _fault: Fault) -> bool:
    """Leaves out readings whose time is none from 2000 to 2099; whether there were some."""
    values = payload.get("meterValue") or []
    some = [one for one in values if OUT_OF_RANGE not in (fault_of(one["timestamp"]) or "")]
    if len(some) != len(values):
        payload["meterValue"] = some
    return len(some) != len(values)


def date_by_receipt(payload: dict[str, Any], at: str) -> bool:
    """Gives an event whose time is none from 2000 to 2099 that of its receipt, and all its readings; whether it did."""
    if "timestamp" not in payload or OUT_OF_RANGE not in (fault_of(payload["timestamp"]) or ""):
        return False
    payload["timestamp"] = at
    for value in payload.get("meterValue") or ():
        value["timestamp"] = at
    return True


def raise_negative(payload: dict[str, Any], fault: Fault) -> bool:
    """Takes small negative values as 0; whether there were some."""
    found = [
        sampled
        for sampled in list_counted(payload)
        if isinstance(sampled.get("value"), Number)
        and sampled["value"].startswith("-")
        and -fault.wh * 1_000 <= mwh_of(sampled["value"], sampled.get("unitOfMeasure") or {})
    ]
    for sampled in found:
        sampled["value"] = Number("0")
    return bool(found)


def trim_ids(payload: dict[str, Any], _fault: Fault) -> bool:
    """Takes blanks and braces out of a transaction's id; whether it had some."""
    info = payload.get("transactionInfo")
    if info is None:
        return False
    had = info["transactionId"]
    info["transactionId"] = re.sub(r"[\s{}]", "", had)
    return bool(had != info["transactionId"])


def map_evse(payload: dict[str, Any], fault: Fault) -> bool:
    """Takes EVSE 0 as none, and numbers above 64 as those that they mean; whether it was one of these."""
    for holder, name in ((payload.get("evse"), "id"), (payload, "evseId")):
        if not isinstance(holder, dict) or not isinstance(holder.get(name), Number):
            continue
        number = int(holder[name])
        if number == 0 and name == "id":
            del payload["evse"]
            return True
        meant = dict(fault.evses).get(number)
        if meant is not None:
            holder[name] = Number(meant)
            return True
    return False


CHANGES: dict[str, Callable[[dict[str, Any], Fault], bool]] = {
    UNIT: mend_units,
    LISTED_TIME: drop_untimed,
    NEGATIVE: raise_negative,
    IDS: trim_ids,
    EVSE: map_evse,
}


def part_readings(payload: dict[str, Any]) -> list[dict[str, Any]]:
    """An Ended event with more readings than a message may have as several events: its number and those behind it, the
    last of them the end. Any other message as it is."""
    count = sum(1 for _ in list_counted(payload))
    if count <= MOST_READINGS or payload.get("eventType") != "Ended":
        return [payload]
    pieces = part_values(payload["meterValue"])
    first = int(payload["seqNo"])
    found = []
    for place, piece in enumerate(pieces):
        kind = "Ended" if place == len(pieces) - 1 else "Updated"
        number = Number(first + place)
        found.append(payload | {"eventType": kind, "seqNo": number, "meterValue": piece})
    return found


def part_values(values: Iterable[dict[str, Any]]) -> list[list[dict[str, Any]]]:
    """Meter values in pieces, each with at most as many readings as a message may have."""
    pieces, size = [list[dict[str, Any]]()], 0
    for value in values:
        own: dict[str, Any] | None = None
        for sampled in value["sampledValue"]:
            is_counted = measurand_of(sampled) in (IMPORT, EXPORT)
            if is_counted and size == MOST_READINGS:
                pieces.append([])
                own, size = None, 0
            if own is None:
                own = value | {"sampledValue": []}
                pieces[-1].append(own)
            own["sampledValue"].append(sampled)
            size += is_counted
    return pieces


def write_comment(faults: Iterable[str], station: str, message: str) -> bytes:
    """The line of a script that has a message as it came."""
    text = message.replace("\n", " ").replace("\r", " ")
    return COMMENT + f"{','.join(faults)} {station} {text}\n".encode("utf-8", "replace")


def add_mending(parser: argparse.ArgumentParser) -> None:
    """The option that declares which faults are mended."""
    faults = "; ".join(f"{fault}, {about}" for fault, about in ABOUT.items())
    parser.add_argument(
        "--mend",
        type=read_mend,
        action="append",
        default=[],
        metavar="SITE=FAULT",
        help=f"mend a fault of a site's stations: {faults}. Each mended message is counted and listed, and the script "
        "has it as it came in a comment (nothing is mended by default)",
    )
