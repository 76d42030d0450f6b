"""Sessions of stations that list readings again at the end, as `ocpp-board traffic N repeats` writes them."""

import json
from collections.abc import Iterator
from datetime import datetime, timedelta, timezone
from functools import lru_cache
from typing import Any, NamedTuple

from ocpp_board.limits import MOMENT

SITE = "north"
# Sessions of a station, of the 1,024 transactions that it may have without a line `limits`.
MOST_SESSIONS = 1_000
FIRST = datetime(2026, 3, 1, 8, tzinfo=timezone.utc)
# Events of a session, from one to the next, and from one session to the next. The second event of a session is in the
# quarter of an hour in which it begins, so that a first reading that is listed again brings no period more.
EVENTS, STEP, PAUSE = 6, timedelta(minutes=5), timedelta(hours=3)
# What a register reads first, and rises by from event to event at least and at most, in Wh.
START, LEAST, MOST = 1_000, 150, 400
IMPORT, EXPORT = "Energy.Active.Import.Register", "Energy.Active.Export.Register"

Payload = dict[str, Any]


class Kind(NamedTuple):
    """A station: its name, when its sessions begin after the others', what it lists again, and its registers."""

    name: str
    after: timedelta
    # How many events of a session, from the first on, have readings that its end lists again.
    again: int
    measurands: tuple[str, ...] = (IMPORT,)


STATIONS = (
    Kind("all", timedelta(minutes=0), EVENTS - 1),
    Kind("begin", timedelta(minutes=4), 1),
    Kind("both-registers", timedelta(minutes=7), EVENTS - 1, (IMPORT, EXPORT)),
    Kind("none", timedelta(minutes=9), 0),
)


@lru_cache(None)
def level(kind: Kind, session: int, number: int, measurand: str) -> int:
    """What a register reads at an event of a session: it rises from event to event by this and that, and goes on in the
    next session."""
    before = START if session == 0 else level(kind, session - 1, EVENTS - 1, measurand)
    own = 37 * session + 11 * len(kind.name) + (71 if measurand == EXPORT else 0)
    rises = (LEAST + (own + 53 * n) % (MOST - LEAST) for n in range(number))
    return before + sum(rises)


def meter_value(kind: Kind, session: int, number: int, at: datetime) -> Payload:
    """What a station reads at an event of a session."""
    last = EVENTS - 1
    context = {0: "Transaction.Begin", last: "Transaction.End"}.get(number, "Sample.Periodic")
    values = [
        {"value": level(kind, session, number, one), "context": context, "measurand": one}
        for one in kind.measurands
    ]
    return {"timestamp": at.strftime(MOMENT), "sampledValue": values}


def payload(kind: Kind, session: int, number: int, is_again: bool) -> Payload:
    """An event of a session; the end lists again what its station lists."""
    begin = FIRST + session * PAUSE + kind.after
    last = EVENTS - 1
    again = range(kind.again if is_again and number == last else 0)
    return {
        "eventType": {0: "Started", last: "Ended"}.get(number, "Updated"),
        "timestamp": (begin + number * STEP).strftime(MOMENT),
        "triggerReason": "MeterValuePeriodic",
        "seqNo": number,
        "transactionInfo": {"transactionId": f"T{session + 1}"},
        "evse": {"id": 1},
        "meterValue": [meter_value(kind, session, n, begin + n * STEP) for n in (*again, number)],
    }


def script(count: int, is_again: bool) -> Iterator[str]:
    """The lines of a script of so many sessions of each station. `is_again`: their ends list readings again, and these
    are taken by moment."""
    yield from (f"station {SITE} {kind.name}" for kind in STATIONS)
    if is_again:
        yield f"order {SITE} moment"
    for session in range(count):
        for number in range(EVENTS):
            for kind in STATIONS:
                text = [
                    2,
                    f"{session + 1}-{number}",
                    "TransactionEvent",
                    payload(kind, session, number, is_again),
                ]
                yield f"msg {kind.name} {json.dumps(text, separators=(',', ':'))}"
    yield f"board {SITE}"
