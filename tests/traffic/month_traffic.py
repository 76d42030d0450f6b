"""A month of a CSMS's log, as `ocpp-board traffic N month` writes it: sessions as they are, some of them with troubles.

The same N gives the same log. Each third station reads its meter every ten minutes from the start of a session on, and
the others at the quarters of an hour.
"""

import json
from collections.abc import Iterator
from datetime import datetime, timedelta, timezone
from random import Random
from typing import Any, NamedTuple
from zoneinfo import ZoneInfo

from ocpp_board.limits import MOMENT

ZONE = ZoneInfo("Europe/Berlin")
FIRST, DAYS = datetime(2026, 3, 1, tzinfo=ZONE), 31
SITES = ("harbour", "mill")
# The greatest powers of stations in kW, in turn, and the hours of the day at which sessions begin, with how often.
POWERS = (11, 22, 50, 150)
HOURS = (0, 0, 0, 0, 0, 1, 3, 6, 6, 4, 4, 4, 5, 4, 4, 5, 7, 8, 7, 5, 3, 2, 1, 1)
QUARTER, TEN = timedelta(minutes=15), timedelta(minutes=10)
Payload = dict[str, Any]


class Station(NamedTuple):
    """A station: its place among all, from 0 on, its site, its name and its power in kW."""

    number: int
    site: str
    name: str
    kw: int


class Row(NamedTuple):
    """A line of the log: when it was received, its station, and the message."""

    at: datetime
    station: Station
    action: str
    payload: Payload

    def line(self, number: int) -> str:
        """The line as JSON."""
        text = json.dumps([2, str(number), self.action, self.payload], separators=(",", ":"))
        entry = {
            "site": self.station.site,
            "station": self.station.name,
            "time": utc(self.at),
            "message": text,
        }
        return json.dumps(entry, separators=(",", ":"))


def utc(at: datetime) -> str:
    """A moment as messages have it."""
    return at.astimezone(timezone.utc).strftime(MOMENT)


def stations(count: int) -> list[Station]:
    """So many stations, of one site in turn with the other."""
    return [
        Station(n, SITES[n % 2], f"{SITES[n % 2][0].upper()}{1 + n // 2:02}", POWERS[n // 2 % 4])
        for n in range(count)
    ]


class Month:
    """The sessions of a station: what its register reads, and how many there were."""

    def __init__(self, station: Station) -> None:
        self.station, self.draw = station, Random(station.number)
        self.register, self.count = 1_000 * (station.number + 1), 0

    def rows(self) -> Iterator[Row]:
        """Its lines, in the order in which they were received but for those that came late."""
        for day in range(DAYS):
            free = FIRST + timedelta(days=day)
            yield Row(
                free + timedelta(minutes=self.station.number % 50), self.station, "Heartbeat", {}
            )
            begins = sorted(
                self.draw.choices(range(24), HOURS, k=self.draw.choice((0, 1, 2, 2, 3)))
            )
            for hour in begins:
                begin = FIRST + timedelta(days=day, hours=hour, minutes=self.draw.randrange(60))
                if begin < free:
                    continue
                rows = self.troubled(self.session(begin))
                yield from rows
                free = begin + timedelta(hours=6)

    def session(self, begin: datetime) -> list[Row]:
        """A session of twenty minutes to four hours."""
        self.count += 1
        step = TEN if self.station.number % 3 == 0 else QUARTER
        end = begin + timedelta(minutes=self.draw.randrange(20, 240))
        quarter = begin - timedelta(minutes=begin.minute % 15) + QUARTER
        first = begin + step if step is TEN else quarter
        moments = [begin, *(first + n * step for n in range(24) if first + n * step < end), end]
        power = self.station.kw * self.draw.uniform(0.4, 0.95)
        rows, before = list[Row](), begin
        for number, at in enumerate(moments):
            self.register += round(power * 1_000 * (at - before).total_seconds() / 3_600)
            kind = (
                "Started" if number == 0 else "Ended" if number == len(moments) - 1 else "Updated"
            )
            rows.append(self.event(number, kind, at))
            before = at
        return rows

    def event(self, number: int, kind: str, at: datetime) -> Row:
        """An event with a reading."""
        info: Payload = {"transactionId": f"{self.station.name}-{self.count:04}"}
        if kind == "Ended":
            info["stoppedReason"] = self.draw.choice(("EVDisconnected", "Local", "Remote"))
        value = {"timestamp": utc(at), "sampledValue": [{"value": self.register}]}
        payload = {
            "eventType": kind,
            "timestamp": utc(at),
            "triggerReason": "MeterValueClock",
            "seqNo": number,
            "transactionInfo": info,
            "evse": {"id": 1},
            "meterValue": [value],
        }
        return Row(at + timedelta(seconds=2), self.station, "TransactionEvent", payload)

    def troubled(self, rows: list[Row]) -> list[Row]:
        """A session with what goes wrong in some of them."""
        place, kind = self.count % 40, self.station.number % 8
        if place == 7 and len(rows) > 5:
            del rows[2 : 2 + self.draw.randrange(1, 3)]
        elif place == 15:
            del rows[-1]
        elif place == 22 and kind == 1:
            # A reading of a megawatt-hour too much, in the middle.
            reading(rows[len(rows) // 2])["value"] += 1_000_000
        elif place == 26 and kind == 2:
            # The meter is exchanged behind this session.
            self.register = 0
        elif place == 30 and kind == 3:
            for row in rows:
                row.payload["meterValue"] = []
        elif place == 18 and kind == 4:
            rows[1].payload["timestamp"] = utc(rows[0].at - timedelta(minutes=20))
        elif place == 11:
            # Offline: what came late is queued and came after the end.
            late = [row._replace(at=rows[-1].at + timedelta(hours=2)) for row in rows[1:3]]
            for row in late:
                row.payload["offline"] = True
            rows = [rows[0], *rows[3:], *late]
        if kind == 5:
            # This vendor lists all readings again at the end.
            rows[-1].payload["meterValue"] = [v for row in rows for v in row.payload["meterValue"]]
        return rows


def reading(row: Row) -> Payload:
    """The reading of an event."""
    found: Payload = row.payload["meterValue"][0]["sampledValue"][0]
    return found


def log(count: int) -> Iterator[str]:
    """The lines of the log of so many stations."""
    rows = [row for station in stations(count) for row in Month(station).rows()]
    rows.sort(key=lambda row: row.at)
    yield from (row.line(number) for number, row in enumerate(rows, 1))
