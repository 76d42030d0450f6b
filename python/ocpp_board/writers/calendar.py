"""Days, months and hours of a site's zone."""

import re
from datetime import date, datetime, timedelta, timezone
from functools import lru_cache
from zoneinfo import ZoneInfo

from ocpp_board.messages.times import seconds_of

# How a moment of UTC is written in CSV files.
MOMENT = "%Y-%m-%dT%H:%M:%SZ"
# Moments that are kept with their texts.
KEPT_MOMENTS = 16_384
# The minute and the second of a moment as most messages write it.
STAMP = re.compile(
    r"(20[0-9]{2}-[0-9]{2}-[0-9]{2}T[0-9]{2}:[0-9]{2}):([0-5][0-9])(?:\.[0-9]{1,6})?Z"
)


class Calendar:
    """Moments as the clocks of a zone show them."""

    def __init__(self, zone: str = "UTC") -> None:
        self.name = zone
        self.zone = timezone.utc if zone == "UTC" else ZoneInfo(zone)
        self.is_utc = zone == "UTC"
        self.label = lru_cache(KEPT_MOMENTS)(self.write_label)
        self.times = lru_cache(KEPT_MOMENTS)(self.write_times)
        self.cells = lru_cache(KEPT_MOMENTS)(self.write_cells)
        self.day = lru_cache(KEPT_MOMENTS)(self.find_day)
        self.stamp_minute = lru_cache(KEPT_MOMENTS)(self.write_stamp_minute)
        self.begin = lru_cache(KEPT_MOMENTS)(self.find_begin)
        self.hour = lru_cache(KEPT_MOMENTS)(self.find_hour)

    def local(self, at: datetime) -> datetime:
        """A moment in the zone."""
        return at.astimezone(self.zone)

    def find_day(self, at: datetime) -> date:
        """The day of a moment."""
        return self.local(at).date()

    def find_begin(self, day: date) -> datetime:
        """The first moment of a day, in UTC."""
        return datetime(day.year, day.month, day.day, tzinfo=self.zone).astimezone(timezone.utc)

    def find_hour(self, at: datetime) -> datetime:
        """When the hour of the day began that a moment is in."""
        local = self.local(at)
        return at - timedelta(
            minutes=local.minute, seconds=local.second, microseconds=local.microsecond
        )

    def end(self, day: date) -> datetime:
        """The first moment of the day after, in UTC."""
        return self.begin(day + timedelta(days=1))

    def seconds(self, day: date) -> float:
        """How long a day is: 23, 24 or 25 hours, in seconds."""
        return (self.end(day) - self.begin(day)).total_seconds()

    def time(self, at: datetime) -> str:
        """The hour and the minute of a moment."""
        return f"{self.local(at):%H:%M}"

    def minute(self, at: datetime) -> str:
        """The day and the time of a moment, to the minute."""
        return str(self.local(at))[:16]

    def second(self, at: datetime) -> str:
        """The day and the time of a moment, to the second."""
        return str(self.local(at))[:19]

    def write_stamp(self, text: str) -> str | None:
        """The same of a moment as a message writes it; None where the text is none."""
        if found := STAMP.fullmatch(text):
            minute = self.stamp_minute(found[1])
            return minute and f"{minute}:{found[2]}"
        seconds = seconds_of(text)
        if seconds is None:
            return None
        return self.second(datetime.fromtimestamp(seconds, timezone.utc))

    def write_stamp_minute(self, text: str) -> str | None:
        """The day and the time of a minute of UTC; None where the text is none."""
        seconds = seconds_of(f"{text}:00Z")
        if seconds is None:
            return None
        return self.minute(datetime.fromtimestamp(seconds, timezone.utc))

    def write_label(self, at: datetime) -> str:
        """The hour and the minute of a moment. In an hour that comes twice they are 2A:15 and later 2B:15."""
        local = self.local(at)
        if local.replace(fold=0).utcoffset() == local.replace(fold=1).utcoffset():
            return f"{local:%H:%M}"
        # In an hour that is left out the two differ as well, and the local time has no moment.
        return f"{local.hour}{'AB'[local.fold]}:{local:%M}"

    def write_times(self, start: datetime, seconds: int) -> str:
        """From when to when a period is; the end of a day is 24:00."""
        end = self.label(start + timedelta(seconds=seconds))
        return f"{self.label(start)}\N{EN DASH}{'24:00' if end == '00:00' else end}"

    def write_cells(self, at: datetime) -> list[str]:
        """A moment of UTC, and the same in the zone where that is another, for a CSV file."""
        local = [] if self.is_utc else [self.local(at).isoformat(timespec="seconds")]
        return [at.strftime(MOMENT), *local]

    def say(self) -> str:
        """Which zone it is, as a sentence."""
        return "Times are UTC" if self.is_utc else f"Times are those of {self.name}"


@lru_cache
def find_calendar(zone: str) -> Calendar:
    """The calendar of a zone."""
    return Calendar(zone)


def next_month(month: date) -> date:
    """The first day of the month after."""
    return (month.replace(day=1) + timedelta(days=32)).replace(day=1)
