"""Days and hours of time zones."""

from argparse import ArgumentTypeError
from datetime import date, datetime, timedelta, timezone
from zoneinfo import ZoneInfo

import pytest

from ocpp_board.words import read_zone
from ocpp_board.writers.calendar import Calendar

BERLIN = "Europe/Berlin"


def utc(text: str) -> datetime:
    return datetime.fromisoformat(text).replace(tzinfo=timezone.utc)


@pytest.mark.parametrize(
    ("day", "hours"), [("2026-03-28", 24), ("2026-03-29", 23), ("2026-10-25", 25)]
)
def test_days_of_a_zone_with_summer_time(day: str, hours: int) -> None:
    assert Calendar(BERLIN).seconds(date.fromisoformat(day)) == hours * 3600


def test_a_day_begins_at_the_zones_midnight() -> None:
    calendar = Calendar(BERLIN)
    assert calendar.begin(date(2026, 7, 1)) == utc("2026-06-30T22:00:00")
    assert calendar.day(utc("2026-06-30T22:00:00")) == date(2026, 7, 1)
    assert calendar.day(utc("2026-06-30T21:59:59")) == date(2026, 6, 30)


def test_the_end_of_a_day_is_24_00() -> None:
    assert Calendar().times(utc("2026-03-01T23:45:00"), 900) == "23:45\N{EN DASH}24:00"
    local = Calendar(BERLIN).times(utc("2026-03-01T22:30:00"), 1800)
    assert local == "23:30\N{EN DASH}24:00"


def test_the_hour_that_comes_twice_has_two_offsets() -> None:
    calendar = Calendar(BERLIN)
    first, second = utc("2026-10-25T00:30:00"), utc("2026-10-25T01:30:00")
    assert calendar.time(first) == calendar.time(second) == "02:30"
    assert (calendar.label(first), calendar.label(second)) == ("2A:30", "2B:30")
    assert calendar.cells(first) == ["2026-10-25T00:30:00Z", "2026-10-25T02:30:00+02:00"]
    assert calendar.cells(second)[1] == "2026-10-25T02:30:00+01:00"
    assert Calendar().cells(first) == ["2026-10-25T00:30:00Z"]


def test_what_is_said_of_a_zone() -> None:
    assert Calendar().say() == "Times are UTC"
    assert Calendar(BERLIN).say() == "Times are those of Europe/Berlin"


@pytest.mark.parametrize("name", ["Mars", "", "../etc/passwd", "/etc/passwd", "Europe"])
def test_a_zone_that_is_none(name: str) -> None:
    with pytest.raises(ArgumentTypeError, match="no time zone of this system"):
        read_zone(name)


@pytest.mark.parametrize("zone", ["UTC", "Europe/Berlin", "Asia/Kathmandu", "America/St_Johns"])
def test_moments_to_the_second_are_those_of_the_zone(zone: str) -> None:
    calendar = Calendar(zone)
    first = datetime(2026, 10, 25, 0, 29, 58, tzinfo=timezone.utc)
    for number in range(4):
        for part in (0.0, 0.25, 0.999999):
            at = first + timedelta(seconds=number + part, hours=number)
            shown = f"{at.astimezone(ZoneInfo(zone)):%Y-%m-%d %H:%M:%S}"
            assert calendar.second(at) == shown
            assert calendar.minute(at) == shown[:16]
            for text in (f"{at:%Y-%m-%dT%H:%M:%S.%f}Z", at.isoformat(), f"{at:%Y%m%d %H%M%S}z"):
                assert calendar.write_stamp(text) == shown


@pytest.mark.parametrize("text", ["2026-02-30T10:00:00Z", "2026-03-01T24:00:00Z", "now", ""])
def test_a_stamp_that_is_no_moment(text: str) -> None:
    assert Calendar("UTC").write_stamp(text) is None


def test_a_leap_second_is_the_one_before() -> None:
    assert Calendar("UTC").write_stamp("2026-06-30T23:59:60Z") == "2026-06-30 23:59:59"
