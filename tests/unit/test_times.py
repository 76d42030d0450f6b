"""The times of messages. `tests/one drawn_times` compares drawn ones with the program."""

from datetime import datetime, timezone

import pytest

from ocpp_board.messages.times import (
    NO_OFFSET,
    NO_TIME,
    OUT_OF_RANGE,
    TimeFault,
    fault_of,
    local_of,
    moment_of,
    nanoseconds_of,
    seconds_of,
)

TEN = int(datetime(2026, 3, 1, 10, tzinfo=timezone.utc).timestamp())


@pytest.mark.parametrize(
    ("text", "nanoseconds"),
    [
        ("2026-03-01T10:00:00Z", 0),
        ("2026-03-01t10:00:00z", 0),
        ("2026-03-01 10:00:00Z", 0),
        ("2026-03-01T10:00Z", 0),
        ("2026-03-01T10Z", 0),
        ("20260301T100000Z", 0),
        ("20260301T10Z", 0),
        ("2026-03-01T1000Z", 0),
        ("20260301T10:00:00Z", 0),
        ("+002026-03-01T10:00:00Z", 0),
        ("2026-03-01T09:59:60Z", -1_000_000_000),
        ("2026-03-01T09:59:60.5Z", -500_000_000),
        ("2026-03-01T10:00:00.000000001Z", 1),
        ("2026-03-01T10:00:00,25Z", 250_000_000),
        ("2026-03-01T10:00:00-00:00", 0),
        ("2026-03-01T11:00:00+01", 0),
        ("2026-03-01T11:30:00+0130", 0),
        ("2026-03-01T11:30:15+01:30:15", 0),
        ("2026-03-01T11:30:15+013015", 0),
        ("2026-03-01T11:30:16+01:30:15.5", 0),
        ("2026-03-01T11:30:15+01:30:15,4", 0),
        ("2026-03-02T11:59:59+25:59:59", 0),
        ("2026-02-28T08:00:01-25:59:59", 0),
        ("2026-03-01T11:00:00+01:00[Europe/Berlin]", 0),
        ("2026-03-01T10:00:00Z[!Europe/Berlin][u-ca=iso8601]", 0),
        ("2026-03-01T10:00:00Z[+01:00]", 0),
        ("2026-03-01T10:00:00Z[-2559][_x=a-1]", 0),
        ("2026-03-01T10:00:00Z[u-ca=iso8601][a=b]", 0),
        ("2026-03-01T10:00:00Z[Mars/Olympus_Mons]", 0),
    ],
)
def test_a_time_is_its_moment(text: str, nanoseconds: int) -> None:
    assert nanoseconds_of(text) == TEN * 1_000_000_000 + nanoseconds
    assert seconds_of(text) == TEN + nanoseconds / 1_000_000_000
    assert fault_of(text) is None


@pytest.mark.parametrize(
    ("text", "fault"),
    [
        ("10 o'clock", NO_TIME),
        ("", NO_TIME),
        ("2026-03-01Z", NO_TIME),
        ("2026-0301T10:00:00Z", NO_TIME),
        ("2026-02-29T10:00:00Z", NO_TIME),
        ("2026-13-01T10:00:00Z", NO_TIME),
        ("2026-W09-7T10:00:00Z", NO_TIME),
        ("2026-03-01_10:00:00Z", NO_TIME),
        ("2026-03-01T24:00:00Z", NO_TIME),
        ("2026-03-01T10:60:00Z", NO_TIME),
        ("2026-03-01T10:00:61Z", NO_TIME),
        ("2026-03-01T10:0:00Z", NO_TIME),
        ("2026-03-01T10:0000Z", NO_TIME),
        ("2026-03-01T10:00.5Z", NO_TIME),
        ("2026-03-01T10:00:00.Z", NO_TIME),
        ("2026-03-01T10:00:00.0000000001Z", NO_TIME),
        ("2026-03-01T10:00:00+1", NO_TIME),
        ("2026-03-01T10:00:00+26:00", NO_TIME),
        ("2026-03-01T10:00:00+01:60", NO_TIME),
        ("2026-03-01T10:00:00+25:59:59.5", NO_TIME),
        ("2026-03-01T10:00:00 +01:00", NO_TIME),
        ("2026-03-01T10:00:00Z ", NO_TIME),
        ("2026-03-01T10:00:00Z\n", NO_TIME),
        ("\u0662026-03-01T10:00:00Z", NO_TIME),
        ("2026-03-01T10:00:00Z[", NO_TIME),
        ("2026-03-01T10:00:00Z[]", NO_TIME),
        ("2026-03-01T10:00:00Z[+01:00:00]", NO_TIME),
        ("2026-03-01T10:00:00Z[!u-ca=iso8601]", NO_TIME),
        ("2026-03-01T10:00:00Z[U-ca=iso8601]", NO_TIME),
        ("2026-03-01T10:00:00Z[a=b][Europe/Berlin]", NO_TIME),
        ("2026-03-01T10:00:00", NO_OFFSET),
        ("2026-03-01", NO_OFFSET),
        ("2026-03-01T10:00:00[Europe/Berlin]", NO_OFFSET),
        ("1999-12-31T23:59:59.999999999Z", OUT_OF_RANGE),
        ("2100-01-01T00:00:00Z", OUT_OF_RANGE),
        ("-002026-03-01T10:00:00Z", OUT_OF_RANGE),
        ("+012026-03-01T10:00:00Z", OUT_OF_RANGE),
        ("0000-01-01T10:00:00Z", OUT_OF_RANGE),
    ],
)
def test_another_text_is_no_time(text: str, fault: str) -> None:
    assert fault_of(text) == fault and seconds_of(text) is None
    with pytest.raises(TimeFault, match=fault):
        moment_of(text)


def test_an_offset_counts_for_the_range() -> None:
    assert seconds_of("1999-12-31T23:00:00-01:00") == 946_684_800
    assert fault_of("2000-01-01T00:00:00+00:01") == OUT_OF_RANGE
    assert seconds_of("2100-01-01T00:59:59+01:00") == 4_102_444_799


def test_a_moment_is_in_utc_and_in_microseconds() -> None:
    wanted = datetime(2026, 3, 1, 9, 0, 0, 123_456, tzinfo=timezone.utc)
    assert moment_of("2026-03-01T10:00:00.123456789+01:00") == wanted


def test_a_local_time_has_no_offset() -> None:
    assert local_of("2026-03-01 10:00") == datetime(2026, 3, 1, 10)
    for text in ("2026-03-01T10:00:00Z", "2026-03-01", "2026-03-01T10:00:00[Europe/Berlin]", "x"):
        assert local_of(text) is None
