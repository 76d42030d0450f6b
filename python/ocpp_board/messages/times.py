"""The one reader of a message's times. It takes what the program takes, and refuses what the program refuses.

A time is an instant with an offset from UTC, from 2000-01-01T00:00:00Z on and before 2100-01-01T00:00:00Z. The program
reads it by `jiff` as a Timestamp: RFC 3339, also with a blank in place of `T`, with small letters, in the basic form
(20260301T100000Z), with hours only, with a comma before the fraction, with seconds in the offset, and with annotations
of RFC 9557 behind it. Second 60 is 59. Moments are whole nanoseconds since 1970.
"""

import re
from datetime import date, datetime, timedelta, timezone
from functools import lru_cache
from typing import NamedTuple

from ocpp_board.limits import FIRST_MOMENT, PAST_MOMENTS

# Why a text is no time of a message.
NO_TIME, NO_OFFSET = "is no time", "has no offset from UTC, such as Z"
OUT_OF_RANGE = "is not from 2000 to 2099"
# How many texts have their moments kept, since an event and its readings often have the same.
KEPT = 1_024
SECOND = 1_000_000_000
# The longest offset, 25:59:59.
MOST_OFFSET = 93_599
EPOCH = date(1970, 1, 1).toordinal()
# The first moment of all, and the first one after all.
FIRST, PAST = (int(one.timestamp()) * SECOND for one in (FIRST_MOMENT, PAST_MOMENTS))
FRACTION = r"(?:[.,]([0-9]{1,9}))?"
# A year has four digits, or six with a sign.
DATE = r"([+-][0-9]{2})?([0-9]{4})(?:-([0-9]{2})-([0-9]{2})|([0-9]{2})([0-9]{2}))"
# With colons, or without.
TIME = rf"([0-9]{{2}})(?::([0-9]{{2}})(?::([0-9]{{2}}){FRACTION})?|([0-9]{{2}})(?:([0-9]{{2}}){FRACTION})?)?"
OFFSET = (
    r"([Zz])|([+-])([0-9]{2})"
    rf"(?::([0-9]{{2}})(?::([0-9]{{2}}){FRACTION})?|([0-9]{{2}})(?:([0-9]{{2}}){FRACTION})?)?"
)
# A time zone by its name or by its offset, then further words; none of these may be marked as critical.
NAME = r"[_.A-Za-z][_.+\-0-9A-Za-z]*"
ZONE = rf"\[!?(?:[+-](?:[01][0-9]|2[0-5])(?::?[0-5][0-9])?|{NAME}(?:/{NAME})*)\]"
KEY = r"\[[_a-z][_\-0-9a-z]*=[0-9A-Za-z]+(?:-[0-9A-Za-z]+)*\]"
SHAPE = re.compile(f"{DATE}[ Tt]{TIME}({OFFSET})?((?:{ZONE})?(?:{KEY})*)")


class TimeFault(ValueError):
    """Why a text is no time of a message: NO_TIME, NO_OFFSET or OUT_OF_RANGE."""


class Clock(NamedTuple):
    """What a text writes: the nanoseconds since 1970 on a clock that shows it, its offset in seconds, if it has one,
    and whether annotations follow."""

    nanoseconds: int
    offset: int | None
    is_annotated: bool


def number(*texts: str | None) -> int:
    """The number that the first of these texts that is there writes; 0 if none is."""
    return int(next((text for text in texts if text), 0))


def fraction(*texts: str | None) -> int:
    """The nanoseconds of the digits behind a point."""
    return int(next((text for text in texts if text), "").ljust(9, "0"))


def limited(value: int, most: int) -> int:
    """The value, if it is no more than this. Raises TimeFault."""
    if value > most:
        raise TimeFault(NO_TIME)
    return value


def clock_of(text: str) -> Clock:
    """What a text writes. Raises TimeFault."""
    found = SHAPE.fullmatch(text)
    if found is None:
        # A date has no offset either.
        raise TimeFault(NO_OFFSET if re.fullmatch(DATE, text) else NO_TIME)
    part = found.groups()
    if part[0] not in (None, "+00"):
        # A year that the calendar has, but no moment.
        raise TimeFault(OUT_OF_RANGE)
    try:
        day = date(int(part[1]), number(part[2], part[4]), number(part[3], part[5])).toordinal()
    except ValueError:
        raise TimeFault(OUT_OF_RANGE if part[1] == "0000" else NO_TIME) from None
    second = min(limited(number(part[8], part[11]), 60), 59)
    minute = limited(number(part[7], part[10]), 59) * 60
    seconds = (day - EPOCH) * 86_400 + limited(int(part[6]), 23) * 3_600 + minute + second
    nanoseconds = seconds * SECOND + fraction(part[9], part[12])
    return Clock(nanoseconds, offset_of(part[13:]) if part[13] else None, bool(part[-1]))


def offset_of(part: tuple[str | None, ...]) -> int:
    """The seconds of an offset that has these parts. Raises TimeFault."""
    if part[1]:
        return 0
    minute = limited(number(part[4], part[7]), 59) * 60
    second = limited(number(part[5], part[8]), 59) + (fraction(part[6], part[9]) >= SECOND // 2)
    seconds = limited(number(part[3]), 25) * 3_600 + minute + second
    return -limited(seconds, MOST_OFFSET) if part[2] == "-" else limited(seconds, MOST_OFFSET)


@lru_cache(KEPT)
def nanoseconds_of(text: str) -> int:
    """The moment that a text names, in nanoseconds since 1970. Raises TimeFault."""
    clock = clock_of(text)
    if clock.offset is None:
        raise TimeFault(NO_OFFSET)
    moment = clock.nanoseconds - clock.offset * SECOND
    if not FIRST <= moment < PAST:
        raise TimeFault(OUT_OF_RANGE)
    return moment


def seconds_of(text: str) -> float | None:
    """The same in seconds; None if the text is no time of a message."""
    try:
        return nanoseconds_of(text) / SECOND
    except TimeFault:
        return None


def moment_of(text: str) -> datetime:
    """The same in UTC, down to whole microseconds. Raises TimeFault."""
    micros = nanoseconds_of(text) // 1_000
    return datetime(1970, 1, 1, tzinfo=timezone.utc) + timedelta(microseconds=micros)


def local_of(text: str) -> datetime | None:
    """What the clock shows in a text that is a time but for its offset; None if it is no such text."""
    try:
        clock = clock_of(text)
    except TimeFault:
        return None
    if clock.offset is not None or clock.is_annotated:
        return None
    return datetime(1970, 1, 1) + timedelta(microseconds=clock.nanoseconds // 1_000)


def fault_of(text: str) -> str | None:
    """Why a text is no time of a message; None if it is one."""
    try:
        nanoseconds_of(text)
    except TimeFault as fault:
        return str(fault)
    return None
