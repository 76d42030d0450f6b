"""What scripts and messages may have: names, numbers, moments and lengths. These are the limits of the program."""

import re
from datetime import datetime, timezone

# Characters of a name of a site or a station, and of a transaction's id.
NAME = re.compile(r"[A-Za-z0-9*\-_=:+|@.]{1,48}")
TRANSACTION = re.compile(r"[!-~]{1,36}")
GREATEST_SEQ_NO = 2_147_483_647
# Bytes of a line and of a message, without the line feed, and of a whole script.
LONGEST_LINE = 262_400
LONGEST_MESSAGE = 262_144
LONGEST_SCRIPT = 1_073_741_824
# Bytes of a line of a log: room for a message with each byte escaped, and for other fields.
LONGEST_LOG_LINE = 4_194_304
# Sites and stations of a script, and the readings of all its stations together.
MOST_SITES = 16
MOST_STATIONS = 64
MOST_READINGS = 1_048_576
# What a station keeps without a `limits` line, and at most.
DEFAULT_LIMITS = {"transactions": 1_024, "events": 16_384, "readings": 16_384, "changes": 2**63}
DEFAULT_READINGS = DEFAULT_LIMITS["readings"]
GREATEST_LIMITS = {"transactions": 4_096, "events": 65_536, "readings": 65_536, "changes": 2**63}
# Settlement periods in seconds.
PERIODS = (300, 900, 1800, 3600)
# The orders of a site's readings: by the numbers of their events, or by their own moments.
ORDERS = ("sequence", "moment")
# The rules by which a difference counts in settlement periods.
RULES = ("later", "closing", "even")
# Moments of messages are not before the first, and before the second.
FIRST_MOMENT = datetime(2000, 1, 1, tzinfo=timezone.utc)
PAST_MOMENTS = datetime(2100, 1, 1, tzinfo=timezone.utc)
# How a moment is written in scripts and on boards.
MOMENT = "%Y-%m-%dT%H:%M:%SZ"


def is_name(text: str) -> bool:
    """Whether a text may be the name of a site or a station."""
    return NAME.fullmatch(text) is not None


# Hours without a message after which a session that lacks some is silent, where no others are asked for.
SILENT_HOURS = 24
