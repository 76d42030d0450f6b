"""What a station may send, where its site has quotas: open transactions, and bytes a day.

What is above is refused by the quota's name, and is a row of `refusal` as any other refused message. What a transaction
may keep is in the site's rules; messages a second are counted by the gateway that reads them.
"""

import json
from collections.abc import Mapping, Sequence
from datetime import datetime, timezone
from typing import NamedTuple

from ocpp_board.records import Message, Quota
from ocpp_board.store.database import Database
from ocpp_board.store.lines import Key

TOO_MANY_OPEN, TOO_MANY_BYTES = "TooManyOpen", "TooManyBytes"
TOO_MANY_MESSAGES, TOO_MANY_STRAYS = "TooManyMessages", "TooManyStrays"
# What a station sends too much of: of its refused texts some are kept each.
FLOODS = frozenset((TOO_MANY_BYTES, TOO_MANY_MESSAGES, TOO_MANY_STRAYS))
# Texts that are kept of a station that no site has.
MOST_STRAYS = 50_000


class Asking(NamedTuple):
    """A message that would be stored: its place in the batch, and its transaction, if it has one."""

    place: int
    message: Message
    key: Key | None


def find_refused(
    store: Database,
    asking: Sequence[Asking],
    sites: Mapping[str, str],
    quotas: Mapping[str, Quota],
) -> dict[int, str]:
    """The places of messages that are above a quota, each with the quota's name; what the others have is counted. The
    database transaction holds the sites of these stations."""
    refused = dict[int, str]()
    stations = {one.message.station for one in asking if sites[one.message.station] in quotas}
    for station in sorted(stations):
        quota, own = quotas[sites[station]], [
            one for one in asking if one.message.station == station
        ]
        if quota.open:
            refused |= refuse_open(store, station, quota.open, own)
        if quota.bytes:
            left = [one for one in own if one.place not in refused]
            refused |= refuse_bytes(store, station, quota.bytes, left)
    return refused


def refuse_open(
    store: Database, station: str, most: int, asking: Sequence[Asking]
) -> dict[int, str]:
    """The messages that begin one more transaction than a station may have open."""
    keys = dict.fromkeys(one.key for one in asking if one.key)
    new = [
        key
        for key in keys
        if not store.fetch_one(
            "select 1 as one from session where station = :station and transaction_id = :transaction and lines > 0",
            station=station,
            transaction=key[1],
        )
    ]
    if not new:
        return {}
    (row,) = store.fetch(
        "select count(*) as n from session where station = :station and ended is null and events > 0",
        station=station,
    )
    above = set(new[max(0, most - row.n) :])
    return {one.place: TOO_MANY_OPEN for one in asking if one.key in above}


def refuse_bytes(
    store: Database, station: str, most: int, asking: Sequence[Asking]
) -> dict[int, str]:
    """The messages with which a station sends more than it may on a day (UTC); the others are counted."""
    day = datetime.now(timezone.utc).date()
    row = store.fetch_one(
        "select bytes from usage where station = :station and day = :day", station=station, day=day
    )
    used, count, refused = row.bytes if row else 0, 0, dict[int, str]()
    before = used
    for one in asking:
        size = len(one.message.text.encode("utf-8", "replace"))
        if used + size > most:
            refused[one.place] = TOO_MANY_BYTES
        else:
            used, count = used + size, count + 1
    if count:
        store.execute(
            """insert into usage (station, day, bytes, messages) values (:station, :day, :bytes, :messages)
            on conflict (station, day) do update set bytes = usage.bytes + excluded.bytes,
                messages = usage.messages + excluded.messages""",
            **{"station": station, "day": day, "bytes": used - before, "messages": count},
        )
    return refused


def find_strays_above(store: Database, texts: Sequence[tuple[str, str]]) -> set[tuple[str, str]]:
    """Those of these texts of stations that no site has, by station and digest, that there is no room for."""
    above = set[tuple[str, str]]()
    for station in sorted({station for station, _ in texts}):
        own = dict.fromkeys(text for text in texts if text[0] == station)
        (row,) = store.fetch(
            """select count(*) as n from (select 1 as one from stray where station = :station limit :most) as had""",
            station=station,
            most=MOST_STRAYS,
        )
        if row.n + len(own) <= MOST_STRAYS:
            continue
        asked = "select digest from stray where station = :station and digest = :digest"
        rows = store.fetch_each(asked, [{"station": station, "digest": key[1]} for key in own])
        new = [key for key, had in zip(own, list(rows)) if not had]
        above.update(new[max(0, MOST_STRAYS - row.n) :])
    return above


def write_reply(text: str, name: str) -> str | None:
    """The reply to a message that a quota refuses, as the program writes those to others; None of one without an id."""
    try:
        number = json.loads(text)[1]
    except (ValueError, RecursionError, IndexError, TypeError, KeyError):
        return None
    return json.dumps([4, number, "InternalError", name, {}], separators=(",", ":"))
