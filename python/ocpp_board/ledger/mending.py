"""Mends what stations send as the plan of their sites declares, before it is settled, whatever it came by."""

import argparse
import time
from collections import Counter
from collections.abc import Iterable, Sequence
from typing import NamedTuple

from ocpp_board.errors import InputError
from ocpp_board.limits import MOMENT
from ocpp_board.messages.mend import Fault, Mender, read_fault
from ocpp_board.records import Answer, Asked, Message
from ocpp_board.store.database import Database
from ocpp_board.store.lines import Warm, find_sites
from ocpp_board.store.plan import Author, note_change

MENDS = "select site, mends from site where mends <> ''"
BEGAN = """
select began from session where station = :station and transaction_id = :transaction_id
"""
# Seconds for which a process that settles again and again keeps what is mended.
SECONDS_KEPT = 1.0
# What an answer to a mended message counts as, beside its outcome.
MENDED = "mended "


Mends = dict[str, dict[str, Fault]]  # By site and name of a fault.


class Put(NamedTuple):
    """What is settled in place of what was asked, and as how many of it each one: as one, where nothing is said."""

    asked: Sequence[Asked]
    counts: Sequence[int] = ()

    def join(self, answers: list[Answer]) -> list[Answer]:
        """The answers to what was asked: of a message in several texts that to the first one that was not taken, or
        else to the last."""
        if not self.counts:
            return answers
        found, place = list[Answer](), 0
        for count in self.counts:
            some = answers[place : place + count]
            lost = [one for one in some if one.outcome not in ("accepted", "repeat")]
            found.append(lost[0] if lost else some[-1])
            place += count
        return found


def make_mender(store: Database, mends: Mends) -> Mender:
    """What mends messages of these sites. When a session began, the store says where no message of it is known."""

    def find_begin(station: str, transaction: str) -> str | None:
        row = store.fetch_one(BEGAN, station=station, transaction_id=transaction.lower())
        return row.began.strftime(MOMENT) if row and row.began else None

    return Mender(mends, find_begin)


def find_mends(store: Database, warm: Warm | None) -> Mends:
    """What is mended in messages, by site. `warm`: has them for a while, since each statement costs as much as a
    message's own rows. Raises StoreError."""
    now = time.monotonic()
    if warm is not None and now < warm.mends_until:
        return warm.mends
    mends = {row.site: dict(map(read_fault, row.mends.split())) for row in store.fetch(MENDS)}
    if warm is not None:
        warm.mends, warm.mends_until = mends, now + SECONDS_KEPT
    return mends


def mend_messages(store: Database, asked: Sequence[Asked], warm: Warm | None = None) -> Put:
    """What is settled in place of what is asked: messages of sites that declare mends are mended. `warm`: what this
    process keeps of the store. Raises StoreError."""
    mends = find_mends(store, warm)
    if not mends:
        return Put(asked)
    stations = sorted({one.station for one in asked if isinstance(one, Message)})
    sites, mender = find_sites(store, stations), make_mender(store, mends)
    found, counts = list[Asked](), list[int]()
    for one in asked:
        some: list[Asked] = [one]
        if isinstance(one, Message) and (site := sites.get(one.station)) in mends:
            some = [*mend_message(mender, site or "", one)]
        found += some
        counts.append(len(some))
    return Put(found, counts)


def mend_message(mender: Mender, site: str, one: Message) -> list[Message]:
    """A message as it is taken, in one text or several."""
    mended = mender.mend(site, one.station, one.text, one.received)
    if not mended.faults:
        return [one]
    mends = ",".join(filter(None, [one.mends, *mended.faults]))
    return [
        one._replace(text=text, mends=mends, came=one.came or one.text) for text in mended.texts
    ]


def note_mends(asked: Sequence[Asked], answers: Sequence[Answer], put: Put) -> None:
    """Notes in answers which faults were mended here."""
    place = 0
    for one, answer, count in zip(asked, answers, put.counts):
        now = put.asked[place]
        if isinstance(one, Message) and isinstance(now, Message) and now.mends != one.mends:
            answer.mends = now.mends.removeprefix(one.mends).lstrip(",")
        place += count


def count_mends(answers: Iterable[Answer]) -> Counter[str]:
    """How many messages were mended, by fault."""
    return Counter(
        f"{MENDED}{fault}" for one in answers if one.mends for fault in one.mends.split(",")
    )


def describe_mends(counts: Counter[str]) -> str:
    """How many messages were mended, for a reader; empty where none was."""
    some = sorted((name, count) for name, count in counts.items() if name.startswith(MENDED))
    return ", ".join(f"{name.removeprefix(MENDED)} {count:,}" for name, count in some)


def write_mends(store: Database, site: str, faults: Sequence[str], author: Author) -> None:
    """Has these faults, and no others, mended in what the stations of a site send. Raises InputError."""
    try:
        named = dict(map(read_fault, faults))
    except argparse.ArgumentTypeError as fault:
        raise InputError(f"plan mend: {fault}") from None
    if len(named) < len(faults):
        raise InputError("plan mend: a fault is named twice")
    with store.transaction():
        row = store.fetch_one("select mends from site where site = :site", site=site)
        if row is None:
            raise InputError(f"plan mend: there is no site {site!r}; add it first")
        after = " ".join(faults)
        store.execute("update site set mends = :mends where site = :site", mends=after, site=site)
        note_change(store, author, "site", site, row.mends, after)
