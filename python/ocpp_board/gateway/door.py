"""Who comes in: the store's passwords beside what a station comes with, and what strangers cost."""

import asyncio
import hashlib
import hmac
import logging
import secrets
import time
from collections import Counter
from collections.abc import Awaitable, Callable
from concurrent.futures import ThreadPoolExecutor
from enum import Enum
from typing import NamedTuple

from ocpp_board.errors import StoreError
from ocpp_board.gateway.basic import Given
from ocpp_board.passwords import MOST_KEPT, Password, match_password
from ocpp_board.gateway.tries import FREE, Places, Tries, Turns, find_network

log = logging.getLogger(__name__)

# Hashes at once.
THREADS = 2
# How many tries of one address may wait: of one with many failures lately, and of another one, which many stations may
# have that come together.
SLOWED, TOGETHER = 100, 10_000
# While someone is slowed down one failure of so many is logged.
LOGGED = 100


class Verdict(Enum):
    """What becomes of one who asks to come in."""

    RIGHT, WRONG, BUSY, UNSURE = range(4)


class Known(NamedTuple):
    """What the store has of a station: whether the plan has it, its passwords, the newest one first, its site, and the
    messages a second that the site's quota allows."""

    is_planned: bool
    passwords: tuple[Password, ...] = ()
    site: str = ""
    most_rate: int = 0


Find = Callable[[str], Awaitable[Known]]
Note = Callable[[str, Password], Awaitable[bool]]


class Door:
    """Judges what stations come with.

    Failures count against the address that they come from, and against a name only where they come with it from there:
    so whoever comes from elsewhere, or with another name, has no part in them. After many failures the next answer is
    late, and the next try of that name from that address waits for it. Who has the right password waits for no late
    answer but that one.
    """

    def __init__(self, find: Find, note_seen: Note) -> None:
        """`find` looks for a station; `note_seen` notes that it came with a password, and gives whether it still has
        it. Both raise StoreError."""
        self.find, self.note_seen = find, note_seen
        self.tries, self.turns, self.places = Tries(), Turns(), Places(THREADS)
        self.pool = ThreadPoolExecutor(THREADS, "password")
        # How many tries of each address wait.
        self.waiting = Counter[str]()
        # How many answers are delayed at the moment, and how many tries failed.
        self.slowed = self.wrong = 0
        # What was right last, by a key of this process, with the hash of the store that it matched: a station that
        # comes again costs no hash.
        self.key = secrets.token_bytes(32)
        self.right: dict[str, tuple[str, bytes]] = {}

    def digest(self, password: bytes) -> bytes:
        """By what a password is known again."""
        return hashlib.blake2b(password, key=self.key, digest_size=32).digest()

    def hash_in_use(self, station: str) -> str:
        """The store's hash of the password that the station came in with last."""
        return self.right.get(station, ("", b""))[0]

    async def judge(self, station: str, address: str, given: Given) -> Verdict:
        """Whether a station may come in."""
        network = find_network(address)
        is_slowed = self.tries.are_many(f"address {network}", time.monotonic())
        if self.waiting[network] >= (SLOWED if is_slowed else TOGETHER):
            return Verdict.BUSY
        self.waiting[network] += 1
        try:
            known = await self.find(station)
            # All names that have no password count as one.
            pair = f"{station if known.passwords else ''} {network}"
            async with self.turns.take(pair):
                found = await self.match(station, network, given, known)
                if not found:
                    await self.fail(station, network, pair, bool(known.passwords))
                    return Verdict.WRONG
                has_older = len(known.passwords) > 1 and found is known.passwords[0]
                is_news = not found.is_seen or has_older
                if is_news and not await self.note_seen(station, found):
                    return Verdict.UNSURE
            self.right[station] = (found.hash, self.digest(given.password or b""))
            return Verdict.RIGHT
        except StoreError:
            return Verdict.UNSURE
        finally:
            self.waiting[network] -= 1
            if not self.waiting[network]:
                del self.waiting[network]

    async def match(
        self, station: str, network: str, given: Given, known: Known
    ) -> Password | None:
        """Which of the store's passwords this is."""
        own, digest = self.right.get(station, ("", b""))
        if given.password is not None and hmac.compare_digest(digest, self.digest(given.password)):
            for one in known.passwords:
                if one.hash == own:
                    return one
        async with self.places.take(network):
            found = await asyncio.get_running_loop().run_in_executor(
                self.pool, match_password, given.password or b"", known.passwords[:MOST_KEPT]
            )
        return found if given.password is not None else None

    async def fail(self, station: str, network: str, pair: str, has_password: bool) -> None:
        """Counts a failure and logs it, but not each one of many; after many the answer is late."""
        keys = (pair, f"address {network}")
        now = time.monotonic()
        self.wrong += 1
        counts = [self.tries.fail(key, now) for key in keys]
        what = "a wrong password" if has_password else "no password of this name"
        words = (f"station {station}", keys[1], what)
        if max(counts) < FREE:
            log.warning("%s, %s: %s", *words)
        elif counts[1] == FREE or counts[1] % LOGGED == 0:
            log.warning("%s, %s: %s; %s had %d, and is slowed down", *words, keys[1], counts[1])
        wait = max(self.tries.wait(key, now) for key in keys)
        if wait > 0:
            self.slowed += 1
            try:
                await asyncio.sleep(wait)
            finally:
                self.slowed -= 1
