"""What wrong passwords cost who tries them: failures counted by address and name, and hashes taken by turns."""

import asyncio
import ipaddress
from collections import deque
from collections.abc import AsyncIterator, Sequence
from contextlib import asynccontextmanager

# So many failures are free within some time, and each one more costs so many seconds, up to so many at once.
FREE, PAUSE, SLOWEST = 10, 2.0, 10.0
# For how many names and addresses failures are kept.
FAILED = 20_000


def find_address(peer: str, named: Sequence[str], proxies: Sequence[str]) -> str:
    """Where a connection comes from: what a proxy of ours names last, where it comes from one."""
    return named[-1].rpartition(",")[2].strip() if named and peer in proxies else peer


def find_network(address: str) -> str:
    """How failures of an address are counted: for IPv6 by its /64, since one host has all of that."""
    try:
        one = ipaddress.ip_address(address)
    except ValueError:
        return address
    return str(ipaddress.ip_network((one, 64), False)) if one.version == 6 else address


class Tries:
    """Failures by what they are counted by, and for how long each has to wait."""

    def __init__(self) -> None:
        # Until when one waits, and how many failures there were since the last time that all was forgotten.
        self.failed: dict[str, tuple[float, int]] = {}

    def wait(self, key: str, now: float) -> float:
        """For how long the next try waits."""
        due, _ = self.failed.get(key, (now, 0))
        return max(0.0, due - now)

    def are_many(self, key: str, now: float) -> bool:
        """Whether the next failure is slowed down."""
        due, count = self.failed.get(key, (0.0, 0))
        return count >= FREE and due > now - (FREE - 1) * PAUSE

    def fail(self, key: str, now: float) -> int:
        """Counts a failure, and gives how many there are."""
        due, count = self.failed.pop(key, (0.0, 0))
        forgotten = now - (FREE - 1) * PAUSE
        count = count + 1 if due > forgotten else 1
        due = max(due, now if count >= FREE else forgotten) + PAUSE
        self.failed[key] = (min(due, now + SLOWEST), count)
        if len(self.failed) > FAILED:
            del self.failed[next(iter(self.failed))]
        return count


class Places:
    """So many hashes at once. Addresses get a place by turns, so that who asks for many waits for its own ones."""

    def __init__(self, count: int) -> None:
        self.free = count
        self.waiting: dict[str, deque[asyncio.Future[None]]] = {}

    @asynccontextmanager
    async def take(self, address: str) -> AsyncIterator[None]:
        """A place for one of this address."""
        if self.free:
            self.free -= 1
        else:
            place = asyncio.get_running_loop().create_future()
            self.waiting.setdefault(address, deque()).append(place)
            await place
        try:
            yield
        finally:
            self.give_back()

    def give_back(self) -> None:
        """Gives a place to the address that waits longest for its turn."""
        while self.waiting:
            address = next(iter(self.waiting))
            places = self.waiting.pop(address)
            place = places.popleft()
            if places:
                self.waiting[address] = places
            if not place.done():
                place.set_result(None)
                return
        self.free += 1


class Turns:
    """Tries of one name from one address, one after the other."""

    def __init__(self) -> None:
        self.locks: dict[str, tuple[asyncio.Lock, int]] = {}

    @asynccontextmanager
    async def take(self, key: str) -> AsyncIterator[None]:
        """The turn of a try among those of this key."""
        lock, count = self.locks.get(key, (asyncio.Lock(), 0))
        self.locks[key] = (lock, count + 1)
        try:
            async with lock:
                yield
        finally:
            lock, count = self.locks.pop(key)
            if count > 1:
                self.locks[key] = (lock, count - 1)
