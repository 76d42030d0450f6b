"""What a gateway reads and writes of the plan: stations with their passwords, who serves whom, and changes.

The statements of a gateway run in one thread with a store of its own, one after the other. What many stations ask for
at the same time is one statement.
"""

import asyncio
import logging
from collections.abc import Callable, Sequence
from concurrent.futures import ThreadPoolExecutor
from typing import Any, Generic, NamedTuple, TypeVar

from ocpp_board.errors import StoreError
from ocpp_board.store import stations
from ocpp_board.store.database import Database, open_store
from ocpp_board.store.stations import Change

log = logging.getLogger(__name__)

# Seconds in which stations that come are looked for together, and between looks for changes.
GATHERED, LOOKS = 0.02, 0.4
# Seconds for a statement.
ANSWER = 10.0

Kind = TypeVar("Kind")
Key = TypeVar("Key", str, tuple[str, str])
Found = TypeVar("Found")


class Clerk:
    """A store in a thread of its own."""

    def __init__(self, address: str) -> None:
        self.address = address
        self.store: Database | None = None
        self.thread = ThreadPoolExecutor(1, "clerk")
        self.is_up = False

    async def run(self, job: Callable[..., Kind], *words: Any) -> Kind:
        """What a job gives, which gets the store first. Raises StoreError."""
        loop = asyncio.get_running_loop()
        try:
            async with asyncio.timeout(ANSWER):
                return await asyncio.shield(
                    loop.run_in_executor(self.thread, lambda: self.do(job, *words))
                )
        except TimeoutError:
            self.is_up = False
            raise StoreError(f"the store gave no answer for {ANSWER:.0f} seconds") from None

    def do(self, job: Callable[..., Kind], *words: Any) -> Kind:
        """The same, in its thread."""
        try:
            if self.store is None:
                self.store = open_store(self.address)
            found = job(self.store, *words)
        except StoreError:
            self.is_up = False
            store, self.store = self.store, None
            if store:
                store.close()
            raise
        self.is_up = True
        return found


class Gatherer(Generic[Key, Found]):
    """Asks the store for what several ask for at the same moment, by one job."""

    def __init__(
        self, clerk: Clerk, job: Callable[[Database, Sequence[Key]], dict[Key, Found]]
    ) -> None:
        """`job` gives what it finds of these keys; what it finds nothing of is left out."""
        self.clerk = clerk
        self.job: Callable[[Database, Sequence[Key]], dict[Key, Found]] = job
        self.sought: dict[Key, asyncio.Future[Found | None]] = {}
        self.asked = asyncio.Event()

    async def ask(self, key: Key) -> Found | None:
        """What the store has of this. Raises StoreError."""
        if key not in self.sought:
            self.sought[key] = asyncio.get_running_loop().create_future()
            self.asked.set()
        return await asyncio.shield(self.sought[key])

    async def run(self) -> None:
        """Asks for what was asked since the last time."""
        while True:
            await self.asked.wait()
            await asyncio.sleep(GATHERED)
            self.asked.clear()
            sought, self.sought = self.sought, {}
            try:
                found = await self.clerk.run(self.job, sorted(sought))
            except StoreError as fault:
                for future in sought.values():
                    future.set_exception(StoreError(str(fault)))
                    future.exception()  # Whoever asked may be gone.
                continue
            for key, future in sought.items():
                future.set_result(found.get(key))


class Served(NamedTuple):
    """A connection of a station, as the store has it."""

    station: str
    gateway: str
    number: int


class Lookout:
    """Writes who serves a station, and hears of connections elsewhere and of changes of the plan."""

    def __init__(
        self,
        clerk: Clerk,
        name: str,
        hear_served: Callable[[Served], None],
        hear_change: Callable[[Sequence[Change]], None],
    ) -> None:
        """`name`: the gateway's."""
        self.clerk, self.name = clerk, name
        self.hear_served, self.hear_change = hear_served, hear_change
        # Stations that were let in here, with the numbers of their connections; and what is called once that is stored.
        self.let_in: dict[str, int] = {}
        self.noted: Callable[[str, int], None] = lambda _station, _number: None
        # The changes that the last look had.
        self.heard = set[int]()

    def note_let_in(self, station: str, number: int) -> None:
        """Has the store hear that a station was let in."""
        self.let_in[station] = number

    async def run(self) -> None:
        """Writes and looks, again and again."""
        while True:
            try:
                await self.write()
                await self.look()
            except StoreError as fault:
                log.debug("%s", fault)
            await asyncio.sleep(LOOKS)

    async def write(self) -> None:
        """Writes who was let in."""
        if not self.let_in:
            return
        some, self.let_in = self.let_in, {}
        try:
            await self.clerk.run(stations.write_connections, self.name, sorted(some.items()))
        except StoreError:
            self.let_in = some | self.let_in
            raise
        for station, number in some.items():
            self.noted(station, number)

    async def look(self) -> None:
        """Reads what changed lately."""
        served, changed = await self.clerk.run(stations.look_for_changes, self.name)
        for one in served:
            self.hear_served(Served(*one))
        if news := [one for one in changed if one.number not in self.heard]:
            self.hear_change(news)
        self.heard = {one.number for one in changed}
