"""Processes that settle at once in one store, each for its own stations."""

import multiprocessing
from collections import Counter
from collections.abc import Sequence
from concurrent.futures import Future, ProcessPoolExecutor
from concurrent.futures.process import BrokenProcessPool
from multiprocessing.synchronize import Lock
from types import TracebackType
from typing import Any
from zlib import crc32

from ocpp_board.errors import StoreAway
from ocpp_board.ledger.engine import settle
from ocpp_board.ledger.mending import count_mends
from ocpp_board.processes import end_with_parent, leave_interrupts, pause_collector
from ocpp_board.records import Asked, Deed, Message, Untaken
from ocpp_board.store.database import Database, open_store
from ocpp_board.store.lines import Counted

# What is asked goes from process to process as plain tuples, each with the place of its kind.
KINDS: tuple[Any, ...] = (Message, Deed, Untaken)
PLACES = {kind: place for place, kind in enumerate(KINDS)}
# How processes are started.
START = "forkserver"
Packed = list[tuple[int, tuple[Any, ...]]]
Part = tuple[Counter[str], Counted | None]


class Settler:
    """What a process settles with."""

    store: Database
    guard: Lock


def open_settler(name: str, is_durable: bool, guard: Lock) -> None:
    """Opens the store in a process that settles."""
    leave_interrupts()
    end_with_parent()
    Settler.store, Settler.guard = open_store(name, is_durable), guard


def settle_own(packed: Packed, apart: Counted | None) -> Part:
    """Settles what is of the stations of this process, and counts the outcomes. `apart`: gets what else is counted."""
    with pause_collector():
        asked = [KINDS[place]._make(values) for place, values in packed]
        answers = settle(Settler.store, asked, guard=Settler.guard, apart=apart)
        return Counter(one.outcome for one in answers) + count_mends(answers), apart


class Pending:
    """What was asked and is being settled, a part by each process."""

    def __init__(self, parts: "list[Future[Part]]") -> None:
        self.parts = parts
        # What the caller has to write.
        self.counted = Counted()

    def get(self) -> Counter[str]:
        """How many there are of each outcome, once all of it is committed. Raises StoreError and ProgramError; what is
        of other stations may be settled then."""
        found = Counter[str]()
        try:
            for part in self.parts:
                counts, apart = part.result()
                found += counts
                self.counted.add(apart or Counted())
        except BrokenProcessPool:
            raise StoreAway("a process that settles was ended") from None
        return found


class Settlers:
    """Some processes, each with the store open. What is of one station always goes to the same one, in its order."""

    def __init__(self, name: str, processes: int, is_durable: bool = True) -> None:
        context = multiprocessing.get_context(START)
        words = (name, is_durable, context.Lock())
        self.pools = [
            ProcessPoolExecutor(1, context, open_settler, words) for _ in range(processes)
        ]
        self.place_of = dict[str, int]()

    def find_place(self, station: str) -> int:
        """The place of the process that settles what is of a station."""
        place = self.place_of.get(station)
        if place is None:
            place = crc32(station.encode("utf-8", "replace")) % len(self.pools)
            self.place_of[station] = place
        return place

    def submit(self, asked: Sequence[Asked], is_apart: bool = False) -> Pending:
        """Has some of what is asked settled; the next may be submitted before this is. `is_apart`: what is counted is
        for the caller to write. Raises StoreError."""
        parts: list[Packed] = [[] for _ in self.pools]
        for one in asked:
            parts[self.find_place(one.station)].append((PLACES[type(one)], tuple(one)))
        try:
            apart = Counted() if is_apart else None
            some = [(pool, part) for pool, part in zip(self.pools, parts) if part]
            return Pending([pool.submit(settle_own, part, apart) for pool, part in some])
        except BrokenProcessPool:
            raise StoreAway("a process that settles was ended") from None

    def close(self) -> None:
        """Ends the processes, once they have settled what was submitted."""
        for pool in self.pools:
            pool.shutdown()

    def drop(self) -> None:
        """Ends the processes after the batches that they settle; what waits is not settled."""
        for pool in self.pools:
            pool.shutdown(wait=False, cancel_futures=True)

    def __enter__(self) -> "Settlers":
        return self

    def __exit__(
        self,
        kind: type[BaseException] | None,
        fault: BaseException | None,
        trace: TracebackType | None,
    ) -> None:
        if fault is None:
            self.close()
        else:
            self.drop()
