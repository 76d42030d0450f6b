"""Messages in batches: what comes while one batch is settled is the next one.

A station's messages always go to the same lane. Each lane has a process of its own that settles one batch at a time, so
batches of different lanes name different stations and wait for nothing of one another. An idle lane settles a message
at once. A batch that failed is settled again: what it had stored already is a repeat then, with the same replies.
"""

import asyncio
import logging
import pickle
import struct
import time
import zlib
from collections import Counter, deque
from collections.abc import Mapping, Sequence
from dataclasses import dataclass, field
from datetime import datetime, timezone
from enum import Enum
from typing import Any, NamedTuple

from ocpp_board.processes import MODULE, environment
from ocpp_board.records import Message

log = logging.getLogger(__name__)

# A batch has so many messages and characters at most.
BATCH, BATCH_SIZE = 250, 4_000_000
# Seconds until a batch that has no answers is given up with its process, and until one that failed is tried again.
BATCH_TIME, AGAIN = 15.0, 0.2
HEAD = struct.Struct("!I")


class TooLate(Exception):
    """A message waits for its reply for too long."""


class Fate(Enum):
    """What became of a batch: answered, the store is away, something is wrong with one of its messages, or there was no
    answer in time."""

    ANSWERED, AWAY, FAILED, LATE = range(4)


class Settled(NamedTuple):
    """The answers to a batch, or why there are none, the seconds of a processor that it took, and how many messages
    were mended, by fault."""

    fate: Fate
    answers: list[tuple[str, str, str | None]]
    why: str = ""
    processor: float = 0.0
    mended: Mapping[str, int] = {}


class Request(NamedTuple):
    """A message as the settling process gets it."""

    station: str
    text: str
    received: datetime
    origin: str
    # The quota that the message is above, by which it is refused.
    quota: str

    def make_message(self) -> Message:
        """The same, as it is settled."""
        return Message(self.station, self.text, self.received, self.origin, quota=self.quota)


@dataclass(slots=True, eq=False)
class Waiting:
    """A message that waits for its reply, which is nothing where it gets none."""

    request: Request
    reply: "asyncio.Future[str | None]"
    since: float = field(default_factory=time.monotonic)


class Settler:
    """A process that settles batches, begun anew where it ends."""

    def __init__(self, words: Sequence[str]) -> None:
        self.words = words
        self.process: asyncio.subprocess.Process | None = None

    async def settle(self, requests: Sequence[Request]) -> Settled:
        """The answers to these messages."""
        try:
            async with asyncio.timeout(BATCH_TIME):
                return await self.ask(requests)
        except TimeoutError:
            fate, why = Fate.LATE, f"a batch had no answer for {BATCH_TIME:.0f} seconds"
        except (OSError, EOFError) as fault:
            fate, why = Fate.AWAY, f"the settling process ended ({type(fault).__name__})"
        except asyncio.CancelledError:
            self.kill()
            raise
        self.kill()
        return Settled(fate, [], why)

    async def ask(self, requests: Sequence[Request]) -> Settled:
        """Hands a batch to the process, and reads what it answers."""
        if self.process is None:
            self.process = await asyncio.create_subprocess_exec(
                *(*MODULE, "ocpp_board.gateway.settler", *self.words),
                stdin=asyncio.subprocess.PIPE,
                stdout=asyncio.subprocess.PIPE,
                env=environment(),
            )
        read, write = self.process.stdout, self.process.stdin
        assert read and write
        data = pickle.dumps([tuple(one) for one in requests], pickle.HIGHEST_PROTOCOL)
        write.write(HEAD.pack(len(data)) + data)
        await write.drain()
        (size,) = HEAD.unpack(await read.readexactly(HEAD.size))
        found: Any = pickle.loads(await read.readexactly(size))
        return Settled(Fate(found[0]), *found[1:])

    def kill(self) -> None:
        """Ends the process."""
        if self.process and self.process.returncode is None:
            self.process.kill()
        self.process = None


class Lane:
    """The messages of some stations, batch by batch."""

    def __init__(self, lanes: "Lanes", settler: Settler) -> None:
        self.lanes, self.settler = lanes, settler
        self.queue: deque[Waiting] = deque()
        self.filled = asyncio.Event()
        self.is_up, self.last_logged = True, ""
        # How many messages are settled at once.
        self.most = BATCH

    def add(self, one: Waiting) -> None:
        """Takes a message."""
        self.queue.append(one)
        self.filled.set()

    async def run(self) -> None:
        """Settles what comes."""
        while True:
            await self.filled.wait()
            self.filled.clear()
            while batch := self.take_batch():
                await self.settle(batch)

    def take_batch(self) -> list[Waiting]:
        """The next messages that somebody waits for, up to the limits of a batch."""
        batch, size = list[Waiting](), 0
        while self.queue and len(batch) < BATCH and size < BATCH_SIZE:
            one = self.queue.popleft()
            if not one.reply.done():
                batch.append(one)
                size += len(one.request.text)
        return batch

    async def settle(self, batch: list[Waiting]) -> None:
        """Settles a batch until it has answers or nobody waits for them. One that had none in time is settled in
        smaller ones, and one that can't be settled message by message."""
        while batch:
            some = batch[: self.most]
            began = time.monotonic()
            settled = await self.settler.settle([one.request for one in some])
            self.lanes.watch_batch(len(some), time.monotonic() - began, settled)
            self.note(settled.why)
            if settled.fate is Fate.ANSWERED:
                self.answer(some, settled.answers)
                self.most = min(BATCH, 2 * self.most)
                batch = batch[len(some) :]
                continue
            if settled.fate is Fate.AWAY:
                await asyncio.sleep(AGAIN)
            elif settled.fate is Fate.LATE:
                self.most = max(1, len(some) // 4)
            elif len(some) > 1:
                self.most = 1
            else:
                self.lanes.counts["failed"] += 1
                log.error("%s: %s", some[0].request.origin, settled.why)
                batch = batch[1:]  # Its station is sent away once it waited for too long.
            batch = [one for one in batch if not one.reply.done()]

    def note(self, why: str) -> None:
        """Logs that the store is away, or there again, but not the same twice in a row."""
        self.is_up = not why
        if why != self.last_logged:
            log.warning("%s", f"{why}; tried again and again" if why else "the store answers again")
        self.last_logged = why

    def answer(self, batch: list[Waiting], answers: list[tuple[str, str, str | None]]) -> None:
        """Gives each message its answer."""
        now = time.monotonic()
        for one, (outcome, name, reply) in zip(batch, answers, strict=True):
            self.lanes.watch_answer(outcome, name, now - one.since)
            if not one.reply.done():
                one.reply.set_result(reply)


class Lanes:
    """All lanes of a gateway."""

    def __init__(self, words: Sequence[str], count: int, patience: float) -> None:
        """`words`: those of the settling processes; `patience`: seconds until a message is given up."""
        self.patience = patience
        self.lanes = [Lane(self, Settler(words)) for _ in range(count)]
        self.waiting: set[Waiting] = set()
        # Messages, batches, answers by outcome and refusals by name, and times.
        self.counts = Counter[str]()
        self.outcomes = Counter[str]()
        self.refusals = Counter[str]()
        self.mended = Counter[str]()
        self.waits = Waits()

    @property
    def are_up(self) -> bool:
        """Whether the last batch of each lane had answers."""
        return all(lane.is_up for lane in self.lanes)

    async def ask(self, station: str, text: str, origin: str, quota: str = "") -> str | None:
        """The reply to a station's message, once what it changes is stored; nothing where it gets none. Raises
        TooLate."""
        loop = asyncio.get_running_loop()
        request = Request(station, text, datetime.now(timezone.utc), origin, quota)
        one = Waiting(request, loop.create_future())
        self.waiting.add(one)
        try:
            self.lanes[zlib.crc32(station.encode()) % len(self.lanes)].add(one)
            return await one.reply
        finally:
            self.waiting.discard(one)

    async def give_up(self) -> None:
        """Gives up messages that wait for too long."""
        while True:
            await asyncio.sleep(0.5)
            latest = time.monotonic() - self.patience
            for one in list(self.waiting):
                if one.since < latest and not one.reply.done():
                    self.counts["given_up"] += 1
                    one.reply.set_exception(TooLate())

    def watch_batch(self, messages: int, seconds: float, settled: Settled) -> None:
        """Counts a batch."""
        self.counts["batches"] += 1
        self.counts["batches_failed"] += settled.fate is not Fate.ANSWERED
        self.waits.batches += seconds
        self.waits.processor += settled.processor
        self.mended.update(settled.mended)

    def watch_answer(self, outcome: str, name: str, seconds: float) -> None:
        """Counts an answer."""
        self.counts["messages"] += 1
        self.outcomes[outcome] += 1
        if outcome in ("refused", "fault"):
            self.refusals[name] += 1
        self.waits.add(seconds)

    async def run(self) -> None:
        """Settles what comes, and gives up what waits for too long."""
        try:
            async with asyncio.TaskGroup() as jobs:
                for lane in self.lanes:
                    jobs.create_task(lane.run())
                jobs.create_task(self.give_up())
        finally:
            for lane in self.lanes:
                lane.settler.kill()


class Waits:
    """Seconds that messages waited for their answers, as a histogram has them."""

    BOUNDS = (0.005, 0.01, 0.015, 0.025, 0.05, 0.1, 0.25, 0.5, 1.0, 2.5, 5.0, 10.0, 25.0)

    def __init__(self) -> None:
        self.buckets = [0] * (len(self.BOUNDS) + 1)
        self.sum = self.batches = self.processor = 0.0

    def add(self, seconds: float) -> None:
        """Counts a wait."""
        self.sum += seconds
        place = 0
        for bound in self.BOUNDS:
            if seconds <= bound:
                break
            place += 1
        self.buckets[place] += 1
