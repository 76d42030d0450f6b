"""Plays charging stations against gateways, and measures what they wait for.

    tests/one gateway.load --stations 1000 --events 48 --rounds 2 ws://127.0.0.1:9100/ocpp ws://127.0.0.1:9101/ocpp

Station k is L-k. It sends transactions of so many events, the next message after the reply to the last one, and with
--rate when it is due. Where its connection ends it connects to the next gateway and sends again. A message's wait is
from when it was first sent to its reply, whatever happened in between. Frames are written by hand, so that the
generator costs little beside what it measures. The status is 1 where a reply was not that of an event that is taken.
"""

import argparse
import asyncio
import os
import random
import sys
import time
from asyncio import FIRST_COMPLETED
from dataclasses import dataclass, field
from typing import cast
from urllib.parse import urlsplit

from tests.gateway.client import BEGIN, PASSWORD, make_event, make_login

# Seconds until a station that got no reply connects anew, and until one that lost its connection does so.
PATIENCE, PAUSE = 60.0, 0.1
HANDSHAKE = (
    "GET {path}/{station} HTTP/1.1\r\nHost: a\r\nUpgrade: websocket\r\nConnection: Upgrade\r\n"
    "Sec-WebSocket-Version: 13\r\nSec-WebSocket-Key: AAAAAAAAAAAAAAAAAAAAAA==\r\n"
    "Sec-WebSocket-Protocol: ocpp2.0.1\r\nAuthorization: {login}\r\n\r\n"
)


def make_frame(text: str) -> bytes:
    """A text as a frame of a station, masked by zeros, so that it is sent as it is."""
    data = text.encode()
    size = len(data)
    length = bytes((0x80 | size,)) if size < 126 else bytes((0x80 | 126, *size.to_bytes(2, "big")))
    return b"\x81" + length + b"\0\0\0\0" + data


def make_sent(transaction: str, number: int, of: int, start: int) -> tuple[bytes, bytes]:
    """An event as a frame, and the front of its reply."""
    frame = make_frame(make_event(transaction, number, of, start))
    return frame, f'[3,"{transaction}-{number}",'.encode()


@dataclass
class Plan:
    """What stations do."""

    urls: list[str]
    stations: int = 100
    first: int = 0
    events: int = 48
    rounds: int = 1
    rate: float = 0.0
    password: str = PASSWORD
    seconds: float = 0.0
    start: int = 0
    # Whether all are connected before the first one sends.
    together: bool = False


@dataclass
class Seen:
    """What was seen."""

    waits: list[float] = field(default_factory=list)
    moments: list[float] = field(default_factory=list)
    again: int = 0
    # Messages that had no reply for so long that the station ended its connection.
    late: int = 0
    odd: list[str] = field(default_factory=list)
    connected: float = 0.0
    unanswered: int = 0
    # The longest wait, and whose.
    longest: tuple[float, str] = (0.0, "")

    def rate(self) -> float:
        """Messages a second in the middle of the run."""
        moments = sorted(self.moments)
        middle = moments[len(moments) // 10 : max(len(moments) // 10 + 2, len(moments) * 8 // 10)]
        return len(middle) / max(0.001, middle[-1] - middle[0]) if len(middle) > 1 else 0.0

    def wait(self, part: float) -> float:
        """The wait below which this part of all is, in milliseconds."""
        waits = sorted(self.waits)
        return 1000 * waits[min(len(waits) - 1, int(part * len(waits)))] if waits else 0.0

    def report(self) -> str:
        """All in one line."""
        return (
            f"{len(self.waits)} answered, {self.rate():.0f} a second, median / 99th / longest {self.wait(0.5):.0f} / "
            f"{self.wait(0.99):.0f} / {self.wait(1):.0f} ms, {self.again} sent again, {len(self.odd)} other replies, "
            f"{self.late} without a reply for {PATIENCE:.0f} s, {self.unanswered} unanswered"
        )


class Load:
    """All stations, and what was seen."""

    def __init__(self, plan: Plan) -> None:
        self.plan, self.seen = plan, Seen()
        self.here, self.all_here = 0, asyncio.Event()
        self.began = time.monotonic()
        self.places = asyncio.Semaphore(500)

    def note_here(self) -> None:
        """A station is connected."""
        self.here += 1
        if self.here == self.plan.stations:
            self.seen.connected = time.monotonic() - self.began
            self.all_here.set()

    async def run(self) -> Seen:
        """Plays all stations."""
        stations = [Station(self, self.plan.first + k) for k in range(self.plan.stations)]
        jobs = [asyncio.create_task(one.play()) for one in stations]
        try:
            if self.plan.seconds:
                await asyncio.wait(jobs, timeout=self.plan.seconds)
            else:
                await asyncio.gather(*jobs)
        finally:
            for job in jobs:
                job.cancel()
            await asyncio.gather(*jobs, return_exceptions=True)
            for one in stations:
                if one.transport:
                    one.transport.abort()
        self.seen.unanswered = sum(len(one.rest) for one in stations)
        return self.seen


class Station(asyncio.Protocol):
    """One station: its messages, and its connection of the moment."""

    def __init__(self, load: Load, number: int) -> None:
        plan = load.plan
        self.load, self.name, self.turn = load, f"L-{number}", number
        # The last transaction ends about now, so that no clock is far from the time of receipt for long.
        first = int(time.time() - BEGIN.timestamp()) - 60 * plan.events * plan.rounds
        self.rest = [
            make_sent(
                f"{self.name}.{plan.start}.{one}", k, plan.events, first + 60 * plan.events * one
            )
            for one in range(plan.rounds)
            for k in range(plan.events)
        ]
        self.rest.reverse()
        self.pause = plan.stations / plan.rate if plan.rate else 0.0
        # When the message that waits for its reply was sent first and last; 0 where none does.
        self.first = self.sent = self.due = 0.0
        # What sends the next message once it is due.
        self.timer: asyncio.TimerHandle | None = None
        self.transport: asyncio.Transport | None = None
        self.buffer = bytearray()
        self.is_in = False
        self.entered: asyncio.Future[None] = asyncio.get_running_loop().create_future()
        self.ended: asyncio.Future[None] = asyncio.get_running_loop().create_future()

    async def play(self) -> None:
        """Keeps a connection until all is answered."""
        loop, plan = asyncio.get_running_loop(), self.load.plan
        if self.pause:
            await asyncio.sleep(random.random() * self.pause)
        while self.rest:
            url = urlsplit(plan.urls[self.turn % len(plan.urls)])
            self.turn += 1
            self.entered, self.ended = loop.create_future(), loop.create_future()
            self.buffer.clear()
            self.is_in = False
            try:
                async with self.load.places:
                    host, port = url.hostname or "", url.port or 80
                    await loop.create_connection(lambda: self, host, port)
                    assert self.transport
                    login = make_login(self.name, plan.password)
                    head = HANDSHAKE.format(path=url.path, station=self.name, login=login)
                    self.transport.write(head.encode())
                    await asyncio.wait(
                        [self.entered, self.ended], timeout=PATIENCE, return_when=FIRST_COMPLETED
                    )
                await self.wait_for_end()
            except (OSError, TimeoutError):
                if self.transport:
                    self.transport.abort()
            if self.rest:
                await asyncio.sleep(PAUSE)

    async def wait_for_end(self) -> None:
        """Waits until the connection ends. One whose message has no reply for too long is ended."""
        while not self.ended.done():
            await asyncio.wait([self.ended], timeout=PATIENCE / 4)
            if not self.is_in:
                raise TimeoutError
            if self.sent and self.sent < time.monotonic() - PATIENCE and not self.ended.done():
                self.load.seen.late += 1
                raise TimeoutError

    def connection_made(self, transport: asyncio.BaseTransport) -> None:
        self.transport = cast(asyncio.Transport, transport)

    def connection_lost(self, fault: Exception | None) -> None:
        if not self.ended.done():
            self.ended.set_result(None)

    def data_received(self, data: bytes) -> None:
        self.buffer += data
        if not self.is_in:
            end = self.buffer.find(b"\r\n\r\n")
            if end < 0:
                return
            if not self.buffer.startswith(b"HTTP/1.1 101"):
                assert self.transport
                self.transport.abort()
                return
            del self.buffer[: end + 4]
            self.is_in = True
            self.entered.set_result(None)
            if not self.first:
                self.load.note_here()
            self.begin()
        while len(self.buffer) >= 2:
            size, head = self.buffer[1] & 0x7F, 2
            if size == 126:
                size, head = int.from_bytes(self.buffer[2:4], "big"), 4
            if len(self.buffer) < head + size:
                return
            kind, body = self.buffer[0] & 0x0F, bytes(self.buffer[head : head + size])
            del self.buffer[: head + size]
            if kind == 1:
                self.take(body)
            elif kind == 8:
                assert self.transport
                self.transport.abort()
                return

    def begin(self) -> None:
        """Sends the first message over a connection."""
        loop = asyncio.get_running_loop()
        if self.timer:
            self.timer.cancel()
        if self.first:
            self.load.seen.again += 1
            self.send()
        elif self.load.plan.together:
            loop.create_task(self.begin_together())
        else:
            self.send_next()

    async def begin_together(self) -> None:
        """The same, once all are connected; with a rate, at a drawn moment of the first turn."""
        await self.load.all_here.wait()
        await asyncio.sleep(random.random() * self.pause)
        self.send_next()

    def send_next(self) -> None:
        """Sends the next message once it is due."""
        now = time.monotonic()
        if self.pause:
            self.due = max(self.due + self.pause, now - 60) if self.due else now
            if self.due > now:
                self.timer = asyncio.get_running_loop().call_later(self.due - now, self.send)
                return
        self.send()

    def send(self) -> None:
        """Sends the message that waits for its reply."""
        if self.rest and self.transport and self.is_in:
            self.sent = time.monotonic()
            self.first = self.first or self.sent
            self.transport.write(self.rest[-1][0])

    def take(self, body: bytes) -> None:
        """A reply came."""
        if not self.rest or not self.first:
            return
        now, seen = time.monotonic(), self.load.seen
        seen.waits.append(now - self.first)
        seen.moments.append(now)
        if now - self.first > seen.longest[0]:
            seen.longest = (now - self.first, self.name)
        if not body.startswith(self.rest[-1][1]):
            seen.odd.append(f"{self.name}: {body[:200].decode()}")
        self.first = self.sent = 0.0
        self.rest.pop()
        if self.rest:
            self.send_next()
        else:
            assert self.transport
            self.transport.close()


def main() -> int:
    """Runs the load that the words ask for."""
    parser = argparse.ArgumentParser(
        description=__doc__, formatter_class=argparse.RawDescriptionHelpFormatter
    )
    parser.add_argument("urls", nargs="+", help="gateways, as ws://HOST:PORT/ocpp")
    for name, kind, about in (
        ("stations", int, "how many stations"),
        ("first", int, "the number of the first one"),
        ("events", int, "events of a transaction"),
        ("rounds", int, "transactions of a station"),
        ("rate", float, "messages a second of all (default: as fast as they are answered)"),
        ("seconds", float, "end after so many seconds"),
        ("start", int, "a number in the names of transactions"),
    ):
        parser.add_argument(f"--{name}", type=kind, default=getattr(Plan, name), help=about)
    parser.add_argument("--together", action="store_true", help="send once all are connected")
    words = parser.parse_args()
    plan = Plan(**vars(words))

    async def play() -> Seen:
        return await Load(plan).run()

    try:
        import uvloop

        uvloop.install()
    except ImportError:
        pass
    seen = asyncio.run(play())
    own = os.times()
    print(f"{plan.stations} connected in {seen.connected:.2f} s")
    print(seen.report())
    print(f"the generator took {own.user + own.system:.1f} s of a processor")
    for line in seen.odd[:5]:
        print(line)
    return 1 if seen.odd else 0


if __name__ == "__main__":
    sys.exit(main())
