"""A gateway: stations' connections, and what answers them."""

import asyncio
import inspect
import logging
import os
import secrets
import signal
import time
from collections import Counter
from collections.abc import Awaitable, Callable, Sequence
from dataclasses import dataclass, field
from typing import Any

from websockets.legacy.server import WebSocketServerProtocol, serve
from websockets.typing import Subprotocol

from ocpp_board.errors import StoreError, UsageError
from ocpp_board.gateway.certificates import Certificates, Files
from ocpp_board.gateway.door import Door, Known
from ocpp_board.gateway.lanes import Lanes
from ocpp_board.gateway.lookouts import Clerk, Gatherer, Lookout, Served
from ocpp_board.gateway.metrics import Repeated, serve_figures
from ocpp_board.gateway.pace import Pace
from ocpp_board.gateway.settler import KEEP_REFUSED
from ocpp_board.limits import SILENT_HOURS
from ocpp_board.passwords import Password
from ocpp_board.gateway.station_socket import (
    HANDSHAKE,
    NORMAL,
    POLICY,
    PROTOCOL_ERROR,
    SILENT,
    StationSocket,
    make_socket,
)
from ocpp_board.store import stations
from ocpp_board.store.stations import Change

log = logging.getLogger(__name__)

PROTOCOL, PILOT = Subprotocol("ocpp2.0.1"), Subprotocol("ocpp2.1")
# Bytes of a message: a longer one ends its connection with close code 1009.
LONGEST = 524_288
# Messages of one connection that are read before the first of them has its reply; OCPP has one.
AHEAD = 4
# Bytes of a connection that are read, and that wait to be written, before it has to wait.
READ, WRITE = 16_384, 65_536
# Seconds between pings to a station, and for its pong.
PING = 300
# Seconds between looks at what the store says of itself.
FIGURES = 30
# Seconds for connections to end in, at the end.
LAST = 5
# Connections that wait to be accepted.
BACKLOG = 4096


@dataclass(frozen=True)
class Options:
    """What the words of the command ask for."""

    store: str
    host: str = "127.0.0.1"
    port: int = 9100
    # Seconds until a message without a reply ends its connection.
    patience: float = 25.0
    # Batches that are settled at once.
    lanes: int = 2
    # Whether each station of the plan is let in without a password.
    open: bool = False
    # Whether a message that conflicts or is above a limit has the answer of an accepted one, once it is on disk.
    keep_refused: bool = False
    # Whether stations may speak OCPP 2.1.
    pilot: bool = False
    proxy: list[str] = field(default_factory=list)
    metrics: tuple[str, int] | None = None
    # Hours after which a session that lacks messages is silent.
    silent: int = SILENT_HOURS


class Gateway:
    """Stations' connections, the lanes that settle what they send, and who is let in."""

    def __init__(self, options: Options, files: Files) -> None:
        self.options = options
        self.name = f"{os.uname().nodename}-{os.getpid()}-{secrets.token_hex(4)}"
        words = [options.store, *([KEEP_REFUSED] if options.keep_refused else [])]
        self.lanes = Lanes(words, options.lanes, options.patience)
        # The subprotocols that there are.
        self.protocols = [PROTOCOL, *([PILOT] if options.pilot else [])]
        self.clerk = Clerk(options.store)
        self.finder = Gatherer(self.clerk, stations.find_stations)
        self.seen = Gatherer(self.clerk, stations.note_seen)
        self.door = Door(self.find, self.note_seen)
        self.certificates = Certificates(files, self.end_revoked)
        self.lookout = Lookout(self.clerk, self.name, self.hear_served, self.hear_changed)
        self.lookout.noted = self.note_stored
        # The connection of each station, and how many there were.
        self.served: dict[str, StationSocket] = {}
        self.let_in = 0
        # What the plan had of stations that came, and what they sent lately.
        self.known: dict[str, Known] = {}
        self.paces: dict[str, Pace] = {}
        self.counts = Counter[str]()
        self.repeated = Repeated()
        # Messages of stations that no site has, and seconds since the last closing of sites.
        self.figures = stations.StoreFigures()
        self.jobs: set[asyncio.Task[Any]] = set()
        self.is_ending = asyncio.Event()
        # When the event loop ran last.
        self.ran = time.monotonic()

    # --- connections -------------------------------------------------------------------------------------------------

    async def serve_station(self, protocol: WebSocketServerProtocol) -> None:
        """Serves a station that was let in, until its connection ends."""
        socket = protocol
        assert isinstance(socket, StationSocket)
        if socket.subprotocol not in self.protocols:
            return await socket.close(PROTOCOL_ERROR, f"the subprotocol {PROTOCOL} is not offered")
        if older := self.served.get(socket.name):
            self.replace(older)
        self.let_in += 1
        socket.number = self.let_in
        self.served[socket.name] = socket
        self.lookout.note_let_in(socket.name, socket.number)
        try:
            await socket.answer_messages()
        finally:
            if self.served.get(socket.name) is socket:
                del self.served[socket.name]

    def spawn(self, job: Any) -> None:
        """Begins a job that nobody waits for."""
        task = asyncio.ensure_future(job)
        self.jobs.add(task)
        task.add_done_callback(self.jobs.discard)

    def replace(self, socket: StationSocket) -> None:
        """Ends a connection whose station has a later one."""
        self.repeated.add(socket.name)
        log.info("station %s connected again while its older connection was open", socket.name)
        socket.end(NORMAL, "the station connected again")

    def end(self, station: str, why: str) -> None:
        """Ends a station's connection."""
        if socket := self.served.get(station):
            log.warning("station %s: its connection ends: %s", station, why)
            socket.end(POLICY, why)

    def end_revoked(self) -> None:
        """Ends connections with revoked certificates."""
        for station, socket in list(self.served.items()):
            if self.certificates.is_revoked(socket.transport):
                self.end(station, "its certificate is revoked")

    # --- what the store has --------------------------------------------------------------------------------------

    async def find(self, station: str) -> Known:
        """What the store has of a station. Raises StoreError."""
        planned = await self.finder.ask(station) if station else None
        if planned is None:
            self.known.pop(station, None)
            return Known(False)
        self.known[station] = Known(True, planned.passwords, planned.site, planned.most_rate)
        return self.known[station]

    def find_most_rate(self, station: str) -> int:
        """How many messages a second the quota of a station's site allows; 0: any number."""
        known = self.known.get(station)
        return known.most_rate if known else 0

    async def note_seen(self, station: str, password: Password) -> bool:
        """Notes that a station came with a password, which ends an older one. Whether it has it still. Raises
        StoreError."""
        return await self.seen.ask((station, password.hash)) is not None

    def note_stored(self, station: str, number: int) -> None:
        """The store has this connection: what it says of another one from here on is later."""
        socket = self.served.get(station)
        if socket and socket.number == number:
            socket.is_noted = True

    def hear_served(self, served: Served) -> None:
        """The store's last connection of a station."""
        socket = self.served.get(served.station)
        if (
            socket
            and socket.is_noted
            and (served.gateway, served.number) != (self.name, socket.number)
        ):
            del self.served[served.station]
            self.replace(socket)

    def hear_changed(self, changes: Sequence[Change]) -> None:
        """Stations or their sites whose plan changed: a retired station, and one that came with a password that ended,
        has to go."""
        stations = {one.name for one in changes if one.what != "site"}
        if sites := {one.name for one in changes if one.what == "site"}:
            stations |= {name for name, known in self.known.items() if known.site in sites}
        for name in stations & self.served.keys():
            self.spawn(self.look_again(name))

    async def look_again(self, station: str) -> None:
        """Ends a station's connection where it could not come in any more."""
        while True:
            try:
                known: Known = await self.find(station)
                break
            except StoreError:
                await asyncio.sleep(1)
        own = self.door.hash_in_use(station)
        if not known.is_planned:
            self.end(station, "the station is retired")
        elif own and not any(one.hash == own for one in known.passwords):
            self.end(station, "its password was changed")

    # --- the run -------------------------------------------------------------------------------------------------

    async def tick(self) -> None:
        """Notes again and again that the event loop runs, and forgets what stations sent some time ago."""
        while True:
            self.ran = time.monotonic()
            await asyncio.sleep(1)
            over = [name for name, pace in self.paces.items() if pace.is_over(self.ran)]
            for name in over:
                if name not in self.served:
                    del self.paces[name]

    async def read_figures(self) -> None:
        """Reads what the store says of itself, for who watches."""
        while self.options.metrics:
            try:
                self.figures = await self.clerk.run(stations.read_figures, self.options.silent)
            except StoreError as fault:
                log.debug("%s", fault)
            await asyncio.sleep(FIGURES)

    async def wait_for_store(self) -> None:
        """Waits until the store answers: stations that come before would be sent away."""
        last = ""
        while True:
            try:
                return await self.clerk.run(stations.check)
            except StoreError as fault:
                if str(fault) != last:
                    log.warning("%s; tried again and again", fault)
                last = str(fault)
                await asyncio.sleep(0.2)

    async def run(self) -> None:
        """Serves until a signal ends it or a job fails. Raises UsageError."""
        if self.options.open:
            log.warning("--open: each station of the plan is let in without a password")
        loop = asyncio.get_running_loop()
        loop.add_signal_handler(signal.SIGHUP, self.certificates.read_again)
        for number in (signal.SIGTERM, signal.SIGINT):
            loop.add_signal_handler(number, self.is_ending.set)
        serve_figures(self.options.metrics, self)
        await self.wait_for_store()
        context = self.certificates.first
        more: dict[str, Any] = {"ssl_handshake_timeout": HANDSHAKE} if context else {}
        try:
            server = await serve(
                make_handler(self),
                self.options.host,
                self.options.port,
                create_protocol=make_socket(self),
                subprotocols=self.protocols,
                compression=None,
                logger=SILENT,
                server_header=None,
                max_size=LONGEST,
                max_queue=AHEAD,
                read_limit=READ,
                write_limit=WRITE,
                ping_interval=PING,
                ping_timeout=PING,
                close_timeout=5,
                ssl=context,
                backlog=BACKLOG,
                **more,
            )
        except OSError as fault:
            place = f"{self.options.host}:{self.options.port}"
            raise UsageError(f"{place}: {fault.strerror or fault}; choose another --port") from None
        (port, *_) = (one.getsockname()[1] for one in server.sockets)
        print(f"listening {self.options.host}:{port}", flush=True)
        async with asyncio.TaskGroup() as group:
            jobs = [
                group.create_task(job())
                for job in (
                    self.lanes.run,
                    self.finder.run,
                    self.seen.run,
                    self.lookout.run,
                    self.tick,
                    self.read_figures,
                )
            ]
            await self.is_ending.wait()
            server.close()  # Stations go away with close code 1001, and come again elsewhere.
            await asyncio.wait([asyncio.ensure_future(server.wait_closed())], timeout=LAST)
            for job in jobs:
                job.cancel()


def make_handler(gateway: Gateway) -> Callable[[WebSocketServerProtocol], Awaitable[None]]:
    """What serves a connection. The library asks for its signature with each connection, so that is kept."""

    async def serve_station(protocol: WebSocketServerProtocol) -> None:
        await gateway.serve_station(protocol)

    serve_station.__signature__ = inspect.signature(serve_station)  # type: ignore[attr-defined]
    return serve_station


def use_uvloop() -> None:
    """Takes the faster event loop where its package is there."""
    try:
        import uvloop
    except ImportError:
        return
    uvloop.install()
