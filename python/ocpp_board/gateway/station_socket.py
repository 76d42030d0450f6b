"""One station's WebSocket connection, by the server of `websockets`."""

import asyncio
import functools
import http
import logging
import time
from collections.abc import Sequence
from typing import TYPE_CHECKING, Any
from urllib.parse import unquote, urlsplit

from websockets.datastructures import Headers
from websockets.exceptions import ConnectionClosed
from websockets.legacy.framing import Frame
from websockets.legacy.server import HTTPResponse, WebSocketServerProtocol
from websockets.typing import Subprotocol

from ocpp_board.errors import StoreError
from ocpp_board.gateway.door import Verdict
from ocpp_board.gateway.lanes import TooLate
from ocpp_board.gateway.pace import Pace
from ocpp_board.gateway.basic import read_password
from ocpp_board.gateway.tries import find_address
from ocpp_board.limits import LONGEST_MESSAGE, is_name

if TYPE_CHECKING:
    from ocpp_board.gateway.gateway import Gateway

log = logging.getLogger(__name__)
# What `websockets` logs of a connection is not logged here.
SILENT = logging.getLogger("ocpp_board.gateway.websockets")
SILENT.setLevel(logging.CRITICAL)

# Seconds for a handshake, from its connection on.
HANDSHAKE = 10
# Close codes of RFC 6455, section 7.4.1, and of its registry: try again later.
NORMAL, PROTOCOL_ERROR, NO_BINARY, POLICY, TRY_AGAIN = 1000, 1002, 1003, 1008, 1013
# The answer to one who is not let in, whatever of it was wrong.
ASKED = "a station's name and its password are asked for\n"


def find_station(path: str) -> str:
    """The station that the path of a request names; nothing where it names none that may be."""
    try:
        words = [unquote(part) for part in urlsplit(path).path.split("/")]
    except ValueError:
        return ""
    name = words[2] if len(words) == 3 and words[1] == "ocpp" else ""
    return name if is_name(name) else ""


def reject(status: http.HTTPStatus, text: str) -> HTTPResponse:
    """What a station gets that is sent away."""
    headers = Headers()
    if status is http.HTTPStatus.SERVICE_UNAVAILABLE:
        headers["Retry-After"] = "5"
    elif status is http.HTTPStatus.UNAUTHORIZED:
        headers["WWW-Authenticate"] = 'Basic realm="ocpp", charset="UTF-8"'
    return status, headers, text.encode()


class StationSocket(WebSocketServerProtocol):
    """A station's connection."""

    def __init__(self, gateway: "Gateway", *words: Any, **more: Any) -> None:
        # The server's own `process_request` is this class', so the argument of that name stays empty.
        super().__init__(*words, **more)
        self.gateway = gateway
        self.name = ""
        self.pace = Pace()
        # Its number among the connections of this gateway, and whether the store has it.
        self.number, self.is_noted = 0, False
        # Since when it is there.
        self.since = time.monotonic()

    # --- the handshake ---------------------------------------------------------------------------------------------

    async def read_http_request(self) -> tuple[str, Headers]:
        """The request of a handshake, which has its time."""
        try:
            async with asyncio.timeout(HANDSHAKE):
                return await super().read_http_request()
        except TimeoutError:
            raise ConnectionAbortedError("no handshake came") from None

    def select_subprotocol(
        self, client_subprotocols: Sequence[Subprotocol], server_subprotocols: Sequence[Subprotocol]
    ) -> Subprotocol | None:
        """The first that the station offers and the gateway has: a station names the one that it wants first."""
        return next((one for one in client_subprotocols if one in server_subprotocols), None)

    async def process_request(self, path: str, headers: Headers) -> HTTPResponse | None:
        """Lets the station in, by nothing, or says why not."""
        self.name = find_station(path)
        given = read_password(headers, self.name)
        certificates = self.gateway.certificates
        needs_password = not self.gateway.options.open
        if certificates.files.asks_for_certificates:
            needs_password = False
            if not self.name or certificates.read_name(self.transport, headers) != self.name:
                return reject(http.HTTPStatus.FORBIDDEN, "the certificate is of another name\n")
            if certificates.is_revoked(self.transport):
                return reject(http.HTTPStatus.FORBIDDEN, "the certificate is revoked\n")
        if not needs_password:
            return await self.look_for()
        if not self.name or not given.is_basic:
            return reject(http.HTTPStatus.UNAUTHORIZED, ASKED)
        peer = str((self.transport.get_extra_info("peername") or ("",))[0])
        named = headers.get_all("X-Forwarded-For")
        address = find_address(peer, named, self.gateway.options.proxy)
        verdict = await self.gateway.door.judge(self.name, address, given)
        if verdict is Verdict.RIGHT:
            self.let_in()
            return None
        if verdict is Verdict.WRONG:
            return reject(http.HTTPStatus.UNAUTHORIZED, ASKED)
        return reject(http.HTTPStatus.SERVICE_UNAVAILABLE, "not at the moment: come again\n")

    async def look_for(self) -> HTTPResponse | None:
        """Lets a station in that the plan has."""
        try:
            known = await self.gateway.find(self.name)
        except StoreError:
            return reject(http.HTTPStatus.SERVICE_UNAVAILABLE, "not at the moment: come again\n")
        if known.is_planned:
            self.let_in()
            return None
        return reject(http.HTTPStatus.NOT_FOUND, f"no station {self.name!r} in the plan\n")

    def let_in(self) -> None:
        """Lets the station in: what it sent lately by other connections counts."""
        self.pace = self.gateway.paces.setdefault(self.name, self.pace)

    # --- messages --------------------------------------------------------------------------------------------------

    async def read_frame(self, max_size: int | None) -> Frame:
        """The next frame. Above its pace the station waits, whatever it sends: messages, parts of one, pings, pongs."""
        frame = await super().read_frame(max_size)
        wait = self.pace.wait(len(frame.data), time.monotonic())
        if wait > 0:
            self.gateway.counts["paced"] += 1
            await asyncio.sleep(wait)
        return frame

    async def answer_messages(self) -> None:
        """Answers each message before it takes the next one, until the connection ends."""
        origin = f"ws {self.name}"
        gateway, name = self.gateway, self.name
        try:
            while True:
                text = await self.recv()
                if isinstance(text, bytes):
                    return await self.close(NO_BINARY, "a binary message")
                if len(text) > LONGEST_MESSAGE // 4:
                    text = cut_text(text)
                quota = self.pace.find_quota(gateway.find_most_rate(name), time.monotonic())
                if (reply := await gateway.lanes.ask(name, text, origin, quota)) is not None:
                    await self.send(reply)
        except TooLate:
            await self.close(TRY_AGAIN, "no answer yet, try again")
        except ConnectionClosed:
            pass

    def end(self, code: int, why: str) -> None:
        """Ends the connection from elsewhere."""
        self.gateway.spawn(self.close(code, why))


def cut_text(text: str) -> str:
    """A text that the ledger reads: the front of one that is too long is too long as well, and gets the same answer."""
    data = text.encode()
    if len(data) <= LONGEST_MESSAGE:
        return text
    return data[: LONGEST_MESSAGE + 4].decode("utf-8", "ignore")


def make_socket(gateway: "Gateway") -> Any:
    """What `websockets` calls for each connection."""
    return functools.partial(StationSocket, gateway)
