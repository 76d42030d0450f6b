"""A station that sends what its test asks for, and what stations send."""

import asyncio
import base64
import json
import ssl
from datetime import datetime, timedelta, timezone
from typing import Any

from websockets.exceptions import ConnectionClosed, InvalidStatusCode
from websockets.legacy.client import WebSocketClientProtocol, connect

PASSWORD = "a password of 16+"
# The moment of the first event.
BEGIN = datetime(2026, 3, 1, tzinfo=timezone.utc)


def make_login(station: str, password: str = PASSWORD) -> str:
    """The header with which a station comes."""
    return "Basic " + base64.b64encode(f"{station}:{password}".encode()).decode()


async def connect_station(
    url: str,
    station: str,
    password: str | None = PASSWORD,
    context: ssl.SSLContext | None = None,
    **more: Any,
) -> WebSocketClientProtocol:
    """A station's connection. Raises InvalidStatusCode where it is not let in."""
    headers = dict(more.pop("headers", {}))
    if password is not None:
        headers["Authorization"] = make_login(station, password)
    more.setdefault("subprotocols", ["ocpp2.0.1"])
    return await connect(
        f"{url}/{station}",
        extra_headers=headers,
        ssl=context,
        compression=None,
        ping_interval=None,
        open_timeout=30,
        close_timeout=5,
        **more,
    )


async def find_status(url: str, station: str, password: str | None = PASSWORD, **more: Any) -> int:
    """The status of a handshake: 101 where the station is let in."""
    try:
        socket = await connect_station(url, station, password, **more)
    except InvalidStatusCode as fault:
        return fault.status_code
    await socket.close()
    return 101


async def ask(socket: WebSocketClientProtocol, text: str, seconds: float = 30.0) -> str:
    """The reply to a message."""
    await socket.send(text)
    return str(await asyncio.wait_for(socket.recv(), seconds))


async def wait_for_close(socket: WebSocketClientProtocol, seconds: float = 30.0) -> int:
    """The close code with which a connection ends."""
    try:
        async with asyncio.timeout(seconds):
            while True:
                await socket.recv()
    except ConnectionClosed:
        return socket.close_code or 0


def make_reply(transaction: str, number: int) -> str:
    """The reply to an event that is taken; the first has a driver's token, which is accepted."""
    payload = '{"idTokenInfo":{"status":"Accepted"}}' if number == 0 else "{}"
    return f'[3,"{transaction}-{number}",{payload}]'


def make_event(
    transaction: str, number: int, of: int = 0, start: int = 0, message: str = ""
) -> str:
    """A TransactionEvent: the first begins the transaction, and number `of` - 1 ends it. There is one a minute, from
    `start` seconds after BEGIN on, and each reads 100 Wh more."""
    kind = "Started" if number == 0 else "Ended" if number == of - 1 else "Updated"
    at = f"{BEGIN + timedelta(seconds=start + 60 * number):%Y-%m-%dT%H:%M:%SZ}"
    payload: dict[str, Any] = {
        "eventType": kind,
        "timestamp": at,
        "triggerReason": "MeterValuePeriodic" if kind == "Updated" else "CablePluggedIn",
        "seqNo": number,
        "transactionInfo": {"transactionId": transaction},
        "evse": {"id": 1, "connectorId": 1},
        "meterValue": [
            {
                "timestamp": at,
                "sampledValue": [
                    {"value": 1000 + 100 * number, "measurand": "Energy.Active.Import.Register"}
                ],
            }
        ],
    }
    if kind == "Started":
        payload["idToken"] = {"idToken": "ABCD1234", "type": "ISO14443"}
    if kind == "Ended":
        payload["transactionInfo"]["stoppedReason"] = "EVDisconnected"
    return json.dumps(
        [2, message or f"{transaction}-{number}", "TransactionEvent", payload],
        separators=(",", ":"),
    )
