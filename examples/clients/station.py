#!/usr/bin/env python3
"""A charging station that loses its connection in the middle of a transaction.

    station.py ws://127.0.0.1:9000/ocpp CS-01

It connects to URL/STATION with the subprotocol ocpp2.0.1, boots, and charges for 70 minutes, with
TransactionEvents ten minutes apart. After the fourth the network fails before the reply is there, and
the next two are queued. On a new connection the one without a reply is sent again, then the queued ones
with `offline` set, and the rest as it comes. Every reply is printed as it was received.

Two connections are made, so the server is to be started with `--connections 2` for each station.
It needs the package `websockets`, 10.4 or later (Debian: python3-websockets).
"""

import argparse
import asyncio
import json
import sys
from datetime import datetime, timedelta, timezone
from uuid import uuid4


def transaction_event(args, seq_no, kind, reason, *, offline=False, state=None, **more):
    """A TransactionEventRequest, ten minutes after the one before, at 7.2 kW (1200 Wh in ten minutes)."""
    moment = (args.start + timedelta(minutes=10 * seq_no)).strftime("%Y-%m-%dT%H:%M:%SZ")
    context = {"Started": "Transaction.Begin", "Ended": "Transaction.End"}.get(kind, "Sample.Periodic")
    register = {"value": 1000 + 1200 * seq_no, "context": context, "unitOfMeasure": {"unit": "Wh"},
                "measurand": "Energy.Active.Import.Register"}
    info = {"transactionId": args.transaction} | ({"chargingState": state} if state else {})
    return {"eventType": kind, "timestamp": moment, "triggerReason": reason, "seqNo": seq_no,
            "offline": offline, "transactionInfo": info,
            "meterValue": [{"timestamp": moment, "sampledValue": [register]}]} | more


async def send(socket, action, payload):
    """Sends a CALL, and gives its message id."""
    message_id = str(uuid4())
    await socket.send(json.dumps([2, message_id, action, payload]))
    return message_id


async def call(socket, action, payload):
    """Sends a CALL and waits for its reply, which must be a CALLRESULT."""
    message_id = await send(socket, action, payload)
    reply = await socket.recv()
    print(action, payload.get("seqNo", ""), reply, flush=True)
    if json.loads(reply)[:2] != [3, message_id]:
        await socket.close()
        sys.exit("refused")


async def charge(args):
    """Charges once, over two connections."""
    token = {"idToken": {"idToken": "04E1A2B3", "type": "ISO14443"}}
    evse = {"evse": {"id": 1, "connectorId": 1}}
    url = f"{args.url}/{args.station}"
    socket = await websockets.connect(url, subprotocols=["ocpp2.0.1"])
    boot = {"reason": "PowerUp", "chargingStation": {"vendorName": "Example", "model": "One"}}
    await call(socket, "BootNotification", boot)
    started = transaction_event(args, 0, "Started", "Authorized", state="EVConnected", **token, **evse)
    await call(socket, "TransactionEvent", started)
    charging = transaction_event(args, 1, "Updated", "ChargingStateChanged", state="Charging")
    await call(socket, "TransactionEvent", charging)
    await call(socket, "TransactionEvent", transaction_event(args, 2, "Updated", "MeterValuePeriodic"))
    unanswered = transaction_event(args, 3, "Updated", "MeterValuePeriodic")
    await send(socket, "TransactionEvent", unanswered)
    socket.transport.abort()  # The network fails.
    queue = [transaction_event(args, n, "Updated", "MeterValuePeriodic", offline=True) for n in (4, 5)]
    socket = await websockets.connect(url, subprotocols=["ocpp2.0.1"])
    for payload in [unanswered, *queue]:
        await call(socket, "TransactionEvent", payload)
    await call(socket, "TransactionEvent", transaction_event(args, 6, "Updated", "MeterValuePeriodic"))
    ended = transaction_event(args, 7, "Ended", "StopAuthorized", state="EVConnected", **token)
    ended["transactionInfo"]["stoppedReason"] = "Local"
    await call(socket, "TransactionEvent", ended)
    await socket.close()


def time(text):
    return datetime.fromisoformat(text).astimezone(timezone.utc)


parser = argparse.ArgumentParser(description=__doc__, formatter_class=argparse.RawDescriptionHelpFormatter)
parser.add_argument("url", help="where the server listens, such as ws://127.0.0.1:9000/ocpp")
parser.add_argument("station", help="the station's name, such as CS-01")
parser.add_argument("--transaction", default=str(uuid4()), help="the transaction's id; else a new one")
parser.add_argument("--start", type=time, default=datetime.now(timezone.utc) - timedelta(minutes=70),
                    help="when charging begins, such as 2026-03-01T10:00:00Z; else 70 minutes ago")
words = parser.parse_args()
try:
    import websockets
except ImportError:
    sys.exit("station.py: there is no package `websockets` (Debian: apt-get install python3-websockets; "
             "elsewhere: pip install websockets)")
try:
    asyncio.run(charge(words))
except (OSError, websockets.WebSocketException) as fault:
    sys.exit(f"station.py: {fault}")
