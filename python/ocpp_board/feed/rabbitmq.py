"""A queue of RabbitMQ, whose messages are acknowledged once what they change is stored."""

import ssl
import time
from typing import Any

import pika
import pika.exceptions

from ocpp_board.errors import UsageError
from ocpp_board.feed.brokers import Broker, read_broker
from ocpp_board.feed.keeper import Keeper
from ocpp_board.feed.published import is_object, make_message, read_citrine, read_text
from ocpp_board.records import Message

SCHEMES = {"amqp": 5672, "amqps": 5671}
# Messages that the broker hands out before one is acknowledged: those of a batch.
AHEAD = 1000
# Seconds between heartbeats, until a lost broker is tried again, and between looks whether the queue is still there.
HEARTBEAT, AGAIN, LOOK = 20, 1.0, 30.0


class Rabbit:
    """A queue of RabbitMQ."""

    def __init__(self, url: str, queue: str, keeper: Keeper) -> None:
        """Raises UsageError."""
        self.broker, self.queue, self.keeper = read_broker(url, SCHEMES), queue, keeper
        self.arrived: list[tuple[int, Any, Any, bytes]] = []

    def make_parameters(self) -> Any:
        """How the broker is asked."""
        broker: Broker = self.broker
        return pika.ConnectionParameters(
            host=broker.host,
            port=broker.port,
            virtual_host=broker.path or "/",
            credentials=pika.PlainCredentials(broker.user or "guest", broker.password or "guest"),
            heartbeat=HEARTBEAT,
            blocked_connection_timeout=300,
            ssl_options=(
                pika.SSLOptions(ssl.create_default_context(), broker.host)
                if broker.is_secure
                else None
            ),
        )

    def read(self, method: Any, properties: Any, body: bytes) -> Message | None:
        """The station's text of a message. Raises Refused."""
        text, origin = read_text(body), f"amqp {self.queue}"
        if is_object(text):
            return read_citrine(text, origin)
        station = (properties.headers or {}).get("stationId")
        if station is None:
            station = (method.routing_key or "").rpartition(".")[2]
        return make_message(
            station.decode() if isinstance(station, bytes) else str(station), text, origin
        )

    def run(self) -> None:
        """Takes what comes until the feed is to end, over one connection after the other. Raises UsageError."""
        while not self.keeper.is_ending.is_set():
            try:
                connection = pika.BlockingConnection(self.make_parameters())
            except pika.exceptions.ProbableAuthenticationError:
                raise UsageError(
                    f"{self.broker.place} does not let {self.broker.user or 'guest'} in (the password comes from "
                    "SOURCE_PASSWORD)"
                ) from None
            except (pika.exceptions.AMQPError, OSError) as fault:
                self.keeper.log_once(
                    f"{self.broker.place}: {type(fault).__name__}; tried again and again"
                )
                self.keeper.is_ending.wait(AGAIN)
                continue
            try:
                self.consume(connection)
            except pika.exceptions.ChannelClosedByBroker as fault:
                if fault.reply_code in (403, 404):
                    raise UsageError(f"{self.broker.place}: {fault.reply_text}") from None
                self.keeper.log_once(f"{self.broker.place}: {fault.reply_text}")
            except (pika.exceptions.AMQPError, OSError) as fault:
                self.keeper.log_once(
                    f"{self.broker.place}: {type(fault).__name__}; tried again and again"
                )
            finally:
                if connection.is_open:
                    connection.close()

    def consume(self, connection: Any) -> None:
        """Takes what comes over a connection."""
        self.arrived = []
        channel = connection.channel()
        channel.basic_qos(prefetch_count=AHEAD)
        channel.queue_declare(self.queue, passive=True)
        channel.basic_consume(self.queue, self.take)
        self.keeper.note_ready(self.broker.place, self.queue)
        looked = time.monotonic()
        while not self.keeper.is_ending.is_set():
            connection.process_data_events(time_limit=1.0)
            self.keeper.report()
            if self.arrived:
                self.store(connection, channel)
            elif time.monotonic() > looked + LOOK:
                # Of a deleted queue nobody would hear.
                channel.queue_declare(self.queue, passive=True)
                looked = time.monotonic()

    def take(self, _channel: Any, method: Any, properties: Any, body: bytes) -> None:
        """A message came."""
        self.arrived.append((method.delivery_tag, method, properties, body))

    def store(self, connection: Any, channel: Any) -> None:
        """Has what came stored, and acknowledges it: the last message, with all before it."""
        arrived, self.arrived = self.arrived, []
        where = f"a message of {self.queue}"
        messages = [
            message
            for _, method, properties, body in arrived
            for message in self.keeper.read(where, lambda: self.read(method, properties, body))
        ]
        self.keeper.keep(messages, lambda seconds: connection.process_data_events(seconds))
        channel.basic_ack(arrived[-1][0], multiple=True)
