"""A topic of an MQTT broker, whose messages are acknowledged once what they change is stored.

The client acknowledges a message of QoS 1 after its callback, so the callback returns after the commit: messages are
stored one by one. The broker keeps for the client's name what comes while the feed is away.
"""

import time
from typing import Any

import paho.mqtt.client as paho

from ocpp_board.errors import UsageError
from ocpp_board.feed.brokers import read_broker
from ocpp_board.feed.keeper import Keeper, Stopped
from ocpp_board.feed.published import is_object, make_message, read_maeve, read_text
from ocpp_board.records import Message

SCHEMES = {"mqtt": 1883, "mqtts": 8883}
# Seconds between signs of life, and until a lost broker is tried again.
ALIVE, AGAIN = 20, 1.0
# Codes of a broker that lets the user not in.
NOT_LET_IN = (4, 5)
# Codes with which a broker grants a topic.
GRANTED = (0, 1, 2)


class Mqtt:
    """A topic of an MQTT broker."""

    def __init__(self, url: str, topic: str, name: str, keeper: Keeper) -> None:
        """Raises UsageError."""
        self.broker, self.topic, self.keeper = read_broker(url, SCHEMES), topic, keeper
        self.fault: Exception | None = None
        client = self.client = paho.Client(client_id=name, clean_session=False)
        if self.broker.user:
            client.username_pw_set(self.broker.user, self.broker.password)
        if self.broker.is_secure:
            client.tls_set()
        client.on_connect, client.on_subscribe = self.come_in, self.hear_granted
        client.on_message = self.take

    def come_in(self, client: Any, _data: Any, _flags: Any, code: int) -> None:
        """The broker answered: it is asked for the topic, or lets nobody in."""
        if code in NOT_LET_IN:
            who = self.broker.user or "nobody"
            self.fault = UsageError(
                f"{self.broker.place} does not let {who} in (the password comes from SOURCE_PASSWORD)"
            )
        elif code == 0:
            client.subscribe(self.topic, qos=1)

    def hear_granted(self, _client: Any, _data: Any, _mid: int, granted: Any) -> None:
        """The broker granted the topic, or not."""
        if granted[0] not in GRANTED:
            who = self.broker.user or "nobody"
            self.fault = UsageError(f"{self.broker.place} does not let {who} read {self.topic}")
        else:
            self.keeper.note_ready(self.broker.place, self.topic)

    def read(self, message: Any) -> Message | None:
        """The station's text of a message. Raises Refused."""
        text, station = read_text(message.payload), message.topic.rpartition("/")[2]
        origin = f"mqtt {message.topic}"
        if is_object(text):
            return read_maeve(station, text, origin)
        return make_message(station, text, origin)

    def take(self, _client: Any, _data: Any, message: Any) -> None:
        """A message came; it is acknowledged after this. Raises Stopped, which has it not acknowledged."""
        if self.keeper.is_ending.is_set():
            raise Stopped
        found = self.keeper.read(f"a message of {self.topic}", lambda: self.read(message))
        self.keeper.keep(found, self.keeper.is_ending.wait)

    def run(self) -> None:
        """Takes what comes until the feed is to end, over one connection after the other. Raises UsageError."""
        is_connected = False
        while not self.keeper.is_ending.is_set():
            try:
                if not is_connected:
                    self.client.connect(self.broker.host, self.broker.port, keepalive=ALIVE)
                    is_connected = True
                code = self.client.loop(timeout=1.0)
            except OSError as fault:
                self.keeper.log_once(f"{self.broker.place}: {fault}; tried again and again")
                is_connected, code = False, paho.MQTT_ERR_SUCCESS
                self.keeper.is_ending.wait(AGAIN)
            if self.fault:
                raise self.fault
            if code != paho.MQTT_ERR_SUCCESS:
                self.keeper.log_once(
                    f"{self.broker.place}: {paho.error_string(code)}; tried again and again"
                )
                is_connected = False
                time.sleep(AGAIN)
            self.keeper.report()
        self.client.disconnect()
