"""Messages of brokers: acknowledged once they are stored, none lost when the feed, the store or the broker fails."""

import json
import os
import shutil
import subprocess
import time
from collections.abc import Callable, Iterator
from pathlib import Path
from typing import Any

import pytest

from ocpp_board.feed.brokers import read_broker
from ocpp_board.feed.published import make_message, read_citrine, read_maeve
from ocpp_board.errors import UsageError
from ocpp_board.ledger.verify import verify
from ocpp_board.messages.texts import Refused
from ocpp_board.store.database import open_store
from tests.cluster import Part, find_port, keep_cluster, make_folder
from tests.gateway.client import make_event
from tests.gateway.conftest import fill_store

Make = Callable[..., str]
MOSQUITTO = shutil.which("mosquitto") or "/usr/sbin/mosquitto"
RABBIT = Path("/usr/lib/rabbitmq/bin/rabbitmq-server")
EVENT = json.loads(make_event("t", 0))


def wait_for(check: Callable[[], bool], seconds: float = 60) -> None:
    """Waits until something is so. Raises TimeoutError."""
    due = time.monotonic() + seconds
    while not check():
        if time.monotonic() > due:
            raise TimeoutError
        time.sleep(0.1)


def count_lines(name: str) -> int:
    """How many lines a store has."""
    with open_store(name) as store:
        (row,) = store.fetch("select count(*) as n from line")
    return int(row.n)


def check_lines(name: str, count: int) -> None:
    """Waits until a store has so many lines; its boards are those of whole scripts then."""
    wait_for(lambda: count_lines(name) >= count, 90)
    with open_store(name) as store:
        assert not verify(store).difference
    assert count_lines(name) == count


# What is published ---------------------------------------------------------------------------------------------------


def test_frames_and_objects() -> None:
    """A frame is taken as it is; of an object its parts as they are written there."""
    text = make_event("t", 0)
    message = make_message("CS-0", text, "a test")
    assert (message.station, message.text, message.origin) == ("CS-0", text, "a test")
    payload = json.dumps(EVENT[3])
    citrine = (
        '{"origin":"cs","eventGroup":"transactions","action":"TransactionEvent","context":{"correlationId":"c-1",'
        f'"stationId":"CS-0","tenantId":"1"}},"payload":{payload}}}'
    )
    read = read_citrine(citrine, "a test")
    assert read and read.text == f'[2,"c-1","TransactionEvent",{payload}]'
    assert read_citrine(citrine.replace('"origin":"cs"', '"origin":"csms"'), "a test") is None
    maeve = f'{{"type":"call","action":"TransactionEvent","id":"m-1","request":{payload}}}'
    read = read_maeve("CS-0", maeve, "a test")
    assert read and read.text == f'[2,"m-1","TransactionEvent",{payload}]'
    assert read_maeve("CS-0", '{"type":"call-result","id":"m-1"}', "a test") is None


@pytest.mark.parametrize(
    ("station", "text"),
    [("CS-0", "no frame"), ("no name", "[2]"), ("", "[2]"), ("CS-0", "[" + "2" * 262_144)],
)
def test_texts_that_no_feed_takes(station: str, text: str) -> None:
    """They are counted and left."""
    with pytest.raises(Refused):
        make_message(station, text, "a test")


@pytest.mark.parametrize("url", ["amqp://a:b@c", "http://c", "amqp://", "amqp://c:x"])
def test_addresses_that_are_wrong(url: str) -> None:
    """A password in an address, another scheme, no host, no port."""
    with pytest.raises(UsageError):
        read_broker(url, {"amqp": 5672, "amqps": 5671})


# MQTT ----------------------------------------------------------------------------------------------------------------


class Mosquitto:
    """A broker of a test's own."""

    def __init__(self) -> None:
        self.folder, self.port = make_folder("mosquitto"), find_port()
        os.chmod(self.folder, 0o777)
        (self.folder / "a.conf").write_text(
            f"listener {self.port} 127.0.0.1\nallow_anonymous true\npersistence true\n"
            f"persistence_location {self.folder}/\nmax_queued_messages 100000\n"
        )
        self.process: subprocess.Popen[bytes] | None = None

    def start(self) -> None:
        """Begins it, and waits until it answers."""
        self.process = subprocess.Popen(
            [MOSQUITTO, "-c", str(self.folder / "a.conf")],
            stdout=subprocess.DEVNULL,
            stderr=subprocess.DEVNULL,
        )
        import paho.mqtt.client as paho

        def answers() -> bool:
            client = paho.Client()
            try:
                client.connect("127.0.0.1", self.port)
            except OSError:
                return False
            client.disconnect()
            return True

        wait_for(answers)

    def stop(self) -> None:
        """Ends it; what it keeps is on disk."""
        if self.process:
            self.process.terminate()
            self.process.wait(20)

    def publish(self, texts: list[tuple[str, str]]) -> None:
        """Publishes messages of stations."""
        import paho.mqtt.client as paho

        client = paho.Client()
        client.max_inflight_messages_set(1000)
        client.connect("127.0.0.1", self.port)
        client.loop_start()
        sent = [client.publish(f"cs/in/ocpp2.0.1/{name}", text, 1) for name, text in texts]
        for one in sent:
            one.wait_for_publish(30)
        client.loop_stop()
        client.disconnect()


@pytest.fixture(name="mosquitto")
def running_mosquitto() -> Iterator[Mosquitto]:
    """A broker that runs."""
    pytest.importorskip("paho.mqtt.client", reason="no python3-paho-mqtt")
    if not Path(MOSQUITTO).exists():
        pytest.skip("no mosquitto (Debian: apt-get install mosquitto)")
    broker = Mosquitto()
    broker.start()
    yield broker
    broker.stop()
    shutil.rmtree(broker.folder, ignore_errors=True)


def open_mqtt(name: str, port: int) -> Part:
    """A feed by MQTT."""
    words = ("mqtt", f"mqtt://127.0.0.1:{port}", "--topic", "cs/in/ocpp2.0.1/+", "--name", "feed")
    part = Part("feed", "--store", name, *words)
    assert part.first == "ready", part.read_log()
    return part


def make_texts(count: int, transaction: str) -> list[tuple[str, str]]:
    """Events of stations."""
    return [(f"CS-{k % 3}", make_event(transaction, k // 3)) for k in range(count)]


def test_mqtt_kills_and_pauses(mosquitto: Mosquitto, make_store: Make) -> None:
    """The feed is killed, the broker ends and begins again: nothing is missing."""
    name = make_store()
    with open_mqtt(name, mosquitto.port):
        mosquitto.publish(make_texts(60, "a"))
        check_lines(name, 60)
    # While the feed is away the broker keeps what comes.
    mosquitto.publish(make_texts(60, "b"))
    feed = open_mqtt(name, mosquitto.port)
    time.sleep(0.4)
    feed.kill()
    with open_mqtt(name, mosquitto.port):
        check_lines(name, 120)
        mosquitto.stop()
        mosquitto.start()
        mosquitto.publish(
            make_texts(30, "c") + [("CS-0", "no frame"), ("stranger", make_event("d", 0))]
        )
        check_lines(name, 150)
        with open_store(name) as store:
            wait_for(lambda: len(store.fetch("select station from stray")) == 1)


# RabbitMQ ------------------------------------------------------------------------------------------------------------


class Rabbit:
    """A broker of a test's own."""

    def __init__(self) -> None:
        self.folder, self.port = make_folder("rabbit"), find_port()
        self.process: subprocess.Popen[bytes] | None = None

    def start(self) -> None:
        """Begins it, and waits until it answers."""
        import pika
        import pika.exceptions

        (self.folder / "rabbitmq.conf").write_text(
            f"listeners.tcp.1 = 127.0.0.1:{self.port}\nloopback_users = none\n"
            "disk_free_limit.absolute = 1MB\nvm_memory_high_watermark.absolute = 512MB\n"
        )
        self.process = subprocess.Popen(
            [str(RABBIT)],
            stdout=open(self.folder / "out", "wb"),
            stderr=subprocess.STDOUT,
            env=os.environ
            | {
                "RABBITMQ_NODENAME": f"test{self.port}@localhost",
                "RABBITMQ_MNESIA_BASE": str(self.folder / "mnesia"),
                "RABBITMQ_LOG_BASE": str(self.folder / "log"),
                "RABBITMQ_CONFIG_FILE": str(self.folder / "rabbitmq"),
                "RABBITMQ_ENABLED_PLUGINS_FILE": str(self.folder / "plugins"),
                "RABBITMQ_DIST_PORT": str(find_port()),
                "RABBITMQ_PID_FILE": str(self.folder / "pid"),
                "HOME": str(self.folder),
            },
            start_new_session=True,
        )

        def answers() -> bool:
            assert self.process and self.process.poll() is None, (self.folder / "out").read_text()
            try:
                self.connect().close()
                return True
            except (pika.exceptions.AMQPError, OSError):
                return False

        wait_for(answers, 120)

    def connect(self) -> Any:
        """A connection."""
        import pika

        return pika.BlockingConnection(pika.ConnectionParameters("127.0.0.1", self.port))

    def stop(self) -> None:
        """Ends it with its processes."""
        if self.process:
            os.killpg(self.process.pid, 15)
            try:
                self.process.wait(40)
            except subprocess.TimeoutExpired:
                os.killpg(self.process.pid, 9)

    def publish(self, texts: list[tuple[str, str]], has_header: bool = False) -> None:
        """Publishes messages of stations to the queue."""
        import pika

        connection = self.connect()
        channel = connection.channel()
        channel.confirm_delivery()
        channel.queue_declare("ledger", durable=True)
        channel.exchange_declare("cs", "topic", durable=True)
        channel.queue_bind("ledger", "cs", "ocpp.#")
        for station, text in texts:
            headers = {"stationId": station} if has_header else {}
            channel.basic_publish(
                "cs",
                "ocpp.in" if has_header else f"ocpp.in.{station}",
                text.encode(),
                pika.BasicProperties(delivery_mode=2, headers=headers),
            )
        connection.close()

    def count(self) -> int:
        """How many messages wait in the queue."""
        connection = self.connect()
        found = connection.channel().queue_declare("ledger", passive=True)
        connection.close()
        return int(found.method.message_count)


@pytest.fixture(name="rabbit", scope="module")
def running_rabbit() -> Iterator[Rabbit]:
    """A broker that runs."""
    pytest.importorskip("pika", reason="no python3-pika")
    if not RABBIT.exists():
        pytest.skip("no RabbitMQ (Debian: apt-get install rabbitmq-server)")
    broker = Rabbit()
    try:
        broker.start()
        yield broker
    finally:
        broker.stop()
        shutil.rmtree(broker.folder, ignore_errors=True)


def open_rabbit(name: str, port: int, queue: str = "ledger") -> Part:
    """A feed by RabbitMQ."""
    return Part("feed", "--store", name, "rabbitmq", f"amqp://127.0.0.1:{port}/", "--queue", queue)


def test_rabbitmq_kills(rabbit: Rabbit, make_store: Make) -> None:
    """The feed is killed at moments; what was not acknowledged comes again, and each event is stored once."""
    name = make_store()
    rabbit.publish(make_texts(150, "a"))
    rabbit.publish(make_texts(150, "b"), has_header=True)
    for pause in (0.6, 0.8, 1.1):
        feed = open_rabbit(name, rabbit.port)
        time.sleep(pause)
        feed.kill()
    with open_rabbit(name, rabbit.port) as feed:
        check_lines(name, 300)
        rabbit.publish(make_texts(30, "c") + [("CS-0", "no frame"), ("CS-0", "{}")])
        check_lines(name, 330)
        wait_for(lambda: rabbit.count() == 0)
        assert feed.stop() == 0
    assert rabbit.count() == 0


def test_rabbitmq_while_the_store_is_away(rabbit: Rabbit) -> None:
    """Nothing is acknowledged while the database is down."""
    with keep_cluster(is_durable=True) as cluster:
        name = fill_store(cluster.create("ledger"))
        with open_rabbit(name, rabbit.port) as feed:
            rabbit.publish(make_texts(60, "d"))
            check_lines(name, 60)
            cluster.kill()
            rabbit.publish(make_texts(60, "e"))
            time.sleep(3)
            feed.kill()
            wait_for(lambda: rabbit.count() >= 60)
            with open_rabbit(name, rabbit.port) as again:
                time.sleep(1)
                cluster.start()
                check_lines(name, 120)
                assert again.stop() == 0


def test_a_queue_that_is_not_there(rabbit: Rabbit, make_store: Make) -> None:
    """The feed ends with status 2, and says which."""
    feed = open_rabbit(make_store(), rabbit.port, "another")
    assert feed.process.wait(30) == 2
    assert "another" in feed.read_log()
