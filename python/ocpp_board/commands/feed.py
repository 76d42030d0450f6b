"""Stores what a CSMS publishes about its stations' messages: by a queue of RabbitMQ, or by MQTT.

    SOURCE_PASSWORD=.. ocpp-board feed --store postgresql://.. rabbitmq amqp://USER@HOST:5672/ --queue ledger
    SOURCE_PASSWORD=.. ocpp-board feed --store ledger.db mqtt mqtt://USER@HOST --topic 'cs/in/ocpp2.0.1/+' --name feed-1

The feed acknowledges a message to its broker after the commit. So you may kill it at any time: nothing is missing, and
what comes twice changes nothing. It answers no station: the CSMS does that. What comes to a queue while one batch is
stored is the next batch; messages of MQTT are stored one by one.

A message is a frame of OCPP 2.0.1, or an object with its parts (CitrineOS by RabbitMQ, MaEVe by MQTT). The station is
the message's header `stationId`, or else what follows the last point of the routing key; by MQTT it is what follows the
last slash of the topic. Messages of stations that the plan does not have are kept as strays, and are taken once it has
them.

Once a minute and at the end the feed logs what became of the messages. It logs once that the store or the broker is
away, and tries again and again.
"""

import argparse
import signal

from ocpp_board.commands.options import add_program, add_store, choose_program
from ocpp_board.errors import UsageError
from ocpp_board.feed.keeper import Keeper, Stopped

ENDING = """\
Exit status: 0 when a signal ended it; 2 when the words are wrong, or a broker lets nobody in or has no such queue."""
# The Python packages of brokers, and Debian's packages that have them.
PACKAGES = {"pika": "python3-pika", "paho": "python3-paho-mqtt"}


def add_words(parser: argparse.ArgumentParser) -> None:
    """The words of the command."""
    add_store(parser)
    add_program(parser)
    sources = parser.add_subparsers(dest="source", required=True, metavar="rabbitmq|mqtt")
    rabbit = sources.add_parser("rabbitmq", help="a queue of RabbitMQ (needs python3-pika)")
    rabbit.add_argument(
        "url", help="amqp://USER@HOST:PORT/VHOST, the virtual host without its slash in front"
    )
    rabbit.add_argument(
        "--queue", required=True, help="a durable queue that exists and is read by nobody else"
    )
    mqtt = sources.add_parser("mqtt", help="a topic of an MQTT broker (needs python3-paho-mqtt)")
    mqtt.add_argument("url", help="mqtt://USER@HOST:PORT")
    mqtt.add_argument("--topic", required=True, help="such as 'cs/in/ocpp2.0.1/+'")
    mqtt.add_argument(
        "--name",
        required=True,
        help="the client's name, for which the broker keeps what comes while the feed is away",
    )


def run(words: argparse.Namespace) -> int:
    """Stores what comes until a signal ends it. Raises UsageError."""
    choose_program(words.program)
    keeper = Keeper(words.store)
    for number in (signal.SIGTERM, signal.SIGINT):
        signal.signal(number, lambda *_: keeper.is_ending.set())
    try:
        if words.source == "rabbitmq":
            from ocpp_board.feed.rabbitmq import Rabbit

            source = Rabbit(words.url, words.queue, keeper).run
        else:
            from ocpp_board.feed.mqtt import Mqtt

            source = Mqtt(words.url, words.topic, words.name, keeper).run
    except ModuleNotFoundError as fault:
        package = PACKAGES.get((fault.name or "").partition(".")[0])
        if package is None:
            raise
        raise UsageError(f"there is no package for this: apt-get install {package}") from None
    try:
        source()
    except Stopped:
        pass
    keeper.report(is_due=True)
    return 0
