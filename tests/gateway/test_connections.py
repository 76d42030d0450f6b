"""Stations' connections: who comes in, what is answered, which connection of a station stays."""

import asyncio
import socket
import time
from collections.abc import Callable

import pytest
from websockets.exceptions import ConnectionClosed

from ocpp_board.store import stations
from ocpp_board.store.database import open_store
from ocpp_board.store.plan import Author, retire_station
from tests.cluster import GatewayPart
from tests.gateway.client import (
    PASSWORD,
    ask,
    connect_station,
    find_status,
    make_event,
    make_reply,
    wait_for_close,
)

Make = Callable[..., str]
HEARTBEAT = '[2,"h","Heartbeat",{}]'


def test_an_event_is_answered_and_stored(make_store: Make) -> None:
    """The reply is that of OCPP, and the line is in the store by then; a repeat gets the same and is stored once."""
    name = make_store()

    async def play(url: str) -> None:
        station = await connect_station(url, "CS-0")
        assert station.subprotocol == "ocpp2.0.1"
        with open_store(name) as store:
            for number in (0, 1, 1, 2):
                event = make_event("t", number, 3)
                assert await ask(station, event) == make_reply("t", number)
                rows = store.fetch("select line from line where station = 'CS-0' order by number")
                assert len(rows) == number + 1
                assert rows[-1].line.endswith(event)
        assert (await ask(station, HEARTBEAT)).startswith('[3,"h",{"currentTime":"20')

    with GatewayPart(name) as gateway:
        asyncio.run(play(gateway.url))


def test_texts_that_are_no_events_get_the_answers_of_the_program(make_store: Make) -> None:
    """Broken JSON, unknown actions, a zero character and texts of any length harm nobody."""
    name = make_store()
    cases = {
        "[2,": "[4,",
        '[2,"a","Unknown",{}]': '[4,"a",',
        '[2,"b","TransactionEvent",{}]': '[4,"b",',
        '[2,"c\x00d","Heartbeat",{}]': "[4,",
        '[2,"e","Heartbeat",{"a":"\U0001f600"}]': '[3,"e",',
        '[2,\n"f",\n"Heartbeat",{}]': '[3,"f",',
        '[2,"g","DataTransfer",{"vendorId":"' + "x" * 300_000 + '"}]': "[4,",
    }

    async def play(url: str) -> None:
        station = await connect_station(url, "CS-0")
        for text, front in cases.items():
            assert (await ask(station, text)).startswith(front), text[:60]
        await station.send('[3,"nobody asked",{}]')
        assert (await ask(station, HEARTBEAT)).startswith('[3,"h"')
        assert await ask(station, make_event("t", 0)) == make_reply("t", 0)

    with GatewayPart(name) as gateway:
        asyncio.run(play(gateway.url))


def test_many_messages_sent_at_once_are_answered_in_order(make_store: Make) -> None:
    """A station that does not wait for replies gets them in the order of its messages."""
    name = make_store()

    async def play(url: str) -> None:
        station = await connect_station(url, "CS-0")
        for number in range(50):
            await station.send(make_event("t", number))
        replies = [await asyncio.wait_for(station.recv(), 30) for _ in range(50)]
        assert replies == [make_reply("t", number) for number in range(50)]

    with GatewayPart(name) as gateway:
        asyncio.run(play(gateway.url))


@pytest.mark.parametrize(
    ("station", "password", "path", "status"),
    [
        ("CS-0", PASSWORD, "", 101),
        ("CS-0", "a wrong password.", "", 401),
        ("CS-0", None, "", 401),
        ("CS-1", None, "", 401),
        ("nobody", PASSWORD, "", 401),
        ("CS-0/more", PASSWORD, "", 401),
        ("%2e%2e%2f", PASSWORD, "", 401),
        ("", PASSWORD, "", 401),
    ],
)
def test_who_is_let_in(
    make_store: Make, station: str, password: str | None, path: str, status: int
) -> None:
    """A station of the plan with its password; nobody else, and all others get one answer."""
    with GatewayPart(make_store()) as gateway:
        assert asyncio.run(find_status(gateway.url + path, station, password)) == status


def test_a_login_of_another_station_lets_nobody_in(make_store: Make) -> None:
    """The user is the station of the path."""
    from tests.gateway.client import make_login

    with GatewayPart(make_store()) as gateway:
        login = {"Authorization": make_login("CS-1")}
        assert asyncio.run(find_status(gateway.url, "CS-0", None, headers=login)) == 401


def test_open_lets_in_who_is_in_the_plan(make_store: Make) -> None:
    """Without passwords a station of the plan comes in, and another one does not."""
    with GatewayPart(make_store(), "--open") as gateway:
        assert asyncio.run(find_status(gateway.url, "CS-0", None)) == 101
        assert asyncio.run(find_status(gateway.url, "nobody", None)) == 404


def test_a_connection_without_the_subprotocol_ends(make_store: Make) -> None:
    """OCPP 1.6 is not spoken."""

    async def play(url: str) -> None:
        station = await connect_station(url, "CS-0", subprotocols=["ocpp1.6"])
        assert await wait_for_close(station) == 1002

    with GatewayPart(make_store()) as gateway:
        asyncio.run(play(gateway.url))


@pytest.mark.parametrize(
    ("message", "code"), [(b"\x00\x01", 1003), ("x" * 600_000, 1009)], ids=["binary", "too long"]
)
def test_messages_that_end_a_connection(make_store: Make, message: str | bytes, code: int) -> None:
    """Binary messages, and those that are far too long."""

    async def play(url: str) -> None:
        station = await connect_station(url, "CS-0")
        await station.send(message)
        assert await wait_for_close(station) == code

    with GatewayPart(make_store()) as gateway:
        asyncio.run(play(gateway.url))


def test_the_second_connection_of_a_station_ends_the_first(make_store: Make) -> None:
    """At one gateway at once, and across gateways within a second (a little more on a busy machine)."""
    name = make_store()

    async def play(first: str, second: str) -> None:
        one = await connect_station(first, "CS-0")
        other = await connect_station(first, "CS-0")
        assert await wait_for_close(one) == 1000
        assert await ask(other, make_event("t", 0)) == make_reply("t", 0)
        for here, there in ((first, second), (second, first)):
            await asyncio.sleep(1.0)
            began = time.monotonic()
            elsewhere = await connect_station(there, "CS-0")
            assert await wait_for_close(other) == 1000, here
            assert time.monotonic() - began < 3
            assert await ask(elsewhere, make_event("t", 1)) == make_reply("t", 1)
            other = elsewhere
        await asyncio.sleep(2)
        assert await ask(other, make_event("t", 2)) == make_reply("t", 2)

    with GatewayPart(name) as gateway, GatewayPart(name) as beside:
        asyncio.run(play(gateway.url, beside.url))


def test_a_password_changes_while_the_station_is_connected(make_store: Make) -> None:
    """Both passwords are good until the station came with the new one; the old one then ends."""
    name, new = make_store(), "the next password"

    async def play(url: str) -> None:
        station = await connect_station(url, "CS-0")
        with open_store(name) as store:
            stations.set_password(store, "CS-0", new, Author("jo", "it is due"))
        await asyncio.sleep(1.5)
        assert await ask(station, make_event("t", 0)) == make_reply("t", 0)
        assert await find_status(url, "CS-0", PASSWORD) == 101
        assert await find_status(url, "CS-0", new) == 101
        assert await find_status(url, "CS-0", PASSWORD) == 401
        station = await connect_station(url, "CS-0", new)
        with open_store(name) as store:
            author = Author("jo", "it is known")
            stations.set_password(store, "CS-0", PASSWORD, author, at_once=True)
        assert await wait_for_close(station, 5) == 1008
        assert await find_status(url, "CS-0", new) == 401
        assert await find_status(url, "CS-0", PASSWORD) == 101

    with GatewayPart(name) as gateway:
        asyncio.run(play(gateway.url))
    with open_store(name) as store:
        changes = store.fetch(
            "select who, why, what, before_text, after_text from change order by id"
        )
        assert [tuple(row) for row in changes] == [
            ("jo", "it is due", "password", '{"passwords": 1}', '{"passwords": 2}'),
            ("jo", "it is known", "password", '{"passwords": 1}', '{"passwords": 1}'),
        ]


def test_a_retired_station_goes_and_stays_away(make_store: Make) -> None:
    """Its connection ends, and it is not let in."""
    name = make_store()

    async def play(url: str) -> None:
        station = await connect_station(url, "CS-0")
        with open_store(name) as store, store.transaction():
            retire_station(store, "CS-0", Author("jo", "it was sold"))
        assert await wait_for_close(station, 5) == 1008
        assert await find_status(url, "CS-0") == 401

    with GatewayPart(name) as gateway:
        asyncio.run(play(gateway.url))


def test_guesses_are_slowed_down_and_the_right_password_is_not(make_store: Make) -> None:
    """After ten wrong passwords the next answers are late, and a station of the same address comes in at once."""

    async def play(url: str) -> None:
        began = time.monotonic()
        tries = [find_status(url, "CS-0", f"a wrong guess {k:04}") for k in range(14)]
        guesses = asyncio.gather(*tries)
        await asyncio.sleep(0.5)
        right = time.monotonic()
        assert await find_status(url, "CS-1") == 101
        assert time.monotonic() - right < 2
        assert set(await guesses) == {401}
        assert time.monotonic() - began > 3

    with GatewayPart(make_store()) as gateway:
        asyncio.run(play(gateway.url))


def test_a_connection_without_a_handshake_is_cut(make_store: Make) -> None:
    """Who says nothing, or too much, does not stay."""
    with GatewayPart(make_store()) as gateway:
        with socket.create_connection(("127.0.0.1", gateway.port)) as silent:
            with socket.create_connection(("127.0.0.1", gateway.port)) as much:
                much.settimeout(5)
                try:
                    for _ in range(100):
                        much.sendall(b"x" * 10_000)
                    assert much.recv(10_000).startswith(b"HTTP/1.1 400") or not much.recv(1)
                except OSError:
                    pass
            silent.settimeout(20)
            began = time.monotonic()
            assert silent.recv(10) == b""
            assert time.monotonic() - began < 15


def test_a_station_above_its_pace_waits_and_nobody_else(make_store: Make) -> None:
    """After a minute's worth of frames the rest is read at its pace; pings are frames, too."""

    async def play(url: str) -> None:
        hostile, other = await connect_station(url, "CS-0"), await connect_station(url, "CS-1")
        for _ in range(1_200):
            await hostile.ping()
        began = time.monotonic()
        pongs = [await hostile.ping() for _ in range(60)]
        assert (await ask(other, HEARTBEAT)).startswith('[3,"h"')
        others = time.monotonic() - began
        await asyncio.wait_for(asyncio.gather(*pongs), 30)
        assert time.monotonic() - began > max(2, others)

    with GatewayPart(make_store()) as gateway:
        asyncio.run(play(gateway.url))


def test_a_gateway_that_ends_sends_stations_to_the_next_one(make_store: Make) -> None:
    """SIGTERM closes connections with code 1001, and the status is 0."""
    gateway = GatewayPart(make_store())

    async def play() -> int:
        station = await connect_station(gateway.url, "CS-0")
        gateway.process.terminate()
        try:
            await asyncio.wait_for(station.recv(), 10)
        except ConnectionClosed:
            pass
        return station.close_code or 0

    with gateway:
        assert asyncio.run(play()) == 1001
        assert gateway.process.wait(10) == 0
