"""Parts that fail while stations send: the database killed, cut off, full; gateways killed. No event is lost, and none
is answered that is not stored. Each scene ends with `verify`, and reports its longest wait."""

import asyncio
import os
import shutil
import subprocess
import time
from collections.abc import Callable, Iterator
from pathlib import Path

import pytest

from ocpp_board.ledger.verify import verify
from ocpp_board.store.database import open_store
from tests.cluster import Cluster, GatewayPart, keep_cluster, kill_all, list_children
from tests.gateway.client import ask, connect_station, make_event, make_reply, wait_for_close
from tests.gateway.conftest import NUMBERS, fill_store
from tests.gateway.load import Load, Plan, Seen
from tests.gateway.proxy import Proxy

Make = Callable[..., str]
# Stations of a scene, events of each, and messages a second of all; and seconds for a scene.
STATIONS, EVENTS, RATE = 24, 24, 60.0
LONGEST_SCENE = 120.0


@pytest.fixture(name="harmed_cluster", scope="module")
def kept_harmed_cluster() -> Iterator[Cluster]:
    """A server that tests may harm: what it commits is on disk."""
    with keep_cluster(is_durable=True) as cluster:
        yield cluster


@pytest.fixture(name="own_cluster")
def begun_cluster(harmed_cluster: Cluster) -> Cluster:
    """The same, as it runs again after a test that left it harmed."""
    if not harmed_cluster.is_running:
        harmed_cluster.start()
    return harmed_cluster


def check_store(name: str, seen: Seen, scene: str) -> None:
    """All events that were sent are answered as taken ones, are stored once, and the boards are those of whole
    scripts. No message waited without a reply for longer than a gateway has patience."""
    assert not seen.odd and not seen.unanswered and not seen.late, seen.odd[:3]
    assert len(seen.waits) == STATIONS * EVENTS
    with open_store(name) as store:
        (row,) = store.fetch("select count(*) as n from line")
        assert row.n == STATIONS * EVENTS
        (row,) = store.fetch("select count(*) as n from session where complete")
        assert row.n == STATIONS
        verified = verify(store)
    assert verified.figures and not verified.difference, verified.difference
    print(f"\n{scene}: {seen.report()}; the longest wait {seen.wait(1) / 1000:.2f} s")


async def play(urls: list[str], scene: Callable[[], object], after: float = 1.5) -> Seen:
    """Stations send, and after some seconds something fails."""
    load = Load(Plan(urls, STATIONS, events=EVENTS, rate=RATE))
    job = asyncio.create_task(load.run())
    await asyncio.sleep(after)
    await asyncio.to_thread(scene)
    async with asyncio.timeout(LONGEST_SCENE):
        return await job


def make_store(cluster: Cluster) -> str:
    """A store with the stations of a load."""
    return fill_store(cluster.create(f"ledger_{next(NUMBERS)}"), STATIONS, "L")


def test_the_database_is_killed_and_begun_again(own_cluster: Cluster) -> None:
    """All of its processes at once, as in a power cut, three times."""
    name = make_store(own_cluster)

    def kill() -> None:
        for _ in range(3):
            own_cluster.kill()
            time.sleep(1.0)
            own_cluster.start()
            time.sleep(1.5)

    with GatewayPart(name) as gateway:
        seen = asyncio.run(play([gateway.url], kill))
    check_store(name, seen, "the database is killed three times")


def test_a_gateway_is_killed_at_any_moment(own_cluster: Cluster) -> None:
    """Two gateways are killed by turns, with their processes; stations go to the other one."""
    name = make_store(own_cluster)
    gateways = [GatewayPart(name, "--lanes", 2) for _ in range(2)]
    ports = [one.port for one in gateways]

    def kill() -> None:
        for turn in range(4):
            gateways[turn % 2].kill()
            time.sleep(0.37 * turn)
            # The same port, as a supervisor begins it again.
            gateways[turn % 2] = GatewayPart(name, "--port", ports[turn % 2])
            time.sleep(0.7)

    try:
        seen = asyncio.run(play([one.url for one in gateways], kill))
    finally:
        for one in gateways:
            one.stop()
    check_store(name, seen, "gateways are killed four times")


def test_a_settling_process_is_killed_at_any_moment(own_cluster: Cluster) -> None:
    """Its batch is settled again by a new process."""
    name = make_store(own_cluster)

    def kill() -> None:
        for _ in range(8):
            kill_all(list_children(gateway.pid))
            time.sleep(0.4)

    with GatewayPart(name, "--lanes", 2) as gateway:
        seen = asyncio.run(play([gateway.url], kill))
    check_store(name, seen, "settling processes are killed eight times")


def test_a_backend_of_the_database_is_ended(own_cluster: Cluster) -> None:
    """As an administrator does, again and again."""
    name = make_store(own_cluster)

    def end() -> None:
        for _ in range(6):
            own_cluster.query(
                "postgres",
                "select pg_terminate_backend(pid) from pg_stat_activity where datname like 'ledger%'",
            )
            time.sleep(0.5)

    with GatewayPart(name) as gateway:
        seen = asyncio.run(play([gateway.url], end))
    check_store(name, seen, "backends are ended six times")


def test_the_network_to_the_database_is_cut(own_cluster: Cluster) -> None:
    """Nothing is handed on for some seconds, and then connections are gone; a second time they just go on."""
    name = make_store(own_cluster)
    proxy = Proxy(own_cluster.port)

    def cut() -> None:
        for is_reset in (True, False):
            proxy.cut()
            time.sleep(3)
            proxy.mend(is_reset)
            time.sleep(2)

    try:
        with GatewayPart(name.replace(f":{own_cluster.port}/", f":{proxy.port}/")) as gateway:
            seen = asyncio.run(play([gateway.url], cut))
    finally:
        proxy.close()
    check_store(name, seen, "the network is cut twice")


def test_two_gateways_settle_the_same_transactions(own_cluster: Cluster) -> None:
    """A station sends every event to two gateways at once, by connections of its own; each is stored once."""
    name = make_store(own_cluster)

    async def play_both(urls: list[str]) -> tuple[Seen, Seen]:
        # Stations of other names would be other stations, so both loads play the same ones: each connection ends the
        # other's, and what was sent comes again.
        first, second = (Load(Plan(urls[k:] + urls[:k], STATIONS, events=EVENTS)) for k in (0, 1))
        async with asyncio.timeout(LONGEST_SCENE):
            one, other = await asyncio.gather(first.run(), second.run())
        return one, other

    with GatewayPart(name) as first, GatewayPart(name) as second:
        one, other = asyncio.run(play_both([first.url, second.url]))
    assert not other.odd and not other.unanswered
    check_store(name, one, "two connections of each station")


def test_the_store_is_away_for_longer_than_a_station_waits(own_cluster: Cluster) -> None:
    """Nothing is sent; the connection is closed with code 1013, and nothing of it is stored; then it is taken."""
    name = make_store(own_cluster)

    async def send(url: str) -> None:
        station = await connect_station(url, "L-0")
        assert await ask(station, make_event("t", 0)) == make_reply("t", 0)
        own_cluster.kill()
        began = time.monotonic()
        await station.send(make_event("t", 1))
        assert await wait_for_close(station, 30) == 1013
        assert 2 < time.monotonic() - began < 12
        own_cluster.start()
        for _ in range(100):
            try:
                station = await connect_station(url, "L-0")
                break
            except Exception:
                await asyncio.sleep(0.2)
        assert await ask(station, make_event("t", 1)) == make_reply("t", 1)

    with GatewayPart(name, "--patience", 3) as gateway:
        asyncio.run(send(gateway.url))
    with open_store(name) as store:
        assert [row.number for row in store.fetch("select number from line order by 1")] == [1, 2]


@pytest.mark.skipif(os.getuid() != 0, reason="only root mounts a file system")
def test_the_disk_is_full(tmp_path: Path) -> None:
    """The database's disk has no room for a while: nothing is answered meanwhile, nothing is lost."""
    folder = tmp_path / "disk"
    folder.mkdir()
    mount = ["mount", "-t", "tmpfs", "-o", "size=320m", "tmpfs", str(folder)]
    if subprocess.run(mount, check=False, capture_output=True).returncode:
        pytest.skip("no file system can be mounted here")
    os.chmod(tmp_path, 0o755)
    for parent in folder.parents:
        if parent.is_relative_to(Path(os.environ.get("TMPDIR", "/tmp"))):
            os.chmod(parent, 0o755)
    cluster = Cluster(folder, is_durable=True)
    try:
        cluster.make()
        cluster.start(shared_buffers="16MB", max_wal_size="64MB")
        name = make_store(cluster)
        ballast = folder / "ballast"

        def fill() -> None:
            room = shutil.disk_usage(folder).free
            with open(ballast, "wb") as file:
                try:
                    file.write(b"\0" * room)
                except OSError:
                    pass
            time.sleep(4)
            ballast.unlink(missing_ok=True)
            assert cluster.process
            if cluster.process.poll() is not None:
                # Without room for its log the server ends itself.
                (cluster.data / "postmaster.pid").unlink(missing_ok=True)
                cluster.start(shared_buffers="16MB", max_wal_size="64MB")

        with GatewayPart(name) as gateway:
            seen = asyncio.run(play([gateway.url], fill))
        check_store(name, seen, "the disk is full for four seconds")
    finally:
        cluster.stop()
        subprocess.run(["umount", "-l", str(folder)], check=False)
