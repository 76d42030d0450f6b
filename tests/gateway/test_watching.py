"""What is watched: figures, health, alerts that fire, a dashboard that reads what there is."""

import asyncio
import json
import re
import shutil
import subprocess
import time
import urllib.error
import urllib.request
from collections.abc import Callable
from datetime import datetime, timezone

import pytest

from ocpp_board.ledger.engine import settle
from ocpp_board.records import Message
from ocpp_board.store.database import open_store
from tests.cluster import TOP, Cluster, GatewayPart, find_port, keep_cluster
from tests.gateway.client import ask, connect_station, find_status, make_event, make_reply
from tests.gateway.conftest import fill_store

Make = Callable[..., str]
FOLDER = TOP / "examples/thousands-of-stations"
PROMTOOL = shutil.which("promtool")


def read(port: int, path: str) -> tuple[int, str]:
    """The status and the text of a page."""
    try:
        with urllib.request.urlopen(f"http://127.0.0.1:{port}/{path}", timeout=20) as answer:
            return answer.status, answer.read().decode()
    except urllib.error.HTTPError as fault:
        return fault.code, fault.read().decode()


def read_figure(text: str, name: str) -> float:
    """A figure without labels."""
    found = re.search(rf"^ocpp_board_gateway_{name} (\S+)$", text, re.MULTILINE)
    assert found, name
    return float(found[1])


def list_alerts() -> list[tuple[str, str]]:
    """The names and expressions of alerts."""
    text = (FOLDER / "alerts.yml").read_text()
    return re.findall(r"- alert: (\w+)\n +expr: (.*)\n", text)


def test_figures_of_a_gateway(make_store: Make) -> None:
    """What happened is counted, and each figure that an alert names is there."""
    name, port = make_store(), find_port()
    with open_store(name) as store:
        settle(store, [Message("nobody", make_event("t", 0), datetime.now(timezone.utc), "a test")])

    async def play(url: str) -> None:
        station = await connect_station(url, "CS-0")
        for number in range(3):
            assert await ask(station, make_event("t", number)) == make_reply("t", number)
        assert await find_status(url, "CS-1", "a wrong password.") == 401
        text = (await asyncio.to_thread(read, port, "metrics"))[1]
        assert read_figure(text, "stations") == 1
        await connect_station(url, "CS-0")
        await asyncio.sleep(0.5)

    with GatewayPart(name, "--metrics", port) as gateway:
        asyncio.run(play(gateway.url))
        status, text = read(port, "metrics")
        assert status == 200
        assert read_figure(text, "let_in_total") == 2
        assert read_figure(text, "replaced_total") == 1
        assert read_figure(text, "wrong_passwords_total") == 1
        assert read_figure(text, "wait_seconds_count") == 3
        assert read_figure(text, "store_strays") == 1
        assert 'messages_total{outcome="accepted"} 3.0' in text
        health = json.loads(read(port, "health")[1])
        assert health["well"] is True
        assert read(port, "nothing")[0] == 404
        for _, expression in list_alerts():
            for figure in re.findall(r"ocpp_board_gateway_\w+", expression):
                assert f"# TYPE {figure.removesuffix('_bucket').removesuffix('_total')}" in text


def test_health_while_the_store_is_away() -> None:
    """It says so, and says that it is well once the store is there again."""
    port = find_port()
    with keep_cluster(is_durable=False) as cluster:
        name = fill_store(cluster.create("ledger"))
        with GatewayPart(name, "--metrics", port):
            assert read(port, "health")[0] == 200
            cluster.kill()
            assert wait_for_health(port, 503)
            assert read_figure(read(port, "metrics")[1], "store_up") == 0
            cluster.start()
            assert wait_for_health(port, 200)


def wait_for_health(port: int, status: int) -> bool:
    """Whether a gateway's health gets this status within its time."""
    due = time.monotonic() + 20
    while time.monotonic() < due:
        if read(port, "health")[0] == status:
            return True
        time.sleep(0.1)
    return False


def test_there_are_few_alerts_and_each_is_described() -> None:
    """At most 15, each tried by alerts.test.yml, and each on the page of the fleet."""
    names = [name for name, _ in list_alerts()]
    assert 0 < len(names) == len(set(names)) <= 15
    tried = (FOLDER / "alerts.test.yml").read_text()
    page = (TOP / "docs/fleet.md").read_text()
    for name in names:
        assert f"alertname: {name}\n" in tried
        assert f"`{name}`" in page


@pytest.mark.skipif(PROMTOOL is None, reason="no promtool (Debian: apt-get install prometheus)")
def test_each_alert_fires() -> None:
    """By promtool, with the series that alerts.test.yml has."""
    for words in (("check", "rules", "alerts.yml"), ("test", "rules", "alerts.test.yml")):
        done = subprocess.run(
            [str(PROMTOOL), *words], cwd=FOLDER, capture_output=True, text=True, check=False
        )
        assert done.returncode == 0, done.stdout + done.stderr
    done = subprocess.run(
        [str(PROMTOOL), "check", "config", "prometheus.yml"],
        cwd=FOLDER,
        capture_output=True,
        text=True,
        check=False,
    )
    assert done.returncode == 0


def test_the_dashboard_reads_what_there_is(cluster: Cluster, make_fleet: Make) -> None:
    """Each statement of the dashboard runs, and each figure is a gateway's."""
    name, port = make_fleet(), find_port()
    panels = json.loads((FOLDER / "dashboard.json").read_text())["panels"]
    targets = [target for panel in panels for target in panel["targets"]]
    with open_store(name) as store:
        for target in targets:
            if "rawSql" in target:
                store.fetch(target["rawSql"])
    with GatewayPart(name, "--metrics", port):
        text = read(port, "metrics")[1]
    for target in targets:
        for figure in re.findall(r"ocpp_board_gateway_\w+", target.get("expr", "")):
            assert f"# TYPE {figure.removesuffix('_bucket').removesuffix('_total')}" in text
    assert sum("rawSql" in target for target in targets) >= 5
