"""What the tests of gateways take: a PostgreSQL, stores in it and in files, with stations and their passwords."""

import faulthandler
import itertools
import os
import signal
import sys
from collections.abc import Callable, Iterator
from datetime import datetime, timezone
from pathlib import Path

import pytest

from ocpp_board.passwords import make_password
from ocpp_board.store.database import open_store
from tests.cluster import Cluster
from tests.gateway.client import PASSWORD
from tests.store.conftest import running_cluster

# The fixture of all tests on PostgreSQL.
__all__ = ["running_cluster"]
TOP = Path(__file__).resolve().parent.parent.parent
SITE = "depot"
NUMBERS = itertools.count()
Make = Callable[..., str]
# Seconds for a test, on a machine with much else to do.
LONGEST_TEST = 240.0


def fill_store(name: str, stations: int = 3, front: str = "CS", site: str = SITE) -> str:
    """A store with a site and so many stations, CS-0 and so on, each with the password of tests."""
    made, at = make_password(PASSWORD), datetime.now(timezone.utc)
    with open_store(name) as store, store.transaction():
        store.execute("insert into site (site) values (:site) on conflict do nothing", site=site)
        names = [f"{front}-{k}" for k in range(stations)]
        store.insert_each("station", [{"station": one, "site": site} for one in names])
        store.insert_each(
            "password",
            [
                {
                    "station": one,
                    "hash": made.hash,
                    "salt": made.salt,
                    "cost": made.cost,
                    "set_at": at,
                }
                for one in names
            ],
        )
    return name


@pytest.fixture(name="make_store", params=["sqlite", "postgresql"])
def store_maker(request: pytest.FixtureRequest, tmp_path: Path) -> Make:
    """Makes stores of both kinds, with stations."""

    def make(stations: int = 3) -> str:
        if request.param == "sqlite":
            return fill_store(str(tmp_path / f"ledger_{next(NUMBERS)}.db"), stations)
        cluster: Cluster = request.getfixturevalue("cluster")
        return fill_store(cluster.create(f"ledger_{os.getpid()}_{next(NUMBERS)}"), stations)

    return make


@pytest.fixture(name="make_fleet")
def fleet_maker(cluster: Cluster) -> Make:
    """Makes stores in PostgreSQL, with stations."""

    def make(stations: int = 3) -> str:
        return fill_store(cluster.create(f"ledger_{os.getpid()}_{next(NUMBERS)}"), stations)

    return make


@pytest.fixture(autouse=True)
def limit_time(request: pytest.FixtureRequest) -> Iterator[None]:
    """Ends a test that waits for ever, and says where it waits. What holds that up is ended, too, after a while."""

    def end(*_words: object) -> None:
        faulthandler.dump_traceback(sys.__stderr__)
        raise TimeoutError(f"{request.node.name} takes more than {LONGEST_TEST:.0f} seconds")

    before = signal.signal(signal.SIGALRM, end)
    signal.setitimer(signal.ITIMER_REAL, LONGEST_TEST, LONGEST_TEST / 10)
    try:
        yield
    finally:
        signal.setitimer(signal.ITIMER_REAL, 0)
        signal.signal(signal.SIGALRM, before)


sys.setswitchinterval(0.01)
