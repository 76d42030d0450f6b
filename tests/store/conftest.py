"""What the tests of the store take: a store in each database, and the proved program.

The program is that of OCPP_BOARD_PROGRAM or OCPP_LEDGER_LIBRARY, else that of the checkout or of the system.
"""

import itertools
from collections.abc import Iterator
from pathlib import Path

import pytest

from ocpp_board.errors import ProgramError
from ocpp_board.ledger.answers import Wish
from ocpp_board.ledger.program import Program, find_program
from ocpp_board.store.database import Database, open_store
from tests.cluster import Cluster, explain_lack, keep_cluster

NUMBERS = itertools.count()


@pytest.fixture(scope="session", name="program")
def found_program() -> Program:
    """The proved program, which has to know the lines `deliver` and `asks`."""
    try:
        program = find_program()
    except ProgramError as fault:
        pytest.skip(str(fault))
    assert program.ask(['[3,"",{}]'], [None]) == [Wish("silent")]
    return program


@pytest.fixture(scope="session", name="cluster")
def running_cluster() -> Iterator[Cluster]:
    """A PostgreSQL for all tests that do it no harm."""
    if lack := explain_lack():
        pytest.skip(lack)
    with keep_cluster(is_durable=False) as cluster:
        yield cluster


@pytest.fixture(params=["sqlite", "postgresql"], name="store_name")
def named_store(request: pytest.FixtureRequest, tmp_path: Path, program: Program) -> str:
    """The name of an empty store, in each database."""
    assert program
    if request.param == "sqlite":
        return str(tmp_path / "ledger.db")
    cluster: Cluster = request.getfixturevalue("cluster")
    return cluster.create(f"store_{next(NUMBERS)}")


@pytest.fixture(name="store")
def opened_store(store_name: str) -> Iterator[Database]:
    """An empty store, in each database."""
    with open_store(store_name) as store:
        yield store
