"""Takes stored scripts into a store, for tests of what is made of it."""

from pathlib import Path

from ocpp_board.commands.loading import Declared
from ocpp_board.ledger.engine import change_site, settle
from ocpp_board.records import Answer, Asked
from ocpp_board.sources.script import Declaration, read_script
from ocpp_board.store.database import Database
from ocpp_board.store.plan import write_station
from tests.store.scene import AUTHOR

EXAMPLES = Path(__file__).parents[2] / "examples"
SITE_DAY = EXAMPLES / "site_day.script"


def read_records(path: Path) -> tuple[Declared, list[Asked]]:
    """Reads what a script declares, and what it asks for."""
    declared, asked = Declared(), list[Asked]()
    with open(path, "rb") as file:
        for one in read_script(file, path.name):
            if isinstance(one, Declaration):
                declared.take(one)
            else:
                asked.append(one)
    return declared, asked


def plan_script(store: Database, declared: Declared) -> None:
    """Takes what a script declares into the plan."""
    for site, rules in declared.rules.items():
        change_site(store, site, rules, AUTHOR)
    with store.transaction():
        for station, site in declared.site_of.items():
            write_station(store, station, site, AUTHOR)


def load_script(store: Database, path: Path) -> list[Answer]:
    """Takes a script into a store, and gives the answers."""
    declared, asked = read_records(path)
    plan_script(store, declared)
    return settle(store, asked)
