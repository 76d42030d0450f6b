"""Shows and changes the plan of a store: sites with their rules, and stations.

    ocpp-board plan --store ledger.db
    ocpp-board plan --store ledger.db site north --zone Europe/Berlin --why "opened"
    ocpp-board plan --store ledger.db station CS-01 CS-02 --site north --most-kw 22 --why "built"
    ocpp-board plan --store ledger.db retire CS-02 --why "removed"
    ocpp-board plan --store ledger.db csv plan.csv --why "the operator's list of March"

Without a word it lists the sites and their stations as CSV, which `plan csv` reads. A site that is named again changes
the rules that are named, and the figures of its transactions are computed again; from its first settled day on its
period, its order of readings, its rule of settling and its zone are fixed. A station that moves to another site leaves
the transactions that it began where they are. What came of a station before the plan had it is taken then. Each change
is kept with who, when, before, after and why.

The columns of a CSV file are `site`, `station`, `station_kw`, and of rules, which may be left out: `period`, `order`,
`settle`, `zone`, `events`, `readings`, `most_kw`, `reading_within`, `resolution`. A row without a station is of the
site only.
"""

import argparse
import csv
import getpass
import importlib
import sys
from collections.abc import Callable, Mapping
from dataclasses import replace
from pathlib import Path
from typing import Any

from ocpp_board.commands.options import add_program, add_store, choose_program, read_power
from ocpp_board.errors import InputError, UsageError
from ocpp_board.ledger.engine import change_power, change_site, take_strays
from ocpp_board.limits import ORDERS, PERIODS
from ocpp_board.limits import RULES as SETTLES
from ocpp_board.records import Rules
from ocpp_board.statuses import Status
from ocpp_board.store.database import Database, open_store
from ocpp_board.store.plan import Author, find_rules, list_values, retire_station, write_station

ENDING = """\
Exit status: 0 when the plan is as asked; 1 when a name, a rule or a row can't be taken, and then nothing of this
command was changed but rows in front of it; 2 when the words are wrong or the store or a file can't be used."""
NUMBERS = ("period", "events", "readings", "most_kw", "reading_within", "resolution")
RULES = ("period", "order", "settle", "zone", *NUMBERS[1:])
OWN_KW = "station_kw"
# Modules with further words, each with `add_plan_words(subparsers)`.
MORE = ("ocpp_board.commands.plan_passwords", "ocpp_board.commands.plan_mends")


def add_words(parser: argparse.ArgumentParser) -> None:
    """The words of the command."""
    add_store(parser)
    add_program(parser)
    group = parser.add_subparsers(dest="word", metavar="WORD", title="words")
    site = add_word(group, "site", "adds a site, or changes its rules", write_named_site)
    site.add_argument("site", metavar="SITE")
    site.add_argument("--period", type=int, choices=PERIODS, help="seconds of a settlement period")
    site.add_argument("--order", choices=ORDERS, help="the order of readings")
    site.add_argument("--settle", choices=SETTLES, help="the period that a difference counts in")
    site.add_argument("--zone", help="the time zone of the site's days, such as Europe/Berlin")
    site.add_argument("--events", type=int, help="how many events a transaction may keep")
    site.add_argument("--readings", type=int, help="how many readings a transaction may keep")
    site.add_argument("--most-kw", type=int, help="the greatest power of an EVSE that can be")
    site.add_argument(
        "--reading-within",
        type=int,
        metavar="SECONDS",
        help="how far from a session's start and end its first and last reading may be (at first 300)",
    )
    site.add_argument(
        "--resolution",
        type=int,
        metavar="WH",
        help="a register that falls by less has not fallen (at first 10 Wh)",
    )
    station = add_word(group, "station", "adds stations, or moves them", write_stations)
    station.add_argument("stations", nargs="+", metavar="STATION")
    station.add_argument("--site", required=True, help="the site that they belong to")
    station.add_argument(
        "--most-kw", type=read_power, metavar="KW", help="the greatest power of one of their EVSEs"
    )
    retire = add_word(group, "retire", "ends stations; their transactions stay", retire_stations)
    retire.add_argument("stations", nargs="+", metavar="STATION")
    table = add_word(group, "csv", "adds and changes what a CSV file lists", write_table)
    table.add_argument("file", type=Path, metavar="FILE")
    for name in MORE:
        importlib.import_module(name).add_plan_words(group)


def add_word(
    group: Any, name: str, about: str, change: Callable[..., int]
) -> argparse.ArgumentParser:
    """A word of the command that changes something."""
    parser: argparse.ArgumentParser = group.add_parser(name, help=about, description=about)
    parser.add_argument("--why", required=True, metavar="REASON", help="the reason, which is kept")
    parser.add_argument("--who", help="who asks for it (default: the user of this session)")
    parser.set_defaults(change=change)
    return parser


def run(words: argparse.Namespace) -> int:
    """Shows or changes the plan."""
    choose_program(words.program)
    with open_store(words.store) as store:
        if words.word is None:
            return list_plan(store)
        if not words.why.strip():
            raise UsageError("no reason is given; give one by --why")
        status: int = words.change(
            store, words, Author(words.who or getpass.getuser(), words.why.strip())
        )
    return status


def list_plan(store: Database) -> int:
    """Writes the plan as CSV."""
    table = csv.writer(sys.stdout, lineterminator="\n")
    table.writerow(["site", "station", OWN_KW, *RULES])
    for row in store.fetch(
        """select i.site, t.station, t.most_kw as own_kw, i.period, i.reading_order, i.settle, i.zone, i.events,
            i.readings, i.most_kw, i.reading_within, i.resolution
        from site i left join station t on t.site = i.site and t.until is null
        order by i.place, i.site, t.place, t.station"""
    ):
        table.writerow(["" if value is None else value for value in row])
    return Status.DONE


def merge_rules(store: Database, site: str, named: Mapping[str, Any]) -> Rules:
    """A site's rules with those that are named."""
    rules = find_rules(store, site) or Rules()
    limits = {name: named[name] for name in ("events", "readings") if named.get(name) is not None}
    others = {
        name: named[name]
        for name in RULES
        if name not in ("events", "readings") and named.get(name) is not None
    }
    return replace(rules, limits=replace(rules.limits, **limits), **others)


def write_site_rules(
    store: Database, site: str, named: Mapping[str, Any], author: Author, where: str
) -> None:
    """Adds a site or changes its rules, and reports what was computed again."""
    count = change_site(store, site, merge_rules(store, site, named), author, where)
    if count:
        print(f"{site}: {count:,} transactions computed again")


def write_named_site(store: Database, words: argparse.Namespace, author: Author) -> int:
    """Adds a site, or changes the rules that the words name."""
    write_site_rules(store, words.site, vars(words), author, "plan site")
    rules = list_values(merge_rules(store, words.site, {}))
    print(f"{words.site}: " + ", ".join(f"{name} {value}" for name, value in rules.items()))
    return Status.DONE


def write_stations(store: Database, words: argparse.Namespace, author: Author) -> int:
    """Adds stations to a site, and takes what came of them before."""
    with store.transaction():
        changed = sum(
            write_station(store, station, words.site, author, "plan station")
            for station in words.stations
        )
    print(f"{words.site}: {changed:,} stations added or moved")
    if words.most_kw:
        for station in words.stations:
            change_power(store, station, words.most_kw, author, "plan station")
        print(f"{words.site}: {len(words.stations):,} stations have {words.most_kw} kW at most")
    return report_strays(store, words.stations)


def report_strays(store: Database, stations: list[str]) -> int:
    """Takes what came of stations before the plan had them, and reports how much that was."""
    taken = take_strays(store, stations)
    if taken:
        accepted = sum(one.outcome == "accepted" for one in taken)
        print(f"{len(taken):,} messages that came before: {accepted:,} accepted")
    return Status.DONE


def retire_stations(store: Database, words: argparse.Namespace, author: Author) -> int:
    """Ends stations."""
    with store.transaction():
        for station in words.stations:
            retire_station(store, station, author, "plan retire")
    print(f"{len(words.stations):,} stations retired")
    return Status.DONE


def write_table(store: Database, words: argparse.Namespace, author: Author) -> int:
    """Adds and changes what a CSV file lists."""
    stations = list[str]()
    for number, row in read_table(words.file):
        where = f"{words.file}:{number}"
        named = read_numbers({name: row[name] for name in RULES if row.get(name)}, where)
        if named or find_rules(store, row["site"]) is None:
            write_site_rules(store, row["site"], named, author, where)
        if row["station"]:
            with store.transaction():
                if write_station(store, row["station"], row["site"], author, where):
                    stations.append(row["station"])
            if own_kw := row.get(OWN_KW):
                try:
                    change_power(store, row["station"], read_power(own_kw), author, where)
                except argparse.ArgumentTypeError as fault:
                    raise InputError(f"{where}: {fault}") from None
    print(f"{len(stations):,} stations added or moved")
    return report_strays(store, stations)


def read_table(path: Path) -> list[tuple[int, dict[str, str]]]:
    """The rows of a CSV file with the numbers of their lines. Raises InputError."""
    try:
        with open(path, encoding="utf-8-sig", newline="") as file:
            table = csv.DictReader(file)
            heads = table.fieldnames or []
            unknown = [name for name in heads if name not in ("site", "station", OWN_KW, *RULES)]
            if "site" not in heads or unknown:
                wrong = (
                    f"no column {unknown[0]!r} is known" if unknown else "there is no column `site`"
                )
                raise InputError(
                    f"{path}: {wrong}; the columns are site, station, {OWN_KW}, {', '.join(RULES)}"
                )
            return [(table.line_num, read_row(row)) for row in table]
    except (OSError, UnicodeDecodeError, csv.Error) as fault:
        raise InputError(f"{path} can't be read as CSV: {fault}") from None


def read_row(row: Mapping[str | None, Any]) -> dict[str, str]:
    """A row's cells without blanks around them."""
    cells = {name: (value or "").strip() for name, value in row.items() if name is not None}
    return {"station": ""} | cells


def read_numbers(named: Mapping[str, str], where: str) -> dict[str, Any]:
    """Rules with their numbers as such. Raises InputError."""
    found = dict[str, Any](named)
    for name in NUMBERS:
        if name in named:
            if not named[name].isdecimal():
                raise InputError(f"{where}: {name} is {named[name]!r}, which is no number")
            found[name] = int(named[name])
    return found
