"""Drawn scripts, with voids, conflicts, repeats, faults and lines of all kinds: settled in drawn batches, they get the
answers of one whole script, and the store shows the figures of its boards."""

import random
from collections.abc import Iterator
from datetime import datetime, timezone
from typing import NamedTuple

import pytest

from ocpp_board.ledger.engine import change_site, settle
from ocpp_board.ledger.program import Program
from ocpp_board.ledger.verify import verify
from ocpp_board.records import DEEDS, Answer, Asked, Deed, Message, Rules
from ocpp_board.store.database import Database
from ocpp_board.store.plan import write_station
from tests.drawn_scripts import pool_of
from tests.store.scene import AUTHOR

# Scripts of the SQLite store and of the PostgreSQL one.
SCRIPTS = {"sqlite": 300, "postgresql": 40}


class Drawn(NamedTuple):
    """A drawn script: its sites with their rules, its stations with their sites, and what is asked with the line of a
    whole script for each."""

    sites: dict[str, Rules]
    stations: dict[str, str]
    asked: list[Asked]
    lines: list[str]


def draw_lines(draws: random.Random, stations: list[str]) -> Iterator[str]:
    """Lines of all kinds, a few of them again and again, with an operator's lines on events that came and others."""
    pool = draws.sample(pool_of(draws, stations), 80)
    for _ in range(draws.randrange(20, 160)):
        if draws.randrange(5):
            yield draws.choice(pool)
        else:
            word, station = draws.choice(DEEDS), draws.choice(stations)
            yield f"{word} {station} T{draws.randrange(4)} {draws.randrange(60)}"


def draw(seed: int) -> Drawn:
    """The script of a seed."""
    draws = random.Random(seed)
    stations = [f"S{number}-{seed}" for number in range(draws.choice([1, 1, 3, 16]))]
    found, received = Drawn({}, {}, [], []), None
    for number, station in enumerate(stations):
        found.stations[station] = f"{'north' if number % 3 else 'south'}-{seed}"
    for number, line in enumerate(draw_lines(draws, stations)):
        word, _, rest = line.rstrip("\r\n").partition(" ")
        if word == "now":
            received = datetime.fromisoformat(rest.replace("Z", "+00:00"))
            found.lines.append(line.rstrip("\r\n"))
        elif word == "msg" and " " in rest:
            station, _, text = rest.partition(" ")
            found.asked.append(Message(station, text, received, ""))
            found.lines.append(f"msg {rest}")
        elif word in DEEDS:
            station, transaction, event = rest.split(" ")
            at = datetime(2026, 3, 1, tzinfo=timezone.utc).replace(microsecond=number)
            one = Deed(word, station, transaction, int(event), "jo", "", at, "operator jo")
            found.asked.append(one)
            found.lines.append(f"{word} {rest}")
    for site in set(found.stations.values()):
        period, order = draws.choice([300, 900, 3_600]), draws.choice(["moment", "sequence"])
        found.sites[site] = Rules(period, order, draws.choice(["later", "closing", "even"]))
    return found


def answer_whole(program: Program, script: Drawn) -> list[str]:
    """What the program answers the lines of one whole script."""
    lines = [f"station {site} {station}" for station, site in script.stations.items()]
    for site, rules in script.sites.items():
        lines += [f"period {site} {rules.period}", f"order {site} {rules.order}"]
        lines.append(f"settle {site} {rules.settle}")
    text = program.answer("\n".join([*lines, *script.lines, ""]).encode())
    return text.decode().splitlines()


def write_answers(answers: list[Answer]) -> Iterator[str]:
    """Answers as a whole script has them, but for the counts of changes."""
    for one in answers:
        if one.outcome == "stray" or one.name == "UnknownStation":
            yield "fault UnknownStation"
        elif one.outcome == "silent":
            yield "silent"
        elif one.reply is not None:
            yield one.reply
        elif one.outcome == "accepted":
            yield "accepted"
        else:
            yield f"{one.outcome} {one.name}"


def without_counts(text: str) -> str:
    """An answer without the count of changes, which is a station's in a whole script."""
    return "accepted" if text.startswith("accepted ") else text


def test_drawn_scripts(store: Database, program: Program) -> None:
    """Each drawn script, in batches of drawn sizes."""
    figures = accepted = refused = 0
    for seed in range(SCRIPTS[store.kind]):
        script, draws = draw(seed), random.Random(seed)
        for site, rules in script.sites.items():
            change_site(store, site, rules, AUTHOR)
        with store.transaction():
            for station, site in script.stations.items():
                write_station(store, station, site, AUTHOR)
        answers, at = list[Answer](), 0
        while at < len(script.asked):
            size = draws.choice([1, 7, 50])
            answers += settle(store, script.asked[at : at + size])
            at += size
        wanted = [*map(without_counts, answer_whole(program, script))]
        assert list(write_answers(answers)) == wanted, f"seed {seed}"
        verified = verify(store, list(script.sites))
        assert not verified.difference, f"seed {seed}: {verified.difference}"
        figures += verified.figures
        accepted += sum(one.outcome == "accepted" for one in answers)
        refused += sum(one.outcome == "refused" for one in answers)
    assert min(figures, accepted, refused) > 10 * SCRIPTS[store.kind]


@pytest.mark.parametrize("seed", range(3))
def test_drawing_is_the_same_each_time(seed: int) -> None:
    """A seed has one script, with deeds and messages of known and unknown stations."""
    script = draw(seed)
    assert script == draw(seed)
    assert any(isinstance(one, Deed) for one in script.asked)
