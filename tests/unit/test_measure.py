"""What is measured with: the scripts of each order, and the ratios of rounds."""

import re

import pytest

from tests.measure.rounds import times_as_fast
from tests.measure.script import ORDERS, script

MESSAGES, STATIONS = 1_600, 4


def texts(order: str) -> list[tuple[str, str]]:
    """The station and the text of each message of a script, without the message's number."""
    lines = [line for line in script(order, MESSAGES, STATIONS) if line.startswith("msg ")]
    return [(line.split()[1], re.sub(r'\[2,"\d+"', "[2", line)) for line in lines]


@pytest.mark.parametrize("order", ORDERS)
def test_each_station_takes_its_turn(order: str) -> None:
    stations = [station for station, _ in texts(order)]
    assert len(stations) == MESSAGES
    assert stations == ["CS-01", "CS-02", "CS-03", "CS-04"] * (MESSAGES // STATIONS)


def test_repeats_are_of_eight_events() -> None:
    assert len(set(texts("repeats"))) == 8 * STATIONS


def test_many_transactions_end_and_begin() -> None:
    sent = [text for station, text in texts("many") if station == "CS-01"]
    assert [text.count('"Started"') for text in sent].count(1) == MESSAGES // STATIONS // 50
    assert [text.count('"Ended"') for text in sent].count(1) == MESSAGES // STATIONS // 50
    assert len({re.findall(r'"S-\d+"', text)[0] for text in sent}) == MESSAGES // STATIONS // 50


def test_shuffled_events_are_those_in_order() -> None:
    assert sorted(texts("shuffled")) == sorted(texts("in_order"))
    assert texts("shuffled") != texts("in_order")


def test_a_ratio_is_the_middle_of_the_rounds_own() -> None:
    # The host was twice as slow in the second round; the ratio of the middle times would be 3.
    assert times_as_fast([2.0, 6.0, 3.0], [1.0, 2.0, 1.0]) == 3.0
    assert times_as_fast([2.0, 4.0, 30.0], [1.0, 2.0, 3.0]) == 2.0
