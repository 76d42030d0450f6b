"""How the figures of periods were come by: measured, or shared by time."""

from datetime import datetime, timezone

from ocpp_board.ledger.events import LiveEvents
from ocpp_board.ledger.periods import Doubt, Spans
from ocpp_board.messages.transactions import Event, Reading

TEN = int(datetime(2026, 3, 1, 10, tzinfo=timezone.utc).timestamp())
QUARTER = 900


def events(*readings: tuple[float, int]) -> list[Event]:
    """Events with a reading each: minutes after ten, and Wh."""
    found = []
    for number, (minutes, wh) in enumerate(readings):
        at = TEN + minutes * 60
        kind = "Started" if not number else "Updated"
        found.append(Event(number, kind, at, (Reading(at, wh * 1_000, False),), (), False, ""))
    return found


def doubts(some: list[Event], *gaps: tuple[int, int]) -> dict[int, Doubt]:
    """The doubts by quarters after ten."""
    spans, live, had = Spans(QUARTER, 300), LiveEvents(), None
    live += some
    live.orders[0].extend((event, one) for event in some for one in event.readings)
    spans.take_events(some)
    for event, one in live.orders[0]:
        spans.take_readings(False, had, [(event, one)])
        had = one
    found = spans.find_doubts(live, gaps)
    return {(start - TEN) // QUARTER: doubt for start, doubt in found.items()}


def test_readings_at_both_ends_measure_a_period() -> None:
    assert doubts(events((5, 0), (15, 100), (30, 200), (40, 250))) == {}
    # Within two seconds, and no more.
    assert doubts(events((5, 0), (15 + 2 / 60, 100), (20, 200))) == {}
    found = doubts(events((5, 0), (15 + 3 / 60, 100), (20, 200)))
    assert {*found} == {0, 1} and all(one.is_estimated for one in found.values())


def test_what_is_shared_by_time_adds_up_to_the_difference() -> None:
    found = doubts(events((5, 1_000), (35, 1_900)))
    assert {quarter: one.shared for quarter, one in found.items()} == {
        0: 300_000,
        1: 450_000,
        2: 150_000,
    }
    # Of a period with one end that is measured, the other's part.
    found = doubts(events((0, 0), (10, 100), (20, 300), (30, 400)))
    assert {quarter: one.shared for quarter, one in found.items()} == {0: 100_000, 1: 100_000}


def test_periods_without_a_session_are_measured() -> None:
    assert doubts(events((1, 0), (14, 100))) == {}
    assert doubts([]) == {}
    started = [Event(0, "Started", TEN + 60, (), (), False, "")]
    ended = [Event(1, "Ended", TEN + 1_860, (), (), False, "")]
    assert {*doubts(started + ended)} == {0, 1, 2}


def test_numbers_are_missing_between_the_events_around_a_gap() -> None:
    some = events((0, 0), (15, 100), (30, 200), (45, 300), (50, 300))
    some[2:4] = [some[3]._replace(number=7)]
    some[3] = some[3]._replace(number=8)
    found = doubts(some, (2, 6))
    assert {quarter for quarter, one in found.items() if one.has_gap} == {1, 2, 3}
    assert {quarter for quarter, one in found.items() if one.is_estimated} == {1, 2}
