"""What is doubtful in the data of one transaction, by its messages and by the lists of what counts."""

import base64
import json
from collections.abc import Sequence
from datetime import timedelta
from decimal import Decimal
from typing import Any

import pytest

from ocpp_board.ledger.answers import AnswerReader
from ocpp_board.ledger.course import Course
from ocpp_board.ledger.events import read_conflict
from ocpp_board.ledger.findings import MOST_KW, Finding, Kind
from ocpp_board.ledger.rows import find_ends
from ocpp_board.messages.transactions import mwh_of
from ocpp_board.records import Line, Rules
from ocpp_board.store.database import open_store
from tests.reference import Site, Station, event_of
from tests.traffic.troubles import FIRST, KINDS, Sent, Session as Messages, event, reading, sound

HOUR = timedelta(hours=1)


def deliver(sent: Sent) -> str:
    """The line of a message."""
    return f"deliver CS-01 {json.dumps([2, '1', sent.action, sent.payload])}"


def take(messages: Messages, conflicts: Sequence[int] = ()) -> list[Line]:
    """The lines of these messages, which are accepted but for those that conflict."""
    return [
        Line(number + 1, deliver(sent), sent.received)
        for number, sent in enumerate(messages)
        if number not in conflicts
    ]


def follow(
    messages: Messages,
    conflicts: Sequence[int] = (),
    is_by_moment: bool = False,
    voided: Sequence[int] = (),
    most_kw: int = MOST_KW,
) -> Course:
    """The course of these messages, by lists in plain Python."""
    station = Station(Site(is_by_moment=is_by_moment))
    own = station.events.setdefault("t1", {})
    for number, sent in enumerate(messages):
        if number not in conflicts:
            payload = json.loads(json.dumps(sent.payload), parse_float=Decimal)
            own[payload["seqNo"]] = event_of(payload)
    station.voided = {("t1", number) for number in voided}
    texts = [*station.event_list("CS-01", "t1"), *station.reading_list("CS-01", "t1"), ""]
    lists = AnswerReader("\n".join(texts).encode()).read_lists()
    course = Course("north", Rules(order="moment" if is_by_moment else "sequence", most_kw=most_kw))
    course.take(take(messages, conflicts), lists)
    return course


def find(
    messages: Messages,
    complete: bool = True,
    conflicts: Sequence[int] = (),
    is_by_moment: bool = False,
    voided: Sequence[int] = (),
    most_kw: int = MOST_KW,
) -> list[Finding]:
    """The findings of these messages."""
    course = follow(messages, conflicts, is_by_moment, voided, most_kw)
    others = [read_conflict(deliver(messages[number])) for number in conflicts]
    return course.doubts.find(course.events, others, complete, course.spans.of_readings)


def registers(messages: Messages, is_by_moment: bool = False) -> tuple[tuple[int | None, ...], ...]:
    """The first and the last reading of the import register, and of the export register."""
    return tuple(map(find_ends, follow(messages, is_by_moment=is_by_moment).events.orders))


def kinds(name: str, conflicts: Sequence[int] = ()) -> list[tuple[Kind, int]]:
    """The findings of a session of the generator, and how often each is."""
    found = find(KINDS[name]("T1", FIRST), name not in ("id-again", "no-end"), conflicts)
    return [(one.kind, one.times) for one in found]


@pytest.mark.parametrize(
    ("name", "wanted"),
    [
        ("sound", []),
        ("no-reading", [(Kind.NO_READING, 1)]),
        ("interval-energy", [(Kind.OTHER_ENERGY, 4)]),
        ("phase-energy", [(Kind.OTHER_ENERGY, 4)]),
        ("inlet-energy", [(Kind.OTHER_ENERGY, 4)]),
        ("clock-back", [(Kind.READ_LATER, 1)]),
        ("clock-far", [(Kind.CLOCK_FAR, 4)]),
        ("register-falls", [(Kind.REGISTER_FALLS, 1)]),
        ("readings-repeated", [(Kind.REPEATED, 3)]),
        ("above-0", []),
        ("missing-number", []),
        ("no-end", []),
        ("no-start", []),
        ("feeds-back", []),
        ("power", [(Kind.POWER, 1)]),
        ("signed-differs", [(Kind.SIGNED, 1)]),
        ("reset", [(Kind.RESET, 1)]),
        ("rose-between", []),
    ],
)
def test_each_trouble_is_found_and_no_other(name: str, wanted: list[tuple[Kind, int]]) -> None:
    assert kinds(name) == wanted


@pytest.mark.parametrize(("most_kw", "times"), [(29, 1), (31, 0)])
def test_the_greatest_power_may_be_said(most_kw: int, times: int) -> None:
    messages = sound("T1", FIRST)
    messages[1].payload["meterValue"][0]["sampledValue"][0]["value"] = 6_000
    messages[2:] = []
    found = find(messages, False, most_kw=most_kw)
    assert [one.kind for one in found] == [Kind.POWER] * times


@pytest.mark.parametrize(
    ("signed", "is_reported"),
    [
        ('OCMF|{"RD":[{"RV":1.750,"RU":"kWh"}]}|{}', False),
        ('OCMF|{"RD":[{"RV":1.0,"RU":"kWh"},{"RV":1750,"RU":"Wh"}]}|{}', False),
        ('OCMF|{"RD":[{"RV":1.7505,"RU":"kWh"}]}|{}', False),
        ('OCMF|{"RD":[{"RV":1.752,"RU":"kWh"}]}|{}', True),
        ('OCMF|{"RD":[{"RV":9,"RU":"mOhm"}]}|{}', False),
        ('OCMF|{"RD":[{"RV":"9","RU":"kWh"}]}|{}', True),
        ("OCMF|[]|{}", False),
        ("<signedMeterValue>", False),
        ("OCMF|", False),
    ],
)
def test_signed_values_are_compared(signed: str, is_reported: bool) -> None:
    for data in (signed, base64.b64encode(signed.encode()).decode()):
        messages = sound("T1", FIRST)
        sampled = messages[3].payload["meterValue"][0]["sampledValue"][0]
        sampled["signedMeterValue"] = {"signedMeterData": data}
        assert [one.kind for one in find(messages)] == [Kind.SIGNED] * is_reported


def test_an_id_is_used_again_by_later_numbers_and_by_later_conflicts() -> None:
    assert kinds("id-again", [4]) == [(Kind.ID_AGAIN, 2)]


def test_an_end_that_comes_again_with_another_time_uses_no_id_again() -> None:
    messages = [*sound("T1", FIRST), event("T1", 3, "Ended", FIRST + 9 * HOUR, 1)]
    assert find(messages, True, [4]) == []
    messages[4] = event("T1", 3, "Updated", FIRST + 9 * HOUR, 1)
    assert find(messages, True, [4]) == []
    messages[4] = event("T1", 0, "Started", FIRST + 9 * HOUR, 1)
    assert [one.kind for one in find(messages, True, [4])] == [Kind.ID_AGAIN]


def test_a_conflict_before_the_end_uses_no_id_again() -> None:
    assert kinds("conflict", [2]) == []


def test_the_measurands_that_do_not_count_are_reported() -> None:
    messages = KINDS["phase-energy"]("T1", FIRST)
    value = messages[0].payload["meterValue"][0]["sampledValue"][0]
    messages[0].payload["meterValue"][0]["sampledValue"].append(value | {"phase": "L2"})
    (found,) = find(messages, False)
    register = "Energy.Active.Import.Register"
    assert found.detail == f"{register} phase L1, {register} phase L2"
    assert (found.kind, found.first) == (Kind.OTHER_ENERGY, FIRST)


def test_of_many_measurands_the_first_are_reported() -> None:
    messages = KINDS["phase-energy"]("T1", FIRST)[:1]
    values = messages[0].payload["meterValue"][0]["sampledValue"]
    values += [values[0] | {"phase": f"L{number}"} for number in range(2, 10)]
    (found,) = find(messages, False)
    assert found.detail.endswith("phase L6 and 3 more")


@pytest.mark.parametrize(
    ("reason", "reported"),
    [
        (None, ""),
        ("", ""),
        ({"a": 1}, ""),
        (True, ""),
        ("Local\n\x00\ud800\x1b[0m", "Local????[0m"),
        ("x" * 81, "x" * 80 + ".."),
    ],
)
def test_a_reason_may_be_anything(reason: Any, reported: str) -> None:
    messages = sound("T1", FIRST)
    messages[3].payload["transactionInfo"]["stoppedReason"] = reason
    assert follow(messages).events[-1].reason == reported and reported.isprintable()


def test_energy_that_does_not_count_beside_a_counted_reading_is_no_finding() -> None:
    messages = KINDS["interval-energy"]("T1", FIRST)
    messages[0].payload["meterValue"].append(reading(FIRST, 1))
    assert [one.kind for one in find(messages)] == [Kind.ONE_READING]


def test_a_session_that_goes_on_may_have_no_reading_yet() -> None:
    assert find(KINDS["no-reading"]("T1", FIRST)[:2], False) == []


def test_the_last_reading_once_more_is_no_repetition() -> None:
    messages = sound("T1", FIRST)
    messages[3].payload["meterValue"].insert(0, messages[2].payload["meterValue"][0])
    assert find(messages) == []


def test_readings_that_are_listed_again_name_the_line_that_mends_it() -> None:
    (found,) = find(KINDS["readings-repeated"]("T1", FIRST))
    assert found.detail == (
        "`--order north=moment` of report, follow or log-to-script (in a script line `order north moment`) takes "
        "them by moment"
    )


@pytest.mark.parametrize("name", ["readings-repeated", "sound", "feeds-back"])
def test_by_time_what_is_listed_again_is_no_finding(name: str) -> None:
    messages = KINDS[name]("T1", FIRST)
    assert find(messages, is_by_moment=True) == []
    assert registers(messages, True)[name == "feeds-back"] == (1_000_000, 1_750_000)


def test_by_time_a_register_falls_where_it_reads_less_later() -> None:
    assert [one.kind for one in find(KINDS["register-falls"]("T1", FIRST), is_by_moment=True)] == [
        Kind.REGISTER_FALLS
    ]
    # Two levels of one moment, listed again: a rise, a fall, a rise.
    both = [reading(FIRST, 1_000), reading(FIRST, 1_200)]
    messages = [event("T1", n, "Updated", FIRST + n * HOUR) for n in (0, 1)]
    for one in messages:
        one.payload["meterValue"] = list(both)
    (found,) = find(messages, is_by_moment=True)
    assert (found.kind, found.times) == (Kind.REGISTER_FALLS, 1)


def test_by_time_the_first_and_the_last_reading_are_those_of_moments() -> None:
    values = [1_000, 1_300, 1_200]
    messages = [event("T1", n, "Updated", FIRST + n * HOUR, wh) for n, wh in enumerate(values)]
    messages[2].payload["meterValue"][0] = reading(FIRST + HOUR / 2, 1_200)
    assert registers(messages)[0] == (1_000_000, 1_200_000)
    assert registers(messages, True)[0] == (1_000_000, 1_300_000)
    assert [one.kind for one in find(messages)] == [Kind.REGISTER_FALLS]
    assert find(messages, is_by_moment=True) == []


def test_a_register_falls_once_for_each_fall_and_per_direction() -> None:
    values = [1_000, 900, 800, 1_000]
    messages = [event("T1", n, "Updated", FIRST + n * HOUR, wh) for n, wh in enumerate(values)]
    assert [(one.kind, one.times, one.first) for one in find(messages)] == [
        (Kind.REGISTER_FALLS, 2, FIRST + HOUR)
    ]
    for one in messages[1:3]:
        one.payload["meterValue"][0]["sampledValue"][0][
            "measurand"
        ] = "Energy.Active.Export.Register"
    messages[2].payload["meterValue"][0]["sampledValue"][0]["value"] = 950
    assert find(messages) == []


@pytest.mark.parametrize(
    ("late", "is_offline", "times"),
    [
        (timedelta(seconds=-300), False, 0),
        (timedelta(seconds=-301), False, 1),
        (timedelta(seconds=-301), True, 1),
        (timedelta(seconds=3_600), False, 0),
        (timedelta(seconds=3_601), False, 1),
        (timedelta(seconds=3_601), True, 0),
    ],
)
def test_how_far_a_clock_may_lie(late: timedelta, is_offline: bool, times: int) -> None:
    sent = event("T1", 0, "Started", FIRST, 1)
    sent.payload["offline"] = is_offline
    found = find([Sent(FIRST + late, sent.payload)], False)
    assert [one.kind for one in found] == [Kind.CLOCK_FAR] * times


def test_without_a_receipt_no_clock_is_far() -> None:
    one = KINDS["clock-far"]("T1", FIRST)[0]
    assert [found.kind for found in find([one], False)] == [Kind.CLOCK_FAR]
    course = Course("north", Rules())
    course.take([Line(1, deliver(one), None)], follow([one]).lists)
    assert course.doubts.find(course.events, [], False, course.spans.of_readings) == []


def test_registers_are_the_first_and_the_last_and_not_the_lowest() -> None:
    assert registers(KINDS["register-falls"]("T1", FIRST)) == ((1_000_000, 750_000), (None, None))


def test_a_first_event_that_is_voided_came_all_the_same() -> None:
    messages = sound("T1", FIRST)
    assert find(messages, False, voided=[0]) == []


def test_two_events_may_have_the_same_time() -> None:
    messages = sound("T1", FIRST)
    messages[1].payload["timestamp"] = messages[0].payload["timestamp"]
    messages[1].payload["meterValue"][0]["timestamp"] = messages[0].payload["timestamp"]
    assert find(messages) == []


def test_an_event_that_was_erased_is_known_by_the_one_that_came_in_its_place() -> None:
    other = event("T1", 1, "Updated", FIRST + HOUR, 2_000)
    other.payload["transactionInfo"]["stoppedReason"] = "Local"
    assert follow([*sound("T1", FIRST), other]).events[1].reason == "Local"


def test_a_value_that_does_not_count_needs_no_number() -> None:
    start, *_ = sound("T1", FIRST)
    at = {"timestamp": "2026-03-01T08:00:00Z", "sampledValue": [{"measurand": "Voltage"}]}
    message = start._replace(payload=start.payload | {"meterValue": [at]})
    assert follow([message]).events[0].readings == ()


@pytest.mark.parametrize(
    ("value", "unit", "mwh"),
    [
        ("1200", {}, 1_200_000),
        ("1200.25", {"unit": "Wh"}, 1_200_250),
        ("1.2345678", {"unit": "kWh"}, 1_234_567),
        ("12", {"unit": "kWh", "multiplier": "-3"}, 12_000),
        ("12", {"unit": None, "multiplier": "2"}, 1_200_000),
        ("0.00099", {}, 0),
        ("1e-3", {}, 1),
        ("-0", {}, 0),
        ("9999999.999999999999999999999999", {}, 9_999_999_999),
    ],
)
def test_readings_are_whole_mwh_rounded_down(value: str, unit: dict[str, Any], mwh: int) -> None:
    assert mwh_of(value, unit) == mwh


def test_the_kinds_that_hold_a_bill_are_those_of_the_view() -> None:
    with open_store(":memory:") as store:
        rows = store.fetch("select kind from hold_kind")
    assert {row.kind for row in rows} == {kind.label for kind in Kind if kind.holds}
