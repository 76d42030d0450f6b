"""What each declared mend makes of a payload."""

import json
from datetime import datetime, timezone
from typing import Any

import pytest

from ocpp_board.messages.mend import Mender, read_fault

BEGIN, END = "2026-03-01T10:00:00Z", "2026-03-01T10:30:00Z"
RECEIVED = datetime(2026, 3, 1, 10, 31, tzinfo=timezone.utc)


def value(at: str, *sampled: dict[str, Any]) -> dict[str, Any]:
    """A meter value."""
    return {"timestamp": at, "sampledValue": list(sampled)}


def event(kind: str = "Ended", at: str = END, **more: Any) -> dict[str, Any]:
    """The payload of an event."""
    payload = {
        "eventType": kind,
        "timestamp": at,
        "seqNo": 5,
        "transactionInfo": {"transactionId": "T1"},
    }
    return payload | more


def mend(fault: str, *payloads: dict[str, Any]) -> list[dict[str, Any]]:
    """The payloads of the texts that the last of these becomes."""
    mender = Mender({"north": dict([read_fault(fault)])})
    found = []
    for payload in payloads:
        text = json.dumps([2, "m", "TransactionEvent", payload])
        found = [json.loads(one)[3] for one in mender.mend("north", "A", text, RECEIVED).texts]
    return found


@pytest.mark.parametrize(
    ("fault", "came", "taken"),
    [
        (
            "unit",
            {"value": 1.50, "unitOfMeasure": {"unit": "KWH"}},
            {"value": 1.5, "unitOfMeasure": {"unit": "kWh"}},
        ),
        (
            "unit",
            {"value": 1, "unitOfMeasure": {"unit": "wh"}},
            {"value": 1, "unitOfMeasure": {"unit": "Wh"}},
        ),
        (
            "unit",
            {"value": 1, "unitOfMeasure": {"unit": "MWh", "multiplier": -1}},
            {"value": 1, "unitOfMeasure": {"unit": "kWh", "multiplier": 2}},
        ),
        ("unit", {"value": 1, "unitOfMeasure": {"unit": "mWh"}}, None),
        ("unit", {"value": 1, "unitOfMeasure": {"unit": "J"}}, None),
        ("unit", {"value": 1, "unit": "kWh"}, {"value": 1, "unitOfMeasure": {"unit": "kWh"}}),
        ("unit", {"value": 1, "unit": "A", "measurand": "Current.Import"}, None),
        ("negative", {"value": -100}, {"value": 0}),
        ("negative", {"value": -101}, None),
        (
            "negative",
            {"value": -0.05, "unitOfMeasure": {"unit": "kWh"}},
            {"value": 0, "unitOfMeasure": {"unit": "kWh"}},
        ),
        ("negative:5", {"value": -6}, None),
        ("negative", {"value": -5, "measurand": "Power.Active.Import"}, None),
    ],
)
def test_values(fault: str, came: dict[str, Any], taken: dict[str, Any] | None) -> None:
    (found,) = mend(fault, event(meterValue=[value(END, came)]))
    assert found["meterValue"][0]["sampledValue"] == [came if taken is None else taken]


@pytest.mark.parametrize(
    ("fault", "evse", "wanted"),
    [
        ("evse", {"id": 0}, None),
        ("evse:70:1", {"id": 70, "connectorId": 1}, {"id": 1, "connectorId": 1}),
        ("evse:70:1", {"id": 71}, {"id": 71}),
        ("evse", {"id": 1}, {"id": 1}),
    ],
)
def test_evses(fault: str, evse: dict[str, Any], wanted: dict[str, Any] | None) -> None:
    (found,) = mend(fault, event(evse=evse))
    assert found.get("evse") == wanted


def test_ids() -> None:
    (found,) = mend(
        "ids", event(transactionInfo={"transactionId": " {ab c}\n", "stoppedReason": "Local"})
    )
    assert found["transactionInfo"] == {"transactionId": "abc", "stoppedReason": "Local"}


def test_listed_readings_of_no_time_are_left_out() -> None:
    values = [value("1970-01-01T00:00:00Z", {"value": 1}), value(END, {"value": 2})]
    (found,) = mend("listed-time", event(meterValue=values))
    assert found["meterValue"] == values[1:]


def test_a_clock_that_is_not_set_is_that_of_the_receipt() -> None:
    at = "1970-01-01T00:00:09Z"
    (found,) = mend("unset-clock", event(at=at, meterValue=[value(at, {"value": 1})]))
    assert found["timestamp"] == found["meterValue"][0]["timestamp"] == "2026-03-01T10:31:00Z"


def test_a_begin_has_the_time_of_the_start() -> None:
    begin = {"value": 1, "context": "Transaction.Begin"}
    end = {"value": 2, "context": "Transaction.End"}
    both = event(meterValue=[value(END, begin, end)])
    (found,) = mend("begin-at-end", event("Started", BEGIN), both)
    assert found["meterValue"] == [value(BEGIN, begin), value(END, end)]
    # Without a start nothing is known, and a begin of its own time stays.
    assert mend("begin-at-end", both) == [both]
    own = event(meterValue=[value(BEGIN, begin), value(END, end)])
    assert mend("begin-at-end", event("Started", BEGIN), own) == [own]


@pytest.mark.parametrize(
    ("count", "sizes"), [(1024, [1024]), (1025, [1024, 1]), (2049, [1024, 1024, 1])]
)
def test_an_end_is_parted(count: int, sizes: list[int]) -> None:
    values = [value(f"2026-03-01T10:00:00.{n:04}Z", {"value": n}) for n in range(count)]
    found = mend("parted", event(meterValue=values))
    assert [len(one["meterValue"]) for one in found] == sizes
    assert [one for part in found for one in part["meterValue"]] == values
    assert [one["seqNo"] for one in found] == [5 + n for n in range(len(sizes))]
    kinds = [one["eventType"] for one in found]
    assert kinds == ["Updated"] * (len(sizes) - 1) + ["Ended"]
    assert len(mend("parted", event("Updated", meterValue=values))) == 1
