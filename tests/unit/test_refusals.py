"""What becomes of messages that are refused: the cause, what is wrong, the remedy, and what they name."""

from datetime import datetime, timezone

import pytest

from ocpp_board.ledger.near_limits import NearLimits
from ocpp_board.ledger.refusals import (
    describe_message,
    describe_stranger,
    find_names,
    is_left_out,
    name_cause,
)
from ocpp_board.messages.message_faults import is_reading, message_fault
from ocpp_board.records import Message

AT = datetime(2026, 3, 1, 10, 0, 5, tzinfo=timezone.utc)
EVENT = (
    '[2,"1","TransactionEvent",{"eventType":"Started","timestamp":"1970-01-01T00:00:00Z",'
    '"triggerReason":"Authorized","seqNo":0,"transactionInfo":{"transactionId":"T1"}}]'
)
MOMENT = '[4,"1","PropertyConstraintViolation","Moment",{}]'


def test_a_refusal_has_its_cause_and_what_to_do() -> None:
    refusal = describe_message(EVENT, name_cause(MOMENT), AT)
    assert refusal.advice.startswith("set the station's clock")
    assert refusal.what == "timestamp is not from 2000 to 2099: '1970-01-01T00:00:00Z'"
    assert (refusal.cause, refusal.sent_id, refusal.sent_number) == ("Moment", "T1", "0")
    assert (refusal.number, refusal.at, refusal.text) == (0, AT, EVENT)
    later = describe_message(EVENT.replace("1970", "2026"), "Moment", None)
    assert later.at == datetime(2026, 1, 1, tzinfo=timezone.utc)


@pytest.mark.parametrize(
    ("message", "cause", "is_left"),
    [
        ('[2,"1","Authorize",{}]', "UnknownAction", True),
        ('[2,"1","StopTransaction",{}]', "UnknownAction", False),
        ('[2,"1","Authorize",{}]', "NotACall", False),
    ],
)
def test_what_loses_nothing_is_no_refusal(message: str, cause: str, is_left: bool) -> None:
    assert is_left_out(message, cause) is is_left


@pytest.mark.parametrize(
    ("message", "answer", "cause", "what"),
    [
        ("{", '[4,"-1","RpcFrameworkError","NotJson",{}]', "NotJson", "the message is no JSON"),
        (
            '[2,"1","Athorize",{}]',
            '[4,"1","NotImplemented","UnknownAction",{}]',
            "UnknownAction",
            "the action 'Athorize' is none",
        ),
    ],
)
def test_causes_by_name(message: str, answer: str, cause: str, what: str) -> None:
    refusal = describe_message(message, name_cause(answer), None)
    assert refusal.cause == cause and refusal.what.startswith(what)
    assert name_cause('[3,"1",{}]') == ""


def test_other_causes() -> None:
    too_long = describe_message(EVENT, "LineTooLong", None)
    assert too_long.what.startswith("its line has more than 262,400 bytes")
    stranger = describe_stranger(Message("A", EVENT, AT, "csms.log:1"))
    assert stranger.what == "no station 'A' is declared"


def test_a_message_that_is_no_json_is_read_as_far_as_it_goes() -> None:
    assert find_names(EVENT[:-3]) == (None, "T1", "0")
    assert find_names('{"seqNo":1.5') == (None, "", "")
    assert find_names("[2]") == find_names('[2,"1","x",[]]') == (None, "", "")
    odd = '[2,"1","x",{"seqNo":"7","transactionInfo":7,"timestamp":[]}]'
    assert find_names(odd) == (None, "", "7")


def test_texts_that_no_table_takes() -> None:
    message = EVENT.replace("T1", "\\ud800\\u001b[0m").replace('"seqNo":0', '"seqNo":' + "9" * 99)
    refusal = describe_message(message.replace("1970-01-01T00:00:00Z", "\\udfff"), "Moment", None)
    assert (refusal.sent_id, refusal.at) == ("?\x1b[0m", None)
    assert (refusal.sent_number, refusal.number) == ("9" * 64 + "..", None)
    assert describe_message("\0\ud800", "NotJson", None).text == "\N{REPLACEMENT CHARACTER}?"


@pytest.mark.parametrize(
    ("token", "unit", "is_one"),
    [
        ("1200.25", {}, True),
        ("-12.5", {}, False),
        ("-0", {}, True),
        ("10000000000", {}, True),
        ("10000000000.0009", {}, True),
        ("10000000000.001", {}, False),
        ("10000000", {"unit": "kWh"}, True),
        ("10000001", {"unit": "kWh"}, False),
        ("1e99", {}, False),
        ("0e99", {}, True),
        ("0e100", {}, False),
        ("0e-0099", {}, True),
        ("1" + "0" * 36, {}, False),
        ("0." + "0" * 34, {}, True),
        ("0." + "0" * 35, {}, False),
    ],
)
def test_readings(token: str, unit: dict[str, str], is_one: bool) -> None:
    assert is_reading(token, unit) is is_one


def sampled(*values: str) -> str:
    texts = ",".join(f'{{"value":{value}}}' for value in values)
    return (
        '[2,"1","TransactionEvent",{"meterValue":[{"timestamp":"2026-03-01T10:00:00Z",'
        f'"sampledValue":[{texts}]}}]}}]'
    )


def test_the_reading_that_is_none_is_named() -> None:
    said, _ = message_fault(sampled("1200.25", "-12.5", "-13"), "Decimal")
    assert said.startswith("meterValue[0].sampledValue[1].value is '-12.5'")


@pytest.mark.parametrize(
    ("action", "cause", "remedy"),
    [
        ("FirmwareStatusNotification", "is one of OCPP 2.0.1; the ledger", "nothing is to"),
        ("StopTransaction", "is one of OCPP 1.6, which the ledger does not read", "leave out"),
        ("TransactionEvnt", "is none that is answered", "the nearest is TransactionEvent"),
        ("Autorize", "is none that is answered", "the nearest is Authorize"),
    ],
)
def test_no_other_action_is_proposed_for_a_valid_one(action: str, cause: str, remedy: str) -> None:
    said = message_fault(f'[2,"1","{action}",{{}}]', "UnknownAction")
    assert said[0].startswith(f"the action '{action}' {cause}")
    assert said[1].startswith(remedy)


def test_a_station_near_its_limits_is_reported_once() -> None:
    near = NearLimits()
    near.limits["A"] = (2, 10, 1_000, 2**63)
    reported = list[str]()
    for number in range(12):
        reported += near.take("A", EVENT.replace("T1", f"T{number % 2}"))
    assert near.take("B", EVENT) == near.take("A", '[2,"1","Heartbeat",{}]') == []
    assert reported == [
        "station A sent 2 transactions, repeats included, and keeps 2 at most",
        "station A sent 9 events, repeats included, and keeps 10 at most",
    ]
