"""Messages of OCPP-J as texts."""

import pytest

from ocpp_board.messages.texts import (
    CALL,
    HEAD,
    Refused,
    has_moment,
    is_answer,
    members_of,
    object_of,
    one_line,
    parsed,
)


def test_members_are_cut_out_as_they_are_written() -> None:
    values, texts = members_of(' { "a" : [1.50,  2] , "b":"\\u0041" }\n')
    assert texts == {"a": "[1.50,  2]", "b": '"\\u0041"'}
    assert values["b"] == "A"


def test_names_may_have_escapes_and_nothing() -> None:
    assert members_of('{"a\\u0041" : 1,"":2, "\u00e9\\"":3}').texts == {
        "aA": "1",
        "": "2",
        '\u00e9"': "3",
    }
    with pytest.raises(Refused, match="not JSON: Invalid control character at at character 4"):
        members_of('{"a\tb":1}')


def test_of_two_members_of_one_name_the_last_counts() -> None:
    assert members_of('{"a":1,"a":{}}').texts == {"a": "{}"}


@pytest.mark.parametrize(
    ("text", "why"),
    [
        ("", "not JSON: Expecting value at character 1"),
        ("[1]", "not a JSON object"),
        ('{"a":1', "not JSON: Expecting ',' or '}' at character 7"),
        ('{"a" 1}', "not JSON: Expecting ':' at character 6"),
        ('{"a":1,}', "not JSON: Expecting a member at character 8"),
        ('{"a":1} x', "not JSON: Extra data at character 8"),
        ('{"a":NaN}', "not JSON: NaN"),
    ],
)
def test_what_is_no_object_is_refused(text: str, why: str) -> None:
    with pytest.raises(Refused) as refused:
        members_of(text)
    assert str(refused.value) == why
    assert refused.value.kind == why.partition(":")[0]


def test_deep_nesting_is_refused() -> None:
    for reader in (members_of, object_of):
        with pytest.raises(Refused, match="nested too deep"):
            reader('{"a":' * 100_000)


def test_numbers_stay_as_they_are_written() -> None:
    assert parsed("[1e2, 0.50]") == ["1e2", "0.50"]
    with pytest.raises(ValueError):
        parsed("[Infinity]")


@pytest.mark.parametrize(
    ("message", "is_one"),
    [('[3,"1",{}]', True), (" [ 4 ,", True), ("[3]", True), ('[2,"1"]', False), ("[33]", False)],
)
def test_answers(message: str, is_one: bool) -> None:
    assert is_answer(message) is is_one


@pytest.mark.parametrize(
    ("message", "has"),
    [
        ('[2,"1","Heartbeat",{}]', True),
        ('[2,"\\"","BootNotification",{}]', True),
        ('[2,"1","Heart\\u0062eat",{}]', True),
        ('[2,"Heartbeat","StatusNotification",{}]', False),
        ('[3,"1",{"x":"Heartbeat"}]', False),
    ],
)
def test_replies_that_have_the_moment(message: str, has: bool) -> None:
    call = CALL.match(message)
    assert (call is not None and has_moment(call[2])) is has


def test_line_feeds_become_blanks_where_it_is_json() -> None:
    assert one_line('[2,\n"1"]') == '[2, "1"]'
    assert one_line("no\nJSON\0") == "no\x01JSON\x01"
    assert one_line("[]") == "[]"


def test_the_head_of_a_call() -> None:
    head = HEAD.match(' [2, "1" ,"Heartbeat", ')
    assert head and head[1] == "Heartbeat"
    assert HEAD.match('[2,"\\"","Heartbeat",{}]') is None
