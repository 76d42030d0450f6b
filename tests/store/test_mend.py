"""Declared mending of vendors' faults: what is mended, what is not, and what the script and the tables have of it."""

import argparse
import gzip
import io
import json
from datetime import datetime, timezone
from pathlib import Path
from typing import Any
from zoneinfo import ZoneInfo

import pytest

from ocpp_board.commands import log_to_script
from ocpp_board.errors import UsageError
from ocpp_board.messages.mend import (
    Mended,
    Mender,
    find_leaves,
    find_offset,
    group_mends,
    read_mend,
)
from ocpp_board.messages.message_faults import message_fault
from ocpp_board.records import Message
from ocpp_board.sources.script import read_script
from ocpp_board.statuses import Status
from tests.store.converting import read_words
from tests.traffic.troubles import FIRST, sound

BERLIN = ZoneInfo("Europe/Berlin")
# A message with blanks, digits and members that mending may not touch.
CAME = (
    '[2, "1","TransactionEvent" ,{"eventType":"Started", "timestamp" : "2026-03-01T10:00:00","seqNo":0,'
    '"customData":{"value":"7","timestamp":"2026-03-01T10:00:00"},"meterValue":[{"timestamp":"2026-03-01T10:00:00Z",'
    '"sampledValue":[{"value":"1000.50"},{"value":1.0e3},{"value":"1,5"}]},{"timestamp":"2026-07-01T10:00:00.5",'
    '"sampledValue":[{"value":"-2E3"}]}]}]'
)
TAKEN = (
    CAME.replace('"1000.50"', "1000.50")
    .replace('"-2E3"', "-2E3")
    .replace('"timestamp" : "2026-03-01T10:00:00"', '"timestamp" : "2026-03-01T10:00:00+01:00"')
    .replace("2026-07-01T10:00:00.5", "2026-07-01T10:00:00.5+02:00")
)
BOTH = ("north=text-value", "north=no-offset:Europe/Berlin")


def mender(*words: str) -> Mender:
    return Mender(group_mends(map(read_mend, words)))


def test_only_what_is_declared_is_mended() -> None:
    whole = mender(*BOTH)
    assert whole.mend("north", "A", CAME, None) == Mended((TAKEN,), ("no-offset", "text-value"))
    assert whole.describe() == "north=no-offset 1, north=text-value 1"
    assert whole.mend("south", "A", CAME, None) == Mended((CAME,))
    ((value,), _) = mender(BOTH[0]).mend("north", "A", CAME, None)
    assert '"value":1000.50}' in value and '"timestamp" : "2026-03-01T10:00:00"' in value
    ((time,), _) = mender(BOTH[1]).mend("north", "A", CAME, None)
    assert '"value":"1000.50"}' in time and '10:00:00+01:00"' in time
    # What is mended is what was meant, and nothing more is to be mended in it.
    assert json.loads(TAKEN)[3]["meterValue"][0]["sampledValue"][0]["value"] == 1000.5
    assert whole.mend("north", "A", TAKEN, None) == Mended((TAKEN,))


@pytest.mark.parametrize(
    "message",
    [
        CAME.replace("TransactionEvent", "Heartbeat"),
        CAME[:-1],
        TAKEN.replace("1000.50", '"0100"').replace("-2E3", '"+2"'),
        '[3,"1",{"value":"5"}]',
        '{"value":"5"}',
        "no JSON",
    ],
)
def test_what_is_none_of_these_faults_goes_as_it_came(message: str) -> None:
    assert mender(*BOTH).mend("north", "A", message, None) == Mended((message,))


def test_a_message_whose_comment_has_no_room_goes_as_it_came() -> None:
    long = CAME.replace('"eventType"', f'"x":"{"y" * 262_300}","eventType"')
    assert mender(*BOTH).mend("north", "A", long, None) == Mended((long,))


@pytest.mark.parametrize(
    "text", ["1", '"a"', "[]", "{}", '[[],{"a":[{"b":null},"c" , 2.50]}, {"a":{}} ]', TAKEN]
)
def test_leaves_are_those_of_the_text(text: str) -> None:
    found = list(find_leaves(f" {text}", 0))
    assert found[-1].end == len(text) + 1 and found[-1].path == ()
    for one in found[:-1]:
        assert json.loads(text[one.start - 1 : one.end - 1]) == one.value or one.path == ()


@pytest.mark.parametrize(
    ("text", "received", "wanted"),
    [
        ("2026-03-01T10:00:00", None, "+01:00"),
        ("2026-07-01 10:00:00.25", None, "+02:00"),
        ("2026-10-25T02:30:00", None, "+02:00"),
        # The hour that comes twice: the time that is nearer to the receipt.
        ("2026-10-25T02:30:00", datetime(2026, 10, 25, 1, 31, tzinfo=timezone.utc), "+01:00"),
        ("2026-10-25T02:30:00", datetime(2026, 10, 25, 0, 31, tzinfo=timezone.utc), "+02:00"),
        ("2026-03-01T10:00:00Z", None, None),
        ("2026-03-01T10:00:00+05:30", None, None),
        ("2026-03-01", None, None),
        ("never", None, None),
    ],
)
def test_an_offset_is_that_of_the_zone(
    text: str, received: datetime | None, wanted: str | None
) -> None:
    assert find_offset(text, BERLIN, received) == wanted
    assert find_offset("2026-03-01T10:00:00", ZoneInfo("America/St_Johns"), None) == "-03:30"


@pytest.mark.parametrize(
    "word",
    [
        "text-value",
        "=text-value",
        "north=text-value:UTC",
        "north=no-offset",
        "north=time",
        "n=no-offset:Mars",
    ],
)
def test_words_that_declare_nothing(word: str) -> None:
    with pytest.raises(argparse.ArgumentTypeError):
        read_mend(word)


def sent(number: int) -> str:
    """An event of a session: its values are texts and its times have no offset."""
    payload = json.loads(json.dumps(sound("T1", FIRST)[number].payload).replace('Z"', '"'))
    value = payload["meterValue"][0]["sampledValue"][0]
    value["value"] = str(value["value"])
    return json.dumps([2, str(number), "TransactionEvent", payload])


def test_a_script_has_what_was_taken_and_what_came(
    tmp_path: Path, capfd: pytest.CaptureFixture[str]
) -> None:
    log = "".join(
        json.dumps(
            {"site": "north", "station": "A", "time": "2026-03-01T12:00:00Z", "message": sent(n)}
        )
        + "\n"
        for n in range(4)
    )
    (tmp_path / "log").write_text(log)
    words = [*(word for each in BOTH for word in ("--mend", each)), "--received"]
    asked = read_words([*words, str(tmp_path / "log")])
    assert log_to_script.convert(asked) == Status.DONE
    script, said = capfd.readouterr()
    assert "messages mended: north=no-offset 4, north=text-value 4" in said
    lines = script.splitlines()
    assert lines[3] == f"# mended no-offset,text-value A {sent(0)}"
    assert lines[4].startswith("# received ") and '"value": 1000}' in lines[5]
    # The reader of scripts gives what was taken and what came.
    with io.BytesIO(script.encode()) as file:
        records = [one for one in read_script(file) if isinstance(one, Message)]
    assert [one.came for one in records] == [sent(n) for n in range(4)]
    assert {one.mends for one in records} == {"no-offset,text-value"}
    assert '"value": 1000}' in records[0].text


def test_scripts_that_are_split_have_what_came(tmp_path: Path) -> None:
    rows = [
        json.dumps(
            {
                "site": f"s{n}",
                "station": f"A{n}",
                "time": "2026-03-01T12:00:00Z",
                "message": sent(0),
            }
        )
        for n in range(65)
    ]
    (tmp_path / "log.gz").write_bytes(gzip.compress("\n".join(rows).encode()))
    words = ["--no-received", "--split", str(tmp_path / "out")]
    words += ["--mend", "s64=text-value", str(tmp_path / "log.gz")]
    assert log_to_script.convert(read_words(words)) == Status.DONE
    texts = [path.read_text() for path in sorted((tmp_path / "out").iterdir())]
    (has,) = (text for text in texts if "# mended" in text)
    before, after = has.split("# mended text-value A64 ")
    assert after.startswith(sent(0) + "\nmsg A64 [2, ") and "A64" in before


def test_a_site_that_is_not_there_is_a_fault(tmp_path: Path) -> None:
    row = {"site": "north", "station": "A", "time": "2026-03-01T12:00:00Z", "message": sent(0)}
    (tmp_path / "log").write_text(json.dumps(row) + "\n")
    words = ["--mend", "nroth=text-value", str(tmp_path / "log")]
    with pytest.raises(UsageError, match="--mend names the site 'nroth'"):
        log_to_script.convert(read_words(words))


def test_refusals_name_the_option() -> None:
    value = sent(0).replace('T08:00:00"', 'T08:00:00Z"')
    assert "--mend SITE=text-value" in message_fault(value, "WrongType")[1]
    assert "--mend SITE=no-offset:ZONE" in message_fault(sent(0), "Moment")[1]


def test_meter_values_are_mended_whatever_else_is_declared() -> None:
    """They have no transaction and no time of their own."""
    words = ("unit", "ids", "begin-at-end", "unset-clock", "parted", "evse:70:1", "negative")
    value = '{"timestamp":"2026-03-01T10:00:00Z","sampledValue":[{"value":1,"unitOfMeasure":{"unit":"KWH"}}]}'
    text = f'[2,"1","MeterValues",{{"evseId":70,"meterValue":[{value}]}}]'
    found = mender(*(f"a={word}" for word in words)).mend("a", "A", text, FIRST)
    assert found.faults == ("evse", "unit")
    assert '"evseId":1' in found.texts[0] and '"unit":"kWh"' in found.texts[0]


def test_an_event_that_is_no_end_is_not_parted() -> None:
    """OCPP leaves no number for its parts, and the advice says so."""
    value = {"timestamp": "2026-03-01T10:00:00Z", "sampledValue": [{"value": 1}] * 1_025}
    for kind, advised in (
        ("Ended", "--mend parted"),
        ("Updated", "counts a transaction's events by 1"),
    ):
        payload: dict[str, Any] = {
            "eventType": kind,
            "timestamp": "2026-03-01T10:00:00Z",
            "triggerReason": "EVDeparted",
        }
        payload |= {
            "seqNo": 4,
            "transactionInfo": {"transactionId": "t"},
            "meterValue": [value, value],
        }
        text = json.dumps([2, "m", "TransactionEvent", payload])
        parts = mender("a=parted").mend("a", "A", text, FIRST).texts
        assert len(parts) == (3 if kind == "Ended" else 1)
        said = message_fault(text, "TooManyReadings")
        assert said and advised in said[1]
