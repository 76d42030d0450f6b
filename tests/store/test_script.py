"""The reader of scripts: messages, operators' lines, declarations, what comments say, and what can't be taken."""

import io
from datetime import datetime, timezone

import pytest

from ocpp_board.records import Deed, Message, Untaken
from ocpp_board.sources.script import Declaration, Record, read_script, write_untaken

TEN = datetime(2026, 3, 1, 10, tzinfo=timezone.utc)
BEAT = '[2,"1","Heartbeat",{}]'


def records(*lines: str) -> list[Record]:
    return list(read_script(io.BytesIO("".join(f"{line}\n" for line in lines).encode()), "s"))


def test_what_a_script_declares_and_sends() -> None:
    found = records(
        "limits 1 2 3 4",
        "station north A",
        "period north 300",
        "order north moment",
        "",
        "# a remark",
        f"msg A {BEAT}",
        "board north",
        "energy A",
    )
    assert found == [
        Declaration("limits", ("1", "2", "3", "4"), "s:1"),
        Declaration("station", ("north", "A"), "s:2"),
        Declaration("period", ("north", "300"), "s:3"),
        Declaration("order", ("north", "moment"), "s:4"),
        Message("A", BEAT, None, "s:7", "north"),
    ]


def test_receipts_are_those_right_before_a_message() -> None:
    found = records(
        "station n A",
        "now 2026-03-01T10:00:00Z",
        f"msg A {BEAT}",
        f"msg A {BEAT}",
        "# received 2026-03-01T10:00:00Z",
        "# a remark",
        f"msg A {BEAT}",
        "# received never",
        f"msg A {BEAT}",
    )
    assert [one.received for one in found if isinstance(one, Message)] == [TEN, None, TEN, None]


def test_operators_lines_have_who_and_why() -> None:
    said = '{"line":"void A T1 3","who":"jo","why":"twice","time":"2026-03-01T10:00:00.5Z","answer":"accepted 2"}'
    refused = '{"line":"erase A T1 9","who":"jo","answer":"refused NotVoided"}'
    found = records(
        "station n A",
        f"# operator {said}",
        "void A T1 3",
        "void A T1 4",
        f"# operator {refused}",
        "restore A T1 x",
    )
    half = TEN.replace(microsecond=500_000)
    assert found[1:4] == [
        Deed("void", "A", "T1", 3, "jo", "twice", half, "s:3"),
        Deed("void", "A", "T1", 4, "", "", None, "s:4"),
        # One that was refused has no line behind its comment.
        Deed("erase", "A", "T1", 9, "jo", "", None, "s:5"),
    ]
    assert isinstance(found[4], Untaken) and found[4].cause == "BadLine"


def test_what_was_mended_is_beside_what_is_taken() -> None:
    found = records("station n A", "# mended text-value A [2,0]", f"msg A {BEAT}", f"msg A {BEAT}")
    assert found[1:] == [
        Message("A", BEAT, None, "s:3", "n", "text-value", "[2,0]"),
        Message("A", BEAT, None, "s:4", "n"),
    ]


def test_lines_of_a_log_that_could_not_be_taken() -> None:
    one = Untaken("A", "T1", 3, "not JSON", "look", "", TEN, "s:1", "north")
    assert records(write_untaken(one).decode().rstrip("\n")) == [one]
    bare = Untaken("", "", None, "longer", "shorter", "", None, "s:1")
    assert records(write_untaken(bare).decode().rstrip("\n")) == [bare]


@pytest.mark.parametrize(
    ("line", "cause", "what"),
    [
        ("mgs A x", "BadLine", "no line begins with 'mgs'"),
        ("msg A", "BadLine", "2 words, and not 3"),
        ("msg A/B x", "BadLine", "has '/', which no name has"),
        ("station north A", "StationTwice", "declared already"),
        ("period south 900", "UnknownSite", "no station of the site"),
        ("period north 600", "PlanLimit", "no settlement period"),
        ("order north time", "BadLine", "no order of readings"),
        ("msg A " + "x" * 262_400, "LineTooLong", "more than 262,400 bytes"),
    ],
)
def test_what_is_no_line(line: str, cause: str, what: str) -> None:
    (_, one) = records("station north A", line)
    assert isinstance(one, Untaken)
    assert one.cause == cause and what in one.what and one.origin == "s:2" and one.text


def test_nothing_is_declared_behind_a_message() -> None:
    found = records("station north A", f"msg A {BEAT}", "station north B", f"msg B {BEAT}")
    assert isinstance(found[2], Untaken) and found[2].cause == "DeclaredLate"
    assert found[3] == Message("B", BEAT, None, "s:4", None)


def test_a_carriage_return_of_the_message_stays() -> None:
    (_, one, cut) = read_script(io.BytesIO(b"station n A\nmsg A x\r\r\nmsg A y\r"), "s")
    assert isinstance(one, Message) and one.text == "x\r"
    assert isinstance(cut, Untaken) and cut.cause == "BadLine"
