"""Stored texts, those of readings that are listed again among them, against a replay in plain Python."""

from pathlib import Path

import pytest

from tests.reference import replayed
from tests.rows.rows import scripts_of
from tests.traffic import repeats

TOP = Path(__file__).parents[2]
# Rows with sound messages, except for those of scripts that report one that is not.
ROWS = (
    "evse_moves",
    "exported_energy",
    "falling_register",
    "late_event",
    "order_faults",
    "order_of_another_site",
    "quarter_boundary",
    "readings_again_at_end",
    "readings_repeated_at_end",
    "ties_and_clocks",
    "two_sites",
    "void_and_restore",
    "widest_gap",
)


def lines(script: bytes | bytearray) -> list[str]:
    return bytes(script).decode().splitlines()


@pytest.mark.parametrize("name", ROWS)
def test_rows_are_those_of_plain_lists(name: str) -> None:
    rows = [row for _, row in scripts_of(TOP / "tests/rows" / f"{name}.rows")]
    sound = [row for row in rows if b"ConstraintViolation" not in row.text]
    assert sound
    for row in sound:
        assert replayed(lines(row.script)) == bytes(row.text).decode()


def test_a_day_with_repeats_is_the_day_without() -> None:
    stored = (TOP / "examples/repeats.expected").read_text()
    script = (TOP / "examples/repeats.script").read_text().splitlines()
    assert script == list(repeats.script(3, True))
    assert replayed(script) == stored
    # Each line of the board but for its first one, and so each period.
    assert replayed(repeats.script(3, False)) == stored.replace(" order=moment\n", "\n", 1)


def test_by_sequence_the_same_day_has_other_periods() -> None:
    stored = (TOP / "examples/repeats.expected").read_text()
    by_sequence = replayed(one for one in repeats.script(3, True) if not one.startswith("order "))
    periods, others = (
        [line for line in text.splitlines() if line.startswith("period ")]
        for text in (stored, by_sequence)
    )
    assert periods != others and any(" down=0 " not in line for line in others)
