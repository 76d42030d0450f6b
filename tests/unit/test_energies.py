"""Energies in mWh and in kWh."""

import pytest

from ocpp_board.energies import Flow, kwh, kwh_of, share, sum_of


@pytest.mark.parametrize(
    ("mwh", "machine", "reader"),
    [
        (0, "0", "0.000"),
        (1, "0.000001", "\N{ALMOST EQUAL TO}0.000"),
        (499, "0.000499", "\N{ALMOST EQUAL TO}0.000"),
        (500, "0.0005", "0.001"),
        (250_000, "0.25", "0.250"),
        (8_750_499, "8.750499", "8.750"),
        (9_999_500, "9.9995", "10.000"),
        (1_234_567_890_123, "1234567.890123", "1,234,567.890"),
        (10**19, "10000000000000", "10,000,000,000,000.000"),
    ],
)
def test_kwh_for_a_machine_are_exact_and_for_a_reader_have_three_decimals(
    mwh: int, machine: str, reader: str
) -> None:
    assert (kwh_of(mwh), kwh(mwh)) == (machine, reader)


def test_a_reader_sees_a_minus() -> None:
    assert kwh(-31_775_000) == "\N{MINUS SIGN}31.775"
    assert kwh(-1) == "\N{ALMOST EQUAL TO}0.000"


@pytest.mark.parametrize(
    ("part", "whole", "text"),
    [
        (0, 0, ""),
        (0, 7, "0.0%"),
        (7, 7, "100.0%"),
        (97, 100, "97.0%"),
        (2, 3, "66.7%"),
        (9_999, 10_000, "99.9%"),
        (1, 10_000, "0.1%"),
    ],
)
def test_a_share_is_whole_of_all_alone(part: int, whole: int, text: str) -> None:
    assert share(part, whole) == text


def test_net_is_import_less_export() -> None:
    flow = Flow(up=10, down=1, export_up=4, export_down=2)
    assert (flow.above, flow.below, flow.net) == (12, 5, 7)


def test_flows_are_added_number_by_number() -> None:
    one, other = Flow(1, 2, 3, 4), Flow(10, 20, 30, 40)
    assert one.plus(other) == sum_of([one, other]) == Flow(11, 22, 33, 44)
    assert sum_of([]) == Flow()
