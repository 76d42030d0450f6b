"""The text of a message with one of its readings corrected."""

from decimal import Decimal
from typing import Any

from ocpp_board.messages.exact import Number, read_exact, write_exact
from ocpp_board.messages.meter_values import EXACT, EXPORT, IMPORT, measurand_of

# Powers of ten from a value to mWh, by its unit; a value that names none is in Wh.
UNITS = {"kWh": 6}
WH = 3


def correct_reading(text: str, place: int, is_export: bool, mwh: int) -> str | None:
    """The text of an accepted event, in which the reading at this place among those of its register, from 0, is another
    one; None where it has no such reading. Numbers stay as they are written."""
    frame = read_exact(text)
    sampled = find_reading(frame[3], place, is_export)
    if sampled is None:
        return None
    sampled["value"] = write_value(sampled.get("unitOfMeasure") or {}, mwh)
    return write_exact(frame)


def rename_transaction(text: str, transaction: str) -> str:
    """The text of an event under another transaction's id. Raises ValueError where it is none."""
    frame = read_exact(text)
    try:
        frame[3]["transactionInfo"]["transactionId"] = transaction
    except (LookupError, TypeError):
        raise ValueError("the message names no transaction") from None
    return write_exact(frame)


def find_reading(payload: dict[str, Any], place: int, is_export: bool) -> dict[str, Any] | None:
    """The sampled value of a reading."""
    wanted = EXPORT if is_export else IMPORT
    found = [
        sampled
        for value in payload.get("meterValue") or ()
        for sampled in value["sampledValue"]
        if measurand_of(sampled) == wanted
    ]
    return found[place] if place < len(found) else None


def write_value(unit: dict[str, Any], mwh: int) -> Number:
    """A reading in its unit, exactly."""
    power = UNITS.get(unit.get("unit") or "", WH) + int(unit.get("multiplier") or 0)
    text = f"{Decimal(mwh).scaleb(-power, EXACT):f}"
    return Number(text.rstrip("0").rstrip(".") if "." in text else text)
