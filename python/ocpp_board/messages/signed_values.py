"""Signed values of readings (OCMF), and whether they say what the plain values beside them say."""

import base64
import binascii
import json
from decimal import Context, Decimal, InvalidOperation
from typing import Any

from ocpp_board.energies import kwh

# What signed data in the Open Charge Metering Format begins with, and its units of energy in mWh.
FORMAT = "OCMF|"
UNITS = {"Wh": 1_000, "kWh": 1_000_000}
EXACT = Context(prec=250)
# A signed value may be rounded in another way than the plain one, by so many mWh.
ROUNDED = 1_000


def text_of(data: str) -> str:
    """The text of signed data, which OCPP has in base64; some stations send it as it is."""
    if data.startswith(FORMAT):
        return data
    try:
        return base64.b64decode(data, validate=True).decode("utf-8")
    except (ValueError, binascii.Error):
        return ""


def signed_of(sampled: dict[str, Any]) -> str:
    """The signed data of a sampled value as text; empty where it has none."""
    signed = sampled.get("signedMeterValue")
    data = signed.get("signedMeterData") if isinstance(signed, dict) else None
    return text_of(data) if isinstance(data, str) else ""


def energies_of(text: str) -> list[int]:
    """The energies in mWh that signed data of the Open Charge Metering Format has; none where it is of another form."""
    if not text.startswith(FORMAT):
        return []
    try:
        payload, _ = json.JSONDecoder(parse_int=str, parse_float=str).raw_decode(text, len(FORMAT))
        return [mwh for reading in payload["RD"] if (mwh := mwh_of(reading)) is not None]
    except (ValueError, RecursionError, LookupError, TypeError):
        return []


def mwh_of(reading: Any) -> int | None:
    """The energy of a reading of signed data in mWh; None where it is none."""
    unit, value = reading.get("RU"), reading.get("RV")
    if unit not in UNITS or not isinstance(value, str):
        return None
    try:
        return int(EXACT.multiply(Decimal(value), Decimal(UNITS[unit])))
    except (InvalidOperation, OverflowError):
        return None


def unlike_plain(sampled: dict[str, Any], mwh: int) -> str:
    """How the signed value differs from the plain one, which is of so many mWh; empty where it does not, and where it
    can't be read."""
    energies = energies_of(signed_of(sampled))
    if not energies or min(abs(one - mwh) for one in energies) <= ROUNDED:
        return ""
    nearest = min(energies, key=lambda one: abs(one - mwh))
    return f"signed {kwh(nearest)} kWh, plain {kwh(mwh)} kWh"
