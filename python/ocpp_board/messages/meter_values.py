"""Readings of messages: their values and measurands."""

import json
from decimal import Context, Decimal
from typing import Any, NamedTuple

IMPORT, EXPORT = "Energy.Active.Import.Register", "Energy.Active.Export.Register"
# Digits for a reading's value, however its exponent is written.
EXACT = Context(prec=250)
JSON = json.JSONDecoder(parse_int=str, parse_float=str)


def mwh_of(value: str, unit: dict[str, Any]) -> int:
    """A reading's value in whole mWh, rounded down."""
    power = 3
    if unit:
        power += (3 if unit.get("unit") == "kWh" else 0) + int(unit.get("multiplier") or 0)
    if value.isdigit() and power >= 0:
        return int(value + "0" * power)
    return int(Decimal(value).scaleb(power, EXACT))


def measurand_of(sampled: dict[str, Any]) -> str:
    """What is measured and where; a counted reading's is only that of its register."""
    if len(sampled) == 1 and "value" in sampled:
        return IMPORT
    named: str | None = sampled.get("measurand")
    parts = [IMPORT if named is None else named]
    if sampled.get("phase") is not None:
        parts.append(f"phase {sampled['phase']}")
    if sampled.get("location") not in (None, "Outlet"):
        parts.append(f"location {sampled['location']}")
    return " ".join(parts)


class Level(NamedTuple):
    """What an import register read outside a transaction, and when (seconds since 1970)."""

    at: float
    mwh: int
