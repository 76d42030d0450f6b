"""Energies in whole milliwatt-hours: what registers rose and fell by, and how that is written in kWh."""

import re
from collections.abc import Iterable
from decimal import Decimal
from functools import lru_cache
from typing import NamedTuple

# The names of a flow's numbers, in the order in which a board has them.
FLOW = ("up", "down", "export_up", "export_down")
MWH_OF_A_KWH = 1_000_000
MINUS = "\N{MINUS SIGN}"
# An energy in kWh as people write it.
ENERGY = re.compile(r"-?[0-9]{1,7}(\.[0-9]{1,6})?")
# How many energies have their texts kept, since pages have many of them again.
KEPT_TEXTS = 65_536


class Flow(NamedTuple):
    """What the import register rose and fell by, and what the export register did, in mWh."""

    up: int = 0
    down: int = 0
    export_up: int = 0
    export_down: int = 0

    @property
    def above(self) -> int:
        """How far bars go up: what was imported, and what the export register fell by."""
        return self.up + self.export_down

    @property
    def below(self) -> int:
        """How far bars go down: what the import register fell by, and what was fed back."""
        return self.down + self.export_up

    @property
    def net(self) -> int:
        """What was imported less what was exported."""
        return self.up - self.down - self.export_up + self.export_down

    def plus(self, other: "Flow") -> "Flow":
        """Both together."""
        a, b, c, d = self
        e, f, g, h = other
        return Flow(a + e, b + f, c + g, d + h)


def sum_of(flows: Iterable[Flow]) -> Flow:
    """All these together."""
    return Flow(*map(sum, zip(*flows)))


def read_mwh(text: str) -> int:
    """The mWh of an energy in kWh that is an ENERGY."""
    return int(Decimal(text).scaleb(6))


@lru_cache(KEPT_TEXTS)
def kwh_of(mwh: int) -> str:
    """An energy of so many mWh in kWh, exactly, for a machine. It is not negative."""
    whole, part = divmod(mwh, MWH_OF_A_KWH)
    return f"{whole}.{part:06}".rstrip("0").rstrip(".")


@lru_cache(KEPT_TEXTS)
def kwh(mwh: int) -> str:
    """An energy of so many mWh in kWh for a reader, to a watt-hour; one that is less, and not 0, shows so."""
    watt_hours = (abs(mwh) + 500) // 1_000
    if mwh and not watt_hours:
        return "\N{ALMOST EQUAL TO}0.000"
    whole, part = divmod(watt_hours, 1_000)
    return f"{MINUS if mwh < 0 else ''}{whole:,}.{part:03}"


def share(part: int, whole: int) -> str:
    """A share in per cent with one decimal, which is 100.0% only of all and 0.0% only of none."""
    if not whole:
        return ""
    permille = (1_000 * part + whole // 2) // whole
    if 0 < part < whole:
        permille = min(max(permille, 1), 999)
    return f"{permille // 10}.{permille % 10}%"
