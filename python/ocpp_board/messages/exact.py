"""JSON texts whose numbers stay as they are written while other members change."""

import json
import re
import secrets
from typing import Any


class Number(str):
    """A JSON number as it is written."""


def read_exact(text: str) -> Any:
    """What a JSON text says; its numbers are `Number`. Raises ValueError and RecursionError."""
    return json.loads(text, parse_int=Number, parse_float=Number, parse_constant=refuse_constant)


def refuse_constant(constant: str) -> Any:
    """NaN and the infinities, which Python's reader would take."""
    raise ValueError(constant)


def write_exact(value: Any) -> str:
    """A JSON text of a value, on one line and without blanks."""
    mark = secrets.token_hex(16)
    written = json.dumps(mark_numbers(value, mark), separators=(",", ":"), ensure_ascii=False)
    return re.sub(f'"{mark}([^"]*)"', r"\1", written)


def mark_numbers(value: Any, mark: str) -> Any:
    """A value whose numbers are texts that begin with a mark."""
    if isinstance(value, Number):
        return mark + value
    if isinstance(value, dict):
        return {name: mark_numbers(one, mark) for name, one in value.items()}
    if isinstance(value, list):
        return [mark_numbers(one, mark) for one in value]
    return value
