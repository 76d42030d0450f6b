"""Texts that others wrote, for a terminal and for a spreadsheet."""

import re

CONTROL = re.compile(r"[\x00-\x1f\x7f-\x9f]")
FORMULA = tuple("=+-@")


def shown(text: str, most: int = 60) -> str:
    """The text for a terminal: at most so many characters, quoted, and without control characters."""
    return ascii(text if len(text) <= most else text[:most] + "..")


def without_controls(text: str) -> str:
    """The text for a terminal, with a question mark for each control character."""
    return CONTROL.sub("?", text)


def csv_cell(text: str) -> str:
    """The text for a CSV file, with a ' in front where a spreadsheet would take it for a formula."""
    return "'" + text if text.startswith(FORMULA) else text
