"""What a message names: the time, the transaction and the number, for a reader who looks for it."""

import re
from typing import Any, NamedTuple

from ocpp_board.messages.message_faults import JSON

# Characters of a message's text that are kept.
LONGEST_TEXT = 64
# What is read of a message that is no JSON.
TRANSACTION = re.compile(r'"transactionId"\s*:\s*"([^"\\]{1,36})"')
NUMBER = re.compile(r'"seqNo"\s*:\s*([0-9]{1,10})(?![0-9.eE])')


class Named(NamedTuple):
    """What a message names, as far as it can be read: the texts are empty where it can't."""

    time: str
    transaction: str
    number: str


def keep_text(value: Any) -> str:
    """A text or a number of JSON as far as a table has room for it; empty where it is neither."""
    if not isinstance(value, str):
        return ""
    # Half a surrogate pair can't be written.
    text = value.encode("utf-8", "replace").decode("utf-8")
    return text if len(text) <= LONGEST_TEXT else text[:LONGEST_TEXT] + ".."


def find_named(message: str) -> Named:
    """What a TransactionEvent names; of a text that is no JSON what looks like it."""
    try:
        frame = JSON.decode(message)
        payload = frame[3] if isinstance(frame, list) and len(frame) > 3 else {}
    except (ValueError, RecursionError):
        found = [pattern.search(message) for pattern in (TRANSACTION, NUMBER)]
        return Named("", *(match[1] if match else "" for match in found))
    if not isinstance(payload, dict):
        return Named("", "", "")
    info = payload.get("transactionInfo")
    transaction = info.get("transactionId") if isinstance(info, dict) else None
    return Named(*map(keep_text, (payload.get("timestamp"), transaction, payload.get("seqNo"))))
