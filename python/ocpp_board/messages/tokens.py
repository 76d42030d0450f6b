"""Personal data in the texts of messages: drivers' tokens (`idToken`), and signed values that may name them.

The ledger does not look into an `idToken` or a `signedMeterValue`, and two events are equal whatever theirs are. So a
message that was emptied is answered as before, counts as before, and is a repeat of the one that had them.
"""

import json
from collections.abc import Collection, Iterator
from typing import Any

from ocpp_board.messages.signed_values import text_of
from ocpp_board.messages.texts import JSON, Refused, blanks

# The members that have tokens, those of OCPP 1.6 in refused messages, too.
TOKENS = ("idToken", "additionalIdToken", "groupIdToken", "idTag", "parentIdTag")
SIGNED = "signedMeterValue"
# In a text that is no JSON there is no member to empty; all of it goes. It is as little JSON as what it was.
NO_JSON = "?"
# What replaces a value, of the same kind, since a value of another kind is refused.
EMPTY: tuple[tuple[type, str], ...] = ((dict, "{}"), (list, "[]"), (str, '""'), (bool, "false"))


def find_texts(value: Any) -> Iterator[str]:
    """All texts in a value, signed data as the text that it encodes."""
    if isinstance(value, str):
        yield value
        yield text_of(value)
    elif isinstance(value, (dict, list)):
        for one in value.values() if isinstance(value, dict) else value:
            yield from find_texts(one)


def is_named(member: str, value: Any, token: str | None) -> bool:
    """Whether a value names this token; its letters may be large or small (OCPP 2.0.1, IdTokenType); None: any."""
    if token is None:
        return value not in ({}, [], "")
    wanted = token.casefold()
    if member == SIGNED:
        return any(wanted in text.casefold() for text in find_texts(value))
    return any(text.casefold() == wanted for text in find_texts(value))


def write_empty(value: Any) -> str:
    """What replaces a value."""
    for kind, text in EMPTY:
        if isinstance(value, kind):
            return text
    return "null" if value is None else "0"


def empty_tokens(message: str, token: str | None, members: Collection[str] = TOKENS) -> str:
    """The message without the tokens of drivers, or without this one. All else is as it was written."""
    # A text without these words and without an escape has no such member.
    has_word = any(member in message for member in members)
    if not (has_word or "\\" in message):
        return message
    try:
        JSON.decode(message)
    except (ValueError, RecursionError, Refused):
        has = has_word if token is None else token.casefold() in message.casefold()
        return NO_JSON if has else message
    parts, front = list[str](), 0
    for start, end, member, value in find_members(message, members):
        if start >= front and is_named(member, value, token):
            parts += [message[front:start], write_empty(value)]
            front = end
    return "".join([*parts, message[front:]])


def find_members(text: str, members: Collection[str]) -> Iterator[tuple[int, int, str, Any]]:
    """Where the values of all members of these names begin and end in a JSON text, their names, and what they are."""
    at = 0
    while (at := text.find('"', at)) >= 0:
        name, end = json.decoder.scanstring(text, at + 1)  # type: ignore[attr-defined]
        colon = blanks(text, end)
        if name in members and text.startswith(":", colon):
            start = blanks(text, colon + 1)
            value, after = JSON.raw_decode(text, start)
            yield start, after, name, value
        at = end


def empty_line(line: str, token: str | None, members: Collection[str] = TOKENS) -> str:
    """A line `deliver STATION MESSAGE` without the tokens of drivers, or without this one; any other as it is."""
    word, _, rest = line.partition(" ")
    if word != "deliver":
        return line
    station, _, message = rest.partition(" ")
    emptied = empty_tokens(message, token, members)
    return line if emptied == message else f"{word} {station} {emptied}"
