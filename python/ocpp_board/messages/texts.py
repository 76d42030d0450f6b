"""Messages of OCPP-J as texts: their JSON as it is written, and what can be known of them without the program."""

import json
import re
from collections.abc import Iterator
from typing import Any, NamedTuple

B = r"[ \t\r\n]*"
TEXT = r'"((?:[^"\\]++|\\.)*+)"'
BLANKS = re.compile(B)
ANSWER = re.compile(rf"{B}\[{B}[34]{B}[,\]]")
# Frames of OCPP 2.1 that have no answer: CALLRESULTERROR and SEND.
UNANSWERED = re.compile(rf"{B}\[{B}[56]{B},")
CALL = re.compile(rf"{B}\[{B}2{B},{B}{TEXT}{B},{B}{TEXT}", re.DOTALL)
# The name of a member as most are written, up to its value.
PLAIN_NAME = re.compile(rf'"([^"\\\x00-\x1f]*)"{B}:{B}')
# A call up to its action. What begins so, with another action than TransactionEvent, is no event, whatever follows.
HEAD = re.compile(r'\s*\[\s*2\s*,\s*"[^"\\]*"\s*,\s*"([^"\\]*)"\s*,')
# Actions with the moment in their replies.
MOMENT_ACTIONS = ("BootNotification", "Heartbeat")


class Refused(Exception):
    """Why a line of a log or a message can't be taken: the kind of the mistake, and what is wrong here."""

    def __init__(self, kind: str, detail: str = "") -> None:
        super().__init__(f"{kind}: {detail}" if detail else kind)
        self.kind = kind


class Members(NamedTuple):
    """The members of a JSON object, and each as it is written there; of two of one name the last."""

    values: dict[str, Any]
    texts: dict[str, str]


def no_constant(token: str) -> Any:
    """NaN and the infinities, which Python's reader would take."""
    raise Refused("not JSON", token)


# Numbers of a log are never looked at. As floats they may have any length.
JSON = json.JSONDecoder(parse_int=float, parse_float=float, parse_constant=no_constant)


def parsed(text: str) -> Any:
    """What the JSON text says, with its numbers as they are written. Raises ValueError or RecursionError."""

    def refused(constant: str) -> None:
        raise ValueError(constant)

    return json.loads(text, parse_int=str, parse_float=str, parse_constant=refused)


def refused_json(fault: json.JSONDecodeError | RecursionError) -> Refused:
    """Why a text could not be read as JSON."""
    if isinstance(fault, RecursionError):
        return Refused("nested too deep")
    return Refused("not JSON", f"{fault.msg} at character {fault.pos + 1}")


def object_of(text: str) -> dict[str, Any]:
    """The JSON object that a text is. Raises Refused where it is none."""
    try:
        # Most texts begin with their object, and end with it.
        entry, end = JSON.raw_decode(text) if text.startswith("{") else (None, -1)
        if end < 0 or text[end:] not in ("", "\n"):
            entry = JSON.decode(text)
    except (json.JSONDecodeError, RecursionError) as fault:
        raise refused_json(fault) from None
    if not isinstance(entry, dict):
        raise Refused("not a JSON object")
    return entry


def members_of(text: str) -> Members:
    """The members of the JSON object that a text is. Raises Refused where it is none."""
    if not text.startswith("{", blanks(text, 0)):
        object_of(text)
    values: dict[str, Any] = {}
    texts: dict[str, str] = {}
    try:
        for name, value, written in each_member(text):
            values[name], texts[name] = value, written
    except (json.JSONDecodeError, RecursionError) as fault:
        raise refused_json(fault) from None
    return Members(values, texts)


def each_member(text: str) -> Iterator[tuple[str, Any, str]]:
    """Each member of an object: its name, its value, and the value's text. Raises JSONDecodeError."""
    after = blanks(text, blanks(text, 0) + 1)
    while not text.startswith("}", after):
        if plain := PLAIN_NAME.match(text, after):
            name, start = plain[1], plain.end()
        else:
            name, colon = JSON.raw_decode(text, after)
            start = blanks(text, expected(text, colon, ":"))
        value, end = JSON.raw_decode(text, start)
        yield name, value, text[start:end]
        after = blanks(text, end)
        if text.startswith(",", after):
            after = blanks(text, after + 1)
            if not text.startswith('"', after):
                raise json.JSONDecodeError("Expecting a member", text, after)
        elif not text.startswith("}", after):
            raise json.JSONDecodeError("Expecting ',' or '}'", text, after)
    if blanks(text, after + 1) != len(text):
        raise json.JSONDecodeError("Extra data", text, after + 1)


def blanks(text: str, at: int) -> int:
    """Where the blanks that begin here end."""
    if text[at : at + 1] > " ":
        return at
    found = BLANKS.match(text, at)
    return found.end() if found else at


def expected(text: str, at: int, character: str) -> int:
    """Where what follows this character begins, which comes next but for blanks. Raises JSONDecodeError."""
    at = blanks(text, at)
    if not text.startswith(character, at):
        raise json.JSONDecodeError(f"Expecting '{character}'", text, at)
    return at + 1


def is_answer(message: str) -> bool:
    """Whether the message is a CALLRESULT or a CALLERROR."""
    return ANSWER.match(message) is not None


def is_unanswered(message: str) -> bool:
    """Whether the message is a frame of OCPP 2.1 that gets no answer."""
    return UNANSWERED.match(message) is not None


def has_moment(action: str) -> bool:
    """Whether the reply to a call of this action, as it is written, may have the moment."""
    return action in MOMENT_ACTIONS or "\\" in action


def one_line(text: str) -> str:
    """The text without line feeds: blanks where it is JSON, and else a character that keeps it from being JSON."""
    if "\n" not in text and "\0" not in text:
        return text
    try:
        parsed(text)
    except (ValueError, RecursionError):
        return text.replace("\n", "\x01").replace("\0", "\x01")
    return text.replace("\n", " ")
