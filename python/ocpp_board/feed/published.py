"""What a CSMS publishes, as a station's text: the frame itself, or an object that has its parts."""

from datetime import datetime, timezone

from ocpp_board.escapes import shown
from ocpp_board.limits import LONGEST_MESSAGE, is_name
from ocpp_board.messages.texts import Members, Refused, members_of
from ocpp_board.records import Message

PROTOCOL = "ocpp2.0.1"


def read_text(data: bytes) -> str:
    """A message as text. Raises Refused where it is no UTF-8."""
    try:
        return data.decode()
    except UnicodeDecodeError:
        raise Refused("no UTF-8") from None


def is_object(text: str) -> bool:
    """Whether a text begins as a JSON object does."""
    return text.lstrip(" \t\r\n").startswith("{")


def make_message(station: str, text: str, origin: str) -> Message:
    """A station's text. Raises Refused."""
    if not text.lstrip(" \t\r\n").startswith("["):
        raise Refused("neither a frame nor an object of a known kind")
    if not is_name(station):
        raise Refused("no name of a station", shown(station))
    size = len(text.encode("utf-8", "surrogatepass"))
    if size > LONGEST_MESSAGE:
        raise Refused(f"a message of more than {LONGEST_MESSAGE:,} bytes", f"{size:,}")
    return Message(station, text, datetime.now(timezone.utc), origin)


def read_citrine(text: str, origin: str) -> Message | None:
    """What CitrineOS publishes: an object with the station and the id in its context, the action and the payload; None
    of what no station sent. Raises Refused."""
    values, texts = members_of(text)
    if values.get("origin") != "cs" or not isinstance(values.get("action"), str):
        return None
    if str(values.get("protocol") or PROTOCOL) != PROTOCOL:
        return None
    if not isinstance(values.get("payload"), dict):
        return None
    if not isinstance(values.get("context"), dict):
        raise Refused("'context' is missing")
    context, parts = members_of(texts["context"])
    if not isinstance(context.get("stationId"), str):
        raise Refused("'context.stationId' is missing")
    number = parts["correlationId"] if isinstance(context.get("correlationId"), str) else '"feed"'
    frame = f'[2,{number},{texts["action"]},{texts["payload"]}]'
    return make_message(context["stationId"], frame, origin)


def read_maeve(station: str, text: str, origin: str) -> Message | None:
    """What MaEVe publishes: an object that has the parts of a frame; None of an answer. Raises Refused."""
    message: Members = members_of(text)
    values, texts = message
    kind = values.get("type")
    if kind in ("call-result", "call-error"):
        return None
    if kind != "call":
        raise Refused("'type' is neither call, call-result nor call-error", shown(str(kind)))
    for field in ("id", "action"):
        if not isinstance(values.get(field), str):
            raise Refused(f"{field!r} is no text")
    if "request" not in values:
        raise Refused("'request' is missing")
    return make_message(station, f"[2,{texts['id']},{texts['action']},{texts['request']}]", origin)
