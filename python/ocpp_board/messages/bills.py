"""What a bill needs of a session beside its energy: its id as sent, its token, and its signed values."""

import base64
import binascii
import hashlib
import re
from collections.abc import Iterator, Sequence
from pathlib import Path
from typing import Any, NamedTuple
from xml.sax.saxutils import escape, quoteattr

from ocpp_board.messages.signed_values import FORMAT, text_of

# How tokens are written: not at all, as a hash, or as they are.
TOKENS = ("none", "hash", "plain")
HEADS = [
    "id as sent",
    "idToken",
    "idToken type",
    "remoteStartId",
    "first signed value",
    "first public key",
    "last signed value",
    "last public key",
]
# What a public key begins with by OCPP, once it is decoded: the key itself follows in hexadecimal digits.
KEY = "oca:base16:asn1:"
# Characters of a token, a key or a signed value that are kept.
LONGEST_TOKEN, LONGEST_SIGNED = 255, 16_384
UNSAFE = re.compile(r"[^A-Za-z0-9_-]")
NOT_XML = re.compile(r"[^\t\n\r\x20-\ud7ff\ue000-\ufffd]")


class Signed(NamedTuple):
    """A signed value as it was sent, with its public key, which may be empty."""

    data: str
    key: str = ""


class Details(NamedTuple):
    """What an event has for a bill."""

    token: str = ""
    kind: str = ""
    remote_start: str = ""
    signed: tuple[Signed, ...] = ()


NOTHING = Details()


def text(value: Any, most: int = LONGEST_TOKEN) -> str:
    """A text or a number of a message, its control characters left out; empty where it is neither, or too long."""
    if not isinstance(value, str) or len(value) > most:
        return ""
    return "".join(one for one in value if one.isprintable())


def details_of(payload: dict[str, Any]) -> Details:
    """What an event that was accepted has for a bill."""
    token = payload.get("idToken")
    token = token if isinstance(token, dict) else {}
    signed = [
        one
        for value in payload.get("meterValue") or []
        for sampled in value["sampledValue"]
        if "signedMeterValue" in sampled and (one := signed_in(sampled["signedMeterValue"])).data
    ]
    remote = text(payload["transactionInfo"].get("remoteStartId"))
    found = Details(text(token.get("idToken")), text(token.get("type")), remote, tuple(signed))
    return NOTHING if found == NOTHING else found


def signed_in(value: Any) -> Signed:
    """The signed value of a sampled one; without data where there is none."""
    if not isinstance(value, dict):
        return Signed("")
    names = ("signedMeterData", "publicKey")
    return Signed(*(text(value.get(name), LONGEST_SIGNED) for name in names))


def token_cell(token: str, how: str) -> str:
    """A token as it is written; a hash is that of its small letters, since tokens are alike in both."""
    if how == "none" or not token:
        return ""
    return token if how == "plain" else hashlib.sha256(token.lower().encode()).hexdigest()


def as_base64(signed: str) -> str:
    """A signed value in base64, in which OCPP has it; some stations send it as it is."""
    return base64.b64encode(signed.encode()).decode() if signed.startswith(FORMAT) else signed


def with_key(signed: Sequence[Signed]) -> list[Signed]:
    """Signed values, each with its key; one that was sent without has the one that was sent last, or else first."""
    found, key = list[Signed](), next((one.key for one in signed if one.key), "")
    for one in signed:
        key = one.key or key
        found.append(one._replace(key=key))
    return found


def cells_of(sent: str, details: Sequence[Details], tokens: str) -> list[str]:
    """The cells of a session, by what its events have in their order. `sent`: its id as it was sent first."""
    token = next((one for one in details if one.token), NOTHING)
    remote = next((one.remote_start for one in details if one.remote_start), "")
    signed = with_key([value for one in details for value in one.signed])
    ends = [signed[0], signed[-1]] if signed else [Signed(""), Signed("")]
    kind = token.kind if tokens != "none" else ""
    values = [cell for one in ends for cell in (as_base64(one.data), one.key)]
    return [sent, token_cell(token.token, tokens), kind, remote, *values]


def key_of(sent: str) -> tuple[str, str]:
    """A public key and its encoding, for a file of signed values."""
    try:
        plain = base64.b64decode(sent, validate=True).decode("ascii")
    except (ValueError, binascii.Error):
        plain = sent
    if plain.startswith(KEY):
        return plain.removeprefix(KEY), "plain"
    return sent, "base64"


def values_of(details: Sequence[Details]) -> Iterator[str]:
    """The elements of the first and the last signed value of a session."""
    signed = with_key([value for one in details for value in one.signed])
    contexts = ("Transaction.Begin", "Transaction.End")
    for one, context in zip((signed[0], signed[-1])[: len(signed)], contexts):
        data = text_of(one.data)
        form = (
            ' format="OCMF" encoding="plain"' if data.startswith(FORMAT) else ' encoding="base64"'
        )
        key, encoding = key_of(one.key)
        said = data if data.startswith(FORMAT) else one.data
        yield f'  <value transactionId="1" context={quoteattr(context)}>\n'
        yield f"    <signedData{form}>{escape(NOT_XML.sub('?', said))}</signedData>\n"
        if key:
            yield f'    <publicKey encoding="{encoding}">{escape(NOT_XML.sub("?", key))}</publicKey>\n'
        yield "  </value>\n"


def file_of(station: str, sent: str, end: str = "xml") -> str:
    """The name of a session's file. A character that a file's name may not have is its number."""
    parts = (UNSAFE.sub(lambda one: f"%{ord(one[0]):02X}", name) for name in (station, sent))
    return ".".join([*parts, end])


def write_signed(folder: Path, station: str, sent: str, details: Sequence[Details]) -> bool:
    """Writes the file of a session's signed values, and gives whether it has some. Raises OSError."""
    if not any(one.signed for one in details):
        return False
    folder.mkdir(parents=True, exist_ok=True)
    with open(folder / file_of(station, sent), "w", encoding="utf-8") as file:
        file.write('<?xml version="1.0" encoding="UTF-8" standalone="yes"?>\n<values>\n')
        file.writelines(values_of(details))
        file.write("</values>\n")
    return True
