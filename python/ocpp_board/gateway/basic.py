"""HTTP Basic (RFC 7617): what a station comes with."""

import base64
from typing import NamedTuple

from websockets.datastructures import Headers


class Given(NamedTuple):
    """What a station came with: whether it said Basic at all, and its password, where the user is its own name."""

    is_basic: bool
    password: bytes | None


def read_password(headers: Headers, station: str) -> Given:
    """What the header `Authorization` says; it is removed, since a request lives as long as its connection."""
    values = headers.get_all("Authorization")
    if not values:
        return Given(False, None)
    del headers["Authorization"]
    scheme, _, text = values[0].partition(" ")
    try:
        pair = base64.b64decode(text.strip(), validate=True)
    except ValueError:
        pair = b""
    # A station's name may have a colon, so the first one does not end the user's name.
    user = f"{station}:".encode()
    is_own = len(values) == 1 and scheme.lower() == "basic" and pair.startswith(user)
    return Given(True, pair[len(user) :] if is_own else None)
