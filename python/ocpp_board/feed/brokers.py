"""Addresses of brokers, and their passwords."""

import os
from dataclasses import dataclass
from urllib.parse import unquote, urlsplit

from ocpp_board.errors import UsageError


@dataclass(frozen=True)
class Broker:
    """Where a broker is, and as whom it is asked."""

    host: str
    port: int
    user: str
    password: str
    path: str
    is_secure: bool

    @property
    def place(self) -> str:
        """How it is named in messages."""
        return f"{self.host}:{self.port}"


def read_broker(url: str, schemes: dict[str, int]) -> Broker:
    """The broker of an address; `schemes`: those that it may have, with their ports, the secure one last. Raises
    UsageError."""
    parts, names = urlsplit(url), list(schemes)
    if parts.password is not None:
        raise UsageError(
            "a password in the address shows in the list of processes: put it into SOURCE_PASSWORD"
        )
    try:
        host, port = parts.hostname or "", parts.port
    except ValueError as fault:
        raise UsageError(f"{url}: {fault}") from None
    if not host or parts.scheme not in schemes:
        raise UsageError(f"{url}: not of the form {names[0]}://USER@HOST:PORT")
    return Broker(
        host,
        port or schemes[parts.scheme],
        unquote(parts.username or ""),
        os.environ.get("SOURCE_PASSWORD", ""),
        unquote(parts.path[1:]),
        parts.scheme == names[-1],
    )
