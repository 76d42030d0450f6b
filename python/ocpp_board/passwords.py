"""Passwords of stations: HTTP Basic by salted hashes (OCPP 2.0.1 Part 2, A.1.3, security profiles 1 and 2)."""

import hashlib
import hmac
import secrets
from collections.abc import Sequence
from typing import NamedTuple

# Characters that a password has (OCPP 2.0.1 Part 2, BasicAuthPassword).
SHORTEST, LONGEST = 16, 40
# Bytes of a salt and a hash, and of memory that a hash may take.
SALT, HASH, MEMORY = 16, 32, 1 << 26
# How many passwords a station may have while it changes to another one.
MOST_KEPT = 2
# What a hash by scrypt costs (RFC 7914). A guess need not be dear: nobody guesses a password of 16 random characters,
# whatever a guess costs. A dear one serves strangers, since each of their tries costs a gateway as much as a station's.
COST, BLOCK, LANES = 256, 8, 1


class Password(NamedTuple):
    """A password as the store keeps it; salt and hash are hexadecimal."""

    hash: str
    salt: str
    cost: int
    # Whether the station came with it before.
    is_seen: bool = True


def hash_password(password: bytes, salt: bytes, cost: int = COST) -> bytes:
    """The hash of a password, by scrypt."""
    return hashlib.scrypt(password, salt=salt, n=cost, r=BLOCK, p=LANES, dklen=HASH, maxmem=MEMORY)


def make_password(password: str) -> Password:
    """What the store keeps of a password, with a salt of its own."""
    salt = secrets.token_bytes(SALT)
    return Password(hash_password(password.encode(), salt).hex(), salt.hex(), COST, False)


def find_mistake(password: str) -> str:
    """Why a text can't be a station's password; nothing where it can."""
    if not SHORTEST <= len(password) <= LONGEST:
        return (
            f"a password has {SHORTEST} to {LONGEST} characters, and this one has {len(password)}"
        )
    return "" if password.isprintable() else "a password has no control characters"


def match_password(given: bytes, known: Sequence[Password]) -> Password | None:
    """The one of these that it is. Where it is none, this takes as long for every station, known or not."""
    for one in known:
        own = hash_password(given, bytes.fromhex(one.salt), one.cost)
        if hmac.compare_digest(own, bytes.fromhex(one.hash)):
            return one
    for _ in range(len(known), MOST_KEPT):
        hash_password(given, bytes(SALT))
    return None
