"""Drivers' tokens in texts that readers see: left out, as a hash, or as they are.

A token is the value of a member `idToken` or `additionalIdToken` at any depth, also where its name is written with
escapes. It is hidden wherever the message has it as a text of its own. A text that is no JSON and may have a token is
cut before it.
"""

import hashlib
import json
import re
from collections.abc import Iterator
from typing import Any

NONE, HASH, PLAIN = TOKENS = ("none", "hash", "plain")
# What is in place of a token.
HIDDEN, CUT = "***", "... (cut: there may be a token)"
MEMBERS = frozenset(["idtoken", "additionalidtoken", "groupidtoken", "idtag", "parentidtag"])
STRING = re.compile(r'"(?:[^"\\]|\\.)*+"')
# What the name of such a member has, whether its letters are written as escapes or not.
HINT = re.compile(r"id.{0,8}t(?:oken|ag)|\\u", re.IGNORECASE)


def write_token(token: str, how: str) -> str:
    """Writes a token; a hash is that of its small letters, since tokens are alike in both."""
    if how == PLAIN or not token:
        return token
    return "" if how == NONE else hash_token(token)


def hash_token(token: str) -> str:
    """The hash of a token."""
    return hashlib.sha256(token.lower().encode()).hexdigest()


class Members(list[tuple[str, Any]]):
    """The members of an object, those of one name, too."""


def find_tokens(value: Any) -> Iterator[str]:
    """Finds the tokens in what a JSON text says."""
    if isinstance(value, Members):
        for name, inner in value:
            if isinstance(inner, str):
                if name.lower() in MEMBERS:
                    yield inner
            else:
                yield from find_tokens(inner)
    elif isinstance(value, list):
        for inner in value:
            yield from find_tokens(inner)


def may_have_token(text: str) -> bool:
    """Whether a message may have a token."""
    small = text.lower()
    return ("token" in small or "tag" in small or "\\u" in small) and bool(HINT.search(text))


def hide_tokens(text: str, how: str) -> str:
    """Hides the tokens in a message, whose other bytes stay. `how`: one of TOKENS."""
    if how == PLAIN or not may_have_token(text):
        return text
    begin = text.find("[")
    try:
        said = json.loads(text[begin:], object_pairs_hook=Members) if begin >= 0 else None
        tokens = {one.lower() for one in find_tokens(said)}
    except (ValueError, RecursionError):
        found = HINT.search(text)
        return text[: found.start()] + CUT if found else text
    tokens.discard("")
    if not tokens:
        return text

    def hide(found: re.Match[str]) -> str:
        try:
            value = json.loads(found[0])
        except ValueError:
            return found[0]
        if value.lower() not in tokens:
            return found[0]
        return f'"{hash_token(value) if how == HASH else HIDDEN}"'

    return STRING.sub(hide, text)
