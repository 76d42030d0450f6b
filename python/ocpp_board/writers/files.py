"""Names of files and folders that writers make."""

import re
from functools import lru_cache

# What the name of a file or a folder has as it is; another character is written by its number.
UNSAFE = re.compile(r"[^A-Za-z0-9_-]")


@lru_cache(16_384)
def name_file(text: str) -> str:
    """Names a file or a folder by a name of a site, a station or a transaction."""
    return UNSAFE.sub(lambda one: f"%{ord(one[0]):02X}", text)
