"""Files that are read: standard input where none is named, and what is compressed by gzip."""

import gzip
import os
from collections.abc import Iterator
from io import BufferedReader
from pathlib import Path
from typing import IO, cast

from ocpp_board.limits import LONGEST_LOG_LINE

GZIP = b"\x1f\x8b"
BYTE_ORDER_MARK = b"\xef\xbb\xbf"
# Bytes of a line that is too long which are read at once.
BLOCK = 1_048_576


def open_input(name: str) -> BufferedReader:
    """Opens a file for its bytes, or standard input where the name is `-`. Raises OSError."""
    return open(os.dup(0), "rb") if name == "-" else open(Path(name), "rb")


def is_gzip(file: BufferedReader) -> bool:
    """Whether what is not read yet begins as gzip does."""
    return file.peek(2)[:2] == GZIP


def unpack(file: BufferedReader) -> IO[bytes]:
    """The file's bytes, also where they are compressed."""
    return cast(IO[bytes], gzip.GzipFile(fileobj=file)) if is_gzip(file) else file


def read_lines(file: IO[bytes]) -> Iterator[tuple[int, bytes | None]]:
    """Each line of a file with its number; None for one that is longer than LONGEST_LOG_LINE. A byte order mark in
    front of the first one is left out."""
    number = 0
    while line := file.readline(LONGEST_LOG_LINE + 1):
        number += 1
        if len(line) <= LONGEST_LOG_LINE or line.endswith(b"\n"):
            yield number, line.removeprefix(BYTE_ORDER_MARK) if number == 1 else line
            continue
        while line and not line.endswith(b"\n"):
            line = file.readline(BLOCK)
        yield number, None
