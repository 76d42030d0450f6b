"""How far a file was read, on standard error where that is a terminal."""

import os
import sys
import time
from typing import IO

# Seconds from one report to the next, and lines after which the clock is looked at.
PAUSE = 0.5
LINES = 1_024
CLEAR = "\r\033[K"


def show(text: str) -> None:
    """Writes a text over the one that was shown before."""
    print(f"\r{text} \033[K", end="", file=sys.stderr, flush=True)


def clear() -> None:
    """Takes the text that was shown last from the terminal."""
    print(CLEAR, end="", file=sys.stderr, flush=True)


class Progress:
    """The lines and bytes that were read of a file."""

    def __init__(self, file: IO[bytes]) -> None:
        self.file, self.size = file, os.fstat(file.fileno()).st_size
        self.read, self.next = 0, 0.0
        self.is_shown = sys.stderr.isatty()

    def report(self, lines: int, count: int) -> None:
        """So many lines were read, the last of so many bytes."""
        self.read += count
        if not self.is_shown or lines % LINES or time.monotonic() < self.next:
            return
        self.next = time.monotonic() + PAUSE
        show(f"{lines:,} lines, {self.read / 1e6:,.1f} MB{self.share()}")

    def share(self) -> str:
        """The part of the file that was read, where its size is known."""
        if not self.size or not self.file.seekable():
            return ""
        return f", {100 * self.file.tell() / self.size:.0f} %"

    def end(self) -> None:
        """Leaves the line to what is shown next."""
        if self.is_shown and self.next:
            clear()
