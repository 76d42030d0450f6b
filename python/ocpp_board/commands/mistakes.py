"""What lines of an input can't be taken, as commands report it."""

import logging

from ocpp_board.messages.texts import Refused
from ocpp_board.progress import Progress

log = logging.getLogger(__name__)


class Mistakes:
    """What can't be taken. It reports the first of each kind at once, and at the end how many more there were."""

    def __init__(self, progress: Progress, name: str = "") -> None:
        """`name`: that of the log."""
        self.progress, self.where = progress, f"{name} line" if name else "line"
        # By kind: how many more there were, and the number of the last line of these.
        self.more: dict[str, tuple[int, int]] = {}

    def report(self, number: int, why: Refused) -> None:
        """The line of this number can't be taken."""
        if why.kind in self.more:
            self.more[why.kind] = (self.more[why.kind][0] + 1, number)
            return
        self.more[why.kind] = (0, number)
        self.progress.end()
        log.warning("%s %d: %s", self.where, number, why, extra={"line": number})

    def count(self, why: Refused) -> int:
        """How many there were of this kind."""
        return self.more[why.kind][0] + 1

    def end(self) -> None:
        """Reports of each kind how many more there were."""
        for kind, (count, last) in self.more.items():
            if count:
                lines = "1 more line" if count == 1 else f"{count:,} more lines, the last"
                where = self.where.removesuffix("line").rstrip()
                said = f"{where}: the same of {lines}" if where else f"the same of {lines}"
                log.warning("%s %d: %s", said, last, kind, extra={"line": last})
