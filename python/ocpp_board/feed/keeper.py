"""Has what a broker handed out settled in the store, and counts what became of it."""

import logging
import threading
import time
from collections import Counter
from collections.abc import Callable, Sequence

from ocpp_board.errors import StoreAway
from ocpp_board.ledger.engine import settle
from ocpp_board.ledger.mending import count_mends
from ocpp_board.messages.texts import Refused
from ocpp_board.records import Message
from ocpp_board.store.database import Database, open_store

log = logging.getLogger(__name__)

# Seconds until a store that is away is tried again, and between reports.
AGAIN, REPORT = 0.5, 60.0
# How many unreadable messages of a kind are logged.
LOGGED = 3


class Stopped(Exception):
    """The feed was asked to end: what is not stored is not acknowledged."""


class Keeper:
    """Settles messages in a store."""

    def __init__(self, address: str) -> None:
        self.address = address
        self.store: Database | None = None
        self.is_ending = threading.Event()
        self.outcomes = Counter[str]()
        self.unread = Counter[str]()
        self.left = 0
        self.reported = time.monotonic()
        self.last_logged = ""
        self.is_ready = False

    def note_ready(self, place: str, source: str) -> None:
        """Says that what comes to a queue or a topic is taken: the first time on standard output, too."""
        log.info("%s: takes what comes to %s", place, source)
        if not self.is_ready:
            self.is_ready = True
            print("ready", flush=True)

    def log_once(self, text: str) -> None:
        """Logs something, but not the same twice in a row."""
        if text != self.last_logged:
            log.warning("%s", text)
        self.last_logged = text

    def read(self, where: str, read: Callable[[], Message | None]) -> list[Message]:
        """The message that was published; none, and counted, where it is no station's text."""
        try:
            message = read()
        except Refused as why:
            self.unread[why.kind] += 1
            if self.unread[why.kind] <= LOGGED:
                log.warning("%s: %s", where, why)
            return []
        self.left += message is None
        return [message] if message else []

    def keep(self, messages: Sequence[Message], wait: Callable[[float], object]) -> None:
        """Returns once what these messages change is stored. `wait` lets some seconds pass while the store is away, and
        raises where that is pointless. Raises Stopped."""
        while messages:
            try:
                if self.store is None:
                    self.store = open_store(self.address)
                    self.store.plan_once()
                answers = settle(self.store, messages)
            except StoreAway as fault:
                store, self.store = self.store, None
                if store:
                    store.close()
                self.log_once(f"{fault}; tried again and again")
                if self.is_ending.is_set():
                    raise Stopped from None
                wait(AGAIN)
                continue
            self.outcomes.update(one.outcome for one in answers)
            self.outcomes += count_mends(answers)
            break
        if self.last_logged:
            self.log_once("the store answers again")
            self.last_logged = ""

    def report(self, is_due: bool = False) -> None:
        """Logs once a minute what became of the messages."""
        if not is_due and time.monotonic() < self.reported + REPORT:
            return
        self.reported = time.monotonic()
        parts = [f"{count:,} {outcome}" for outcome, count in sorted(self.outcomes.items())]
        parts += [f"{count:,} unread ({kind})" for kind, count in sorted(self.unread.items())]
        if self.left:
            parts.append(f"{self.left:,} of no station")
        log.info("%s", ", ".join(parts) or "nothing came")
