"""The process that settles batches: reads them from standard input, and writes their answers to standard output.

    python3 -m ocpp_board.gateway.settler STORE [--keep-refused]

A batch is pickled by the gateway, which is the only writer of this process' standard input.
"""

import json
import pickle
import signal
import sys
import time
import traceback
from typing import Any, BinaryIO

from ocpp_board.errors import StoreAway
from ocpp_board.gateway.lanes import HEAD, Fate, Request
from ocpp_board.ledger.engine import settle
from ocpp_board.ledger.mending import count_mends
from ocpp_board.records import Answer, Message
from ocpp_board.store.database import Database, open_store
from ocpp_board.store.lines import Warm

# The word by which stations get the answer of an accepted message for one that is refused and kept.
KEEP_REFUSED = "--keep-refused"
# Seconds after which PostgreSQL ends a transaction whose process says nothing more, such as one that is stopped: it
# holds what others wait for. A batch that takes longer is given up by its gateway before.
SILENT = 20.0
# What a station gets for a line that the ledger could not take.
FAULT = '[4,"-1","InternalError","{}",{{}}]'


# Refusals whose texts are kept whatever their number, and that a station can do nothing about.
KEPT = frozenset(
    (
        "ConflictingEvent",
        "TooManyTransactions",
        "EventsFull",
        "ReadingsFull",
        "ChangesExhausted",
        "TooManyOpen",
    )
)


def make_reply(answer: Answer, text: str = "", keeps_refused: bool = False) -> str | None:
    """What the station gets for a text. `keeps_refused`: one that was refused for no fault of its own is on disk, and
    has the answer of one that was accepted."""
    if keeps_refused and answer.outcome == "refused" and answer.name in KEPT:
        return json.dumps([3, json.loads(text)[1], {}], separators=(",", ":"))
    return FAULT.format(answer.name) if answer.outcome == "fault" else answer.reply


class Desk:
    """A store that is opened again after a failure."""

    def __init__(self, address: str, keeps_refused: bool = False) -> None:
        """`keeps_refused`: as in `make_reply`."""
        self.address, self.keeps_refused = address, keeps_refused
        self.store: Database | None = None
        self.warm = Warm()

    def open_store(self) -> Database:
        """Opens the store. Raises StoreError."""
        store = open_store(self.address)
        store.plan_once()
        if store.kind == "postgresql":
            store.execute(f"set idle_in_transaction_session_timeout = {1000 * SILENT:.0f}")
        return store

    def settle(self, asked: list[Message]) -> list[Answer]:
        """The answers to these messages, once what they change is stored. Raises StoreError."""
        if self.store is None:
            self.store = self.open_store()
        try:
            return settle(self.store, asked, warm=self.warm)
        except BaseException:
            store, self.store = self.store, None
            store.close()
            raise

    def answer(self, requests: list[Any]) -> tuple[Any, ...]:
        """What the gateway gets for a batch."""
        began = time.process_time()
        try:
            asked = [Request(*words).make_message() for words in requests]
            answers = self.settle(asked)
        except StoreAway as fault:
            return Fate.AWAY.value, [], str(fault)
        except Exception as fault:
            why = "".join(traceback.format_exception(fault))
            return Fate.FAILED.value, [], why
        rows = [
            (answer.outcome, answer.name, make_reply(answer, one.text, self.keeps_refused))
            for one, answer in zip(asked, answers)
        ]
        return Fate.ANSWERED.value, rows, "", time.process_time() - began, count_mends(answers)


def read_batch(source: BinaryIO) -> list[Any] | None:
    """The next batch; None at the end."""
    head = source.read(HEAD.size)
    if len(head) < HEAD.size:
        return None
    (size,) = HEAD.unpack(head)
    data = source.read(size)
    found: list[Any] = pickle.loads(data) if len(data) == size else None
    return found


def main() -> None:
    """Settles batches until the gateway ends."""
    signal.signal(signal.SIGINT, signal.SIG_IGN)
    source, target = sys.stdin.buffer, sys.stdout.buffer
    sys.stdout = sys.stderr
    desk = Desk(sys.argv[1], KEEP_REFUSED in sys.argv[2:])
    while (batch := read_batch(source)) is not None:
        data = pickle.dumps(desk.answer(batch), pickle.HIGHEST_PROTOCOL)
        target.write(HEAD.pack(len(data)) + data)
        target.flush()


if __name__ == "__main__":
    main()
