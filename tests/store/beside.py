"""A log that grows, and `ocpp-board follow` beside it."""

import csv
import json
import os
import signal
import subprocess
import sys
import time
from collections.abc import Callable, Iterator
from contextlib import contextmanager
from pathlib import Path

from ocpp_board.ledger.verify import verify
from ocpp_board.store.database import open_store

TOP = Path(__file__).resolve().parents[2]
TOOL = [sys.executable, str(TOP / "python/ocpp-board")]
# Seconds between looks at what is waited for, and for which it is waited.
LOOK, LONGEST_WAIT = 0.05, 60
HEARTBEAT = '[2,"h","Heartbeat",{}]'


def message(seq_no: int, kind: str = "Updated", day: str = "2026-03-01", tx: str = "T1") -> str:
    """An event of a transaction; the register reads 100 Wh more each time."""
    at = f"{day}T10:{seq_no:02}:00Z"
    reading = f'{{"timestamp":"{at}","sampledValue":[{{"value":{1000 + 100 * seq_no}}}]}}'
    return (
        f'[2,"{seq_no}","TransactionEvent",{{"eventType":"{kind}","timestamp":"{at}","triggerReason":"Trigger",'
        f'"seqNo":{seq_no},"transactionInfo":{{"transactionId":"{tx}"}},"meterValue":[{reading}]}}]'
    )


def row(text: str, station: str = "A", at: str = "2026-03-01T10:00:00Z") -> str:
    """A line of the log."""
    return json.dumps({"station": station, "time": at, "message": text}) + "\n"


class Beside:
    """A folder with a log, its stations, the pages and a store, and the tool that runs."""

    def __init__(self, folder: Path, store: str = "", log: str = "log") -> None:
        self.folder, self.log = folder, folder / log
        self.store = store or str(folder / "store.db")
        self.log.touch()
        (folder / "stations").write_text("north A\n")
        self.tool: subprocess.Popen[str] | None = None

    def words(self, *more: str) -> list[str]:
        """The words of the tool."""
        folder = self.folder
        words = ["--store", self.store, "--stations", str(folder / "stations"), "--every", "0.2"]
        return [*TOOL, "follow", str(self.log), *words, "--out", str(folder / "out"), *more]

    def start(self, *more: str) -> None:
        """Starts the tool, with more words."""
        pipe, words = subprocess.PIPE, self.words(*more)
        self.tool = subprocess.Popen(words, stdin=pipe, stdout=pipe, stderr=pipe, text=True)

    def run_once(self, *more: str) -> str:
        """Runs the tool over what the log has, and gives what it reported."""
        words = self.words("--once", *more)
        done = subprocess.run(
            words, stdin=subprocess.DEVNULL, capture_output=True, text=True, check=False
        )
        assert done.returncode == 0, done.stderr
        return done.stderr

    def write(self, *lines: str) -> None:
        """Adds lines to the log."""
        with open(self.log, "a", encoding="utf-8") as file:
            file.write("".join(lines))

    def rotate(self, number: int = 1) -> None:
        """Gives the log another name, and begins a new one."""
        self.log.rename(self.folder / f"{self.log.name}.{number}")
        self.log.touch()

    def age(self, number: int, seconds: float) -> None:
        """Has a rotated log be written so long ago."""
        moment = time.time() - seconds
        os.utime(self.folder / f"{self.log.name}.{number}", (moment, moment))

    def table(self, name: str, day: str = "2026-03-01") -> list[dict[str, str]]:
        """The rows of a table of a day of the site, or of one without days; none where it is not there."""
        front = f"{day}." if day else ""
        try:
            path = self.folder / f"out/north/{front}{name}.csv"
            with open(path, encoding="utf-8", newline="") as file:
                return list(csv.DictReader(file))
        except FileNotFoundError:
            return []

    def events(self) -> dict[tuple[str, str], int]:
        """How many events the store has of each transaction."""
        with open_store(self.store) as store:
            rows = store.fetch(
                "select station, transaction_id, events from session where events > 0"
            )
            return {(one.station, one.transaction_id): one.events for one in rows}

    def has_events(self, count: int) -> Callable[[], bool]:
        """Whether the table has one transaction of so many events."""
        return lambda: [one["events"] for one in self.table("transactions")] == [str(count)]

    def wait(self, what: str, is_so: Callable[[], bool]) -> None:
        """Waits until something is so."""
        last = time.monotonic() + LONGEST_WAIT
        while not is_so():
            ended = self.tool and self.tool.poll() is not None
            if time.monotonic() > last or ended:
                said = self.end()[1] if self.tool else ""
                raise AssertionError(f"waited in vain: {what}: {said}")
            time.sleep(LOOK)

    def answer(self, line: str) -> str:
        """What an operator's line is answered."""
        assert self.tool and self.tool.stdin and self.tool.stdout
        self.tool.stdin.write(line + "\n")
        self.tool.stdin.flush()
        return self.tool.stdout.readline()

    def end(self, number: signal.Signals = signal.SIGTERM) -> tuple[int, str]:
        """Ends the tool, and gives its status and what it wrote."""
        assert self.tool
        self.tool.send_signal(number)
        _, reported = self.tool.communicate(timeout=LONGEST_WAIT)
        return self.tool.returncode, reported

    def verify(self) -> None:
        """Compares the store with the program's boards."""
        with open_store(self.store) as store:
            verified = verify(store)
        assert not verified.difference, verified.difference
        assert verified.figures


@contextmanager
def follow_beside(folder: Path, store: str = "", log: str = "log") -> Iterator[Beside]:
    """A log in a folder; a tool that still runs is killed, and the store is verified."""
    run = Beside(folder, store, log)
    try:
        yield run
        run.verify()
    finally:
        if run.tool and run.tool.poll() is None:
            run.tool.kill()
            run.tool.communicate()
