"""Reads logs and scripts into batches of records, with what has to be planned before them."""

import contextlib
import gzip
import logging
import os
import sys
import time
import zlib
from collections.abc import Iterator, Sequence
from dataclasses import dataclass, field
from datetime import datetime
from io import BufferedReader
from typing import IO

from ocpp_board import progress
from ocpp_board.commands.loading import BATCH, Declared
from ocpp_board.commands.mistakes import Mistakes
from ocpp_board.errors import UsageError
from ocpp_board.escapes import shown
from ocpp_board.limits import LONGEST_LINE
from ocpp_board.messages.texts import Refused
from ocpp_board.records import Asked, LeftOut, Rules, Untaken
from ocpp_board.sources.files import open_input, read_lines, unpack
from ocpp_board.sources.forms import Shape
from ocpp_board.sources.lines import FORMS as WORDS
from ocpp_board.sources.log import LogReader
from ocpp_board.sources.script import Declaration, ScriptReader
from ocpp_board.sources.stations import OpenPlan, PlanOptions, StationPlan

log = logging.getLogger(__name__)

# Seconds from one line of progress to the next, and lines of a file after which it is looked at.
PAUSE, LINES = 1.0, 4_096
# Bytes of a file that are looked at to know what it is.
FRONT = 262_400
# The words with which lines of scripts begin.
SCRIPT = tuple(f"{word} ".encode() for word in WORDS)


@dataclass(frozen=True)
class ReadOptions:
    """How files are read. `is_script`: whether they may be scripts."""

    shape: Shape
    plan: PlanOptions
    is_utc: bool
    is_script: bool


@dataclass
class Batch:
    """Records that are settled at once. `site_of`: stations that are new in it; `rules`: those of sites of a script;
    `lines`, `untaken`: how many lines were read, and how many of them can't be taken."""

    records: list[Asked] = field(default_factory=list)
    site_of: dict[str, str] = field(default_factory=dict)
    rules: dict[str, Rules] = field(default_factory=dict)
    lines: int = 0
    untaken: int = 0
    # Stations that were left out for their version.
    left_out: list[LeftOut] = field(default_factory=list)


class Meter:
    """How far the work is, on standard error where that is a terminal: a line a second."""

    def __init__(self) -> None:
        self.is_shown, self.next = sys.stderr.isatty(), 0.0

    def show(self, text: str) -> None:
        """Shows this, if the last text is a second old."""
        if self.is_shown and time.monotonic() >= self.next:
            self.next = time.monotonic() + PAUSE
            progress.show(text)

    def end(self) -> None:
        """Leaves the line to what is shown next."""
        if self.is_shown and self.next:
            progress.clear()


class Input:
    """A file that is read: its name, its bytes, and how far it was read."""

    def __init__(self, name: str, meter: Meter) -> None:
        """Raises OSError."""
        self.name, self.meter = "standard input" if name == "-" else name, meter
        self.raw: BufferedReader = open_input(name)
        self.file: IO[bytes] = unpack(self.raw)
        self.size = os.fstat(self.raw.fileno()).st_size if self.raw.seekable() else 0
        self.front = self.read_front()

    def read_front(self) -> bytes:
        """What the file begins with; nothing of it is taken."""
        if isinstance(self.file, BufferedReader):
            return self.file.peek(FRONT)[:FRONT]
        try:
            front: bytes = self.file.peek(FRONT)[:FRONT]  # type: ignore[attr-defined]
            return front
        except (EOFError, zlib.error, gzip.BadGzipFile):
            return b""

    def is_script(self) -> bool:
        """Whether the file begins as a script does."""
        for line in self.front.splitlines(keepends=True):
            if line.strip() and not line.startswith(b"#"):
                return line.startswith(SCRIPT)
        return self.front.startswith(b"#")

    def find_time(self, options: ReadOptions) -> datetime | None:
        """The time of the first line of the log that has one; None where none is seen, or the log can't be read
        twice."""
        reader = LogReader(options.shape, StationPlan(options.plan), options.is_utc)
        for line in self.front.splitlines(keepends=True)[:-1]:
            with contextlib.suppress(Refused, UsageError):
                message = reader.read(line).message
                if message and message.received:
                    return message.received
        return None

    def report(self, lines: int) -> None:
        """Shows how far it was read."""
        share = f", {100 * self.raw.tell() / self.size:.0f} %" if self.size else ""
        self.meter.show(f"{self.name}: {lines:,} lines{share}")


class BatchReader:
    """Reads files one after the other into batches."""

    def __init__(self, options: ReadOptions, names: Sequence[str], site_of: dict[str, str]) -> None:
        """`site_of`: the stations of the store, which stay where they are. Raises OSError and UsageError."""
        self.options, self.meter, self.batch = options, Meter(), Batch()
        self.plan = OpenPlan(options.plan)
        for station, site in site_of.items():
            self.plan.site_of.setdefault(station, site)
        inputs = [Input(name, self.meter) for name in names]
        self.scripts = [one for one in inputs if options.is_script and one.is_script()]
        self.logs = [one for one in inputs if one not in self.scripts]
        if self.logs and not options.shape.has_site and not options.plan.has_sites:
            form = options.shape
            named = form.name if form.regex else f"--form {form.form}"
            raise UsageError(f"{named} has no sites: --site, --site-map or --stations names them")

    def read(self) -> Iterator[Batch]:
        """The batches of all files: of scripts, then of logs, those with the earliest lines first. Raises OSError and
        UsageError."""
        for one in self.scripts:
            yield from self.read_script(one)
        logs = self.logs
        times = [one.find_time(self.options) for one in logs] if len(logs) > 1 else [None]
        if all(times):
            logs = [one for _, one in sorted(zip(times, logs), key=lambda pair: pair[0])]  # type: ignore
        if self.plan.is_fixed:
            self.batch.site_of |= self.plan.site_of
        for one in logs:
            yield from self.read_log(one)
        if logs:
            self.plan.check_sites()

    def end_batch(self) -> Batch:
        """The batch so far; the next one begins."""
        batch, self.batch = self.batch, Batch()
        return batch

    def read_log(self, one: Input) -> Iterator[Batch]:
        """The batches of a log. Raises OSError and UsageError."""
        reader = LogReader(self.options.shape, self.plan, self.options.is_utc, one.name)
        mistakes, number = Mistakes(progress.Progress(one.raw), one.name), 0
        try:
            for number, line in read_lines(one.file):
                self.take_line(reader, mistakes, number, line)
                if not number % LINES:
                    one.report(number)
                if len(self.batch.records) >= BATCH:
                    yield self.end_batch()
        except UsageError as fault:
            raise UsageError(f"{one.name} {fault}") from None
        except (EOFError, zlib.error, gzip.BadGzipFile) as fault:
            kind = "the gzip is cut short or damaged, and what follows is left out"
            self.refuse(reader, mistakes, number + 1, Refused(kind, str(fault)), None)
        if not reader.has_form():
            form = reader.shape.name
            why = Refused(f"neither this line nor one before it is of the form {form}")
            mistakes.report(number, why)
            self.batch.untaken += 1
        self.batch.lines += reader.counts["lines"]
        self.batch.left_out += reader.take_left_out()
        yield self.end_batch()
        self.meter.end()
        mistakes.end()
        log.info("%s: %s", one.name, reader.describe())
        if mended := reader.mender.describe():
            log.info("messages mended: %s", mended)

    def take_line(
        self, reader: LogReader, mistakes: Mistakes, number: int, line: bytes | None
    ) -> None:
        """Takes a line of a log."""
        try:
            read = reader.read(line, number)
        except Refused as why:
            self.refuse(reader, mistakes, number, why, line)
            return
        if read.note:
            mistakes.report(number, read.note)
        batch = self.batch
        for message in read.messages:
            batch.records.append(message)
            if message.site and message.station not in batch.site_of:
                batch.site_of[message.station] = message.site

    def refuse(
        self,
        reader: LogReader,
        mistakes: Mistakes,
        number: int,
        why: Refused,
        line: bytes | None,
    ) -> None:
        """Reports a line that can't be taken, and keeps it."""
        mistakes.report(number, why)
        self.batch.untaken += 1
        self.batch.records.append(reader.make_untaken(why, line, number))

    def read_script(self, one: Input) -> Iterator[Batch]:
        """The batches of a script. Raises OSError."""
        reader, declared = ScriptReader(one.name), Declared()
        mistakes = Mistakes(progress.Progress(one.raw), one.name)
        for line in iter(lambda: one.file.readline(2 * LONGEST_LINE), b""):
            record = reader.read(line)
            if not reader.number % LINES:
                one.report(reader.number)
            if isinstance(record, Declaration):
                declared.take(record)
            elif record is not None:
                self.take_record(record, reader, mistakes)
            if len(self.batch.records) >= BATCH:
                self.batch.site_of, self.batch.rules = declared.site_of, declared.rules
                yield self.end_batch()
        self.batch.site_of, self.batch.rules = declared.site_of, declared.rules
        self.batch.lines += reader.number
        yield self.end_batch()
        self.meter.end()
        mistakes.end()
        log.info("%s: a script of %s lines", one.name, f"{reader.number:,}")

    def take_record(self, record: Asked, reader: ScriptReader, mistakes: Mistakes) -> None:
        """Takes a record of a script."""
        if isinstance(record, Untaken) and record.text:
            why = Refused(record.what, f"{shown(record.text)}; {record.advice}")
            mistakes.report(reader.number, why)
            self.batch.untaken += 1
        self.batch.records.append(record)
