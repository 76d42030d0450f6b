"""Keeps a store beside a CSMS that writes logs, and the pages and tables of what changed.

    ocpp-board follow csms.log --store S --stations FILE --out DIR

reads each log from where it was read before, over rotations by rename or copy, dated and compressed files and cuts; at
a first start the rotated files come first, the oldest before the others. How far a log was read is committed with the
lines, or behind them where they are many. So nothing is lost when the process is killed, and a line that is read again
changes nothing. Several followers may share a store.

The stations are those of the store's plan, of --stations (a site and a station a line; the file is read again when it
changes), and with --site all that come. Messages of other stations wait in the store until the plan has the station.

With --out the pages and the tables of days are written to DIR, each --every seconds those that changed. Lines on
standard input are an operator's, such as `void CS-01 T1 3 # jo: meter exchanged`: who and why are behind the mark. Each
gets its answer on standard output once it is committed.
"""

import argparse
import contextlib
import logging
import os
import queue
import signal
import sys
import threading
import time
from collections.abc import Callable, Iterator, Sequence
from dataclasses import dataclass, replace
from datetime import datetime, timezone

from pathlib import Path
from types import FrameType
from typing import Any

from ocpp_board.commands.loading import BATCH, Loader, Wanted
from ocpp_board.commands.options import add_log_options, add_store, choose_program
from ocpp_board.commands.reading import Meter
from ocpp_board.commands.renewing import Renewer, Shown
from ocpp_board.commands.report import count_of
from ocpp_board.errors import InputError, StoreError, UsageError
from ocpp_board.escapes import shown, without_controls
from ocpp_board.ledger.engine import settle, take_strays
from ocpp_board.ledger.mending import count_mends, describe_mends
from ocpp_board.ledger.settlers import Settlers
from ocpp_board.limits import GREATEST_SEQ_NO
from ocpp_board.messages.texts import Refused
from ocpp_board.records import DEEDS, Answer, Asked, Deed, Message
from ocpp_board.sources import forms
from ocpp_board.sources.files import BYTE_ORDER_MARK
from ocpp_board.sources.follow import Follower, Place
from ocpp_board.sources.forms import Shape, choose_shape
from ocpp_board.sources.log import LogReader
from ocpp_board.sources.script import is_number
from ocpp_board.sources.stations import StorePlan, choose_plan, read_pairs
from ocpp_board.statuses import Status
from ocpp_board.store.database import Database, open_store
from ocpp_board.store.lines import note_left_out
from ocpp_board.store.plan import Author
from ocpp_board.writers.tables import TableOptions

log = logging.getLogger(__name__)

ENDING = f"""\
{forms.FORMS}

Exit status: 0; 1 when no line of a log is of its form; 2 when the words are wrong, or a file or the store can't be
used."""
# Seconds between looks at the logs, between looks at the plan, and before what failed is tried again.
AGAIN, PLAN, TRIED = 0.3, 2.0, 5.0
# Records of one look beyond which processes settle them.
MANY = 5_000
# What parts an operator's line from who and why, and characters of these that are kept.
MARK = b" # "
LONGEST_TEXT = 200
# Lines of a log whose kind of mistake is reported.
WAITED = "waited for"


@dataclass(frozen=True)
class Options:
    """What the words ask for."""

    logs: list[Path]
    store: str
    source: str
    stations: str | None
    shape: Shape
    wanted: Wanted
    is_utc: bool
    is_once: bool
    processes: int
    shown: Shown | None


def add_words(parser: argparse.ArgumentParser) -> None:
    """The words of the command."""
    parser.add_argument("logs", nargs="+", metavar="LOG", type=Path, help="a log that grows")
    add_store(parser)
    parser.add_argument("--out", metavar="DIR", type=Path, help="where pages and tables go")
    parser.add_argument(
        "--stations", metavar="FILE", help="the stations: a site and a station a line"
    )
    parser.add_argument(
        "--site", dest="one_site", metavar="NAME", help="the site of stations that the plan lacks"
    )
    parser.add_argument(
        "--source",
        metavar="NAME",
        default="",
        help="the name under which the store keeps how far the logs were read (default: their paths); name it where "
        "followers on several machines read logs of one path",
    )
    parser.add_argument(
        "--every",
        metavar="SECONDS",
        type=read_seconds,
        default=10.0,
        help="how long to wait from one writing of pages and tables to the next (default: 10)",
    )
    parser.add_argument(
        "--oldest",
        metavar="SECONDS",
        type=read_seconds,
        help="how long nothing may come from any station before the pages say that their data is too old",
    )
    parser.add_argument(
        "--once",
        dest="is_once",
        action="store_true",
        help="take what the logs have, write the pages and tables, and end",
    )
    add_log_options(parser, ("station", "time", "message"))
    parser.set_defaults(site_map=None)


def read_seconds(text: str) -> float:
    """A pause in seconds."""
    number = float(text)
    if not 0.2 <= number <= 86_400:
        raise argparse.ArgumentTypeError("seconds from 0.2 to 86400")
    return number


def choose_options(parser: argparse.ArgumentParser, words: argparse.Namespace) -> Options:
    """What the words ask for. Wrong ones end the program with status 2."""
    if words.source and len(words.logs) > 1:
        parser.error("--source names one log")
    plan = replace(choose_plan(parser, words), stations=None)
    asked = (
        Shown(words.out, words.every, words.oldest, TableOptions(words.tokens), words.silent)
        if words.out
        else None
    )
    return Options(
        words.logs,
        words.store,
        words.source,
        words.stations,
        choose_shape(words),
        Wanted(plan, dict(words.zones), words.most_kw),
        words.is_utc,
        words.is_once,
        len(os.sched_getaffinity(0)),
        asked,
    )


class FollowedLog:
    """A log that is followed: its lines become records."""

    def __init__(self, path: Path, name: str, options: Options, plan: StorePlan) -> None:
        """`name`: that of its row in the store."""
        self.path, self.name, self.plan, self.shape = path, name, plan, options.shape
        self.reader = LogReader(options.shape, plan, options.is_utc, str(path))
        self.follower: Follower | None = None
        self.last = ""
        # What was reported, since the first of each kind is.
        self.reported = set[str]()

    def open(self, store: Database) -> bool:
        """Opens the log where it was read up to, and gives whether it is there. Raises OSError."""
        if self.follower:
            return True
        row = store.fetch_one(
            "select place, front from source where origin = :name", name=self.name
        )
        place = Place(row.place, row.front) if row else None
        try:
            self.follower = Follower(self.path, place, self.report_cut)
        except FileNotFoundError as fault:
            self.report(f"{fault}; {WAITED}")
            return False
        if self.follower.place.place and self.shape.form == "citrineos-csv":
            # It names the columns.
            self.reader.form.read(self.follower.read_first().decode("utf-8", "replace"))
        return True

    def report(self, text: str) -> None:
        """Reports this once."""
        if text not in self.reported:
            self.reported.add(text)
            log.warning("%s", text)

    def report_cut(self, what: str) -> None:
        """Reports that the log was cut short, and which line was the last before."""
        last = (
            f"; the last line before the cut that was taken is of {self.last}" if self.last else ""
        )
        log.warning("%s%s", what, last)

    def read(self, most: int) -> tuple[list[Asked], Place | None]:
        """The records of lines that came, about so many at most, and how far the log was read with them; no place where
        nothing came. Raises OSError and UsageError."""
        assert self.follower
        records, place = list[Asked](), None
        while len(records) < most and (lines := self.follower.read()):
            at = self.follower.place.place - sum(len(line or b"") for line in lines)
            for line in lines:
                self.take(records, line, at)
                at += len(line or b"")
            place = self.follower.place
        return records, place

    def take(self, records: list[Asked], line: bytes | None, at: int) -> None:
        """Takes a line, which begins at this byte of its file."""
        bare = line.removeprefix(BYTE_ORDER_MARK) if line else None
        try:
            read = self.reader.read(bare)
        except Refused as why:
            untaken = self.reader.make_untaken(why, bare, 0)
            records.append(untaken._replace(origin=f"{self.path}, byte {at}"))
            if why.kind not in self.reported:
                self.reported.add(why.kind)
                log.warning("%s: %s", self.path, why)
            return
        if read.note:
            self.report(f"{self.path}: {read.note}")
        for message in read.messages:
            records.append(message._replace(origin=f"{self.path}, byte {at}"))
        if entry := self.reader.entry:
            moment = f" at {shown(entry.time)[1:-1]}" if entry.time else ""
            self.last = f"{shown(entry.station)[1:-1]}{moment}"

    def is_current(self) -> bool:
        """Whether all files of the log but the one of its name were read to their ends."""
        return self.follower is not None and self.follower.is_current()


def write_place(name: str, place: Place, store: Database) -> None:
    """Writes how far a log was read."""
    store.execute(
        "insert into source (origin, place, front, read_at) values (:name, :place, :front, :now) "
        "on conflict (origin) do update set place = excluded.place, front = excluded.front, "
        "read_at = excluded.read_at",
        name=name,
        place=place.place,
        front=place.front,
        now=datetime.now(timezone.utc),
    )


class StationFile:
    """A file of stations that may change."""

    def __init__(self, path: str | None) -> None:
        self.path, self.seen = path, (0, 0)

    def read_changed(self) -> dict[str, str]:
        """The sites of stations, if the file changed since it was read; else none. Raises OSError and UsageError."""
        if self.path is None:
            return {}
        status = os.stat(self.path)
        seen = status.st_mtime_ns, status.st_size
        if seen == self.seen:
            return {}
        self.seen = seen
        return {station: site for site, station in read_pairs(self.path)}


def read_deed(line: bytes) -> Deed | None:
    """An operator's line that changes something; None of another."""
    bare, _, said = line.rstrip(b"\r\n").partition(MARK)
    words = bare.decode("utf-8", "replace").split(" ")
    if len(words) != 4 or words[0] not in DEEDS or not is_number(words[3], GREATEST_SEQ_NO):
        return None
    who, colon, why = said.decode("utf-8", "replace").partition(":")
    if not colon:
        who, why = "", who
    who, why = (without_controls(text.strip())[:LONGEST_TEXT] for text in (who, why))
    now = datetime.now(timezone.utc)
    now = now.replace(microsecond=now.microsecond // 1_000 * 1_000)
    origin = f"operator {who}".strip()
    return Deed(words[0], words[1], words[2], int(words[3]), who, why, now, origin)


def write_answer(answer: Answer) -> str:
    """An answer as the program writes it."""
    if answer.outcome == "accepted":
        return f"accepted {answer.count}"
    return f"{answer.outcome} {answer.name}".strip()


class Follow:
    """Follows logs into a store, takes an operator's lines, and renews pages and tables."""

    def __init__(self, options: Options, store: Database) -> None:
        """Raises OSError, UsageError and InputError."""
        self.options, self.store = options, store
        self.plan = StorePlan(options.wanted.plan)
        author = Author("follow", f"followed {', '.join(map(str, options.logs))}"[:200])
        self.loader = Loader(store, options.wanted, author)
        # Processes that settle, while there is much.
        self.settlers: Settlers | None = None
        self.stations = StationFile(options.stations)
        names = [options.source or os.path.abspath(path) for path in options.logs]
        self.logs = [
            FollowedLog(path, name, options, self.plan) for path, name in zip(options.logs, names)
        ]
        self.renewer = Renewer(store, options.shown, options.processes) if options.shown else None
        self.lines: queue.Queue[bytes] = queue.Queue()
        self.is_ending = False
        self.is_caught_up = False
        self.planned, self.due = 0.0, time.monotonic()
        self.meter = Meter()
        self.until: datetime | None = None
        self.read_plan()
        for site in dict.fromkeys(self.plan.site_of.values()):
            self.loader.plan_site(site, None)

    def read_plan(self) -> None:
        """Takes what the file of stations and the store's plan have that is new. Raises OSError, UsageError and
        InputError."""
        self.planned = time.monotonic() + PLAN
        changed = self.stations.read_changed()
        if changed:
            self.loader.plan(changed)
        rows = self.store.fetch("select station, site from station where until is null")
        self.plan.site_of = {row.station: row.site for row in rows}
        self.loader.site_of |= self.plan.site_of
        for answer in take_strays(self.store):
            self.loader.counts[answer.outcome] += 1

    def run(self) -> int:
        """Follows until the end, and gives the exit status. Raises OSError and OcppBoardError."""
        while not self.is_ending:
            came = self.take_all()
            self.is_caught_up = self.is_caught_up or came == 0
            if self.options.is_once and came == 0 and all(one.is_current() for one in self.logs):
                break
            self.renew(is_due=came == 0 or self.is_caught_up)
            if time.monotonic() >= self.planned:
                self.attempt(self.read_plan)
            if came < BATCH:
                self.take_lines(0.0 if came else AGAIN)
        self.renew(is_due=True, is_last=True)
        self.meter.end()
        return self.report()

    def take_all(self) -> int:
        """Takes what came of all logs, and gives how many records that were. Raises OSError and OcppBoardError."""
        count = 0
        for one in self.logs:
            if not one.open(self.store):
                if self.options.is_once:
                    raise FileNotFoundError(2, "No such file or directory", str(one.path))
                continue
            try:
                records, place = one.read(BATCH)
            except UsageError as fault:
                raise UsageError(f"{one.path} {fault}") from None
            if place is None:
                continue
            self.settle_log(one, records, place)
            count += len(records) or 1
        return count

    def settle_log(self, one: FollowedLog, records: list[Asked], place: Place) -> None:
        """Settles what came of a log; what fails is tried again until it is done."""
        left_out = one.reader.take_left_out()

        def note(store: Database) -> None:
            write_place(one.name, place, store)
            note_left_out(store, left_out)

        def settle_once() -> None:
            self.loader.plan(self.find_new(records))
            if len(records) > MANY and self.options.processes > 1:
                self.settle_many(records, note)
                return
            answers = settle(self.store, records, also=note)
            for record, answer in zip(records, answers):
                self.loader.note(record.station, answer)
            self.loader.counts += count_mends(answers)

        while not self.attempt(settle_once) and not self.is_ending:
            self.wait(TRIED)
        if len(records) < BATCH:
            self.drop_settlers()
        moments = [record.received for record in records if record.received]
        self.until = max([*moments, *filter(None, [self.until])], default=None)
        self.meter.show(f"{one.path}: {one.reader.counts['lines']:,} lines")

    def settle_many(self, records: Sequence[Asked], note: Callable[[Database], None]) -> None:
        """Has processes settle records, each those of its stations, and notes then how far the log was read, with what
        is counted. Before that, lines that are read again are repeats. Raises StoreError."""
        if self.settlers is None:
            self.settlers = Settlers(self.options.store, self.options.processes)
        try:
            pending = self.settlers.submit(records, is_apart=True)
            counts = pending.get()
        except StoreError:
            self.drop_settlers()
            raise
        with self.store.transaction():
            pending.counted.write(self.store)
            note(self.store)
        self.loader.counts += counts
        self.loader.changed |= {(record.station, None) for record in records}

    def drop_settlers(self) -> None:
        """Ends the processes that settle."""
        if self.settlers:
            self.settlers.drop()
            self.settlers = None

    def find_new(self, records: Sequence[Asked]) -> dict[str, str]:
        """The stations of records that come to the site of the words."""
        site = self.options.wanted.plan.one_site
        if not site:
            return {}
        known = self.loader.site_of
        found = {one.station for one in records if isinstance(one, Message) and one.site}
        new = {station: site for station in sorted(found) if station not in known}
        self.plan.site_of |= new
        return new

    def attempt(self, work: Callable[[], None]) -> bool:
        """Does work that is tried again where the store or a file fails, and gives whether it was done."""
        try:
            work()
            return True
        except (OSError, StoreError, UsageError, InputError) as fault:
            if self.options.is_once:
                raise
            log.error("%s; tried again in %g s", fault, TRIED)
            return False

    # Operator's lines -------------------------------------------------------------------------------------------------

    def take_lines(self, pause: float) -> None:
        """Takes the operator's lines, for which it waits so long at most."""
        until = time.monotonic() + pause
        while not self.is_ending:
            try:
                line = self.lines.get(
                    timeout=max(0.0, until - time.monotonic()) if pause else 0.001
                )
            except queue.Empty:
                return
            try:
                answer = self.answer(line)
            except StoreError as fault:
                log.error("%s", fault)
                answer = "fault StoreError"
            sys.stdout.write(answer + "\n")
            sys.stdout.flush()

    def answer(self, line: bytes) -> str:
        """The answer to an operator's line, once it is committed. Raises StoreError."""
        word, _, rest = line.decode("utf-8", "replace").rstrip("\r\n").partition(" ")
        if deed := read_deed(line):
            (answer,) = self.loader.settle([deed])
            return write_answer(answer)
        if word == "msg" and " " in rest:
            station, _, text = rest.partition(" ")
            now = datetime.now(timezone.utc)
            (answer,) = self.loader.settle([Message(station, text, now, "operator")])
            return answer.reply or write_answer(answer)
        if word == "total":
            return self.answer_total(rest)
        return "fault BadLine"

    def answer_total(self, station: str) -> str:
        """The figures of a station, as the program writes them."""
        row = self.store.fetch_one(
            "select sum(events) as events, sum(voided) as voided, sum(transactions) as transactions, "
            "sum(complete_transactions) as complete_transactions, sum(missing) as missing, sum(up) as up, "
            "sum(down) as down, sum(export_up) as export_up, sum(export_down) as export_down "
            "from board_station where station = :station",
            station=station,
        )
        if row is None or row.events is None:
            return "fault UnknownStation"
        names = "events voided transactions complete missing up down export_up export_down".split()
        return "total " + " ".join(f"{name}={int(value)}" for name, value in zip(names, row))

    def wait(self, pause: float) -> None:
        """Waits, but for the end."""
        until = time.monotonic() + pause
        while not self.is_ending and time.monotonic() < until:
            time.sleep(0.05)

    # Pages and the end ------------------------------------------------------------------------------------------------

    def renew(self, is_due: bool, is_last: bool = False) -> None:
        """Writes the pages and tables of what changed, if it is time; what fails is tried the next time."""
        if not self.renewer or not is_due or time.monotonic() < self.due and not is_last:
            return
        self.due = time.monotonic() + self.renewer.shown.every
        try:
            self.renewer.renew(self.loader.changed, self.until)
        except (OSError, StoreError) as fault:
            log.error("%s; tried again in %g s", fault, self.renewer.shown.every)
            return
        self.loader.changed = set()

    def report(self) -> int:
        """Reports what became of the lines, and gives the exit status."""
        status = Status.DONE
        for one in self.logs:
            log.info("%s: %s", one.path, one.reader.describe())
            if said := one.reader.mender.describe():
                log.info("messages mended: %s", said)
            if not one.reader.has_form():
                log.error("no line of %s is of the form %s", one.path, one.shape.name)
                status = Status.REPORTED
        if said := describe_mends(self.loader.counts):
            log.info("messages mended as the plan declares: %s", said)
        if self.renewer:
            pages, tables = self.renewer.pages, self.renewer.tables
            log.info("%s and %s were written", count_of(pages, "page"), count_of(tables, "table"))
        self.report_refused()
        return status

    def report_refused(self) -> None:
        """Reports how much was refused by cause."""
        rows = self.store.fetch(
            "select cause, cast(sum(times) as bigint) as times from refused group by cause order by cause"
        )
        if rows:
            causes = ", ".join(f"{row.cause} {row.times:,}" for row in rows)
            total = sum(row.times for row in rows)
            log.warning("refused: %s in all: %s", count_of(total, "message"), causes)


def read_lines(lines: "queue.Queue[bytes]") -> None:
    """Hands an operator's lines on, as they come."""
    with contextlib.suppress(OSError, ValueError), open(0, "rb", closefd=False) as file:
        for line in file:
            lines.put(line)


@contextlib.contextmanager
def end_by_signals(follow: Follow) -> Iterator[None]:
    """Has signals end the work: the pages are written once more."""

    def end(_number: int, _frame: FrameType | None) -> None:
        follow.is_ending = True

    numbers = (signal.SIGINT, signal.SIGTERM)
    before: list[Any] = [signal.getsignal(number) for number in numbers]
    for number, handler in zip(numbers, before):
        if handler is not signal.SIG_IGN:
            signal.signal(number, end)
    try:
        yield
    finally:
        for number, handler in zip(numbers, before):
            signal.signal(number, handler)


def run(words: argparse.Namespace) -> int:
    """Does what the words ask for, and gives the exit status."""
    options = choose_options(words.parser, words)
    choose_program(words.program)
    with open_store(options.store) as store:
        follow = Follow(options, store)
        threading.Thread(target=read_lines, args=(follow.lines,), daemon=True).start()
        out = f"; pages are in {options.shown.out}" if options.shown else ""
        log.info("follows %s into %s%s", ", ".join(map(str, options.logs)), options.store, out)
        with end_by_signals(follow):
            return follow.run()
