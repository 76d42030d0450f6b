"""Turns logs of a CSMS, or a script, into tables and pages.

    ocpp-board report csms.log --out DIR

reads the logs in one pass into a store, compares the store with the boards of the proved program, and writes pages and
CSV tables of it to DIR: `index.html`, and a folder for each site. Logs may be rotated and compressed by gzip: name all
files, in any order. Without --store the store is a temporary file; with it the store is kept, and the same log again
changes nothing in it.

Each line of a log is a JSON object with a site, a station, a time and the message; --form and --regex read the shapes
of other logs. A file that begins as a script of `ocpp_board replay` does is read as a script, with the declarations
that it has. A line that can't be taken is reported with its file, its number, the cause and the remedy, and is in the
tables of what was refused; the rest goes on.
"""

import argparse
import contextlib
import logging
import multiprocessing
import os
import tempfile
from collections.abc import Callable, Iterator
from dataclasses import dataclass
from datetime import date, datetime, timezone
from pathlib import Path
from typing import Any

from ocpp_board.commands.ahead import run_ahead
from ocpp_board.commands.loading import Loader, Wanted
from ocpp_board.commands.options import add_log_options, add_store, choose_program
from ocpp_board.commands.reading import Batch, BatchReader, Meter, ReadOptions
from ocpp_board.errors import InputError
from ocpp_board.ledger.mending import describe_mends
from ocpp_board.ledger.program import find_program
from ocpp_board.ledger.settlers import Settlers
from ocpp_board.ledger.verify import verify
from ocpp_board.processes import leave_interrupts, pause_collector
from ocpp_board.sources import forms
from ocpp_board.sources.forms import Shape, choose_shape
from ocpp_board.sources.stations import add_sites, choose_plan
from ocpp_board.statuses import Status
from ocpp_board.store.database import Database, open_again, open_store
from ocpp_board.store.plan import Author
from ocpp_board.writers.tables import TableOptions, write_tables

log = logging.getLogger(__name__)

ENDING = f"""\
{forms.FORMS}

Exit status: 0 when every line was taken or left out; 1 when some were not, or when a figure of the store is not the
program's, which writes no page; 2 when the words are wrong or a file can't be read or written."""


@dataclass(frozen=True)
class Options:
    """What the words ask for. `processes`: how many work at once, without this one; `is_script`: whether files may be
    scripts."""

    logs: list[str]
    out: Path
    store: str | None
    shape: Shape
    wanted: Wanted
    is_utc: bool
    is_script: bool
    processes: int
    tables: TableOptions
    written: datetime | None
    until: datetime | None
    oldest: int | None
    silent: int


def add_words(parser: argparse.ArgumentParser) -> None:
    """The words of the command."""
    parser.add_argument(
        "logs", nargs="+", metavar="LOG", help="a log or a script; - is standard input"
    )
    parser.add_argument("--out", metavar="DIR", type=Path, required=True, help="where files go")
    add_store(parser, is_required=False)
    add_log_options(parser, forms.FIELDS)
    add_sites(parser)
    parser.add_argument(
        "--stations",
        metavar="FILE",
        help="the stations: a site and a station a line; messages of others are listed and change nothing",
    )
    add_tables(parser)
    parser.add_argument(
        "--processes",
        metavar="N",
        type=int,
        default=len(os.sched_getaffinity(0)),
        help="how many processes work at once (default: one for each processor)",
    )


def add_tables(parser: argparse.ArgumentParser) -> None:
    """The options of tables and pages."""
    parser.add_argument(
        "--all-periods",
        action="store_true",
        help="periods without energy are in the tables, too: 96 a day of quarters of an hour",
    )
    parser.add_argument(
        "--raw", action="store_true", help="write names and ids into the CSV files as they are"
    )
    day = date.fromisoformat
    parser.add_argument(
        "--from", dest="first", metavar="DAY", type=day, default=date.min, help="no day before it"
    )
    parser.add_argument(
        "--to", dest="last", metavar="DAY", type=day, default=date.max, help="no day after it"
    )
    parser.add_argument(
        "--oldest",
        metavar="SECONDS",
        type=int,
        help="how old data may be when pages are written; they say so if it is older",
    )
    parser.add_argument(
        "--written",
        metavar="TIME",
        type=read_moment,
        help="the time of writing that pages show (default: now)",
    )
    parser.add_argument(
        "--until",
        metavar="TIME",
        type=read_moment,
        help="up to when the data is (default: by the messages)",
    )


def read_moment(text: str) -> datetime:
    """A moment with its offset from UTC. Raises ArgumentTypeError."""
    try:
        at = datetime.fromisoformat(text)
    except ValueError:
        at = None
    if at is None or at.tzinfo is None:
        raise argparse.ArgumentTypeError(f"no time such as 2026-03-01T10:00:00Z: {text!r}")
    return at.astimezone(timezone.utc)


def choose_options(parser: argparse.ArgumentParser, words: argparse.Namespace) -> Options:
    """What the words ask for. Wrong ones end the program with status 2."""
    if words.first > words.last:
        parser.error("--from is after --to")
    if words.processes < 1:
        parser.error("--processes is 1 or more")
    plan, shape = choose_plan(parser, words), choose_shape(words)
    return Options(
        words.logs,
        words.out,
        words.store,
        shape,
        Wanted(plan, dict(words.zones), words.most_kw),
        words.is_utc,
        shape.form == "json" and shape.regex is None,
        words.processes,
        TableOptions(words.tokens, words.raw, words.all_periods, words.first, words.last),
        words.written,
        words.until,
        words.oldest,
        words.silent,
    )


class Report:
    """Takes logs and scripts into a store, and writes what is to be seen of it."""

    def __init__(self, options: Options, store: Database, settlers: Settlers | None) -> None:
        self.options, self.store = options, store
        author = Author("report", f"read from {', '.join(options.logs)}"[:200])
        self.loader = Loader(store, options.wanted, author, settlers=settlers)
        self.lines, self.untaken = 0, 0

    def read_all(self) -> None:
        """Takes all files. Raises OSError and OcppBoardError."""
        options = self.options
        asked = ReadOptions(options.shape, options.wanted.plan, options.is_utc, options.is_script)
        reader = BatchReader(asked, options.logs, self.loader.site_of)
        with pause_collector():
            for batch in reader.read():
                self.take(batch)
        self.loader.finish()

    def take(self, batch: Batch) -> None:
        """Takes what was read at once. Raises OcppBoardError."""
        self.lines += batch.lines
        self.untaken += batch.untaken
        self.loader.plan(batch.site_of, batch.rules)
        self.loader.note_left_out(batch.left_out)
        if batch.records:
            self.loader.submit(batch.records)

    def describe(self) -> str:
        """What became of all lines, in words."""
        counts = self.loader.counts
        names = {
            "accepted": "changed a transaction",
            "repeat": "came again",
            "reply": "were of other actions",
            "silent": "were answers",
            "refused": "were refused",
            "fault": "were refused",
            "stray": "were of stations that no site has",
            "untaken": "could not be taken",
        }
        said = dict[str, int]()
        for outcome, words in names.items():
            said[words] = said.get(words, 0) + counts[outcome]
        some = ", ".join(f"{count:,} {words}" for words, count in said.items() if count)
        sites = self.store.fetch_one(
            "select (select count(*) from site) as sites, (select count(*) from station) as stations, "
            "(select count(*) from session where events > 0) as sessions"
        )
        assert sites
        mended = describe_mends(counts)
        some += f"; mended as the plan declares: {mended}" if mended else ""
        return (
            f"{self.lines:,} lines read; messages: {some or 'none'}. The store has {count_of(sites.sites, 'site')}, "
            f"{count_of(sites.stations, 'station')} and {count_of(sites.sessions, 'transaction')}"
        )


def count_of(number: int, name: str) -> str:
    """So many of these."""
    return f"{number:,} {name}{'' if number == 1 else 's'}"


@contextlib.contextmanager
def open_pool(processes: int) -> Iterator[Any]:
    """Processes that work at once; None for one."""
    if processes == 1:
        yield None
        return
    with multiprocessing.get_context("fork").Pool(processes, leave_interrupts) as pool:
        yield pool


@contextlib.contextmanager
def open_settlers(name: str, processes: int, is_durable: bool) -> Iterator[Settlers | None]:
    """Processes that settle at once in a store; None for one."""
    if processes == 1:
        yield None
        return
    with Settlers(name, processes, is_durable) as settlers:
        yield settlers


@contextlib.contextmanager
def name_store(name: str | None) -> Iterator[str]:
    """The name of this store, or of one in a temporary file that goes at the end."""
    if name:
        yield name
        return
    with tempfile.TemporaryDirectory(prefix="ocpp-board-") as folder:
        yield str(Path(folder) / "store.db")


def write_report(options: Options, name: str, store: Database) -> int:
    """Takes all logs into a store, verifies it, writes its tables and pages, and gives the exit status."""
    options.out.mkdir(parents=True, exist_ok=True)
    with open_settlers(name, options.processes, options.store is not None) as settlers:
        report = Report(options, store, settlers)
        report.read_all()
    log.info("%s", report.describe())
    meter = Meter()
    meter.show("comparing the store with the program's boards")
    with open_pool(options.processes) as pool:
        verified = verify(store, pool=pool)
    meter.end()
    if verified.difference:
        raise InputError(
            f"the store is not as the program's boards are: {verified.difference}; no page is written"
        )
    log.info("verified: %s figures are those of the program's boards", f"{verified.figures:,}")
    with write_beside(options, store) as count_tables:
        pages = write_pages(options, store)
        tables = count_tables()
    log.info("%s and %s are in %s", count_of(pages, "page"), count_of(tables, "table"), options.out)
    return Status.REPORTED if report.untaken else Status.DONE


@contextlib.contextmanager
def write_beside(options: Options, store: Database) -> Iterator[Callable[[], int]]:
    """Writes the tables while something else is done, and gives what waits for them and counts them."""

    def write() -> Iterator[int]:
        with open_again(store) as own:
            yield write_tables(own, options.out, options.tables)

    if options.processes == 1:
        count = write_tables(store, options.out, options.tables)
        yield lambda: count
        return
    counts = run_ahead(write, is_apart=True)
    yield lambda: next(counts)


def write_pages(options: Options, store: Database) -> int:
    """Writes the pages, and gives how many there are."""
    from ocpp_board.writers import pages

    until = options.until or find_until(store)
    asked = pages.PageOptions(
        tokens=options.tables.tokens,
        until=until,
        written=options.written,
        oldest=options.oldest,
        first=options.tables.first,
        last=options.tables.last,
        workers=options.processes,
        silent=options.silent,
    )
    return pages.write_pages(store, options.out, asked)


def find_until(store: Database) -> datetime | None:
    """When a message was received last, as far as that is known."""
    row = store.fetch_one(
        "select max(received_until) as received_until, max(last_at) as last_at from session"
    )
    return (row.received_until or row.last_at) if row else None


def run(words: argparse.Namespace) -> int:
    """Does what the words ask for, and gives the exit status."""
    options = choose_options(words.parser, words)
    choose_program(words.program)
    find_program()  # That there is none is said before anything is read.
    with name_store(options.store) as name:
        with open_store(name, is_durable=options.store is not None) as store:
            return write_report(options, name, store)
