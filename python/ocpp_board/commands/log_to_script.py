"""Turns the message log of a CSMS into a script for `ocpp_board replay`.

Each line of the log is a JSON object with a site, a station, a time and the message, which is
OCPP-J text in a JSON string:

    {"site":"north","station":"CS-01","time":"2026-03-01T08:00:00Z","message":"[2,\\"1\\",\\"Heartbeat\\",{}]"}

--form and --regex read the shapes of other logs. The script declares all stations first, in the order in which
the log names them. Each message becomes a `msg` line with the same bytes; a line feed in it becomes a blank.
Replies to a BootNotification or a Heartbeat have the moment, so a `now` line before these gives the line's time
if that has changed; if the time can't be read, the message goes without it. Answers ([3,..] and [4,..]),
messages of the CSMS and of OCPP 1.6, other lines and blanks are left out and counted. The tool reports a line that
it can't take on standard error with its number, and writes it into the script as a comment; the rest goes on. It
reports a mistake of many lines at the first, and counts it at the end.

With --stations each line goes out as soon as it is read, so that a log that still grows is a live ledger:

    tail -n +1 -F csms.log | ocpp-board log-to-script --stations stations.txt | ocpp_board replay

A line is taken whole or not at all. It needs two names of 1 to 48 of A-Z a-z 0-9 * - _ = : + | @ .
(at most 16 sites and 64 stations, a station on one site only), and a message that fits a script line of 262,400
bytes; the whole script has at most 1,073,741,824 bytes. A log of more stations becomes several scripts by --split.
The tool reads a log that is compressed by gzip, too.
"""

import argparse
import contextlib
import gzip
import logging
import shutil
import tempfile
import zlib
from collections.abc import Iterator
from dataclasses import dataclass
from io import BufferedWriter
from pathlib import Path
from typing import IO

from ocpp_board.commands.mistakes import Mistakes
from ocpp_board.errors import UsageError
from ocpp_board.limits import (
    DEFAULT_READINGS,
    FIRST_MOMENT,
    LONGEST_SCRIPT,
    MOMENT,
    MOST_READINGS,
    MOST_SITES,
    MOST_STATIONS,
)
from ocpp_board.messages.mend import COMMENT as MENDED, write_comment
from ocpp_board.messages.texts import Refused
from ocpp_board.processes import end_without_reader
from ocpp_board.progress import Progress
from ocpp_board.records import Message, Untaken
from ocpp_board.sources import forms
from ocpp_board.sources.files import open_input, read_lines, unpack
from ocpp_board.sources.forms import Shape, choose_shape
from ocpp_board.sources.log import LogReader, Read
from ocpp_board.sources.script import RECEIVED, UNTAKEN, read_comment, write_moment, write_untaken
from ocpp_board.sources.stations import (
    DEFAULTS,
    PlanOptions,
    StationPlan,
    add_limits,
    add_rules,
    add_sites,
    add_utc,
    choose_plan,
)
from ocpp_board.statuses import Status
from ocpp_board.words import pick_options

log = logging.getLogger(__name__)

ENDING = f"""\
{forms.FORMS}
A station keeps 1,024 transactions, 16,384 events and 16,384 readings, unless --limits says otherwise. Memory
doesn't grow with the log; without --stations the script waits in a temporary file (TMPDIR) until all stations are
known. Exit status: 0 when every line was taken or left out; 1 when some were not; 2 when the words are wrong or a file
can't be read or written."""
# Bytes of the script that are kept in memory before they go to a file.
KEPT_IN_MEMORY = 1_048_576
# Lines of a kind that can't be taken, which a script keeps; the others are counted.
MOST_UNTAKEN = 10_000
# Stations of a log that is split.
MOST_SPLIT = 16_384


class Full(Exception):
    """The script has no room for this line."""


class ScriptPlan(StationPlan):
    """The stations of a script, or of several, and what it declares of their sites."""

    def __init__(self, asked: PlanOptions, most_stations: int = MOST_STATIONS) -> None:
        """Raises OSError, and UsageError where a file of the options has not two names a line or too many stations."""
        self.most_stations = most_stations
        self.most_sites = MOST_SITES if most_stations == MOST_STATIONS else most_stations
        self.readings = asked.limits[2] if asked.limits else DEFAULT_READINGS
        super().__init__(asked)

    def check_room(self, site: str, station: str) -> None:
        """Raises Refused where a script has no room for one station more."""
        if len(self.site_of) == self.most_stations:
            raise Refused(f"one station more than {self.most_stations}", station)
        if site not in self.site_of.values() and len(self.list_sites()) == self.most_sites:
            raise Refused(f"one site more than {self.most_sites}", site)
        readings = (len(self.site_of) + 1) * self.readings
        if self.most_stations == MOST_STATIONS and readings > MOST_READINGS:
            raise Refused(
                f"the stations' limits of readings would add up to more than {MOST_READINGS:,}",
                station,
            )

    def declare_site(self, site: str) -> Iterator[bytes]:
        """What is declared of a site: its settlement period, where one is asked for, the order of its readings, and the
        rule by which their differences count in its periods."""
        asked = self.asked.find_words(site)
        if asked.period:
            yield f"period {site} {asked.period}\n".encode()
        yield f"order {site} {asked.order or DEFAULTS['order']}\n".encode()
        yield f"settle {site} {asked.settle or DEFAULTS['settle']}\n".encode()

    def describe_defaults(self) -> str:
        """That sites are declared by the defaults of the tools, where some are; else nothing."""
        asked = {"order": self.asked.order, "settle": self.asked.settle}
        sites = self.list_sites()
        kinds = [
            kind for kind in DEFAULTS if any(not {site, ""} & {*asked[kind]} for site in sites)
        ]
        lines = " and ".join(f"`{kind} .. {DEFAULTS[kind]}`" for kind in kinds)
        options = " and ".join(f"--{kind}" for kind in kinds)
        return (
            f"the script declares {lines} for its sites; {options} would say otherwise"
            if kinds
            else ""
        )

    def declare(self, site_of: dict[str, str] | None = None) -> bytes:
        """The lines in front of the first message, of these stations or of all."""
        stations = self.site_of if site_of is None else site_of
        lines = [f"station {site} {station}\n".encode() for station, site in stations.items()]
        for site in dict.fromkeys(stations.values()):
            lines += self.declare_site(site)
        limits = self.asked.limits
        front = f"limits {' '.join(map(str, limits))}\n".encode() if limits else b""
        return b"".join([front, *lines])

    def ask_boards(self, site_of: dict[str, str] | None = None) -> bytes:
        """The lines that ask for the board of each site, where they are asked for."""
        sites = dict.fromkeys((self.site_of if site_of is None else site_of).values())
        return b"".join(f"board {site}\n".encode() for site in sites if self.asked.boards)


def write_read(read: Read, has_received: bool) -> bytes:
    """The lines of a script that a message becomes: in front of it a comment with what came, if it was mended, and one
    with its receipt where that is wanted."""
    return b"".join(write_message(message, has_received) for message in read.messages)


def write_message(message: Message, has_received: bool) -> bytes:
    """The lines of a script that one message becomes."""
    moment = write_moment(message.received)
    came = (
        write_comment(message.mends.split(","), message.station, message.came)
        if message.mends
        else b""
    )
    received = f"# received {moment}\n".encode() if moment and has_received else b""
    # The replay drops one carriage return before a line feed: the message's own stays.
    more = "\r" if message.text.endswith("\r") else ""
    return came + received + f"msg {message.station} {message.text}{more}\n".encode()


class Script:
    """The script so far. Behind its declarations, its lines go out at once or wait in a file."""

    def __init__(self, plan: ScriptPlan, out: IO[bytes]) -> None:
        self.plan, self.out = plan, out
        self.is_live = plan.is_fixed
        self.body: IO[bytes] = (
            out if self.is_live else tempfile.SpooledTemporaryFile(max_size=KEPT_IN_MEMORY)
        )
        # Bytes of the body and of what is around it, for so many stations.
        self.size, self.around, self.stations = 0, 0, -1
        self.now = FIRST_MOMENT.strftime(MOMENT)
        if self.is_live:
            self.out.write(plan.declare())
            self.out.flush()

    def find_room(self) -> int:
        """The bytes that are left for messages."""
        if self.stations != len(self.plan.site_of):
            self.stations = len(self.plan.site_of)
            self.around = len(self.plan.declare()) + len(self.plan.ask_boards())
        return LONGEST_SCRIPT - self.size - self.around

    def put(self, lines: bytes, moment: str = "") -> None:
        """Adds lines, after their moment where that is given and new. Raises Full where there is no room."""
        if moment and moment != self.now:
            lines = f"now {moment}\n".encode() + lines
        if len(lines) > self.find_room():
            raise Full
        self.size += len(lines)
        self.now = moment or self.now
        self.body.write(lines)
        if self.is_live:
            self.out.flush()

    def keep(self, untaken: Untaken) -> None:
        """Keeps what is not taken, for those who show it. Raises Full where there is no room."""
        self.put(write_untaken(untaken))

    def write(self) -> None:
        """What was not written yet."""
        if not self.is_live:
            self.out.write(self.plan.declare())
            self.body.seek(0)
            shutil.copyfileobj(self.body, self.out)
        self.out.write(self.plan.ask_boards())
        self.out.flush()


class Scripts(Script):
    """Scripts of a folder, for as many stations as the log has."""

    def __init__(self, folder: Path, plan: ScriptPlan) -> None:
        """Raises OSError, and UsageError where the folder has files."""
        super().__init__(plan, tempfile.TemporaryFile())
        self.folder = folder
        self.folder.mkdir(parents=True, exist_ok=True)
        if any(self.folder.iterdir()):
            raise UsageError(f"{self.folder} is not empty")

    def put(self, lines: bytes, moment: str = "") -> None:
        """Adds lines, after their moment where that is given."""
        self.body.write((f"now {moment}\n".encode() if moment else b"") + lines)

    def write(self) -> None:
        """Writes each script. Raises OSError, and UsageError where one is longer than a script may be."""
        shares = share_stations(self.plan.site_of, MOST_READINGS // self.plan.readings)
        paths = [self.folder / f"{number}.script" for number in range(1, len(shares) + 1)]
        with contextlib.ExitStack() as files:
            outs = [files.enter_context(open(path, "wb")) for path in paths]
            for out, share in zip(outs, shares):
                out.write(self.plan.declare(share))
            self.hand_out({station: out for out, share in zip(outs, shares) for station in share})
            for path, out, share in zip(paths, outs, shares):
                out.write(self.plan.ask_boards(share))
                if out.tell() > LONGEST_SCRIPT:
                    raise UsageError(
                        f"{path} has more than {LONGEST_SCRIPT:,} bytes: split the log"
                    )
                sites = ", ".join(dict.fromkeys(share.values()))
                log.info("%s: %d stations of %s", path, len(share), sites)

    def hand_out(self, out_of: dict[str, BufferedWriter]) -> None:
        """Writes each message to its station's script, after its moment where that is new there."""
        nows: dict[BufferedWriter, bytes] = {}
        first = next(iter(out_of.values()))
        now = received = came = b""
        self.body.seek(0)
        for line in self.body:
            if line.startswith(b"now "):
                now = line
            elif line.startswith(RECEIVED):
                received = line
            elif line.startswith(MENDED):
                came = line
            elif line.startswith(UNTAKEN):
                station = read_comment(UNTAKEN, line, ["station"]).get("station", "")
                out_of.get(station, first).write(line)
            else:
                out = out_of[line.split(b" ", 2)[1].decode()]
                out.write((now if now != nows.get(out) else b"") + came + received + line)
                nows[out] = now or nows.get(out, b"")
                now = received = came = b""


def share_stations(site_of: dict[str, str], room: int) -> list[dict[str, str]]:
    """The stations of each script with their sites. `room`: how many stations a script's readings have room for.

    A site is parted only where it has more stations than one script.
    """
    most = min(MOST_STATIONS, room)
    stations_of: dict[str, list[str]] = {}
    for station, site in site_of.items():
        stations_of.setdefault(site, []).append(station)
    shares: list[dict[str, str]] = []
    for site, stations in stations_of.items():
        for first in range(0, len(stations), most):
            part = dict.fromkeys(stations[first : first + most], site)
            share = next((share for share in shares if is_fit(share, part, most)), None)
            if share is None:
                shares.append(part)
            else:
                share.update(part)
    return shares


def is_fit(share: dict[str, str], part: dict[str, str], most: int) -> bool:
    """Whether a script has room for these stations, too."""
    sites = {*share.values(), *part.values()}
    return len(share) + len(part) <= most and len(sites) <= MOST_SITES


@dataclass(frozen=True)
class Options:
    """What the words ask for. `log`: its path, or - for standard input; `is_received`: messages have the times of their
    receipt in front; `is_utc`: times without an offset are UTC; `split`: the folder of several scripts.
    """

    log: str
    shape: Shape
    plan: PlanOptions
    is_received: bool
    is_utc: bool
    split: Path | None


class Conversion:
    """A run over a log: the script, and what became of each line."""

    def __init__(self, options: Options, out: IO[bytes]) -> None:
        self.log, split = options.log, options.split
        self.is_received = options.is_received
        self.plan = ScriptPlan(options.plan, MOST_SPLIT if split else MOST_STATIONS)
        if self.plan.is_fixed:
            self.plan.check_sites()
        name = "" if self.log == "-" else self.log
        self.reader = LogReader(
            options.shape, self.plan, options.is_utc, name, has_times=options.is_received
        )
        self.counts = self.reader.counts
        self.script = Scripts(split, self.plan) if split else Script(self.plan, out)

    def run(self, file: IO[bytes], progress: Progress) -> None:
        """Takes all lines of a log; reports what can't be taken."""
        mistakes = Mistakes(progress, "" if self.log == "-" else self.log)
        number = self.take_all(file, progress, mistakes)
        if not self.reader.has_form():
            form = self.reader.shape.name
            why = Refused(f"neither this line nor one before it is of the form {form}")
            self.refuse(mistakes, number, why)
        progress.end()
        mistakes.end()

    def take_all(self, file: IO[bytes], progress: Progress, mistakes: Mistakes) -> int:
        """Takes lines up to the end, or to where no more can be; gives the number of the last one."""
        number = 0
        try:
            for number, line in read_lines(file):
                progress.report(number, len(line or b""))
                self.take(number, line, mistakes)
        except UsageError as fault:
            raise UsageError(f"{self.log} {fault}") from None
        except Full:
            kind = f"no room in a script of {LONGEST_SCRIPT:,} bytes"
            left_out = Refused(f"{kind}; this line and all after it are left out")
            self.refuse(mistakes, number, left_out)
        except (EOFError, zlib.error, gzip.BadGzipFile) as fault:
            kind = "the gzip is cut short or damaged, and what follows is left out"
            self.refuse(mistakes, number + 1, Refused(kind, str(fault)))
        return number

    def take(self, number: int, line: bytes | None, mistakes: Mistakes) -> None:
        """Takes the line of this number into the script. Raises Full."""
        try:
            read = self.reader.read(line, number)
        except Refused as why:
            mistakes.report(number, why)
            if mistakes.count(why) <= MOST_UNTAKEN:
                self.script.keep(self.reader.make_untaken(why, line, number))
            return
        if read.note:
            mistakes.report(number, read.note)
        if read.message:
            moment = write_moment(read.message.received) if read.has_moment else ""
            self.script.put(write_read(read, self.is_received), moment)

    def refuse(self, mistakes: Mistakes, number: int, why: Refused) -> None:
        """Counts what can't be taken, and reports it."""
        self.counts["refused"] += 1
        mistakes.report(number, why)

    def report(self) -> None:
        """What became of the lines."""
        log.info("sites: %d, stations: %d", len(self.plan.list_sites()), len(self.plan.site_of))
        if said := self.plan.describe_defaults():
            log.info("%s", said)
        log.info("%s", self.reader.describe())
        if said := self.reader.mender.describe():
            log.info("messages mended: %s", said)


def add_script(parser: argparse.ArgumentParser) -> None:
    """The options that say what is written."""
    parser.add_argument(
        "--stations",
        metavar="FILE",
        help="the stations: a site and a station a line. Each line of the script goes out as it "
        "comes",
    )
    parser.add_argument(
        "--no-boards",
        dest="boards",
        action="store_false",
        help="leave out the `board` line for each site at the end",
    )
    parser.add_argument(
        "--received",
        dest="is_received",
        action=argparse.BooleanOptionalAction,
        default=True,
        help="a comment `# received <time>` before each message, if the log has its time (without it, none)",
    )
    parser.add_argument(
        "--split",
        metavar="FOLDER",
        type=Path,
        help=f"write scripts 1.script, 2.script, .. to this folder, of up to {MOST_SPLIT:,} "
        "stations in all: each has at most 64, of whole sites where they fit",
    )


def add_words(parser: argparse.ArgumentParser) -> None:
    """The words of the command."""
    parser.add_argument(
        "log", nargs="?", default="-", help="the log, standard input if absent or -"
    )
    forms.add_form(parser)
    forms.add_fields(parser, forms.FIELDS)
    add_sites(parser)
    add_utc(parser)
    add_limits(parser)
    add_rules(parser)
    add_script(parser)


def read_options(words: argparse.Namespace) -> Options:
    """What the words ask for. Wrong ones end the program with status 2."""
    shape, plan = choose_shape(words), choose_plan(words.parser, words)
    if words.split and words.stations:
        words.parser.error("--split has the stations of the log, and not those of --stations")
    if not shape.has_site and not plan.has_sites:
        form = shape.name if shape.regex else f"--form {shape.form}"
        words.parser.error(f"{form} has no sites: --site, --site-map or --stations names them")
    return pick_options(Options, words, shape=shape, plan=plan)


def convert(options: Options) -> int:
    """Writes the script of a log to standard output, and gives the exit status."""
    if options.plan.stations:
        end_without_reader(1)
    with open(1, "wb", closefd=False) as out, open_input(options.log) as file:
        conversion = Conversion(options, out)
        conversion.run(unpack(file), Progress(file))
        conversion.plan.check_sites()
        conversion.script.write()
    conversion.report()
    return Status.REPORTED if conversion.counts["refused"] else Status.DONE


def run(words: argparse.Namespace) -> int:
    """Does what the words ask for."""
    return convert(read_options(words))
