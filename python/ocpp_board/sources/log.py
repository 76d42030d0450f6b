"""Messages of stations out of the lines of a CSMS's log."""

import re
from datetime import datetime, timezone
from functools import lru_cache
from typing import NamedTuple

from ocpp_board.escapes import shown
from ocpp_board.limits import (
    FIRST_MOMENT,
    LONGEST_LINE,
    LONGEST_LOG_LINE,
    PAST_MOMENTS,
    is_name,
)
from ocpp_board.messages.mend import Mended, Mender
from ocpp_board.messages.message_faults import OLD_ACTIONS
from ocpp_board.messages.named import find_named
from ocpp_board.messages.texts import CALL, Refused, has_moment, is_answer, is_unanswered
from ocpp_board.messages.times import seconds_of
from ocpp_board.records import LeftOut, Message, Untaken
from ocpp_board.sources.forms import Entry, Shape
from ocpp_board.sources.stations import NOT_IN, StationPlan

# Seconds since 1970, or thousandths, millionths or billionths of them, and digits of the greatest whole seconds.
EPOCH = re.compile(r"([0-9]{9,19})(\.[0-9]*)?")
SECONDS_DIGITS = 10
# A time from 2000 to 2099 in UTC as most logs write it.
PLAIN = re.compile(
    r"20[0-9]{2}-[0-9]{2}-[0-9]{2}T(?:[01][0-9]|2[0-3]):[0-5][0-9]:[0-5][0-9](?:\.[0-9]+)?Z"
)
SECONDS = len("2026-03-01T10:00:00")
# Times that have their moments kept, since many lines come in a second.
KEPT_MOMENTS = 1_024
# Bytes that a character has at most, and what is before a message in the line of a script.
MOST_BYTES, FRONT = 4, len("deliver  ") + 48
# The version of messages of actions that only OCPP 1.6 has, and characters of a version that are kept.
OLD_VERSION, LONGEST_VERSION = "ocpp1.6", 40
# Characters of a line that can't be taken which are kept.
LONGEST_TEXT = 4_096
# What is to be done about a line that is not taken, by how the mistake begins.
ADVICE = (
    (NOT_IN, "add the station to that file"),
    ("a station is no name", "give the station a name that the ledger takes"),
    ("station ", "name the station's one site by --site or --site-map"),
    ("its script line", "a shorter message"),
    ("longer than", "a shorter line"),
    ("one station more", "log-to-script --split, or the fleet"),
    ("one site more", "log-to-script --split, or the fleet"),
    ("the stations' limits", "smaller --limits, log-to-script --split, or the fleet"),
)
ELSE = "look at the line of the log; the options of log-to-script name its form"


class Read(NamedTuple):
    """What a line of a log becomes: the kind that it counts as, and its message."""

    kind: str
    message: Message | None = None
    # The message's reply has the moment.
    has_moment: bool = False
    # What is wrong with the line, though its message is taken.
    note: Refused | None = None
    # The further events of a message that was parted.
    more: tuple[Message, ...] = ()

    @property
    def messages(self) -> tuple[Message, ...]:
        """All messages of the line."""
        return (self.message, *self.more) if self.message else ()


BLANK, OTHER, OLD, ANSWERS, SENT = map(Read, ("blank", "other", "old", "answers", "sent"))


def read_epoch(digits: str, part: str | None) -> datetime:
    """The moment of a number: of seconds since 1970, or of parts of them as small as its digits say."""
    power = 0 if len(digits) <= SECONDS_DIGITS else -(-(len(digits) - SECONDS_DIGITS) // 3) * 3
    seconds = int(digits) / 10 ** power if power else float(digits + (part or ""))
    return datetime.fromtimestamp(seconds, timezone.utc)


@lru_cache(KEPT_MOMENTS)
def read_moment(text: str, is_utc: bool) -> datetime:
    """The moment of a time in whole seconds. `is_utc`: one without an offset is UTC.

    Raises Refused where the text is no time, or none from 2000 to 2099.
    """
    try:
        if PLAIN.fullmatch(text):
            return datetime.fromisoformat(text[:SECONDS] + "+00:00")
        number = EPOCH.fullmatch(text)
        moment = read_epoch(number[1], number[2]) if number else datetime.fromisoformat(text)
        if moment.tzinfo is None and is_utc:
            moment = moment.replace(tzinfo=timezone.utc)
        if moment.tzinfo is None:
            raise Refused(
                "a time has no offset from UTC (--utc takes such times as UTC)", shown(text)
            )
        moment = moment.astimezone(timezone.utc)
    except (ValueError, OverflowError, OSError):
        raise Refused("a time is none", shown(text)) from None
    if not FIRST_MOMENT <= moment < PAST_MOMENTS:
        raise Refused("a time is not from 2000 to 2099", shown(text))
    return moment.replace(microsecond=0)


def check_text(station: str, message: str) -> str:
    """The message as a line of a script can have it. Raises Refused where it is too long."""
    if "\n" in message:
        message = message.replace("\n", " ")
    if MOST_BYTES * len(message) + FRONT < LONGEST_LINE and message.isascii():
        return message
    try:
        size = len(f"msg {station} {message}".encode("utf-8")) + message.endswith("\r")
    except UnicodeEncodeError:
        raise Refused("half a surrogate pair in the message, which UTF-8 can't write") from None
    if size > LONGEST_LINE:
        raise Refused(f"its script line would have more than {LONGEST_LINE:,} bytes", f"{size:,}")
    return message


class LogReader:
    """Reads the lines of a log, and counts what became of them."""

    KINDS = ("lines", "messages", "answers", "sent", "old", "other", "blank", "refused")

    def __init__(
        self,
        shape: Shape,
        plan: StationPlan,
        is_utc: bool,
        name: str = "",
        has_times: bool = True,
    ) -> None:
        """`is_utc`: times without an offset are UTC; `name`: the log's name; `has_times`: the times of receipt of all
        messages are wanted, and not only of those with the moment in their replies."""
        self.shape, self.plan, self.name = shape, plan, name
        self.has_times, self.is_utc = has_times, is_utc
        self.form = shape.make_form(has_site=plan.reads_sites)
        self.counts, self.mender = dict.fromkeys(self.KINDS, 0), Mender(plan.asked.mend)
        # What the line says that is read, as far as it was understood.
        self.entry: Entry | None = None
        # Stations whose messages are left out for their version.
        self.left_out: dict[tuple[str, str], LeftOut] = {}

    def read(self, line: bytes | None, number: int = 0) -> Read:
        """What a line becomes; None is one that is too long. Raises Refused."""
        counts = self.counts
        counts["lines"] += 1
        self.entry = None
        try:
            if line is None:
                raise Refused(f"longer than {LONGEST_LOG_LINE:,} bytes")
            read = self.read_text(line, number)
        except Refused:
            counts["refused"] += 1
            raise
        counts[read.kind] += 1
        return read

    def read_text(self, line: bytes, number: int) -> Read:
        """What a line becomes. Raises Refused."""
        if not line.strip():
            return BLANK
        try:
            self.entry = entry = self.form.read(line.decode("utf-8"))
        except UnicodeDecodeError:
            raise Refused("not UTF-8") from None
        return OTHER if entry is None else self.read_entry(entry, number)

    def read_entry(self, entry: Entry, number: int) -> Read:
        """What a line becomes that says this: a message where a station sent a call. Raises Refused."""
        call = CALL.match(entry.message)
        if entry.version or call and call[2] in OLD_ACTIONS:
            self.note_left_out(entry)
            return OLD
        site, station = self.plan.place(entry)
        is_answered = call is None and (is_answer(entry.message) or is_unanswered(entry.message))
        if is_answered or not entry.is_stations:
            self.plan.admit(site, station)
            return ANSWERS if is_answered else SENT
        needs_time = call is not None and has_moment(call[2])
        moment, note = self.find_moment(entry)
        found: Mended | None = None
        if site in self.mender.mends:
            found = self.mender.mend(site, station, entry.message, moment)
            texts = [check_text(station, text) for text in found.texts]
        else:
            texts = [check_text(station, entry.message)]
        if self.plan.site_of.get(station) != site:
            self.plan.admit(site, station)
        if not needs_time and not self.has_times:
            moment = note = None
        first = Message(station, texts[0], moment, f"{self.name}:{number}", site or None)
        if found is None or not found.faults:
            return Read("messages", first, needs_time, note)
        mended = first._replace(mends=",".join(found.faults), came=entry.message)
        more = tuple(mended._replace(text=text) for text in texts[1:])
        return Read("messages", mended, needs_time, note, more)

    def note_left_out(self, entry: Entry) -> None:
        """Notes a station whose message is left out for its version."""
        if not is_name(entry.station):
            return
        version, at = entry.version or OLD_VERSION, self.find_moment(entry)[0]
        site = self.plan.site_of.get(entry.station) or entry.site or ""
        one = LeftOut(entry.station, version[:LONGEST_VERSION], site, at, at)
        had = self.left_out.get((one.station, one.version))
        self.left_out[one.station, one.version] = one if had is None else had.join(one)

    def take_left_out(self) -> list[LeftOut]:
        """The stations that were left out since the last call."""
        found, self.left_out = [*self.left_out.values()], {}
        return found

    def find_moment(self, entry: Entry) -> tuple[datetime | None, Refused | None]:
        """The moment of a line, or what is wrong with its time. No message is left out for its time."""
        if entry.time is None:
            return None, None
        try:
            return read_moment(entry.time, self.is_utc), None
        except Refused as why:
            _, _, detail = str(why).partition(f"{why.kind}: ")
            return None, Refused(f"{why.kind}; its message goes without a time", detail)

    def has_form(self) -> bool:
        """Whether a line was of the log's form, or there was none but blanks."""
        counts = self.counts
        kinds = (kind for kind in self.KINDS if kind not in ("lines", "other", "blank"))
        return not counts["other"] or any(counts[kind] for kind in kinds)

    def describe(self) -> str:
        """What became of the lines."""
        return (
            "lines: {lines}; messages of stations: {messages}, answers left out: {answers}, calls to stations left "
            "out: {sent}, of other versions of OCPP left out: {old}, lines of others left out: {other}, blank: "
            "{blank}, not taken: {refused}".format(**self.counts)
        )

    def make_untaken(self, why: Refused, line: bytes | None, number: int) -> Untaken:
        """What is kept of the line that was read last, which can't be taken for this reason."""
        advice = next((text for begin, text in ADVICE if why.kind.startswith(begin)), ELSE)
        entry, origin = self.entry, f"{self.name}:{number}"
        text = (line or b"")[:LONGEST_TEXT].decode("utf-8", "replace").rstrip("\r\n")
        if entry is None:
            return Untaken("", "", None, str(why), advice, text, None, origin)
        named = find_named(entry.message)
        received = self.find_moment(entry)[0]
        if received is None and (seconds := seconds_of(named.time)) is not None:
            received = datetime.fromtimestamp(int(seconds), timezone.utc)
        number_named = int(named.number) if named.number.isdecimal() else None
        site = self.plan.site_of.get(entry.station)
        names = entry.station, named.transaction, number_named
        return Untaken(*names, str(why), advice, entry.message, received, origin, site)
