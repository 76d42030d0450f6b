"""The one reader of scripts, and the comments by which scripts keep what a replay doesn't need.

Any script of a replay is a source. Its messages and operators' lines become records. Its declarations say which site a
station has. A comment in front of a message says when it was received (`# received <time>`), or has the message as it
came (`# mended ..`). One in front of an operator's line says who had it done and why (`# operator ..`), and
`# untaken ..` keeps a line of a log that could not be taken.
"""

import json
from collections.abc import Iterable, Iterator, Mapping
from datetime import datetime, timezone
from functools import lru_cache
from typing import IO, NamedTuple

from ocpp_board.escapes import shown
from ocpp_board.limits import GREATEST_SEQ_NO, LONGEST_LINE, MOMENT, PERIODS, is_name
from ocpp_board.messages.mend import COMMENT as MENDED
from ocpp_board.messages.named import find_named
from ocpp_board.messages.times import TimeFault, moment_of, seconds_of
from ocpp_board.records import Deed, Message, Untaken
from ocpp_board.sources.lines import explain_line, split_words

# How the comments begin.
RECEIVED, OPERATOR, UNTAKEN = b"# received ", b"# operator ", b"# untaken "
# The first words of lines that declare, that an operator has done, and that only ask.
DECLARES = ("limits", "station", "period", "order", "settle")
DEEDS = ("void", "restore", "erase")
ASKS = ("energy", "export", "total", "board", "events", "readings", "asks", "mark")
# Characters of a line that can't be taken which are kept.
LONGEST_TEXT = 4_096


class Declaration(NamedTuple):
    """What a script declares: the word of its line, and the words behind it."""

    word: str
    words: tuple[str, ...]
    origin: str


Record = Message | Deed | Untaken | Declaration


def write_comment(front: bytes, texts: Mapping[str, str]) -> bytes:
    """A comment that keeps those of these texts that are not empty."""
    some = {name: text for name, text in texts.items() if text}
    return front + json.dumps(some, separators=(",", ":")).encode() + b"\n"


def read_comment(front: bytes, line: bytes, names: Iterable[str]) -> dict[str, str]:
    """The texts of these names that a comment keeps; no name where it is none."""
    try:
        kept = json.loads(line.removeprefix(front))
        return {name: str(kept.get(name, "")) for name in names}
    except (ValueError, AttributeError, RecursionError):
        return {}


def write_moment(moment: datetime | None) -> str:
    """A moment as scripts write it; empty where it is not known."""
    return moment.astimezone(timezone.utc).strftime(MOMENT) if moment else ""


def write_untaken(one: Untaken) -> bytes:
    """The comment that keeps a line of a log which can't be taken."""
    texts = {
        "time": write_moment(one.received),
        "station": one.station,
        "transaction": one.transaction,
        "number": "" if one.number is None else str(one.number),
        "advice": one.advice,
        "site": one.site or "",
        "what": one.what,
    }
    return write_comment(UNTAKEN, texts)


@lru_cache(1_024)
def read_moment(text: str) -> datetime | None:
    """The moment of a line of a script; None where it is none."""
    try:
        moment = datetime.fromisoformat(text) if text else None
    except ValueError:
        return None
    return moment.astimezone(timezone.utc) if moment and moment.tzinfo else None


class ScriptReader:
    """Reads the lines of a script one after the other."""

    def __init__(self, name: str = "-") -> None:
        """`name`: the script's name, for the origins of records."""
        self.name, self.number = name, 0
        # The site of each station that was declared; nothing can be declared once the ledgers are open.
        self.site_of: dict[str, str] = {}
        self.is_open = False
        # What comments and a line `now` say of the line behind them.
        self.received: datetime | None = None
        self.operator: dict[str, str] = {}
        self.came: tuple[str, str, str] | None = None

    def read(self, line: bytes) -> Record | None:
        """The record that a line is, with the comments in front of it; None where it is none yet."""
        self.number += 1
        if line.startswith((b"msg ", b"deliver ")):
            return self.read_message(line)
        bare = line[:-1].removesuffix(b"\r") if line.endswith(b"\n") else line
        if not bare or bare.startswith(b"#") and len(bare) <= LONGEST_LINE:
            return self.read_remark(bare)
        return self.read_words(bare)

    def read_message(self, line: bytes) -> Message | Untaken:
        """The message of a line, or why it is none."""
        self.is_open = True
        bare = line[:-1].removesuffix(b"\r") if line.endswith(b"\n") else line
        received, came = self.received, self.came
        self.received = self.came = None
        origin = f"{self.name}:{self.number}"
        try:
            if len(line.removesuffix(b"\n")) > LONGEST_LINE:
                return self.refuse(bare, "LineTooLong", received)
            _, station, text = bare.decode("utf-8").split(" ", 2)
        except ValueError:
            return self.refuse(bare, "BadLine", received)
        if station not in self.site_of and not is_name(station):
            return self.refuse(bare, "BadLine", received)
        if line.endswith(b"\r") and not line.endswith(b"\n"):
            return self.refuse(bare, "BadLine", received)
        if came and came[1] == station:
            return Message(
                station, text, received, origin, self.site_of.get(station), came[0], came[2]
            )
        return Message(station, text, received, origin, self.site_of.get(station))

    def read_remark(self, bare: bytes) -> Untaken | Deed | None:
        """What a comment is of itself: a line of a log that could not be taken, or an operator's that was refused."""
        if bare.startswith(RECEIVED):
            self.received = read_moment(bare.removeprefix(RECEIVED).decode("utf-8", "replace"))
        elif bare.startswith(MENDED):
            words = bare.removeprefix(MENDED).decode("utf-8", "replace").split(" ", 2)
            self.came = (words[0], words[1], words[2]) if len(words) == 3 else None
        elif bare.startswith(UNTAKEN):
            return self.read_untaken(bare)
        elif bare.startswith(OPERATOR):
            names = ("line", "who", "why", "time", "answer")
            self.operator = read_comment(OPERATOR, bare, names)
            answer = self.operator.get("answer", "")
            if answer and not answer.startswith("accepted "):
                # It was refused, so no line is behind it.
                return self.read_deed(self.operator["line"].split(" "))
        return None

    def read_untaken(self, bare: bytes) -> Untaken | None:
        """The line of a log that a comment keeps; None where it keeps none."""
        names = ("time", "station", "transaction", "number", "advice", "site", "what")
        texts = read_comment(UNTAKEN, bare, names)
        if not texts:
            return None
        number = int(texts["number"]) if texts["number"].isdecimal() else None
        return Untaken(
            texts["station"],
            texts["transaction"],
            number,
            texts["what"],
            texts["advice"],
            "",
            read_moment(texts["time"]),
            f"{self.name}:{self.number}",
            texts["site"] or None,
        )

    def read_words(self, bare: bytes) -> Record | None:
        """What a line is that is neither a message nor a comment."""
        received, self.received = self.received, None
        if len(bare) > LONGEST_LINE:
            return self.refuse(bare, "LineTooLong", received)
        try:
            words = split_words(bare.decode("utf-8"))
        except UnicodeDecodeError:
            return self.refuse(bare, "BadLine", received)
        word = words[0]
        if word == "now" and len(words) == 2:
            self.received = read_moment(words[1])
            return None
        if word in DECLARES:
            return self.read_declaration(words, bare)
        if word in DEEDS:
            self.is_open = True
            return self.read_deed(words)
        if word not in ASKS:
            return self.refuse(bare, "BadLine", received)
        self.is_open = self.is_open or word not in ("asks", "mark")
        return None

    def read_declaration(self, words: list[str], bare: bytes) -> Declaration | Untaken:
        """What a line declares, or why it declares nothing."""
        word, names = words[0], words[1:]
        cause = check_declaration(word, names)
        if not cause and self.is_open:
            cause = "DeclaredLate"
        elif not cause and word == "station" and names[1] in self.site_of:
            cause = "StationTwice"
        elif not cause and word in ("period", "order", "settle"):
            cause = "" if names[0] in self.site_of.values() else "UnknownSite"
        if cause:
            return self.refuse(bare, cause, None)
        if word == "station":
            self.site_of[names[1]] = names[0]
        return Declaration(word, tuple(names), f"{self.name}:{self.number}")

    def read_deed(self, words: list[str]) -> Deed | Untaken:
        """An operator's line, with what the comment in front of it says."""
        said, self.operator = self.operator, {}
        is_whole = len(words) == 4 and words[0] in DEEDS and is_name(words[1])
        if not is_whole or not is_number(words[3], GREATEST_SEQ_NO):
            return self.refuse(
                " ".join(words).encode(), "BadLine", read_moment(said.get("time", ""))
            )
        word, station, transaction, number = words
        if said.get("line", "").split(" ")[:4] != words:
            said = {}
        received, origin = read_time(said.get("time", "")), f"{self.name}:{self.number}"
        who, why = said.get("who", ""), said.get("why", "")
        return Deed(word, station, transaction, int(number), who, why, received, origin)

    def refuse(self, bare: bytes, cause: str, received: datetime | None) -> Untaken:
        """A line that can't be taken, with what is wrong with it and what to do."""
        text = bare[: LONGEST_LINE + 1].decode("utf-8", "replace")
        words = split_words(text)
        is_message = words[0] in ("msg", "deliver") and len(words) == 3
        named = find_named(words[2]) if is_message else None
        if named and received is None and (seconds := seconds_of(named.time)) is not None:
            received = datetime.fromtimestamp(int(seconds), timezone.utc)
        what, advice = explain_refusal(cause, bare[: LONGEST_LINE + 1], self.number)
        station = words[1] if words[0] in ("msg", "deliver", *DEEDS) and len(words) > 1 else ""
        site, origin = self.site_of.get(station), f"{self.name}:{self.number}"
        number = int(named.number) if named and named.number.isdecimal() else None
        names = station, named.transaction if named else "", number
        kept = text[:LONGEST_TEXT]
        return Untaken(*names, what, advice, kept, received, origin, site, cause)


def is_number(text: str, most: int) -> bool:
    """Whether a word is a number up to this one as scripts write it."""
    return text.isdecimal() and text.isascii() and str(int(text)) == text and int(text) <= most


def read_time(text: str) -> datetime | None:
    """The moment of an operator's line down to its milliseconds; None where it is none."""
    try:
        return moment_of(text) if text else None
    except TimeFault:
        return None


def check_declaration(word: str, names: list[str]) -> str:
    """Why a line declares nothing, by the name of its fault; empty where it does."""
    count = {"limits": 4}.get(word, 2)
    if len(names) != count:
        return "BadLine"
    if word == "limits":
        return (
            "" if all(is_number(name, 2**64 - 1) and int(name) for name in names) else "BadLine"
        )
    if not is_name(names[0]) or word == "station" and not is_name(names[1]):
        return "BadLine"
    if word == "period":
        if not is_number(names[1], 2**64 - 1):
            return "BadLine"
        return "" if int(names[1]) in PERIODS else "PlanLimit"
    words = {"order": ("sequence", "moment"), "settle": ("later", "closing", "even")}.get(word)
    return "" if words is None or names[1] in words else "BadLine"


def explain_refusal(cause: str, line: bytes, number: int) -> tuple[str, str]:
    """Why a line of a script is refused by this name, and what to do."""
    if cause == "LineTooLong":
        return f"its line has more than {LONGEST_LINE:,} bytes", "a shorter message"
    if cause == "DeclaredLate":
        return "a line before it needed the ledgers", "put it before the first message"
    if cause == "StationTwice":
        return "the station is declared already", "leave one of the lines out"
    if cause == "UnknownSite":
        return (
            "no station of the site is declared yet",
            "put it behind a `station` line of the site",
        )
    if cause == "PlanLimit":
        said = shown(line.decode("utf-8", "replace"))
        return f"{said} has no settlement period", "300, 900, 1800 or 3600"
    return explain_line(line, number)


def read_script(file: IO[bytes], name: str = "-") -> Iterator[Record]:
    """The records of a script."""
    reader = ScriptReader(name)
    for line in iter(lambda: file.readline(2 * LONGEST_LINE), b""):
        if record := reader.read(line):
            yield record
