"""Why a line of a script is none: the cause in words, and the remedy."""

import difflib
import re
from collections.abc import Sequence

from ocpp_board.escapes import shown
from ocpp_board.limits import (
    GREATEST_LIMITS,
    GREATEST_SEQ_NO,
    ORDERS,
    RULES,
    TRANSACTION,
    is_name,
)
from ocpp_board.messages.message_faults import Said
from ocpp_board.messages.times import NO_TIME, fault_of
from ocpp_board.sources.files import BYTE_ORDER_MARK

# The lines of scripts by their first words, and how many words each has.
FORMS = {
    "limits": "limits <transactions> <events> <readings> <changes>",
    "station": "station <site> <station>",
    "period": "period <site> <seconds>",
    "order": "order <site> <word>",
    "settle": "settle <site> <word>",
    "now": "now <time>",
    "msg": "msg <station> <text>",
    "deliver": "deliver <station> <text>",
    "asks": "asks <text>",
    "void": "void <station> <transaction id> <seqNo>",
    "restore": "restore <station> <transaction id> <seqNo>",
    "erase": "erase <station> <transaction id> <seqNo>",
    "energy": "energy <station>",
    "export": "export <station>",
    "total": "total <station>",
    "board": "board <site>",
    "events": "events <station> <transaction id>",
    "readings": "readings <station> <transaction id>",
    "mark": "mark <word>",
}
NO_NAME_CHARACTER = re.compile(r"[^A-Za-z0-9*\-_=:+|@.]")
NUMBER = re.compile(r"0|[1-9][0-9]*")
UTF_16 = (b"\xff\xfe", b"\xfe\xff")
GREATEST = 2**64 - 1
NAMES = "names have 1 to 48 of A-Z a-z 0-9 * - _ = : + | @ ."

# The words of lines that end with a station's text, and how those begin that name its station.
TEXTS = ("msg", "deliver", "asks")
MESSAGES = ("msg ", "deliver ")


def check_name(what: str, name: str) -> Said | None:
    """Why a word is no name."""
    if is_name(name):
        return None
    bad = NO_NAME_CHARACTER.search(name)
    if bad is None:
        return f"the {what} has {len(name)} characters, and not 1 to 48", "a shorter name"
    return (
        f"the {what} {shown(name)} has {shown(bad[0])}, which no name has",
        NAMES,
    )


def check_number(what: str, text: str, most: int) -> Said | None:
    """Why a word is no number up to this one."""
    if not NUMBER.fullmatch(text):
        return (
            f"the {what} {shown(text)} is no number",
            "only digits, without a sign or zeros in front",
        )
    if int(text) > most:
        return f"the {what} {text} is above {most}", "a number in range"
    return None


def check_word(what: str, word: str, words: Sequence[str]) -> Said | None:
    """Why a word is none of these."""
    return None if word in words else (f"{shown(word)} is no {what}", " or ".join(words))


def check_words(words: list[str]) -> Said | None:
    """What is wrong with the words of a line of a known kind."""
    kind, *rest = words
    if kind == "mark":
        return check_name("word", rest[0])
    if kind in ("board", "period", "order", "settle", "station"):
        if fault := check_name("site's name", rest[0]):
            return fault
    if kind in ("board", "asks"):
        return None
    if kind == "station":
        return check_name("station's name", rest[1])
    if kind == "period":
        return check_number("number of seconds", rest[1], GREATEST)
    if kind == "order":
        return check_word("order of readings", rest[1], ORDERS)
    if kind == "settle":
        return check_word("rule of settling", rest[1], RULES)
    if kind == "limits":
        faults = (
            check_number(f"number of {what}", text, GREATEST)
            for what, text in zip(GREATEST_LIMITS, rest)
        )
        return next(filter(None, faults), None)
    if kind == "now":
        # Nothing else can be wrong with such a line, whatever Python takes for a time.
        return (
            f"the time {shown(rest[0])} {fault_of(rest[0]) or NO_TIME}",
            "a time such as 2026-03-01T10:00:00Z",
        )
    if fault := check_name("station's name", rest[0]):
        return fault
    if kind in ("void", "restore", "erase", "events", "readings"):
        if not TRANSACTION.fullmatch(rest[1]):
            return (
                f"the transaction id {shown(rest[1])} has not 1 to 36 characters from ! to ~",
                "the id as the station sent it",
            )
    if kind in ("void", "restore", "erase"):
        return check_number("sequence number", rest[2], GREATEST_SEQ_NO)
    return None


def split_words(text: str) -> list[str]:
    """The words of a line; a message is one of them."""
    if text.startswith(MESSAGES):
        return text.split(" ", 2)
    return text.split(" ", 1) if text.startswith("asks ") else text.split(" ")


def check_bytes(line: bytes, number: int) -> Said | None:
    """What is wrong with the bytes of a line, whatever its words are."""
    if line.startswith(BYTE_ORDER_MARK):
        return (
            "there is a byte order mark in front",
            "save the file as UTF-8 without a byte order mark",
        )
    if number == 1 and line.startswith(UTF_16) or b"\x00" in line:
        return "there are bytes of UTF-16, or of no text", "save the file as UTF-8"
    try:
        text = line.decode("utf-8")
    except UnicodeDecodeError as fault:
        return f"byte {fault.start + 1} is not UTF-8", "save the file as UTF-8"
    has_text = text.startswith((*MESSAGES, "asks "))
    if "\t" in " ".join(split_words(text)[:-1] if has_text else split_words(text)):
        return f"there is a tab at character {text.index(chr(9)) + 1}", "one blank between words"
    if text.endswith("\r"):
        return (
            "there is a carriage return at the end, not right before a line feed or twice",
            "end the line by a line feed",
        )
    if text.startswith(" "):
        return "there is a blank in front", "begin the line with its word"
    return None


def explain_first(word: str) -> Said:
    """Why no line begins with this word."""
    first = word.split("\t")[0]
    if first.lower() in FORMS:
        return f"the word {shown(first)} is not in lower case", f"write {first.lower()}"
    near = difflib.get_close_matches(first.lower(), FORMS, 1, 0.6)
    anything = f"begin with one of {' '.join(FORMS)}, or with # for a comment"
    return f"no line begins with {shown(first)}", f"write {near[0]}" if near else anything


def check_blanks(text: str) -> Said | None:
    """Why the blanks of a line are too many."""
    if "  " in text:
        at = text.index("  ") + 1
        return f"there are two blanks at character {at}", "one blank between words"
    if text.endswith(" "):
        return "there is a blank at the end", "no blank after the last word"
    return None


def explain_line(line: bytes, number: int) -> Said:
    """Why the line of this number is none."""
    if said := check_bytes(line, number):
        return said
    text = line.decode("utf-8")
    words = split_words(text)
    form = FORMS.get(words[0])
    if form is None:
        return explain_first(words[0])
    if words[0] not in TEXTS and (said := check_blanks(text)):
        return said
    count = len(form.split(" <"))
    if len(words) != count:
        more = "; a name has no blank" if len(words) > count else ""
        return f"{len(words)} words, and not {count}", form + more
    return check_words(words) or ("no cause was found", "compare the line with docs/formats.md")
