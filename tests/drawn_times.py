"""Writes a script of drawn times and of those in the stored rows, with the answers that Python's reader asks for.

    tests/one drawn_times FOLDER

It writes FOLDER/drawn_times and FOLDER/drawn_times.stdout, which tests/compare.sh compares with the program. Each time
is that of an event. If Python reads it, the program has to accept the event, to take the same event with that moment
in its plain form for a repeat, and to refuse it with the next nanosecond. If Python does not, the program has to refuse
it.
"""

import argparse
import json
import random
import re
import time
from collections.abc import Iterator
from pathlib import Path

from ocpp_board.messages.times import PAST, SECOND, TimeFault, nanoseconds_of

ROWS = Path(__file__).parent / "rows"
STORED = re.compile(r'"timestamp":"([^"\\]*)"')
# How many well-formed times are drawn, how many of these are changed, and in how many places at most.
DRAWN, CHANGED, PLACES = 300, 300, 2
CHARACTERS = "0123456789-+:.,TtZz []!/=_aAE\u0661"
ANNOTATIONS = (
    "[Europe/Berlin]",
    "[!UTC]",
    "[+01:00]",
    "[-0230]",
    "[u-ca=iso8601]",
    "[_a=b-c]",
    "[A=b]",
)


def drawn(chance: random.Random) -> str:
    """A text that is a time, or has a part that is a little too large."""
    year = chance.choice(["2000", "2099", *["2026"] * 10, "1999", "2100", "+002026", "-002026"])
    month, day = chance.randint(1, 13), chance.randint(1, 31)
    hour, minute, second = (chance.randint(0, most) for most in (24, 60, 61))
    dash, colon, other = (chance.choice([mark, mark, ""]) for mark in "-::")
    text = f"{year}{dash}{month:02}{dash}{day:02}{chance.choice('TTt ')}{hour:02}"
    parts = chance.choice([0, 1, 2, 2, 2, 2])
    text += "".join(f"{colon}{one:02}" for one in (minute, second)[:parts])
    if parts == 2 and chance.random() < 0.4:
        text += chance.choice(".,") + str(chance.randrange(10 ** chance.randint(1, 10)))
    if chance.random() < 0.4:
        text += chance.choice(["Z", "Z", "Z", "z", "z", ""])
    else:
        text += f"{chance.choice('+-')}{chance.choice([0, 1, 1, 2, 5, 12, 12, 25, 26]):02}"
        numbers = [chance.randint(0, 60) for _ in range(chance.choice([0, 1, 1, 1, 2]))]
        text += "".join(f"{other}{one:02}" for one in numbers)
        if len(numbers) == 2 and chance.random() < 0.5:
            text += chance.choice([".5", ",49", ".500000000"])
    for _ in range(chance.choice([0, 0, 0, 1, 1, 2])):
        text += chance.choice(ANNOTATIONS)
    return text


def changed(text: str, chance: random.Random) -> str:
    """The text with characters that are put in, taken out or exchanged."""
    for _ in range(chance.randint(1, PLACES)):
        at = chance.randrange(len(text) + 1)
        put = chance.choice(CHARACTERS) if chance.random() < 0.7 else ""
        text = text[:at] + put + text[at + chance.randint(0, 1) :]
    return text


def texts() -> Iterator[str]:
    """The times, each once."""
    chance = random.Random(1)
    some = [drawn(chance) for _ in range(DRAWN)]
    more = [changed(chance.choice([*some, "2026-03-01T10:00:00Z"]), chance) for _ in range(CHANGED)]
    stored = [
        text for path in sorted(ROWS.glob("*.rows")) for text in STORED.findall(path.read_text())
    ]
    yield from dict.fromkeys(some + more + stored)


def plain(nanoseconds: int) -> str:
    """A moment as RFC 3339 has it, in UTC."""
    seconds, part = divmod(nanoseconds, SECOND)
    return time.strftime(f"%Y-%m-%dT%H:%M:%S.{part:09}Z", time.gmtime(seconds))


def message(name: str, text: str) -> str:
    """A line with the event of a transaction at this time."""
    payload = {
        "eventType": "Started",
        "timestamp": text,
        "triggerReason": "Authorized",
        "seqNo": 0,
        "transactionInfo": {"transactionId": name},
    }
    return f"msg A {json.dumps([2, name, 'TransactionEvent', payload], separators=(',', ':'))}\n"


def lines() -> Iterator[tuple[str, str]]:
    """The lines of the script, each with its answer."""
    yield "station north A\n", ""
    for number, text in enumerate(texts()):
        name = f"t{number}"
        accepted = f'[3,"{name}",{{}}]\n'
        try:
            moment = nanoseconds_of(text)
        except TimeFault:
            fault = f'[4,"{name}","PropertyConstraintViolation","Moment",{{}}]\n'
            yield message(name, text), fault
            continue
        yield message(name, text), accepted
        yield message(name, plain(moment)), accepted
        if moment + 1 < PAST:
            conflict = f'[4,"{name}","GenericError","ConflictingEvent",{{}}]\n'
            yield message(name, plain(moment + 1)), conflict
    yield "energy A\n", "energy up=0 down=0\n"


def main() -> None:
    """Writes the two files."""
    parser = argparse.ArgumentParser(
        description=__doc__, formatter_class=argparse.RawDescriptionHelpFormatter
    )
    parser.add_argument("folder", type=Path, metavar="FOLDER")
    folder = parser.parse_args().folder
    both = list(lines())
    (folder / "drawn_times").write_text("".join(line for line, _ in both))
    (folder / "drawn_times.stdout").write_text("".join(answer for _, answer in both))


if __name__ == "__main__":
    main()
