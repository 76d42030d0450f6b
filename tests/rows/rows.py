"""Expands rows into scripts and the texts that `ocpp_board replay` must write for them.

    tests/one rows.rows FOLDER rows/*.rows

writes each script to FOLDER/NAME and its text to FOLDER/NAME.stdout, NAME being the row's file without
`.rows`. A row is a transcript:

    > LINE          a line of the script; what it writes is in the lines below it
    == LABEL        a new script begins, NAME.LABEL with _ for blanks and the like; what is above the
                    first of them is in front of each
    # TEXT          a comment; so is an empty line
    %take FILE      the lines of FILE, which is beside the row, are put here
    %message TEXT   TEXT is the message from here on
    %replace A => B the first A in the message becomes B from here on
    %for A..B       the lines up to %done are put here once for each number n from A to B
    %done

A line of the script may have

    event STATION ID TRANSACTION KIND SEQNO TIME VALUE MEMBER..
                    at its beginning: the TransactionEvent of 2026-03-01 at TIME, with one reading of VALUE
                    at that time; `-` means no reading, [TIME=VALUE;TIME=VALUE] for a reading for each
                    pair, and each MEMBER is put, behind a comma, at the payload's end; `msg`, or the word
                    in front of `event`: `deliver event A 1 ..`, or `asks event - 1 ..` without a station
    <message>       the message
    <message to n>  the message's first n bytes
    <TEXT x COUNT>  TEXT so many times
    <0d>            the byte of this hexadecimal number
    <end>           at its end: the line has no line feed
    <n>             the number of %for, also in what a line writes

Exit status: 0; 2 when a row is no such text or a file can't be read or written.
"""

import argparse
import re
import sys
from collections.abc import Iterator
from pathlib import Path

MARK = re.compile(rb"<(?:(message)|(message to n)|([0-9a-f]{2})|([^<>]+) x ([0-9]+))>")
NO_LETTERS = re.compile(r"[^A-Za-z0-9]+")

Line = tuple[str, str]  # Where a line is, and the line.


class Refused(Exception):
    """What is wrong with a line of a row."""


class Misplaced(Refused):
    """The same, and where it is."""


def lines_of(path: Path) -> list[Line]:
    text = path.read_bytes().decode("utf-8")
    return [(f"{path}:{number}", line) for number, line in enumerate(text.split("\n"), 1)]


def reading(time: str, value: str) -> str:
    return f'{{"timestamp":"2026-03-01T{time}","sampledValue":[{{"value":{value}}}]}}'


def event(words: list[str]) -> str:
    """The line `msg` of a message with an event."""
    if len(words) < 7:
        raise Refused("an event has seven words or more")
    station, message_id, transaction, kind, seq_no, time, value, *members = words
    if value == "-":
        meter_value = []
    elif value.startswith("["):
        if not value.endswith("]"):
            raise Refused("no bracket at the end of the readings")
        pairs = [pair.split("=") for pair in value[1:-1].split(";")]
        meter_value = [",".join(reading(at, register) for at, register in pairs)]
    else:
        meter_value = [reading(time, value)]
    members = [f'"meterValue":[{readings}]' for readings in meter_value] + members
    return (
        f'msg {station} [2,"{message_id}","TransactionEvent",{{"eventType":"{kind}",'
        f'"timestamp":"2026-03-01T{time}","triggerReason":"MeterValuePeriodic","seqNo":{seq_no},'
        f'"transactionInfo":{{"transactionId":"{transaction}"}}'
        + "".join("," + member for member in members)
        + "}]"
    )


class Script:
    """A script and its text, as far as the lines of a row have come."""

    def __init__(self, folder: Path) -> None:
        self.folder = folder
        self.script, self.text, self.message = bytearray(), bytearray(), ""

    def take(self, lines: list[Line], number: int | None = None) -> None:
        rest = iter(lines)
        for place, line in rest:
            try:
                if line.startswith("%for "):
                    block = self.block(rest)
                    first, last = map(int, line[5:].split(".."))
                    for n in range(first, last + 1):
                        self.take(block, n)
                else:
                    self.take_line(line, number)
            except Misplaced:
                raise
            except (Refused, ValueError, OSError) as why:
                raise Misplaced(f"{place}: {why}") from None

    @staticmethod
    def block(rest: Iterator[Line]) -> list[Line]:
        """The lines up to %done."""
        block: list[Line] = []
        for place, line in rest:
            if line == "%done":
                return block
            block.append((place, line))
        raise Refused("no %done")

    def take_line(self, line: str, number: int | None) -> None:
        if number is not None:
            line = line.replace("<n>", str(number))
        if line.startswith("> "):
            self.put_sent(line[2:], number)
        elif line.startswith("%take "):
            self.take(lines_of(self.folder / line[6:]))
        elif line.startswith("%message "):
            self.message = line[9:]
        elif line.startswith("%replace ") and " =>" in line:
            self.replace(*line[9:].split(" =>", 1))
        elif line.startswith(("%", ">", "==")):
            raise Refused(f"not understood: {line!r}")
        elif line and not line.startswith("#"):
            self.text += line.encode() + b"\n"

    def replace(self, old: str, new: str) -> None:
        if old not in self.message:
            raise Refused(f"not in the message: {old}")
        self.message = self.message.replace(old, new.removeprefix(" "), 1)
        self.message = self.expanded(self.message.encode(), None).decode()

    def put_sent(self, line: str, number: int | None) -> None:
        has_end = not line.endswith("<end>")
        line = line.removesuffix("<end>")
        if line.startswith("event "):
            line = event(line.split(" ")[1:])
        elif line.startswith("deliver event "):
            line = "deliver" + event(line.split(" ")[2:]).removeprefix("msg")
        elif line.startswith("asks event - "):
            line = "asks" + event(line.split(" ")[2:]).removeprefix("msg -")
        self.script += self.expanded(line.encode(), number) + b"\n" * has_end

    def expanded(self, line: bytes, number: int | None) -> bytes:
        def meant(mark: re.Match[bytes]) -> bytes:
            whole, cut, byte, repeated, count = mark.groups()
            if whole:
                return self.message.encode()
            if cut:
                return self.message.encode()[:number]
            return bytes.fromhex(byte.decode()) if byte else repeated * int(count)

        return MARK.sub(meant, line)


def scripts_of(path: Path) -> Iterator[tuple[str, Script]]:
    """Each script of a row's file, with its name."""
    front: list[Line] = []
    scripts: dict[str, list[Line]] = {}
    for place, line in lines_of(path):
        if line.startswith("== "):
            label = line[3:]
            name = f"{path.stem}.{NO_LETTERS.sub('_', label)}"
            if name in scripts:
                raise Misplaced(f"{place}: this label is there twice")
            scripts[name] = front.copy()
        elif scripts:
            scripts[name].append((place, line))
        else:
            front.append((place, line))
    for name, lines in (scripts or {path.stem: front}).items():
        script = Script(path.parent)
        script.take(lines)
        yield name, script


def main() -> int:
    parser = argparse.ArgumentParser(
        description=__doc__, formatter_class=argparse.RawDescriptionHelpFormatter
    )
    parser.add_argument(
        "folder", type=Path, metavar="FOLDER", help="where the scripts and texts are written"
    )
    parser.add_argument("rows", type=Path, nargs="+", metavar="ROWS", help="the rows' files")
    words = parser.parse_args()
    count = 0
    try:
        for path in words.rows:
            for name, script in scripts_of(path):
                (words.folder / name).write_bytes(script.script)
                (words.folder / f"{name}.stdout").write_bytes(script.text)
                count += 1
    except (OSError, UnicodeDecodeError, Refused) as fault:
        print(f"rows.py: {fault}", file=sys.stderr)
        return 2
    print(f"scripts: {count}", file=sys.stderr)
    return 0


if __name__ == "__main__":
    sys.exit(main())
