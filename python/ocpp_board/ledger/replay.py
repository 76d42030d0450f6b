"""A whole script line by line: each line, with what the program writes of it.

Behind each line that may write nothing goes a line `mark`, which writes itself, so that the end of such a line's text
is known.
"""

from collections.abc import Iterator, Mapping, Sequence
from typing import NamedTuple

from ocpp_board.ledger.answers import AnswerReader, Board, Lists
from ocpp_board.ledger.program import Program
from ocpp_board.limits import LONGEST_LINE

# The first words of lines that may write nothing.
SILENT = (b"limits", b"station", b"period", b"order", b"settle", b"now")
# A line that writes itself: by it the text of the line before it ends.
MARK = "mark answered"
# A transaction: its station, and its id as boards show it.
Key = tuple[str, str]


class Replayed(NamedTuple):
    """A line that a script has, and what the program wrote of it."""

    # Its number in the script, from 1.
    number: int
    # Its bytes, without what ends it; only the beginning of one that is too long.
    line: bytes
    # What it wrote: the first line of a list, and nothing where it wrote nothing.
    answer: str
    # What a line `board` wrote.
    board: Board | None = None
    # The lists that were asked for behind it.
    lists: dict[Key, Lists] = {}


def strip_end(line: bytes) -> bytes:
    """A line without what ends it."""
    return line[:-1].removesuffix(b"\r") if line.endswith(b"\n") else line


def is_answered(line: bytes) -> bool:
    """Whether a line is answered: all are but empty ones and comments."""
    bare = strip_end(line)
    is_long = len(line.removesuffix(b"\n")) > LONGEST_LINE
    return is_long or bool(bare) and not bare.startswith(b"#")


def is_silent(line: bytes) -> bool:
    """Whether a line may write nothing."""
    return strip_end(line).partition(b" ")[0] in SILENT


def write_script(lines: Sequence[bytes], asks: Mapping[int, Sequence[Key]]) -> bytes:
    """The script with marks, and with the lines that ask for lists behind the lines of these numbers."""
    script = list[bytes]()
    for number, line in enumerate(lines, 1):
        script.append(line)
        more = [MARK] if is_answered(line) and is_silent(line) else []
        for station, transaction in asks.get(number, ()):
            more += [f"events {station} {transaction}", f"readings {station} {transaction}"]
        if more:
            # A last line without a line feed is a line of its own.
            end = b"" if line.endswith(b"\n") else b"\r\n" if line.endswith(b"\r") else b"\n"
            script.append(end + "\n".join([*more, ""]).encode())
    return b"".join(script)


def replay(
    program: Program, lines: Sequence[bytes], asks: Mapping[int, Sequence[Key]]
) -> Iterator[Replayed]:
    """Each line of a script that is answered, with its answer. `asks`: by the numbers of lines, the transactions that
    have their lists asked for behind it. Raises ProgramError."""
    reader = AnswerReader(program.answer(write_script(lines, asks)))
    for number, line in enumerate(lines, 1):
        if not is_answered(line):
            continue
        bare, board = strip_end(line)[: LONGEST_LINE + 1], None
        if is_silent(line):
            answer = reader.read_up_to(MARK)
        else:
            answer = reader.look()
            if answer.startswith("board "):
                board = reader.read_board()
            elif answer.startswith(("events ", "readings ")):
                reader.skip_list()
            else:
                reader.read()
        lists = {key: reader.read_lists() for key in asks.get(number, ())}
        yield Replayed(number, bare, answer, board, lists)
