"""Runs the proved program: by its shared library in this process, else by a process for each script.

The library is found beside the program or in the system; which of the two serves is chosen once.
"""

import ctypes
import ctypes.util
import os
import shutil
import subprocess
import threading
from collections.abc import Iterable, Sequence
from datetime import datetime, timezone
from functools import cache
from pathlib import Path
from typing import Protocol

from ocpp_board.errors import ProgramError
from ocpp_board.ledger.answers import Wish, read_wish
from ocpp_board.limits import LONGEST_LINE, LONGEST_SCRIPT
from ocpp_board.messages.texts import one_line
from ocpp_board.processes import PACKAGES, PROGRAMS, replay_environment

LIBRARY = "libocpp_ledger.so.0"
# The environment's names for a library or a program that are to be taken.
LIBRARY_NAME, PROGRAM_NAME = "OCPP_LEDGER_LIBRARY", "OCPP_BOARD_PROGRAM"
# Statuses of the library's calls.
OK, TOO_SMALL, TOO_LONG, NO_MEMORY = range(4)
SILENT, REPLY, EVENT, MISTAKEN, NO_MEMORY_ASKED = range(5)
# Bytes of a text that a line has room for, whatever its first words are.
LONGEST_TEXT = LONGEST_LINE - 64
# Bytes that what a text asks for may have: a reply has at most 512.
LONGEST_WISH = 1_024
# The first moment that a text's reply may name, and the first one after all, in nanoseconds since 1970.
FIRST, PAST, SECOND = 946_684_800_000_000_000, 4_102_444_800_000_000_000, 1_000_000_000


class Program(Protocol):
    """The proved program."""

    def answer(self, script: bytes) -> bytes:
        """What the program writes of a whole script. Raises ProgramError."""

    def ask(self, texts: Sequence[str], moments: Sequence[int | None]) -> list[Wish]:
        """What each text of a station asks for, at its moment in nanoseconds since 1970. Raises ProgramError."""


def encode_text(text: str) -> bytes | Wish:
    """The bytes of a station's text as a line of a script has it; else the fault of one that no UTF-8 writes, or that
    no line has room for."""
    try:
        data = one_line(text).encode("utf-8")
    except UnicodeEncodeError:
        return Wish("fault", "BadLine")
    return data if len(data) <= LONGEST_TEXT else Wish("fault", "LineTooLong")


def limit_moment(moment: int | None) -> int:
    """A moment that a reply may name: another one is the first."""
    return moment if moment is not None and FIRST <= moment < PAST else FIRST


class LibraryProgram:
    """The program as a shared library in this process. A call holds no lock of Python's."""

    def __init__(self, path: str) -> None:
        """Raises OSError where there is no such library, and AttributeError where it is another one."""
        library = ctypes.CDLL(path)
        self.path = path
        self.call_answer = library.ocpp_ledger_answer
        self.call_answer.restype = ctypes.c_uint32
        size, text = ctypes.c_size_t, ctypes.c_void_p
        self.call_answer.argtypes = [
            *(ctypes.c_char_p, size, text, size),
            *(ctypes.POINTER(size), ctypes.POINTER(ctypes.c_uint64)),
        ]
        self.call_asks = library.ocpp_message_asks
        self.call_asks.restype = ctypes.c_uint32
        self.call_asks.argtypes = [
            *(ctypes.c_char_p, size, ctypes.c_uint64, text, size),
            *(ctypes.POINTER(size), ctypes.POINTER(ctypes.c_uint32)),
        ]
        self.rooms = threading.local()

    def answer(self, script: bytes) -> bytes:
        """What the program writes of a whole script."""
        if not script:
            return b""
        room = max(4_096, 2 * len(script))
        used, work = ctypes.c_size_t(), ctypes.c_uint64()
        for _ in range(2):
            text = self.find_room(room)
            status = self.call_answer(
                script, len(script), text, room, ctypes.byref(used), ctypes.byref(work)
            )
            if status != TOO_SMALL:
                break
            room = used.value
        if status == TOO_LONG:
            raise ProgramError(
                f"a script of {len(script):,} bytes is longer than {LONGEST_SCRIPT:,}"
            )
        if status != OK:
            raise ProgramError("the program found no memory for a script")
        return ctypes.string_at(text, used.value)

    def find_room(self, size: int) -> "ctypes.Array[ctypes.c_char]":
        """A buffer of this thread with so many bytes at least."""
        had: ctypes.Array[ctypes.c_char] | None = getattr(self.rooms, "text", None)
        if had is None or len(had) < size:
            had = self.rooms.text = ctypes.create_string_buffer(size)
        return had

    def ask(self, texts: Sequence[str], moments: Sequence[int | None]) -> list[Wish]:
        """What each text asks for."""
        text, used = ctypes.create_string_buffer(LONGEST_WISH), ctypes.c_size_t()
        number = ctypes.c_uint32()
        room = text, LONGEST_WISH, ctypes.byref(used), ctypes.byref(number)
        found = list[Wish]()
        for one, moment in zip(texts, moments):
            data = encode_text(one)
            if isinstance(data, Wish):
                found.append(data)
                continue
            status = self.call_asks(data, len(data), limit_moment(moment), *room)
            if status == EVENT:
                found.append(
                    Wish("event", ctypes.string_at(text, used.value).decode("ascii"), number.value)
                )
            elif status == REPLY:
                found.append(Wish("reply", ctypes.string_at(text, used.value).decode("utf-8")))
            elif status == SILENT:
                found.append(Wish("silent"))
            else:
                raise ProgramError(f"the program could not read a text of {len(data):,} bytes")
        return found


class ProcessProgram:
    """The program as a process for each script."""

    def __init__(self, path: str) -> None:
        self.path = path

    def answer(self, script: bytes) -> bytes:
        """What the program writes of a whole script."""
        try:
            run = subprocess.run(
                [self.path, "replay"],
                input=script,
                capture_output=True,
                check=False,
                env=replay_environment(),
            )
        except OSError as fault:
            raise ProgramError(f"{self.path}: {fault.strerror}; name one by --program") from None
        if run.returncode:
            said = run.stderr.decode("utf-8", "replace").strip()
            raise ProgramError(f"{self.path} ended with status {run.returncode}: {said}")
        return run.stdout

    def ask(self, texts: Sequence[str], moments: Sequence[int | None]) -> list[Wish]:
        """What each text asks for."""
        lines, before = list[bytes](), -1
        found = list[Wish | None]()
        for text, moment in zip(texts, moments):
            data = encode_text(text)
            found.append(data if isinstance(data, Wish) else None)
            if isinstance(data, Wish):
                continue
            moment = limit_moment(moment)
            if moment != before:
                lines.append(write_now(moment))
                before = moment
            # A carriage return right before the line feed would be dropped.
            lines.append(b"asks " + data + (b"\r\n" if data.endswith(b"\r") else b"\n"))
        answers = iter(self.answer(b"".join(lines)).decode("utf-8").split("\n") if lines else ())
        return [read_wish(next(answers)) if one is None else one for one in found]


def write_now(moment: int) -> bytes:
    """The line of a script that sets its moment, in nanoseconds since 1970."""
    at = datetime.fromtimestamp(moment // SECOND, timezone.utc)
    return f"now {at:%Y-%m-%dT%H:%M:%S}Z\n".encode()


def list_libraries(program: str | None) -> Iterable[str]:
    """Where the library may be: where the environment says, beside the program, in the checkout, in the system."""
    if named := os.environ.get(LIBRARY_NAME):
        yield named
        return
    if program := program or os.environ.get(PROGRAM_NAME):
        yield str(Path(program).resolve().parent / LIBRARY)
        return
    yield str(PACKAGES.parent / "crates/ocpp_ledger/out" / LIBRARY)
    yield LIBRARY


def list_programs() -> Iterable[str]:
    """Where the program may be: where the environment says, in the checkout, on the path."""
    if named := os.environ.get(PROGRAM_NAME):
        yield named
        return
    for name in PROGRAMS:
        yield str(PACKAGES.parent / "crates" / name / "out" / name)
    yield from filter(None, map(shutil.which, PROGRAMS))


@cache
def find_program(named: str | None = None) -> Program:
    """The program: the shared library where there is one, else a process. `named`: the path of a library or of a
    program. Raises ProgramError where there is neither."""
    if named and ".so" in Path(named).name:
        return open_library(named)
    for path in list_libraries(named):
        try:
            return LibraryProgram(path)
        except (OSError, AttributeError):
            continue
    for path in [named] if named else list_programs():
        if os.access(path, os.X_OK) and Path(path).is_file():
            return ProcessProgram(path)
    raise ProgramError(
        f"there is neither {LIBRARY} nor {named or ' or '.join(PROGRAMS)}: install libocpp-ledger, run ./start in a "
        "checkout, or name a program by --program"
    )


def open_library(path: str) -> LibraryProgram:
    """The library at this path. Raises ProgramError."""
    try:
        return LibraryProgram(path)
    except (OSError, AttributeError) as fault:
        raise ProgramError(f"{path} is no library of the ledger: {fault}") from None
