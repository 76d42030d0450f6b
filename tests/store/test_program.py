"""The proved program as its library and as a process: the same texts, and what each does with odd words."""

import os
import threading
from collections.abc import Iterator
from pathlib import Path

import pytest

from ocpp_board.errors import ProgramError
from ocpp_board.ledger.answers import Wish
from ocpp_board.ledger.program import (
    LIBRARY_NAME,
    PROGRAM_NAME,
    LibraryProgram,
    ProcessProgram,
    Program,
    find_program,
    list_libraries,
    list_programs,
)
from tests.drawn_scripts import script_of
from tests.store.scene import write_event

ROWS = Path(__file__).parent.parent / "rows"
MIB = 1_048_576
BOOT = '[2,"b","BootNotification",{}]'


def find_library() -> LibraryProgram | None:
    """The library, where there is one."""
    for path in list_libraries(None):
        try:
            return LibraryProgram(path)
        except (OSError, AttributeError):
            continue
    return None


@pytest.fixture(name="library")
def found_library() -> LibraryProgram:
    """The library."""
    library = find_library()
    if library is None:
        pytest.skip("there is no shared library of the ledger")
    return library


@pytest.fixture(name="process")
def found_process() -> ProcessProgram:
    """The program as a process."""
    for path in list_programs():
        if os.access(path, os.X_OK):
            return ProcessProgram(path)
    pytest.skip("there is no program that replays")


@pytest.fixture(name="each", params=["library", "process"])
def each_program(request: pytest.FixtureRequest) -> Program:
    """Both."""
    program: Program = request.getfixturevalue(request.param)
    return program


def list_scripts() -> Iterator[bytes]:
    """Stored scripts and drawn ones."""
    for path in sorted(ROWS.glob("*.rows")):
        yield path.read_bytes()
    for seed in range(1, 4):
        yield script_of(seed, 0, 1)[:300_000]


def test_same_texts(library: LibraryProgram, process: ProcessProgram) -> None:
    """The library writes what a replay writes, from four threads at once."""
    scripts = list(list_scripts())
    wanted = [process.answer(script) for script in scripts]
    found: list[list[bytes]] = [[] for _ in range(4)]

    def answer(own: list[bytes]) -> None:
        own += (library.answer(script) for script in scripts)

    threads = [threading.Thread(target=answer, args=(own,)) for own in found]
    for thread in threads:
        thread.start()
    for thread in threads:
        thread.join()
    assert all(own == wanted for own in found) and len(wanted) > 20


def test_same_wishes(library: LibraryProgram, process: ProcessProgram) -> None:
    """Both say the same of texts."""
    texts = [BOOT, "", " ", "x", "[]", '[3,"x",{}]', '[2,"x","Oops",{}]', "\N{SNOWMAN}", "\0", "\r"]
    texts += [write_event("AbC", 7, "Started", 0), write_event("A b", 7, "Started", 0)]
    texts += [write_event("AbC", 7, "Started", 0) + "\r", '[2,"\\u00e9","Heartbeat",{}]', "[" * 999]
    texts += ["\ud800", "x" * 300_000, "\n\n", '[2,\n"x","Heartbeat",\n{}]']
    for moment in (None, 0, 1_772_323_200_000_000_000, 2**63):
        moments = [moment] * len(texts)
        assert library.ask(texts, moments) == process.ask(texts, moments)


def test_answers(each: Program) -> None:
    """Scripts and texts of each size have their answers."""
    assert each.answer(b"") == b"" and each.ask([], []) == []
    assert each.answer(b"mark a") == b"mark a\n"
    many = b"station s t\n" + b"total t\n" * 20_000
    assert each.answer(many).count(b"\n") == 20_000
    moments = [1_772_323_200_000_000_000, None]
    first, second = each.ask([BOOT, BOOT], moments)
    assert "2026-03-01T00:00:00Z" in first.text and "2000-01-01T00:00:00Z" in second.text
    assert each.ask([write_event("AbC", 7, "Started", 0)], [None]) == [Wish("event", "abc", 7)]


def test_no_program(tmp_path: Path, monkeypatch: pytest.MonkeyPatch) -> None:
    """Where there is none, the error says what to do; what is named is what is taken."""
    monkeypatch.delenv(LIBRARY_NAME, raising=False)
    monkeypatch.setenv(PROGRAM_NAME, str(tmp_path / "nothing"))
    find_program.cache_clear()
    with pytest.raises(ProgramError, match="name a program by --program"):
        find_program()
    other = tmp_path / "program"
    other.write_text("#!/bin/sh\necho fault OutOfMemory >&2\nexit 1\n")
    other.chmod(0o755)
    monkeypatch.setenv(PROGRAM_NAME, str(other))
    program = find_program()
    assert isinstance(program, ProcessProgram) and program.path == str(other)
    with pytest.raises(ProgramError, match="ended with status 1: fault OutOfMemory"):
        program.answer(b"mark a\n")
    library = tmp_path / "lib.so.0"
    library.write_bytes(b"no library")
    with pytest.raises(ProgramError, match="is no library of the ledger"):
        find_program(str(library))
    find_program.cache_clear()
