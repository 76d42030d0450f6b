"""The commands of an-operators-week.md, run as they are written on the month that the page draws."""

import os
import subprocess
import sys
from pathlib import Path

from tests.days.test_commands_of_pages import TOP, read_commands
from tests.store.conftest import found_program

__all__ = ["found_program"]
FINDS = "lacking"


def test_an_operators_week(tmp_path: Path, program: object) -> None:
    assert program
    command = tmp_path / "bin" / "ocpp-board"
    command.parent.mkdir()
    command.write_text(f'#!/bin/sh\nexec {sys.executable} -m ocpp_board "$@"\n')
    command.chmod(0o755)
    environment = os.environ | {"PATH": f"{command.parent}:{os.environ['PATH']}"}
    said = dict[str, str]()
    for line in read_commands("an-operators-week.md"):
        text = line.replace("tests/one traffic", f"{sys.executable} -m tests.traffic")
        ended = subprocess.run(
            ["bash", "-c", text],
            cwd=tmp_path,
            env=environment,
            capture_output=True,
            text=True,
            check=False,
        )
        wanted = 1 if f"ocpp-board {FINDS} " in line else 0
        assert ended.returncode == wanted, f"{line}\n{ended.stderr}"
        said[line.strip()] = ended.stdout
    # Nothing is held once the wrong readings are right, and the store is what the program says.
    assert [text for line, text in said.items() if " release " in line] == [""]
    assert "DE-HARBOUR" in (tmp_path / "settlement.csv").read_text()
    assert "estimate" in (tmp_path / "harbour.csv").read_text()
    assert (tmp_path / "mill.csv").read_text().startswith("\N{ZERO WIDTH NO-BREAK SPACE}")


def test_the_page_has_commands_of_each_day() -> None:
    text = (TOP / "docs" / "an-operators-week.md").read_text()
    days = ("Monday", "Tuesday", "Wednesday", "Thursday", "Friday")
    assert all(f"## {day}" in text for day in days)
    assert len(list(read_commands("an-operators-week.md"))) > 20
