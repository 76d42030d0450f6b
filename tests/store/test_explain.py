"""`ocpp-board explain` reports what is stored of scripts with mistakes."""

import gzip
import os
from pathlib import Path

import pytest

from ocpp_board.cli import main
from ocpp_board.ledger.program import Program

TOP = Path(__file__).resolve().parents[2]
TOOLS = TOP / "tests/tools"


@pytest.mark.parametrize(
    ("name", "script", "status"),
    [
        ("mistakes", "explain/mistakes.script", 1),
        ("mark", "explain/mark.script", 1),
        ("near", "explain/near.script", 0),
        ("orders", "explain/orders.script", 1),
        ("nothing", "forms/ocpp.script", 0),
    ],
)
def test_scripts(
    name: str,
    script: str,
    status: int,
    program: Program,
    capfd: pytest.CaptureFixture[str],
    monkeypatch: pytest.MonkeyPatch,
) -> None:
    assert program
    monkeypatch.chdir(TOOLS)
    assert main(["explain", script]) == status
    assert capfd.readouterr().out == (TOOLS / f"explain/{name}.stderr").read_text()


def test_a_compressed_script(
    program: Program,
    capfd: pytest.CaptureFixture[str],
    tmp_path: Path,
    monkeypatch: pytest.MonkeyPatch,
) -> None:
    assert program
    (tmp_path / "day.script.gz").write_bytes(gzip.compress(b"station north A\n"))
    monkeypatch.chdir(tmp_path)
    assert main(["explain", "day.script.gz"]) == 1
    assert capfd.readouterr().out == (TOOLS / "explain/gzip.stderr").read_text()


@pytest.mark.parametrize("words", [["nowhere.script"], ["--program", "./nowhere", os.devnull]])
def test_what_is_not_there(
    words: list[str], capfd: pytest.CaptureFixture[str], monkeypatch: pytest.MonkeyPatch
) -> None:
    monkeypatch.setattr("ocpp_board.statuses.drop_output", lambda: None)
    assert main(["explain", *words]) == 2
    assert "No such file or directory" in capfd.readouterr().err
