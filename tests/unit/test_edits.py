"""Wrong bodies that the prover has to refuse: each names text that is there."""

from pathlib import Path

import pytest

CRATES = Path(__file__).parents[2] / "crates"
EDITS = sorted(CRATES.glob("*/must-fail/*"))


def faults_of(edit: Path) -> list[str]:
    """What is wrong with an edit: no old text, or one that is not in its file just once."""
    faults, text, count = list[str](), "", 0
    for line in edit.read_text().splitlines():
        word, _, rest = line.partition(": ")
        if word == "file":
            changed = edit.parents[1] / rest
            text = changed.read_text() if changed.is_file() else ""
        elif word == "old":
            count += 1
            if text.count(rest) != 1:
                faults.append(f"{text.count(rest)} times: {rest}")
    return faults if count else ["no old text"]


@pytest.mark.parametrize("edit", EDITS, ids=lambda edit: f"{edit.parents[1].name}/{edit.name}")
def test_each_old_text_is_there_once(edit: Path) -> None:
    assert faults_of(edit) == []


def test_an_old_text_that_is_gone_is_found(tmp_path: Path) -> None:
    (tmp_path / "src").mkdir()
    (tmp_path / "must-fail").mkdir()
    (tmp_path / "src" / "lib.rt").write_text("a\nb\nb\n")
    edit = tmp_path / "must-fail" / "one.edit"
    edit.write_text("file: src/lib.rt\nold: a\nnew: c\nold: b\nnew: c\nold: d\nnew: c\n")
    assert faults_of(edit) == ["2 times: b", "0 times: d"]
