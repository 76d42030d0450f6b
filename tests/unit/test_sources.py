"""The sources of the crates: no line of code and definitions is past 200 characters, none of proofs past 310, but for
imports and texts; imports are merged."""

from collections.abc import Iterator
from pathlib import Path

from tests.imports import merged, unmerged

CRATES = Path(__file__).resolve().parents[2] / "crates"
MOST, MOST_OF_PROOFS = 200, 310


def long_lines() -> Iterator[str]:
    """The places of the lines that are too long."""
    for path in (*CRATES.glob("*/*/**/*.antt"), *CRATES.glob("*/src/**/*.rt")):
        for number, line in enumerate(path.read_text(encoding="utf-8").splitlines(), 1):
            is_import = line.lstrip().startswith(("use ", "pub use ", "ghost use "))
            most = MOST_OF_PROOFS if "proofs" in path.parts else MOST
            if len(line) > most and not is_import and '"' not in line:
                yield f"{path.relative_to(CRATES)}:{number}"


def test_no_line_is_too_long() -> None:
    assert not list(long_lines())


def test_imports_name_each_library_once() -> None:
    assert not [path for path, _ in unmerged()]


def test_imports_are_merged_by_library() -> None:
    lines = """use Rattle.std.specs.List.{map}
use Rattle.flow.specs.Flow.{Energy, plus}
use Rattle.std.{specs.List.{filter, map}, specs.Str.bytes_eq as same}
use Rattle.flow.specs.Flow as flow"""
    assert (
        merged(lines, False)
        == """use Rattle.std.{specs.List.{map, filter}, specs.Str.bytes_eq as same}
use Rattle.flow.specs.Flow.{Energy, plus}
use Rattle.flow.specs.Flow as flow"""
    )


def test_only_runs_of_clauses_imports_are_merged_in_code() -> None:
    apart = "ghost use Rattle.a.specs.B.{c};\n\nfn f() {}\nghost use Rattle.a.specs.B.{d};"
    assert merged(apart, True) == apart
