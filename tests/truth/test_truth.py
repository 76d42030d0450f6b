"""Each case of the table: its numbers, what is said of them, and what the remedy makes of them."""

from collections import Counter
from pathlib import Path

import pytest

from tests.truth.case import Case
from tests.truth.judge import Judged, Verdict, judge
from tests.truth.table import CASES

# Right numbers that are called wrong since nothing could know better.
ALARMS = {case.name for case in CASES if case.is_alarm}
# Each so many-th case is tried in PostgreSQL, too.
STEP = 12


def check(case: Case, judged: Judged) -> None:
    """Fails where a case is not as the table says."""
    wanted = Verdict.ALARM if case.is_alarm else Verdict.RIGHT
    assert judged.verdict is wanted, "\n".join(judged.why)
    for name, kinds in case.found.items():
        found = judged.before.found.get(name, {})
        for kind, detail in kinds.items():
            assert detail in found.get(kind, "no such finding"), (name, found)


@pytest.mark.parametrize("case", CASES, ids=[case.name for case in CASES])
def test_each_case_in_sqlite(case: Case, program: object, tmp_path: Path) -> None:
    assert program
    check(case, judge(case, str(tmp_path / "ledger.db"), tmp_path))


@pytest.mark.parametrize("case", CASES[::STEP], ids=[case.name for case in CASES[::STEP]])
@pytest.mark.parametrize("store_name", ["postgresql"], indirect=True)
def test_some_cases_in_postgresql(case: Case, store_name: str, tmp_path: Path) -> None:
    check(case, judge(case, store_name, tmp_path))


def test_the_table_has_each_point_and_few_alarms() -> None:
    assert len(ALARMS) <= 3
    assert len({case.name for case in CASES}) == len(CASES)
    assert set(Counter(case.point for case in CASES)) <= set(range(1, 15))
