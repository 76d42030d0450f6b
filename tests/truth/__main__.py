"""Prints the verdicts of all cases, and how many there are of each.

    python3 -m tests.truth [POINT..]
"""

import sys
import tempfile
from collections import Counter
from pathlib import Path

from tests.truth.judge import Verdict, judge
from tests.truth.table import CASES


def main() -> None:
    """Judges the cases of some points, or all."""
    points, counts = {int(one) for one in sys.argv[1:]}, Counter[Verdict]()
    for case in CASES:
        if points and case.point not in points:
            continue
        with tempfile.TemporaryDirectory() as folder:
            judged = judge(case, str(Path(folder) / "ledger.db"), Path(folder))
        counts[judged.verdict] += 1
        print(f"{case.point:3} {case.name}: {judged.verdict.value}")
        for why in judged.why:
            print(f"      {why}")
    print(f"{sum(counts.values())} cases")
    for verdict in Verdict:
        print(f"{counts[verdict]:5} {verdict.value}")


if __name__ == "__main__":
    main()
