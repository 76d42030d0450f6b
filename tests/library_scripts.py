"""Writes drawn scripts, for comparing the ledger's library with the program that replays.

    tests/one library_scripts FOLDER [--scripts 300]

Each has some kilobytes, ends anywhere, and has new events of several stations, repeats, late and conflicting ones,
texts with faults, an operator's lines and questions (tests/drawn_scripts.py). In every other script `deliver` is in
place of `msg`, and it asks for what some texts ask for.
"""

import argparse
import random
import sys
from pathlib import Path

from tests.drawn_scripts import drawn

LEAST, MOST = 2_000, 60_000


def draw_script(seed: int) -> bytes:
    """A script, the same in each run of a seed."""
    draws = random.Random(seed)
    stations = [f"S{number}" for number in range(draws.choice([1, 3, 16]))]
    text = "".join(drawn(draws, stations, draws.randrange(LEAST, MOST), draws.random()))
    if seed % 2:
        lines = list[str]()
        for line in text.splitlines(True):
            lines.append(line.replace("msg ", "deliver ", 1) if line.startswith("msg ") else line)
            if line.startswith("msg ") and draws.randrange(4) == 0:
                lines.append("asks " + line.split(" ", 2)[2])
        text = "".join(lines)
    whole = text.encode()
    return whole[: draws.randrange(len(whole) // 2, len(whole) + 1)]


def main() -> int:
    """Writes the scripts."""
    parser = argparse.ArgumentParser(
        description=__doc__, formatter_class=argparse.RawDescriptionHelpFormatter
    )
    parser.add_argument("folder", type=Path, metavar="FOLDER", help="where they go")
    parser.add_argument("--scripts", type=int, default=300, metavar="N", help="how many (300)")
    words = parser.parse_args()
    for seed in range(words.scripts):
        (words.folder / f"drawn-{seed}").write_bytes(draw_script(seed))
    return 0


if __name__ == "__main__":
    sys.exit(main())
