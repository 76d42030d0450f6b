"""Measures what `report` costs up to its last commit, and what comparing costs: processor time of all processes.

    tests/one traffic 1000000 --stations 64 | tests/one measure.bulk log > million.log
    tests/one measure.bulk load million.log [--store FILE]

`log` turns a script of `traffic` into a log of JSON lines. `load` takes a log into a store, by as many processes as
`report` has, and compares the store with the program's boards.
"""

import argparse
import json
import re
import resource
import sys
import time
from collections.abc import Iterable, Iterator

from ocpp_board.cli import make_parser
from ocpp_board.commands import report
from ocpp_board.ledger import settlers
from ocpp_board.ledger.verify import verify
from ocpp_board.store.database import open_store

TIME = re.compile(r'"timestamp":"([^"]*)"')
MIB = 1_024


def convert_script(lines: Iterable[str]) -> Iterator[str]:
    """The lines of a log with the messages of a script."""
    for line in lines:
        word, _, rest = line.rstrip("\n").partition(" ")
        if word == "msg" and (found := TIME.search(rest)):
            station, _, text = rest.partition(" ")
            entry = {"site": "north", "station": station, "time": found[1], "message": text}
            yield json.dumps(entry, separators=(",", ":"))


class Spent:
    """Seconds since it was made: on the wall, and of processors, by this process and by those that it started."""

    def __init__(self) -> None:
        self.began, self.own, self.others = time.perf_counter(), *self.read()

    def read(self) -> tuple[float, float]:
        """The seconds of processors so far."""
        both = map(resource.getrusage, (resource.RUSAGE_SELF, resource.RUSAGE_CHILDREN))
        own, others = (one.ru_utime + one.ru_stime for one in both)
        return own, others

    def report(self, name: str, messages: int) -> str:
        """What was spent for so many messages."""
        wall, (own, others) = time.perf_counter() - self.began, self.read()
        each = [1e6 * one / messages for one in (own - self.own, others - self.others)]
        return (
            f"{name}: {messages:,} messages, {wall:.1f} s; {sum(each):.1f} µs of processors a message, "
            f"{each[0]:.1f} of them by this process"
        )


def load(words: list[str]) -> None:
    """Takes a log into a store, and compares it."""
    # Processes that this one forks count as its children.
    settlers.START = "fork"
    parsed = make_parser("report", report).parse_args(["report", *words, "--out", "/dev/null"])
    options = report.choose_options(parsed.parser, parsed)
    is_kept = options.store is not None
    with report.name_store(options.store) as name, open_store(name, is_kept) as store:
        spent = Spent()
        with report.open_settlers(name, options.processes, is_kept) as own:
            loaded = report.Report(options, store, own)
            loaded.read_all()
        messages = loaded.loader.counts.total()
        print(spent.report("taken", messages))
        spent = Spent()
        with report.open_pool(options.processes) as pool:
            assert not verify(store, pool=pool).difference
        print(spent.report("compared", messages))
    sizes = [resource.getrusage(who).ru_maxrss // MIB for who in (0, -1)]
    print(f"at most {sizes[0]} MB here, and {sizes[1]} MB in the largest other process")


def main() -> None:
    """Does what the words name."""
    parser = argparse.ArgumentParser(
        description=__doc__, formatter_class=argparse.RawDescriptionHelpFormatter
    )
    parser.add_argument("what", choices=["log", "load"])
    words, rest = parser.parse_known_args(sys.argv[1:])
    if words.what == "load":
        load(rest)
        return
    for line in convert_script(sys.stdin):
        print(line)


if __name__ == "__main__":
    main()
