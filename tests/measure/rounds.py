"""Runs programs in turn on one script, and says how long each takes.

    tests/one measure.rounds SCRIPT NAME=COMMAND .. [--rounds 9] [--processors 0-3] [--pipe NAME ..]

Each round begins with another program. A command reads the script as its input, from the file, or through a pipe where
its name is behind --pipe. All must write the same bytes, or the status is 1. Behind the
seconds of the middle round is how many times as fast as the first program it was: the middle of
the rounds' own ratios. The last line says what other work took of the processors meanwhile, in
ticks of 10 ms, as far as the host says (`steal` of proc(5)).
"""

import argparse
import hashlib
import os
import subprocess
import sys
import tempfile
import time
from collections.abc import Sequence
from dataclasses import dataclass
from statistics import median


@dataclass(frozen=True)
class Run:
    """What one run of a program took: seconds, seconds of all processors, and memory in KiB."""

    seconds: float
    processor: float
    memory: int
    digest: str


def run(command: str, script: str, processors: str, is_piped: bool) -> Run:
    """Runs a command on a script."""
    feed = f"cat '{script}' |" if is_piped else ""
    source = "" if is_piped else f"< '{script}'"
    with tempfile.TemporaryFile() as written:
        begun = time.perf_counter()
        child = subprocess.Popen(
            f"{feed} exec taskset -c {processors} {command} {source}", shell=True, stdout=written
        )
        _, status, used = os.wait4(child.pid, 0)
        seconds = time.perf_counter() - begun
        child.returncode = os.waitstatus_to_exitcode(status)
        if child.returncode != 0:
            sys.exit(f"{command}: status {child.returncode}")
        written.seek(0)
        digest = hashlib.sha256(written.read()).hexdigest()
    return Run(seconds, used.ru_utime + used.ru_stime, used.ru_maxrss, digest)


def times_as_fast(firsts: Sequence[float], others: Sequence[float]) -> float:
    """How many times as fast as the first program another one was: the middle of the rounds' own ratios."""
    return median(first / other for first, other in zip(firsts, others, strict=True))


def stolen() -> int:
    """The ticks that the host gave to others since it began."""
    with open("/proc/stat", encoding="ascii") as stat:
        return int(stat.readline().split()[8])


def report(name: str, runs: Sequence[Run], firsts: Sequence[Run]) -> str:
    """The line of a program."""
    seconds = [run.seconds for run in runs]
    processor = [run.processor for run in runs]
    faster = times_as_fast([run.seconds for run in firsts], seconds)
    cheaper = times_as_fast([run.processor for run in firsts], processor)
    memory = median(run.memory for run in runs)
    return (
        f"{name}: {median(seconds):.3f} s, {faster:.2f} times; of all processors {median(processor):.3f} s, "
        f"{cheaper:.2f} times; least {min(seconds):.3f} and {min(processor):.3f} s; {memory:.0f} KiB"
    )


def main(words: Sequence[str]) -> None:
    """Measures the programs that the words name."""
    parser = argparse.ArgumentParser(prog="measure.rounds", description=__doc__)
    parser.formatter_class = argparse.RawDescriptionHelpFormatter
    parser.add_argument("script")
    parser.add_argument("programs", nargs="+", metavar="NAME=COMMAND")
    parser.add_argument("--rounds", type=int, default=9)
    parser.add_argument("--processors", default="0-3", help="as for taskset -c")
    parser.add_argument("--pipe", nargs="*", default=[], metavar="NAME")
    asked = parser.parse_args(words)
    programs = [word.split("=", 1) for word in asked.programs]
    if any(len(program) != 2 for program in programs):
        parser.error("a program is NAME=COMMAND")
    runs: dict[str, list[Run]] = {name: [] for name, _ in programs}
    before = stolen()
    for turn in range(asked.rounds):
        first = turn % len(programs)
        for name, command in programs[first:] + programs[:first]:
            runs[name].append(run(command, asked.script, asked.processors, name in asked.pipe))
    for name, _ in programs:
        print(report(name, runs[name], runs[programs[0][0]]))
    print(f"stolen: {stolen() - before} ticks")
    if len({one.digest for each in runs.values() for one in each}) > 1:
        sys.exit("the programs wrote different texts")


if __name__ == "__main__":
    main(sys.argv[1:])
