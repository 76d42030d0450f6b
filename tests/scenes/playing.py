"""The scenes of a program of this folder, one after the other."""

import argparse
import signal
import subprocess
import sys
import threading
from collections.abc import Callable

from tests.scenes.client import Differs


def play(name: str, about: str | None, scenes: tuple[Callable[[str], None], ...]) -> int:
    """Plays each scene with the program that the command line names, reports which differ; the exit status."""
    parser = argparse.ArgumentParser(
        description=about, formatter_class=argparse.RawDescriptionHelpFormatter
    )
    parser.add_argument("program", metavar="PROGRAM", help="the built ocpp_board")
    words = parser.parse_args()
    # A shell has what it starts in the background ignore an interrupt, and so would a server, which a scene interrupts.
    signal.signal(signal.SIGINT, signal.default_int_handler)
    differing = 0
    try:
        subprocess.run([words.program, "--help"], stdout=subprocess.DEVNULL, check=True)
    except (OSError, subprocess.CalledProcessError) as error:
        print(f"{name}.py: {words.program}: {error}", file=sys.stderr)
        return 2
    for scene in scenes:
        try:
            scene(words.program)
        except (Differs, OSError, subprocess.SubprocessError, threading.BrokenBarrierError) as how:
            print(f"{scene.__name__}: {how}")
            differing += 1
    print(f"{name}: {len(scenes)} scenes played, {differing} differ")
    return 1 if differing else 0
