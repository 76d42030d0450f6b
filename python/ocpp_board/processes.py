"""Where this package is, what processes that it starts find, and who reads what a process writes."""

import gc
import multiprocessing
import os
import select
import signal
import stat
import sys
import threading
from collections.abc import Iterator
from contextlib import contextmanager
from multiprocessing.connection import wait
from multiprocessing.process import BaseProcess
from pathlib import Path

from ocpp_board.statuses import Status

PACKAGES = Path(__file__).resolve().parent.parent
# The programs that replay.
PROGRAMS = ("ocpp_board", "ocpp_replay")
# How a module of this package is run, by the Python that runs this one.
MODULE = (sys.executable, "-P", "-m")
# What the C library of a replay is asked for, where that is glibc: as many freed texts of a size at hand as the tree of
# a message has, and not 7.
TUNABLES = "glibc.malloc.tcache_count=127"


def environment() -> dict[str, str]:
    """The environment in which another process finds this package."""
    path = os.pathsep.join(filter(None, [str(PACKAGES), os.environ.get("PYTHONPATH")]))
    return os.environ | {"PYTHONPATH": path}


@contextmanager
def pause_collector() -> Iterator[None]:
    """Has Python look for no circles of objects meanwhile. Where many messages are at hand that takes a fifth of the
    time, and they make none."""
    gc.disable()
    try:
        yield
    finally:
        gc.enable()


def leave_interrupts() -> None:
    """Has a process of a pool leave an interrupt, which a terminal sends to all, to the process that has the pool."""
    signal.signal(signal.SIGINT, signal.SIG_IGN)


def end_with_parent() -> None:
    """Ends this process once the one that began it is gone, as nothing else does where that one is killed."""

    def watch(parent: BaseProcess) -> None:
        wait([parent.sentinel])
        os._exit(Status.MISTAKEN)

    parent = multiprocessing.parent_process()
    threading.Thread(target=watch, args=(parent,), daemon=True).start()


def replay_environment() -> dict[str, str]:
    """The environment of a replay, with `TUNABLES` where it says nothing of them."""
    return {"GLIBC_TUNABLES": TUNABLES} | os.environ


def end_without_reader(output: int) -> None:
    """Ends this process once nobody reads what it writes to a pipe, though nothing is written meanwhile."""

    def watch() -> None:
        poll = select.poll()
        poll.register(output, 0)
        poll.poll()
        os._exit(Status.MISTAKEN)

    if stat.S_ISFIFO(os.fstat(output).st_mode):
        threading.Thread(target=watch, daemon=True).start()
