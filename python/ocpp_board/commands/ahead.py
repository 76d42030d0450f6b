"""Work that goes on in another process while this one does something else."""

import multiprocessing
import pickle
from collections.abc import Callable, Iterator
from multiprocessing.connection import Connection
from multiprocessing.process import BaseProcess
from typing import Any, TypeVar

from ocpp_board.errors import OcppBoardError

Item = TypeVar("Item")


def run_ahead(make: Callable[[], Iterator[Item]], is_apart: bool) -> Iterator[Item]:
    """What an iterator gives, which is made and read in a process of its own that begins at once and is an item ahead.
    `is_apart`: else it is read here. Raises what it raises of OSError and OcppBoardError."""
    if not is_apart:
        return make()
    context = multiprocessing.get_context("fork")
    here, there = context.Pipe(duplex=False)
    process = context.Process(target=send_all, args=(make, there), daemon=True)
    process.start()
    there.close()
    return receive_all(here, process)


def receive_all(here: Connection, process: BaseProcess) -> Iterator[Any]:
    """What a process sends."""
    try:
        while True:
            is_item, value = pickle.loads(here.recv_bytes())
            if not is_item:
                break
            yield value
        if value is not None:
            raise value
    except EOFError:
        raise OcppBoardError("a process that read ahead was ended") from None
    finally:
        here.close()
        process.join(1)
        if process.is_alive():
            process.terminate()


def send_all(make: Callable[[], Iterator[Any]], out: Connection) -> None:
    """Sends what an iterator gives, and at the end what it raised."""
    fault: BaseException | None = None
    try:
        for item in make():
            out.send_bytes(pickle.dumps((True, item), pickle.HIGHEST_PROTOCOL))
    except (OSError, OcppBoardError) as found:
        fault = found
    try:
        out.send_bytes(pickle.dumps((False, fault)))
    except BrokenPipeError:
        pass
