"""How a command ends: its exit statuses, and the one place where faults become statuses."""

import logging
import os
import sys
from collections.abc import Callable
from enum import IntEnum

from ocpp_board.errors import OcppBoardError

log = logging.getLogger(__name__)


class Status(IntEnum):
    """The exit statuses of all commands."""

    DONE = 0
    # Something was reported: a line that was not taken, a board that is not whole, a mistake of a script.
    REPORTED = 1
    # Words are wrong, or a file, a program or a database can't be used.
    MISTAKEN = 2
    INTERRUPTED = 130


def drop_output() -> None:
    """Gives up what standard output did not take, which would be tried again when the program ends."""
    os.dup2(os.open(os.devnull, os.O_WRONLY), sys.stdout.fileno())


def ended(work: Callable[[], int]) -> int:
    """Does a command's work and gives its status; a fault of files or words is reported, a reader who left is not."""
    try:
        status = work()
        sys.stdout.flush()
        return status
    except KeyboardInterrupt:
        return Status.INTERRUPTED
    except BrokenPipeError:
        drop_output()
    except (OSError, UnicodeDecodeError) as fault:
        log.error("%s", fault)
        drop_output()
    except OcppBoardError as fault:
        log.error("%s", fault)
        drop_output()
        return fault.status
    return Status.MISTAKEN
