"""What tools write to standard error, through `logging`: text, or JSON lines for whoever collects them.

A tool reports faults as errors, what it can't take as warnings, and what became of its input as information.
"""

import argparse
import json
import logging
import sys
import time


class PlainFormatter(logging.Formatter):
    """Only the message; from a level on with the program's name in front."""

    def __init__(self, program: str, named_from: int) -> None:
        super().__init__()
        self.program, self.named_from = program, named_from

    def format(self, record: logging.LogRecord) -> str:
        """One line of text."""
        text = record.getMessage()
        return f"{self.program}: {text}" if record.levelno >= self.named_from else text


class JsonFormatter(logging.Formatter):
    """An object with the time (UTC, in milliseconds), the level, the program, the module and the message.

    Where the message is of a line of the input, `line` is its number.
    """

    def __init__(self, program: str) -> None:
        super().__init__()
        self.program = program

    def format(self, record: logging.LogRecord) -> str:
        """One line of JSON."""
        moment = time.strftime("%Y-%m-%dT%H:%M:%S", time.gmtime(record.created))
        entry = {
            "time": f"{moment}.{int(record.msecs):03}Z",
            "level": record.levelname.lower(),
            "program": self.program,
            "module": record.name,
            "message": record.getMessage(),
        }
        line = getattr(record, "line", None)
        return json.dumps(entry if line is None else entry | {"line": line})


def set_up(program: str, as_json: bool = False, named_from: int = logging.ERROR) -> None:
    """Writes all messages of the packages from here on to standard error.

    As text the program's name is in front of messages from the level `named_from` on.
    """
    handler = logging.StreamHandler(sys.stderr)
    handler.setFormatter(JsonFormatter(program) if as_json else PlainFormatter(program, named_from))
    for name in ("ocpp_board", "tests"):
        logger = logging.getLogger(name)
        logger.handlers = [handler]
        logger.setLevel(logging.INFO)
        logger.propagate = False


def add_option(parser: argparse.ArgumentParser) -> None:
    """The option that all tools have for what they report."""
    parser.add_argument(
        "--log-json",
        action="store_true",
        help="write faults and counts to standard error as JSON lines with levels",
    )
