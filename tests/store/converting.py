"""Words of `log-to-script`, as its command line reads them."""

from collections.abc import Sequence

from ocpp_board import reporting
from ocpp_board.cli import make_parser
from ocpp_board.commands import log_to_script
from ocpp_board.commands.log_to_script import Options

NAME = "log-to-script"


def read_words(words: Sequence[str]) -> Options:
    """What these words ask for, as the command reads them. Wrong ones raise SystemExit."""
    parser = make_parser(NAME, log_to_script)
    reporting.set_up(NAME)
    return log_to_script.read_options(parser.parse_args([NAME, *words]))
