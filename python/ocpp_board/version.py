"""The version of the tools, which is the program's."""

import tomllib
from importlib import metadata

from ocpp_board.processes import PACKAGES


def version() -> str:
    """The version: of the file beside the package, as in a checkout, or else of what is installed."""
    try:
        text = (PACKAGES / "pyproject.toml").read_text("utf-8")
    except FileNotFoundError:
        return metadata.version("ocpp-board")
    return str(tomllib.loads(text)["project"]["version"])
