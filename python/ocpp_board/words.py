"""The words of the command line: their parser, options as a record, and zones."""

import argparse
from dataclasses import fields
from typing import Any, NoReturn, TypeVar
from zoneinfo import ZoneInfo

Kind = TypeVar("Kind")


class Parser(argparse.ArgumentParser):
    """A parser that reports a wrong word in two lines, without the usage of all words."""

    def error(self, message: str) -> NoReturn:
        """Ends the program with status 2."""
        self.exit(2, f"{self.prog}: error: {message}\nsee {self.prog} --help\n")


def pick_options(kind: type[Kind], words: argparse.Namespace, **more: Any) -> Kind:
    """The options of this kind that the words have, and more. One that the words may lack has a default."""
    named = {one.name: getattr(words, one.name) for one in fields(kind) if one.name in words}
    return kind(**named | more)


def read_zone(name: str) -> ZoneInfo:
    """A time zone by its name, such as Europe/Berlin. Raises ArgumentTypeError where this system has none such."""
    try:
        return ZoneInfo(name)
    except (KeyError, ValueError, OSError):
        raise argparse.ArgumentTypeError(
            f"no time zone of this system: {name!r} (Debian: package tzdata)"
        ) from None
