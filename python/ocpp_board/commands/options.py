"""Options that several commands take."""

import argparse
import getpass
import os
import shutil
from collections.abc import Mapping
from datetime import date, datetime, timezone

from ocpp_board import energies
from ocpp_board.errors import UsageError
from ocpp_board.escapes import shown
from ocpp_board.ledger.findings import MOST_KW
from ocpp_board.ledger.program import LIBRARY_NAME, PROGRAM_NAME, find_program
from ocpp_board.limits import SILENT_HOURS, is_name
from ocpp_board.sources import forms
from ocpp_board.sources.stations import add_rules, add_utc
from ocpp_board.store.plan import Author
from ocpp_board.writers.tokens import TOKENS


def add_store(parser: argparse.ArgumentParser, is_required: bool = True) -> None:
    """The option that names the store."""
    parser.add_argument(
        "--store",
        metavar="STORE",
        required=is_required,
        help="the store: a file, or postgresql://..",
    )


def add_program(parser: argparse.ArgumentParser) -> None:
    """The option that names the proved program."""
    parser.add_argument(
        "--program",
        metavar="PATH",
        help="the proved program, or its library (default: the library of this system or of crates/*/out of this "
        "checkout, or else the program)",
    )


def choose_program(path: str | None) -> None:
    """Has this process and those that it starts run the program or the library of this path. Raises UsageError where
    there is none."""
    if path:
        if not (os.path.isfile(path) or shutil.which(path)):
            raise UsageError(
                f"{path}: No such file or directory; build the program, or leave --program out"
            )
        is_library = ".so" in os.path.basename(path)
        os.environ[LIBRARY_NAME] = path if is_library else ""
        os.environ[PROGRAM_NAME] = "" if is_library else path
        find_program.cache_clear()


def read_power(text: str) -> int:
    """A power in whole kW."""
    if not text.isdecimal() or not 1 <= int(text) <= 100_000:
        raise argparse.ArgumentTypeError(f"no power from 1 to 100000 kW: {text!r}")
    return int(text)


def add_power(parser: argparse.ArgumentParser) -> None:
    """The option that says which power can be."""
    parser.add_argument(
        "--most-kw",
        metavar="KW",
        type=read_power,
        help=f"the greatest power of an EVSE: what is above is a finding (default: {MOST_KW})",
    )


def add_tokens(parser: argparse.ArgumentParser) -> None:
    """The option that says how drivers' tokens are written."""
    parser.add_argument(
        "--tokens",
        choices=TOKENS,
        default=TOKENS[0],
        help="how drivers' tokens are written in tables and on pages: not at all, since they are personal, as the "
        "SHA-256 of their small letters, or plain (default: none)",
    )


def read_zone(text: str) -> tuple[str, str]:
    """A site and its time zone; without a site of all others."""
    from zoneinfo import ZoneInfo

    site, _, name = text.rpartition("=")
    if "=" in text and not is_name(site):
        raise argparse.ArgumentTypeError(f"no name of a site: {shown(text)}")
    try:
        ZoneInfo(name)
    except (KeyError, ValueError, OSError):
        raise argparse.ArgumentTypeError(
            f"no time zone of this system: {name!r} (Debian: package tzdata)"
        ) from None
    return site, name


def add_zones(parser: argparse.ArgumentParser) -> None:
    """The option that says in which zone a site has its days."""
    parser.add_argument(
        "--tz",
        dest="zones",
        metavar="[SITE=]ZONE",
        type=read_zone,
        action="append",
        default=[],
        help="the time zone of SITE, or of every other site, such as Europe/Berlin (default: UTC)",
    )


def add_log_options(parser: argparse.ArgumentParser, fields: tuple[str, ...]) -> None:
    """The options of a command that takes logs into a store. `fields`: what options name in a line of a log."""
    forms.add_form(parser)
    forms.add_fields(parser, fields)
    add_utc(parser)
    add_rules(parser)
    add_zones(parser)
    add_power(parser)
    add_tokens(parser)
    add_silent(parser)
    add_program(parser)


def add_silent(parser: argparse.ArgumentParser) -> None:
    """The option that says when a session is silent."""
    parser.add_argument(
        "--silent",
        type=read_count,
        default=SILENT_HOURS,
        metavar="HOURS",
        help="hours without a message after which a session that lacks some is silent (default: 24)",
    )


def find_by_site(asked: Mapping[str, str], site: str) -> str | None:
    """What is asked of a site; None where nothing is."""
    return asked.get(site, asked.get(""))


def add_site(parser: argparse.ArgumentParser) -> None:
    """The option that names a site."""
    parser.add_argument("--site", required=True, metavar="SITE", help="which site")


def add_who(parser: argparse.ArgumentParser) -> None:
    """The option that names who asks for a change."""
    parser.add_argument(
        "--who",
        default=None,
        metavar="NAME",
        help="who asks for it (default: the user of this session)",
    )


def add_author(parser: argparse.ArgumentParser) -> None:
    """The options that name who asks for a change, and why."""
    parser.add_argument("--why", required=True, metavar="REASON", help="the reason, which is kept")
    add_who(parser)


def read_who(words: argparse.Namespace) -> str:
    """Who asks for a change."""
    return words.who or getpass.getuser()


def read_author(words: argparse.Namespace) -> Author:
    """Who asks for a change, and why."""
    return Author(read_who(words), words.why)


def add_form(parser: argparse.ArgumentParser) -> None:
    """The option that chooses the form of CSV."""
    parser.add_argument(
        "--csv",
        dest="form",
        choices=("comma", "semicolon"),
        default="comma",
        help="semicolon: for spreadsheets that want a decimal comma (default: comma)",
    )


def read_day(text: str) -> date:
    """A day of the command line. Raises ArgumentTypeError."""
    try:
        return date.fromisoformat(text)
    except ValueError:
        raise argparse.ArgumentTypeError(f"{text!r} is no day such as 2026-03-01") from None


def read_time(text: str) -> datetime:
    """A moment of the command line, with an offset. Raises ArgumentTypeError."""
    try:
        at = datetime.fromisoformat(text)
    except ValueError:
        at = datetime.min
    if at.tzinfo is None:
        raise argparse.ArgumentTypeError(f"{text!r} is no time such as 2026-03-01T10:00:00Z")
    return at.astimezone(timezone.utc)


def read_mwh(text: str) -> int:
    """An energy in kWh of the command line, in mWh. Raises ArgumentTypeError."""
    if not energies.ENERGY.fullmatch(text):
        raise argparse.ArgumentTypeError(
            f"{text!r} is no energy in kWh with at most six decimals, such as 4711.5"
        )
    return energies.read_mwh(text)


def read_count(text: str) -> int:
    """A count of days, hours or years. Raises ArgumentTypeError."""
    if not text.isdecimal() or not 1 <= int(text) <= 36_500:
        raise argparse.ArgumentTypeError(f"{text!r} is no count from 1 to 36500")
    return int(text)
