"""The command `ocpp-board`: each command is one word of it.

    ocpp-board COMMAND [WORD..]
    ocpp-board-COMMAND [WORD..]      the same, where it is installed under such a name

`ocpp-board COMMAND --help` says what a command does and which words it takes.
"""

import argparse
import importlib
import sys
from collections.abc import Callable, Sequence
from pathlib import Path
from types import ModuleType

from ocpp_board import reporting
from ocpp_board.statuses import Status, ended
from ocpp_board.version import version
from ocpp_board.words import Parser

COMMAND = "ocpp-board"
# The commands and what they do in one line. A command is the module of its name in `ocpp_board.commands`.
COMMANDS = {
    "report": "turns logs or a script into tables and pages",
    "follow": "keeps a store and its pages beside a CSMS that writes logs",
    "gateway": "takes charging stations' connections",
    "feed": "takes the events of queues",
    "web": "shows a store's pages in a browser, takes operators' deeds, and answers programs",
    "plan": "shows and changes sites, stations, passwords and operators",
    "operator": "says who may use web: operators, passwords, tokens",
    "operate": "voids, restores and erases events, corrects readings, chooses an order",
    "take": "takes messages that were refused, or leaves them out",
    "close-day": "closes a site's settlement days",
    "corrections": "lists what closings changed of settled figures",
    "lacking": "lists sessions that lack messages and went silent",
    "findings": "lists what is doubtful at a site, with what to do",
    "estimates": "lists what MeterValues say of sessions without readings",
    "site-meter": "compares a site's main meter with the sum of its EVSEs",
    "left-out": "lists stations that are left out for their version of OCPP",
    "settle-by-rule": "settles sessions that stay incomplete",
    "adjust": "declares a fact beside a session's number: an exchanged meter, an estimate, a credit",
    "release": "releases sessions that are held, or lists them",
    "bills": "writes a site's month of sessions as CSV, for billing",
    "settlement": "writes a site's month of energy by metering point",
    "forget": "takes drivers' tokens out of a store, and old transactions",
    "verify": "compares a store with the boards of the program",
    "export": "writes a script that has a store's lines",
    "explain": "says what is wrong with a script",
    "log-to-script": "turns the message log of a CSMS into a script",
}
# What commands need besides Python: packages, and Debian's packages that have them.
PACKAGES = {
    "psycopg": "python3-psycopg",
    "websockets": "python3-websockets",
    "cryptography": "python3-cryptography",
    "prometheus_client": "python3-prometheus-client",
    "starlette": "python3-starlette",
    "uvicorn": "python3-uvicorn",
    "jinja2": "python3-jinja2",
    "markupsafe": "python3-jinja2",
    "yaml": "python3-yaml",
}


def name_module(name: str) -> str:
    """The module of a command."""
    return f"ocpp_board.commands.{name.replace('-', '_')}"


def make_parser(name: str, module: ModuleType | None, prog: str = COMMAND) -> Parser:
    """The parser of all commands; that of this name has its words. `prog`: what its usage shows."""
    parser = Parser(
        prog=prog, description=__doc__, formatter_class=argparse.RawDescriptionHelpFormatter
    )
    parser.add_argument("--version", action="version", version=f"{COMMAND} {version()}")
    group = parser.add_subparsers(dest="command", metavar="COMMAND", title="commands")
    for one, about in COMMANDS.items():
        child = group.add_parser(
            one, help=about, formatter_class=argparse.RawDescriptionHelpFormatter
        )
        if one == name and module:
            child.description = module.__doc__
            reporting.add_option(child)
            child.epilog = getattr(module, "ENDING", None)
            module.add_words(child)
            child.set_defaults(run=module.run, parser=child)
    return parser


def main(argv: Sequence[str] | None = None) -> int:
    """Runs the command that the first word names, or the name under which it was called. Gives its status."""
    words = list(sys.argv[1:] if argv is None else argv)
    called = Path(sys.argv[0]).name.removeprefix(f"{COMMAND}-")
    if argv is None and called in COMMANDS:
        words = [called, *words]
    name = words[0] if words else ""
    try:
        return run_command(name, words)
    except ModuleNotFoundError as fault:
        package = PACKAGES.get((fault.name or "").partition(".")[0])
        if package is None:
            raise
        print(
            f"{COMMAND} {name}: there is no package `{fault.name}` for this python3 (Debian: apt-get install "
            f"{package}, and /usr/bin/python3)",
            file=sys.stderr,
        )
        return Status.MISTAKEN


def run_command(name: str, words: Sequence[str]) -> int:
    """Runs a command, and gives its exit status."""
    module = importlib.import_module(name_module(name)) if name in COMMANDS else None
    asked = make_parser(name, module).parse_args(words)
    if asked.command is None:
        make_parser(name, module).print_help()
        return Status.DONE
    reporting.set_up(asked.parser.prog, asked.log_json)
    run: Callable[[argparse.Namespace], int] = asked.run
    return ended(lambda: run(asked))
