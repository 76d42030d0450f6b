"""Says who may use `web`: operators with a role and sites, their passwords, and tokens for programs.

    ocpp-board operator --store ledger.db add jo --role operator --site north --why "new at the desk"
    ocpp-board operator --store ledger.db password jo --why "first password"
    ocpp-board operator --store ledger.db token jo dashboard --why "the dashboard of the hall"
    ocpp-board operator --store ledger.db end jo --why "left"
    ocpp-board operator --store ledger.db end-token jo dashboard --why "another dashboard"
    ocpp-board operator --store ledger.db list

A reader sees pages; an operator voids, restores and erases events, too. Without --site all sites are seen. A password
is asked for twice at a terminal, or is one line of standard input; the store has its hash by scrypt. A token is shown
once, when it is made. Each change is kept with who, when and why.
"""

import argparse
import getpass
import sys

from ocpp_board.commands.options import add_store
from ocpp_board.errors import UsageError
from ocpp_board.statuses import Status
from ocpp_board.store.database import Database, open_store
from ocpp_board.store.plan import Author
from ocpp_board.web.signing import (
    READER,
    ROLES,
    add_token,
    end_operator,
    end_token,
    set_password,
    write_operator,
)

ENDING = "Exit status: 0 when it is done; 1 when it can't be done; 2 when the words are wrong."


def add_words(parser: argparse.ArgumentParser) -> None:
    """The words of the command."""
    add_store(parser)
    words = parser.add_subparsers(dest="word", metavar="WORD", required=True)
    for name, about in (
        ("add", "adds an operator, or changes role and sites of one"),
        ("password", "sets the password of an operator, and ends where it is signed in"),
        ("token", "makes a token for a program of an operator, and prints it"),
        ("end", "lets an operator in no longer, nor its tokens"),
        ("end-token", "ends a token"),
        ("list", "lists operators and tokens"),
    ):
        word = words.add_parser(name, help=about, description=f"{about.capitalize()}.")
        if name == "list":
            continue
        word.add_argument("operator", metavar="OPERATOR", help="its name, in small letters")
        if name in ("token", "end-token"):
            word.add_argument("note", metavar="NOTE", help="what the token is for")
        if name in ("add", "token"):
            word.add_argument("--role", choices=ROLES, default=READER)
            word.add_argument(
                "--site",
                dest="sites",
                metavar="SITE",
                action="append",
                default=[],
                help="a site that is seen; all without this word",
            )
        word.add_argument(
            "--why", required=True, metavar="REASON", help="the reason, which is kept"
        )
        word.add_argument("--who", help="who asks for it (default: the user of this session)")


def read_password() -> str:
    """The password that is typed twice, or the line of standard input. Raises UsageError."""
    if not sys.stdin.isatty():
        return sys.stdin.readline().rstrip("\n")
    password = getpass.getpass("password: ")
    if getpass.getpass("again: ") != password:
        raise UsageError("the two passwords differ; nothing was changed")
    return password


def list_operators(store: Database) -> None:
    """Prints operators and tokens."""
    for row in store.fetch("select operator, role, sites, until from operator order by operator"):
        ended = f" until {row.until:%Y-%m-%d}" if row.until else ""
        print(f"{row.operator} {row.role} {row.sites or 'all sites'}{ended}")
    rows = store.fetch("select operator, note, role, sites, since, until from token order by since")
    for row in rows:
        ended = f" until {row.until:%Y-%m-%d}" if row.until else ""
        about = f"{row.role} {row.sites or 'all sites'} since {row.since:%Y-%m-%d}"
        print(f"token of {row.operator}: {row.note}: {about}{ended}")


def run(words: argparse.Namespace) -> int:
    """Changes or lists operators."""
    with open_store(words.store) as store:
        if words.word == "list":
            list_operators(store)
            return Status.DONE
        if not words.why.strip():
            raise UsageError("no reason is given; give one by --why")
        author = Author(words.who or getpass.getuser(), words.why.strip())
        if words.word == "add":
            write_operator(store, words.operator, words.role, words.sites, author)
        elif words.word == "password":
            set_password(store, words.operator, read_password(), author)
        elif words.word == "token":
            print(add_token(store, words.operator, words.note, words.role, words.sites, author))
        elif words.word == "end":
            end_operator(store, words.operator, author)
        else:
            end_token(store, words.operator, words.note, author)
    return Status.DONE
