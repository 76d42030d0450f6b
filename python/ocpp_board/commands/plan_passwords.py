"""The words `password` and `quota` of `plan`: how gateways let a station in, and what it may send.

    ocpp-board plan --store ledger.db password CS-01 --why "a new station"
    ocpp-board plan --store ledger.db password CS-01 --why "it is known to others" --at-once < FILE
    ocpp-board plan --store ledger.db quota north --most-open 20 --most-rate 2 --why "hostile stations"
"""

import argparse
import getpass
import secrets
import string
import sys
from typing import Any

from ocpp_board.commands.plan import add_word
from ocpp_board.errors import UsageError
from ocpp_board.passwords import LONGEST, SHORTEST, find_mistake
from ocpp_board.statuses import Status
from ocpp_board.store.database import Database
from ocpp_board.store.plan import Author
from ocpp_board.store.stations import QUOTAS, set_password, write_quota

ABOUT = f"""\
Sets the password by which gateways let a station in (HTTP Basic, OCPP 2.0.1 Part 2, BasicAuthPassword): {SHORTEST} to
{LONGEST} characters. At a terminal it is asked for twice and not shown; else it is one line of standard input. The
store keeps a salted hash of it. What the station came with last stays good until it comes with the new one, and its
connection goes on."""
QUOTA = """\
Sets what each station of a site may send: what is above is refused by the quota's name, TooManyOpen, TooManyBytes or
TooManyMessages, is listed among the refused messages, and is counted by gateways. A site has none at first. Quotas are
for hostile or broken stations: an event that is refused is lost unless the station sends it again later."""
# Characters of a password that is made here.
MADE, LETTERS = 24, string.ascii_letters + string.digits


def add_plan_words(group: Any) -> None:
    """The words of `plan`."""
    parser = add_word(group, "password", "sets the password of a station", change_password)
    parser.description = ABOUT
    parser.add_argument("station", metavar="STATION")
    parser.add_argument(
        "--at-once",
        action="store_true",
        help="end the password that the station has, and a connection that came with it",
    )
    parser.add_argument(
        "--make", action="store_true", help="make a password, and print it: it is shown only here"
    )
    parser = add_word(group, "quota", "sets what each station of a site may send", change_quota)
    parser.description = QUOTA
    parser.add_argument("site", metavar="SITE")
    parser.add_argument("--most-open", type=int, help="transactions without an end; 0: any number")
    parser.add_argument("--most-bytes", type=int, help="bytes of messages a day; 0: any number")
    parser.add_argument(
        "--most-rate",
        type=int,
        help="messages a second at a gateway, over a minute; 0: any number",
    )


def change_quota(store: Database, words: argparse.Namespace, author: Author) -> int:
    """Sets quotas."""
    named = {name: getattr(words, name) for name in QUOTAS}
    quota = write_quota(store, words.site, author, named)
    print(f"{words.site}: " + ", ".join(f"{name} {value}" for name, value in quota.items()))
    return Status.DONE


def change_password(store: Database, words: argparse.Namespace, author: Author) -> int:
    """Sets a password."""
    password = make_text() if words.make else read_password(f"password of {words.station}: ")
    set_password(store, words.station, password, author, words.at_once)
    if words.make:
        print(password)
    else:
        print(f"{words.station}: the password is set")
    return Status.DONE


def make_text() -> str:
    """A password that nobody guesses."""
    return "".join(secrets.choice(LETTERS) for _ in range(MADE))


def read_password(prompt: str) -> str:
    """A password: asked for twice at a terminal, without echo, or the one line of standard input. Raises UsageError."""
    if sys.stdin.isatty():
        password = getpass.getpass(prompt)
        if getpass.getpass("the same again: ") != password:
            raise UsageError("the two passwords differ; nothing was set")
    else:
        text = sys.stdin.read(4_096)
        password, _, rest = text.partition("\n")
        password = password.removesuffix("\r")
        if rest:
            raise UsageError("standard input has more than one line; give the password as one line")
    if mistake := find_mistake(password):
        raise UsageError(mistake)
    return password
