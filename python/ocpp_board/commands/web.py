"""Shows a store's pages in a browser, takes operators' deeds, and answers programs by a read API.

    ocpp-board web --store ledger.db
    ocpp-board web --store postgresql://.. --listen 0.0.0.0 --port 8080 --proxy 10.0.0.0/8 --header X-Remote-User

Pages are made of the store's views when they are asked for. `ocpp-board operator` says who may sign in, and makes
tokens for programs. A cookie of who is signed in goes over HTTPS only, so put a proxy with TLS in front, or try the
pages on this machine with --plain-http.
"""

import argparse
import ipaddress
import logging

from ocpp_board.commands.options import (
    add_program,
    add_silent,
    add_store,
    add_tokens,
    choose_program,
)
from ocpp_board.ledger.program import find_program
from ocpp_board.statuses import Status
from ocpp_board.store.database import open_store

log = logging.getLogger(__name__)

ENDING = """\
Exit status: 0 when it was ended by a signal; 1 when the port can't be taken; 2 when the words are wrong or the store or
the program can't be used."""


def read_network(text: str) -> ipaddress.IPv4Network | ipaddress.IPv6Network:
    """A network of proxies."""
    try:
        return ipaddress.ip_network(text)
    except ValueError:
        raise argparse.ArgumentTypeError(f"no address or network: {text!r}") from None


def read_port(text: str) -> int:
    """A port."""
    if not text.isdecimal() or not 0 < int(text) < 65_536:
        raise argparse.ArgumentTypeError(f"no port from 1 to 65535: {text!r}")
    return int(text)


def add_words(parser: argparse.ArgumentParser) -> None:
    """The words of the command."""
    add_store(parser)
    add_program(parser)
    add_tokens(parser)
    add_silent(parser)
    parser.add_argument(
        "--listen", metavar="ADDRESS", default="127.0.0.1", help="the address (default: 127.0.0.1)"
    )
    parser.add_argument("--port", type=read_port, default=8080, help="the port (default: 8080)")
    parser.add_argument(
        "--proxy",
        dest="proxies",
        metavar="NETWORK",
        type=read_network,
        action="append",
        default=[],
        help="the address or network of a proxy of yours: its X-Forwarded-For says where a request comes from",
    )
    parser.add_argument(
        "--header",
        metavar="NAME",
        default="",
        help="the header in which a proxy of these networks names the operator who signed in there; the proxy has to "
        "remove it from what browsers send",
    )
    parser.add_argument(
        "--plain-http",
        action="store_true",
        help="give cookies that go over plain HTTP, too, for trying the pages on this machine",
    )


def run(words: argparse.Namespace) -> int:
    """Serves until a signal ends it."""
    import uvicorn

    from ocpp_board.web.app import make_app
    from ocpp_board.web.desk import Desk, Stores
    from ocpp_board.writers.pages.context import PageOptions

    choose_program(words.program)
    find_program()
    with open_store(words.store) as store:
        stores = Stores(store)
        pages = PageOptions(tokens=words.tokens, silent=words.silent)
        desk = Desk(stores, pages, words.header, words.proxies, words.plain_http)
        config = uvicorn.Config(
            make_app(desk),
            host=words.listen,
            port=words.port,
            log_config=None,
            access_log=False,
            server_header=False,
            proxy_headers=False,
            lifespan="off",
        )
        log.info("pages at http://%s:%d/", words.listen, words.port)
        server = uvicorn.Server(config)
        server.run()
        stores.close()
    return Status.DONE if server.started else Status.REPORTED
