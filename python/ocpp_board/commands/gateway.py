"""Takes charging stations' WebSocket connections (OCPP 2.0.1), and answers what they send once it is stored.

    ocpp-board gateway --store ledger.db --port 9100
    PGPASSWORD=.. ocpp-board gateway --store postgresql://ocpp_gateway@a,b/ledger --host 0.0.0.0 --port 9100

A station connects to ws://HOST:PORT/ocpp/STATION with HTTP Basic: its name, and the password that `ocpp-board plan`
set. With --client-ca or --client-header it comes with a certificate of its name. With --open each station of the plan
comes in.

A reply goes out after the commit, never before. While the store is away stations get no reply. After --patience seconds
the gateway closes the connection, so that the station comes again and sends again. A gateway keeps nothing: run as many
as you like, on any machines, and end them at any time.
"""

import argparse
import asyncio

from ocpp_board.commands.options import add_program, add_silent, add_store, choose_program
from ocpp_board.words import pick_options

ENDING = """\
Exit status: 0 when a signal ended it; 2 when the words are wrong, or a file or the port can't be used."""
LEAST_PATIENCE, MOST_LANES = 1.0, 64


def read_place(text: str) -> tuple[str, int]:
    """A port, or an address and a port. Raises ArgumentTypeError."""
    host, _, port = text.rpartition(":")
    if not port.isascii() or not port.isdigit() or int(port) > 65535:
        raise argparse.ArgumentTypeError(f"no port, or ADDRESS:PORT: {text!r}")
    return host.strip("[]") or "127.0.0.1", int(port)


def read_patience(text: str) -> float:
    """Seconds. Raises ArgumentTypeError."""
    try:
        seconds = float(text)
    except ValueError:
        seconds = 0.0
    if not LEAST_PATIENCE <= seconds <= 3600:
        raise argparse.ArgumentTypeError(
            f"no time from {LEAST_PATIENCE:.0f} to 3600 seconds: {text!r}"
        )
    return seconds


def read_lanes(text: str) -> int:
    """How many batches at once. Raises ArgumentTypeError."""
    if not text.isdecimal() or not 1 <= int(text) <= MOST_LANES:
        raise argparse.ArgumentTypeError(f"no number from 1 to {MOST_LANES}: {text!r}")
    return int(text)


def add_words(parser: argparse.ArgumentParser) -> None:
    """The words of the command."""
    add_store(parser)
    add_program(parser)
    parser.add_argument("--host", default="127.0.0.1", help="where to listen (default: 127.0.0.1)")
    parser.add_argument("--port", type=int, default=9100, help="the port (default: 9100)")
    parser.add_argument(
        "--patience",
        type=read_patience,
        default=25.0,
        help="seconds until a message without a reply ends its connection (default: 25)",
    )
    parser.add_argument(
        "--lanes",
        type=read_lanes,
        default=2,
        help="how many batches are stored at once, each by a process (default: 2; SQLite takes one after the other)",
    )
    parser.add_argument(
        "--proxy",
        metavar="ADDRESS",
        action="append",
        default=[],
        help="a proxy before it, which names the address of a station in X-Forwarded-For",
    )
    parser.add_argument(
        "--open",
        action="store_true",
        help="let each station of the plan in without a password, as in a laboratory",
    )
    parser.add_argument(
        "--keep-refused",
        action="store_true",
        help="answer {} to a message that conflicts with a stored one or is above a limit, once its text is in the "
        "store: a station that is refused drops its copy after some attempts. `ocpp-board take` has such texts",
    )
    parser.add_argument(
        "--ocpp2.1",
        dest="pilot",
        action="store_true",
        help="for pilots: let stations speak OCPP 2.1, too; of its messages those that 2.0.1 has are taken",
    )
    parser.add_argument(
        "--metrics",
        metavar="PORT",
        type=read_place,
        help="serve figures at /metrics and health at /health, on this port of 127.0.0.1, or ADDRESS:PORT",
    )
    add_silent(parser)
    add_tls_words(parser)


def add_tls_words(parser: argparse.ArgumentParser) -> None:
    """The words that say with which certificates."""
    parser.add_argument(
        "--certificate",
        metavar="FILE",
        help="speak TLS, with this certificate and its chain (PEM); SIGHUP has it read again",
    )
    parser.add_argument("--key", metavar="FILE", help="the key of --certificate (PEM)")
    parser.add_argument(
        "--client-ca",
        metavar="FILE",
        help="ask stations for a certificate of these authorities (PEM) in place of a password",
    )
    parser.add_argument(
        "--client-crl",
        metavar="FILE",
        help="with --client-ca: the revocation lists of these authorities (PEM); SIGHUP has it read again, and ends "
        "the connections of certificates that it names",
    )
    parser.add_argument(
        "--client-header",
        metavar="NAME",
        help="in place of a password: believe the --proxy, which knows PROXY_SECRET, that a station has the "
        "certificate whose subject is in this header: 'SECRET $ssl_client_verify $ssl_client_s_dn' of nginx",
    )


def run(words: argparse.Namespace) -> int:
    """Serves until a signal ends it. Raises UsageError."""
    from ocpp_board.gateway.certificates import Files
    from ocpp_board.gateway.gateway import Gateway, Options, use_uvloop

    choose_program(words.program)
    options, files = pick_options(Options, words), pick_options(Files, words)

    async def serve() -> None:
        await Gateway(options, files).run()

    use_uvloop()
    asyncio.run(serve())
    return 0
