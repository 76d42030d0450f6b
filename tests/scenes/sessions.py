"""Plays WebSocket sessions, frame by frame, against a server of its own, and compares each byte that comes back.

    tests/one scenes.sessions PROGRAM

PROGRAM `serve`s the stations A and B of site north. Each session is a request and frames (RFC 6455), and the frames
that have to come back behind the answer to the handshake: requests that are refused, messages that end a session,
each kind of message, and the longest messages, whole and in fragments. In the end the board has to have the two
events.

Exit status: 0; 1 when a session is not as it should be; 2 when the program can't be started.
"""

import argparse
import re
import socket
import subprocess
import sys
from typing import NamedTuple

from tests.scenes.client import (
    BINARY,
    FIRST,
    GOES_ON,
    GOES_ON_LAST,
    LONGEST_WAIT,
    NOT_JSON,
    OFFER,
    OTHER,
    PING,
    PONG,
    SECOND,
    TEXT,
    TEXT_BEGINS,
    Frame,
    close,
    lets_in,
    request,
    takes_up_subprotocol,
)

NOW = re.compile(rb'("currentTime":")[^"]*"')


TOO_LONG = b'[4,"-1","RpcFrameworkError","TextTooLong",{}]'
BOARD = """board north period=900
total events=2 voided=0 transactions=1 complete=0 missing=0 up=200000 down=0 export_up=0 export_down=0
"""


class Session(NamedTuple):
    name: str
    path: str
    offer: str
    sent: list[Frame]
    answered: list[Frame]


def long_texts(is_whole: bool) -> list[Frame]:
    """The longest text that is read, longer ones, the longest message and one byte more."""
    frames = []
    for length in (262_144, 262_145, 524_288, 524_289):
        text = b"x" * length
        if is_whole:
            frames.append(Frame(TEXT, text))
        else:
            frames += [Frame(TEXT_BEGINS, text[:100_000]), Frame(GOES_ON, text[100_000:200_000])]
            frames.append(Frame(GOES_ON_LAST, text[200_000:]))
    return frames


def sessions() -> list[Session]:
    found = [
        # Requests without the subprotocol are refused first, whatever the path.
        Session(f"{path} without the subprotocol", path, offer, [], [close(1002, "NotOcpp")])
        for path, offer in (("/ocpp/A", ""), ("/ocpp/A", OTHER), ("/ocpp/Z", OTHER))
    ]
    for path in ("/ocpp/Z", "/ocpp/", "/A", "/ocpp/A/", "/ocpp/a"):
        refused = [close(1008, "UnknownStation")]
        found.append(Session(f"{path}, no station", path, OFFER, [], refused))
    for name, frame, code, reason in (
        ("a binary message", Frame(BINARY, b"[]"), 1003, "BinaryMessage"),
        ("half a character", Frame(TEXT, b"\xc3"), 1007, "ReadFault"),
        ("a frame that is not masked", Frame(TEXT, b"[]", False), 1002, "ReadFault"),
    ):
        found.append(Session(name, "/ocpp/A", OFFER, [frame], [close(code, reason)]))
    kinds = [
        Frame(TEXT, FIRST),
        Frame(PING, b"hi"),
        Frame(TEXT, SECOND),
        Frame(PONG),
        Frame(TEXT, b'[3,"x",{}]'),
        Frame(TEXT, b'[2,"h","Heartbeat",{}]'),
        close(1000),
    ]
    answers = [
        Frame(TEXT, b'[3,"1",{}]'),
        Frame(PONG, b"hi"),
        Frame(TEXT, b'[3,"2",{}]'),
        Frame(TEXT, b'[3,"h",{"currentTime":"2026-03-01T10:00:00Z"}]'),
        close(1000),
    ]
    found.append(Session("each kind of message", "/ocpp/A", OFFER, kinds, answers))
    answers = [Frame(TEXT, NOT_JSON), Frame(TEXT, TOO_LONG), Frame(TEXT, TOO_LONG)]
    answers.append(close(1009, "ReadFault"))
    for name, is_whole in (("long messages", True), ("long messages in fragments", False)):
        found.append(Session(name, "/ocpp/B", OFFER, long_texts(is_whole), answers))
    return found


def read_until(stream: socket.socket, read: bytearray, end: bytes) -> None:
    """Reads until this is among what came, or the server ends it."""
    while end not in read and (part := stream.recv(65_536)):
        read += part


def played(port: int, session: Session) -> str:
    """How a session differs from what it should be; nothing where it does not."""
    wanted = b"".join(frame._replace(is_masked=False).bytes() for frame in session.answered)
    read = bytearray()
    with socket.create_connection(("127.0.0.1", port), LONGEST_WAIT) as stream:
        stream.sendall(request(session.path, session.offer))
        read_until(stream, read, b"\r\n\r\n")
        try:
            for frame in session.sent:
                stream.sendall(frame.bytes())
        except ConnectionError:
            pass  # The server closed while bytes were on their way to it.
        try:
            # Behind the close frame the server waits for the station to leave.
            read_until(stream, read, wanted[-4:])
            stream.shutdown(socket.SHUT_WR)
            while part := stream.recv(65_536):
                read += part
        except TimeoutError:
            return "the server does not end it"
        except OSError:
            pass  # The same; what it wrote before is compared.
    head, _, frames = bytes(read).partition(b"\r\n\r\n")
    if not lets_in(head):
        return f"the handshake is answered by {head[:80]!r}"
    has_subprotocol = takes_up_subprotocol(head)
    if has_subprotocol != (session.offer == OFFER):
        return "the subprotocol is " + ("taken up" if has_subprotocol else "not taken up")
    if NOW.sub(rb"\1", frames) != NOW.sub(rb"\1", wanted):
        return f"{frames[:200]!r} came, and not {wanted[:200]!r}"
    return ""


def main() -> int:
    parser = argparse.ArgumentParser(
        description=__doc__, formatter_class=argparse.RawDescriptionHelpFormatter
    )
    parser.add_argument("program", metavar="PROGRAM", help="the built ocpp_board")
    words = parser.parse_args()
    rows = sessions()
    command = [words.program, "serve", "--connections", str(len(rows)), "north/A", "north/B"]
    try:
        server = subprocess.Popen(command, stdout=subprocess.PIPE)
    except OSError as error:
        print(f"sessions.py: {words.program}: {error.strerror}", file=sys.stderr)
        return 2
    assert server.stdout
    differing = 0
    try:
        port = int(server.stdout.readline().decode().rpartition(":")[2])
        for session in rows:
            if differs := played(port, session):
                print(f"{session.name}: {differs}")
                differing += 1
        board, _ = server.communicate(timeout=LONGEST_WAIT)
    except (OSError, ValueError, subprocess.TimeoutExpired) as error:
        print(f"the server: {error}")
        differing += 1
        board = b""
    finally:
        server.kill()
        server.wait()
    if not board.decode().startswith(BOARD):
        print(f"the board begins {board[:200]!r}")
        differing += 1
    print(f"sessions: {len(rows)} played, {differing} differ")
    return 1 if differing else 0


if __name__ == "__main__":
    sys.exit(main())
