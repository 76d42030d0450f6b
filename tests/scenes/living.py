"""Plays a server that lives with clients of its own and an operator's lines, and compares what it answers and reports.

    tests/one scenes.living PROGRAM

PROGRAM serves the stations A and B of site north and C of site south by `serve --live`, anew in each scene:
sessions that come again over one shelf of passes, a third session of a station, an operator's lines and each of
their faults, input that ends in the middle of a line, Control-C, the end while many clients are silent, connections
that never finish their handshake, a client that reads nothing, the lines of `--log`, limits that are nearly used, and a
browser's requests. What has to come of it are the frames (RFC 6455) behind the answers to the handshakes, the answers
to the lines, the boards at the end, and the exit status.

Exit status: 0; 1 when a scene is not as it should be; 2 when the program can't be started.
"""

import re
import select
import signal
import socket
import sys
import threading
import time
from collections.abc import Callable
from datetime import datetime

from tests.scenes.client import (
    FIRST,
    LONGEST_WAIT,
    OFFER,
    OTHER,
    SECOND,
    TEXT,
    Client,
    Differs,
    Frame,
    Station,
    answered,
    event,
    request,
)
from tests.scenes.playing import play
from tests.scenes.servers import NONE, TWO, Live, board, boards, dismissed

# How long a handshake may take, how long the head of a browser's request, and how long a write.
GREETING, HEAD, WRITE = 10, 5, 30
# What a browser is answered that asks for what is not there.
NOT_FOUND = (
    b"HTTP/1.1 404 Not Found\r\nContent-Type: text/plain; charset=utf-8\r\nContent-Length: 13\r\n"
    b"Connection: close\r\n\r\n404 Not Found"
)
# What an operator is answered who asks for the lists of the transaction of FIRST.
EVENTS = """events A t1 live=1 voided=0
event 0 Started 2026-03-01T10:00:00Z evse=0 readings=1 live
end"""
READINGS = """readings A t1 up=0 down=0 export_up=0 export_down=0
import 0.0 2026-03-01T10:00:00Z 1000000
end"""


def sessions_in_turn(program: str) -> None:
    """A station comes again and again, and every other time loses its connection; its passes are taken up again."""
    with Live(program) as server:
        for turn in range(300):
            station = Station(server, "A")
            station.reports(0, 1)
            station.leaves() if turn % 2 else station.fails()
        server.answers("total A", TWO + "\n")
        server.ends(boards(2, 0, 0))


def third_session_ends_the_first(program: str) -> None:
    """Two sessions of a station are open; a third ends the oldest, and after one of them left no other ends."""
    with Live(program) as server:
        first = Station(server, "A")
        # Its session has begun once it is answered: before that the second may begin first.
        first.reports(0)
        second = Station(server, "A")
        second.reports(0)
        third = Station(server, "A")
        first.receives(dismissed("Replaced"))
        first.ends()
        second.reports(0, 1)
        third.reports(1)
        second.leaves()
        fourth = Station(server, "A")
        time.sleep(1.5)
        third.reports(0)
        fourth.reports(0)
        server.says("close")
        for station in (third, fourth):
            station.receives(dismissed("ServerCloses"))
            station.ends()
        server.ends(boards(2, 0, 0))


def silent_station_comes_again(program: str) -> None:
    """All 64 stations are connected; one falls silent and connects again, and is answered within two seconds."""
    stations = tuple(f"north/S{number}" for number in range(64))
    with Live(program, stations=stations) as server:
        found = list[Station]()
        for number in range(64):
            found.append(Station(server, f"S{number}"))
            found[-1].reports(0)
            found.append(Station(server, f"S{number}"))
        began = time.monotonic()
        again = Station(server, "S7")
        again.reports(0, 1)
        if (took := time.monotonic() - began) > 2:
            raise Differs(f"it is answered after {took:.1f} seconds")
        server.answers("total S7", TWO + "\n")
        server.close()
        for station in [*found[:14], *found[15:], again]:
            station.receives(dismissed("ServerCloses"))
            station.ends()
        if server.process.wait(LONGEST_WAIT):
            raise Differs(f"status {server.process.returncode}")


def end_while_clients_are_silent(program: str) -> None:
    """64 clients say nothing: 20 are in their handshake and one in the middle of a message."""
    names = [f"S{number}" for number in range(22)]
    with Live(
        program, "--watch", "600", stations=tuple(f"north/{name}" for name in names)
    ) as server:
        silent = [Client(server) for _ in range(20)]
        for client in silent[10:]:
            client.sends(b"GET /ocpp/S0 HTTP/1.1\r\n")
        stations = [Station(server, name) for name in names * 2]
        stations[0].sends(Frame(TEXT, FIRST).bytes()[:50])
        stations[2].reports(0, 1)
        glance = "live north\ntotal .*\n"
        server.ends(board("north", {name: 2 * (name == "S2") for name in names}), f"(?:{glance})+")
        for station in stations:
            station.receives(dismissed("ServerCloses"))


def half_open_connections_hold_no_station(program: str) -> None:
    """None of 60 connections finishes its handshake; a station is answered within two seconds all the same."""
    with Live(program, stations=("north/A",)) as server:
        open_ = [Client(server) for _ in range(60)]
        for client in open_[::2]:
            client.sends(b"GET /ocpp/A HTTP/1.1\r\n")
        began = time.monotonic()
        station = Station(server, "A")
        station.reports(0, 1)
        if (took := time.monotonic() - began) > 2:
            raise Differs(f"it is answered after {took:.1f} seconds")
        station.leaves()
        server.ends(board("north", {"A": 2}))


def client_takes_no_bytes(program: str) -> None:
    """A client that sends and reads nothing loses its session when a write has waited for it; others go on."""
    heartbeats = Frame(TEXT, b'[2,"%036d","Heartbeat",{}]' % 0).bytes() * 100
    with Live(program, "--log") as server:
        station = Station(server, "A")
        station.stream.settimeout(1)
        try:
            for _ in range(10_000):
                station.sends(heartbeats)
        except TimeoutError:
            pass
        began = time.monotonic()
        other = Station(server, "A")
        other.reports(0, 1)
        while b"session A ended WriteFault" not in server.has_reported():
            if time.monotonic() - began > WRITE + 3:
                raise Differs("its session does not end")
            time.sleep(0.1)
        if time.monotonic() - began < WRITE - 5:
            raise Differs("its session ends early")
        other.reports(0)
        other.leaves()
        server.ends(boards(2, 0, 0), "(?:session A .*\n)+")


def operator_voids_between_events(program: str) -> None:
    """What the operator voids a station's next reply and board know: the event is sent again, and is a repeat."""
    with Live(program) as server:
        station = Station(server, "A")
        station.reports(0, 1)
        server.answers("energy A", "energy up=200000 down=0\n")
        server.answers("void A T1 1", "accepted 3\n")
        server.answers("energy A", "energy up=0 down=0\n")
        server.answers("void A T1 1", "refused AlreadyVoided\n")
        station.sends(Frame(TEXT, event(1, "Updated", "2026-03-01T10:14:00Z", 1300)).bytes())
        station.receives(
            Frame(TEXT, b'[4,"2","GenericError","ConflictingEvent",{}]', False).bytes()
        )
        server.answers("restore A T1 1", "accepted 4\n")
        server.answers("void B T1 1", "refused NoSuchEvent\n")
        server.answers("total B", NONE + "\n")
        server.answers("void A T1 0", "accepted 5\n")
        server.answers("erase A T1 0", "accepted 6\n")
        station.reports(0)
        station.leaves()
        server.ends(boards(2, 0, 0))


def host_time_of(reply: bytes, earliest: float) -> float:
    """The moment of a reply's currentTime, which has to be the host's: not before this one, and not in the future."""
    found = re.search(rb'"currentTime":"([0-9TZ:.-]+)"', reply)
    if not found:
        raise Differs(f"{reply!r} has no currentTime")
    moment = datetime.fromisoformat(found[1].decode()).timestamp()
    # (a moment is written in whole seconds)
    if not int(earliest) <= moment <= time.time():
        raise Differs(f"{found[1]!r} is not the host's time, {time.time()}")
    return moment


def replies_have_the_time_of_the_host(program: str) -> None:
    """BootNotification and Heartbeat say the host's time, in a session and to the operator, and a later one later."""
    with Live(program) as server:
        station = Station(server, "A")
        began = time.time()
        host_time_of(station.asks(b'[2,"b","BootNotification",{}]'), began)
        first = host_time_of(station.asks(b'[2,"h","Heartbeat",{}]'), began)
        time.sleep(2.1)
        if host_time_of(station.asks(b'[2,"h","Heartbeat",{}]'), began + 2) < first + 2:
            raise Differs("the time of a session stands still")
        server.says('msg B [2,"h","Heartbeat",{}]')
        host_time_of(server.line(), began + 2)
        station.leaves()
        server.ends(boards(0, 0, 0))


def faults_of_lines(program: str) -> None:
    """Each fault of an operator's line, and lines that write nothing."""
    with Live(program) as server:
        for line, answer in (
            ("", ""),
            ("# a comment", ""),
            ("limits 1 1 1 1", "fault DeclaredLate"),
            ("station north D", "fault DeclaredLate"),
            ("period north 900", "fault DeclaredLate"),
            ("order north moment", "fault DeclaredLate"),
            ("now 2026-03-01T10:00:00Z", "fault BadLine"),
            ("frob", "fault BadLine"),
            ("Close", "fault BadLine"),
            ("void A T1", "fault BadLine"),
            ("void Z T1 1", "fault UnknownStation"),
            ("total Z", "fault UnknownStation"),
            ("energy Z", "fault UnknownStation"),
            ("msg Z []", "fault UnknownStation"),
            ("board Z", "fault UnknownSite"),
            ("# " + "x" * 262_399, "fault LineTooLong"),
            ("void A T1 1", "refused NoSuchEvent"),
            ('msg A [3,"x",{}]', "silent"),
            ("msg A " + FIRST.decode(), '[3,"1",{}]'),
            ("msg A frob", '[4,"-1","RpcFrameworkError","NotJson",{}]'),
            ("events Z t1", "fault UnknownStation"),
            ("readings A t2", "fault UnknownTransaction"),
            ("readings A", "fault BadLine"),
            ("events A T1", EVENTS),
            ("readings A T1", READINGS),
            ("mark A-1", "mark A-1"),
        ):
            server.answers(line, answer + "\n" if answer else "")
        server.says('msg B [2,"h","Heartbeat",{}]')
        if not re.fullmatch(rb'\[3,"h",\{"currentTime":"20[0-9-]+T[0-9:]+Z"\}\]\n', server.line()):
            raise Differs("a heartbeat is not answered with a moment")
        server.ends(boards(1, 0, 0))


def operator_delivers_and_asks(program: str) -> None:
    """What becomes of a message that an operator delivers, and what a text asks for; then the station's own repeat."""
    heartbeat = '[2,"h","Heartbeat",{}]'
    other = event(1, "Updated", "2026-03-01T10:14:00Z", 1300).decode()
    with Live(program) as server:
        for line, answer in (
            ("asks " + FIRST.decode(), "event t1 0"),
            ("total A", NONE),
            ("deliver A " + FIRST.decode(), 'accepted 1 [3,"1",{}]'),
            ("deliver A " + FIRST.decode(), 'repeat [3,"1",{}]'),
            ('deliver A [3,"x",{}]', "silent"),
            ('asks [3,"x",{}]', "silent"),
            ("deliver A frob", 'reply [4,"-1","RpcFrameworkError","NotJson",{}]'),
            ("asks frob", 'reply [4,"-1","RpcFrameworkError","NotJson",{}]'),
            ("deliver Z " + FIRST.decode(), "fault UnknownStation"),
            ("deliver A", "fault BadLine"),
            ("asks", "fault BadLine"),
        ):
            server.answers(line, answer + "\n")
        for line in ("asks " + heartbeat, "deliver B " + heartbeat):
            server.says(line)
            reply = server.line().decode()
            if not re.fullmatch(r'reply \[3,"h",\{"currentTime":"20[0-9-]+T[0-9:]+Z"\}\]\n', reply):
                raise Differs(f"a heartbeat is answered {reply!r}")
        station = Station(server, "A")
        station.reports(0, 1)
        server.answers("deliver A " + SECOND.decode(), 'repeat [3,"2",{}]\n')
        conflict = '[4,"2","GenericError","ConflictingEvent",{}]'
        server.answers("deliver A " + other, f"refused ConflictingEvent {conflict}\n")
        station.leaves()
        server.ends(boards(2, 0, 0))


def input_ends_within_a_line(program: str) -> None:
    """What no line feed ends is answered, too; then the server ends."""
    with Live(program) as server:
        server.input.write(b"total A")
        server.ends(NONE + "\n" + boards(0, 0, 0))
    with Live(program) as server:
        server.input.write(b"close\ntotal A\n")
        server.ends(boards(0, 0, 0))


def an_interrupt_writes_no_board(program: str) -> None:
    """Control-C ends a server by the signal, and it writes no board; the end of its input has it write them."""
    with Live(program) as server:
        Station(server, "A").reports(0, 1)
        server.process.send_signal(signal.SIGINT)
        server.has_ended("", status=-signal.SIGINT)
    with Live(program) as server:
        Station(server, "A").reports(0, 1)
        server.ends(boards(2, 0, 0))


def boards_are_of_one_moment(program: str) -> None:
    """While A and B send events as fast as they can, each board's total is the sum of its stations'."""
    stop = threading.Event()
    # Fewer than a ledger takes, however quick the machine is.
    most = 16_000
    failed: list[BaseException] = []

    def send(server: Live, name: str) -> None:
        try:
            station = Station(server, name)
            number = 0
            while number < most and not stop.is_set():
                text = event(number, "Updated", "2026-03-01T10:00:00Z", number)
                station.sends(Frame(TEXT, text).bytes())
                station.receives(Frame(TEXT, f'[3,"{number + 1}",{{}}]'.encode(), False).bytes())
                number += 1
            station.leaves()
        except BaseException as how:
            failed.append(how)

    with Live(program) as server:
        threads = [threading.Thread(target=send, args=(server, name)) for name in "AB"]
        for thread in threads:
            thread.start()
        seen = set()
        for _ in range(100):
            totals = [
                [int(number) for number in re.findall("=([0-9]+)", line)]
                for line in server.board("north")
                if line.startswith("total ")
            ]
            if [a + b for a, b in zip(totals[1], totals[2])] != totals[0]:
                raise Differs(f"{totals} is not of one moment")
            seen.add(totals[0][0])
        stop.set()
        for thread in threads:
            thread.join(LONGEST_WAIT)
        if failed:
            raise Differs(f"a station: {failed[0]}")
        if len(seen) < 3:
            raise Differs("no event came meanwhile")
        server.says("close")
        if server.process.wait(LONGEST_WAIT):
            raise Differs(f"status {server.process.returncode}")


def sessions_are_reported(program: str) -> None:
    """The lines of `--log`, and the reasons of close frames."""
    with Live(program, "--log") as server:
        station = Station(server, "A")
        station.reports(0, 1, 0)
        station.leaves()
        for path, offer, code, reason in (
            ("/ocpp/CS-09", OFFER, 1008, "UnknownStation"),
            ("/ocpp/a%00b%0Ac", OFFER, 1008, "UnknownStation"),
            ("/ocpp/A", OTHER, 1002, "NotOcpp"),
        ):
            client = Client(server)
            client.sends(request(path, offer))
            answer = bytearray()
            while not answer.endswith(reason.encode()) and (part := client.stream.recv(1)):
                answer += part
            if not answer.endswith(
                Frame(0x88, code.to_bytes(2, "big") + reason.encode(), False).bytes()
            ):
                raise Differs(f"{path} is answered {bytes(answer)!r}")
            client.ends()
        client = Client(server)
        client.sends(b"frob\r\n\r\n")
        client.is_refused()
        station = Station(server, "B")
        station.sends(Frame(0x82, b"[]").bytes())
        station.receives(Frame(0x88, (1003).to_bytes(2, "big") + b"BinaryMessage", False).bytes())
        station.ends()
        time.sleep(0.2)
        server.ends(
            boards(2, 0, 0),
            "session A begun\nsession A ended PeerClosed messages=3 changes=2\n"
            "session - refused UnknownStation CS-09\nsession - refused UnknownStation a\\?00b\\?0Ac\n"
            "session - refused NotOcpp A\nsession - refused HandshakeFailed\n"
            "session B begun\nsession B ended BinaryMessage messages=0 changes=0\n",
        )


def limits_nearly_used(program: str) -> None:
    """A limit that is nine tenths used is reported once, by whatever session of its station."""
    reported = (
        b"near A transactions 1 of 1\n",
        b"near A readings 17 of 18\n",
        b"near A events 18 of 20\n",
        b"near A changes 27 of 30\n",
    )
    # The report after so many events of A.
    behind = {1: 1, 16: 1, 17: 2, 18: 3}
    with Live(program, "--limits", "1", "20", "18", "30") as server:

        def has_reported(lines: int) -> None:
            deadline = time.monotonic() + LONGEST_WAIT
            while (
                server.has_reported() != b"".join(reported[:lines]) and time.monotonic() < deadline
            ):
                time.sleep(0.01)
            if (found := server.has_reported()) != b"".join(reported[:lines]):
                raise Differs(f"standard error has {found!r}")

        def sends(station: Station, number: int, reply: bytes = b"") -> None:
            text = event(number, "Updated", "2026-03-01T10:00:00Z", number)
            station.sends(Frame(TEXT, text).bytes())
            station.receives(
                Frame(TEXT, reply or f'[3,"{number + 1}",{{}}]'.encode(), False).bytes()
            )

        for number in range(18):
            station = Station(server, "A")
            sends(station, number)
            sends(station, number)
            station.leaves()
            if number + 1 in behind:
                has_reported(behind[number + 1])
        for change in range(19, 28, 2):
            server.answers("void A T1 0", f"accepted {change}\n")
            if change < 27:
                server.answers("restore A T1 0", f"accepted {change + 1}\n")
        has_reported(3)
        station = Station(server, "A")
        sends(station, 18, b'[4,"19","InternalError","ReadingsFull",{}]')
        sends(station, 17)
        has_reported(4)
        station.leaves()
        shown = "".join(server.board("north") + server.board("south"))
        server.ends(shown, b"".join(reported).decode())


def unfinished_handshake_ends(program: str) -> None:
    """A connection without a finished handshake ends after ten seconds, though it sends a byte each half a second."""
    with Live(program) as server:
        client = Client(server)
        began = time.monotonic()
        try:
            for byte in request("/ocpp/A", OFFER):
                client.sends(bytes([byte]))
                if select.select([client.stream], [], [], 0.5)[0]:
                    break
        except ConnectionError:
            pass
        took = time.monotonic() - began
        if not GREETING - 1 < took < GREETING + 3:
            raise Differs(f"it ends after {took:.1f} seconds")
        server.ends(boards(0, 0, 0))


def asked(server: Live, sent: bytes) -> tuple[str, str, bytes]:
    """The status line, the content type and the body that a browser is answered."""
    head, _, body = answered(server.board_port, sent).partition(b"\r\n\r\n")
    lines = head.decode().split("\r\n")
    fields = dict(line.split(": ", 1) for line in lines[1:])
    if fields.get("Connection") != "close" or fields.get("Content-Length") != str(len(body)):
        raise Differs(f"a browser is answered {head!r}")
    return lines[0], fields.get("Content-Type", ""), body


def boards_in_a_browser(program: str) -> None:
    """200, 400, 404 and 405, a head that never ends, and a request while stations are served."""
    with Live(program, "--board-port", "0") as server:
        station = Station(server, "A")
        station.reports(0, 1)
        text = "text/plain; charset=utf-8"
        north = boards(2, 0, 0).partition("board south")[0].encode()
        for sent, status, kind, wanted in (
            (b"GET /board/north HTTP/1.1\r\nHost: h\r\n\r\n", "200 OK", text, north),
            (
                b"GET / HTTP/1.1\r\nHost: h\r\n\r\n",
                "200 OK",
                "text/html; charset=utf-8",
                b'<a href="/board/south">',
            ),
            (b"GET /board/west HTTP/1.1\r\n\r\n", "404 Not Found", text, b""),
            (b"GET /frob HTTP/1.1\r\n\r\n", "404 Not Found", text, b""),
            (b"POST /board/north HTTP/1.1\r\n\r\n", "405 Method Not Allowed", text, b""),
            (b"frob\r\n\r\n", "400 Bad Request", text, b""),
            (b"GET / HTTP/1.1\r\nX: " + b"x" * 8_192, "400 Bad Request", text, b""),
        ):
            answer = asked(server, sent)
            if answer[:2] != (f"HTTP/1.1 {status}", kind) or wanted not in answer[2]:
                raise Differs(f"{sent[:40]!r} is answered {answer}")
        if asked(server, b"GET /board/north HTTP/1.1\r\n\r\n")[2] != north:
            raise Differs("the board in a browser is another")
        if answered(server.board_port, b"GET /frob HTTP/1.1\r\n\r\n") != NOT_FOUND:
            raise Differs("the bytes of an answer are others")
        with socket.create_connection(("127.0.0.1", server.board_port), LONGEST_WAIT) as stream:
            began = time.monotonic()
            stream.sendall(b"GET / HTTP/1.1\r\n")
            if stream.recv(1):
                raise Differs("a head that never ends is answered")
            took = time.monotonic() - began
        if not HEAD - 1 < took < HEAD + 2:
            raise Differs(f"a head that never ends is waited for {took:.1f} seconds")
        station.reports(1)
        server.ends(boards(2, 0, 0))


def no_memory_for_a_board(program: str) -> None:
    """503 where a long board finds no memory, and the board once there is some."""
    with Live(program, "--board-port", "0") as server:
        for number in range(1_000):
            text = FIRST.decode().replace('"T1"', f'"T{number}"')
            server.answers(f"msg A {text}", '[3,"1",{}]\n')
        request = b"GET /board/north HTTP/1.1\r\n\r\n"
        server.limit_data(1)
        if answered(server.board_port, request)[:34] != b"HTTP/1.1 503 Service Unavailable\r\n":
            raise Differs("a board without memory is not answered by 503")
        server.limit_data()
        status, _, body = asked(server, request)
        if status != "HTTP/1.1 200 OK" or body.count(b"\ntx t") != 1_000:
            raise Differs(f"then {status} and {len(body)} bytes come")
        server.ends(body.decode() + board("south", {"C": 0}))


SCENES: tuple[Callable[[str], None], ...] = (
    sessions_in_turn,
    third_session_ends_the_first,
    silent_station_comes_again,
    end_while_clients_are_silent,
    half_open_connections_hold_no_station,
    client_takes_no_bytes,
    operator_voids_between_events,
    replies_have_the_time_of_the_host,
    faults_of_lines,
    operator_delivers_and_asks,
    input_ends_within_a_line,
    an_interrupt_writes_no_board,
    boards_are_of_one_moment,
    sessions_are_reported,
    limits_nearly_used,
    unfinished_handshake_ends,
    boards_in_a_browser,
    no_memory_for_a_board,
)


if __name__ == "__main__":
    sys.exit(play("living", __doc__, SCENES))
