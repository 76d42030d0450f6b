"""Plays whole servers with clients of their own, and compares what is answered, written and reported, byte for byte.

    tests/one scenes.serving PROGRAM

PROGRAM `serve`s the stations A and B of site north and C of site south, once or more often a scene: connections
that are silent, fail or are cut, after each byte of a session and of a request too, many at once, an event that is
sent again, and the lines of a viewer; then eight stations of two sites, whose drawn events a replay answers too; and
a simulated station whose connection breaks.
What has to come of it are the frames (RFC 6455) behind the answers to the handshakes, the boards when all
connections have ended, nothing else, and status 0; of the simulated station a fault, and status 1.

Exit status: 0; 1 when a scene is not as it should be; 2 when the program can't be started.
"""

import os
import re
import shutil
import subprocess
import sys
import tempfile
import threading
from collections.abc import Callable, Iterator
from concurrent.futures import ThreadPoolExecutor
from pathlib import Path
from typing import NamedTuple

from tests.scenes.client import (
    FIRST,
    LONGEST_WAIT,
    OFFER,
    REPLIES,
    SECOND,
    TEXT,
    TEXT_BEGINS,
    Client,
    Differs,
    Frame,
    Station,
    close,
    request,
)
from tests.scenes.drawn import drawn_messages
from tests.scenes.playing import play
from tests.scenes.servers import PARTS, Server, boards

# How many connections a server serves at most.
MOST_CONNECTIONS = 64

# Loaded before the C library: the socket that connects first can't be read any more after two reads.
BREAKS = r"""
#define _GNU_SOURCE
#include <dlfcn.h>
#include <errno.h>
#include <sys/socket.h>
static int first = -1, reads;
int connect(int socket, const struct sockaddr *address, socklen_t length) {
    int (*call)(int, const struct sockaddr *, socklen_t) = dlsym(RTLD_NEXT, "connect");
    if (first < 0) first = socket;
    return call(socket, address, length);
}
ssize_t recv(int socket, void *bytes, size_t length, int flags) {
    ssize_t (*call)(int, void *, size_t, int) = dlsym(RTLD_NEXT, "recv");
    if (socket != first || ++reads <= 2) return call(socket, bytes, length, flags);
    errno = ECONNRESET;
    return -1;
}
"""


class Whole(NamedTuple):
    """What a client sends in a whole session of A, and what is answered once so many bytes of it have come."""

    sent: bytes
    answers: list[tuple[int, bytes]]

    def answers_to(self, given: int) -> list[bytes]:
        return [answer for end, answer in self.answers if end <= given]


def whole_session() -> Whole:
    sent, answers = b"", []
    for text, reply in zip((FIRST, SECOND), REPLIES):
        sent += Frame(TEXT, text).bytes()
        answers.append((len(sent), Frame(TEXT, reply, False).bytes()))
    return Whole(sent + close(1000).bytes(), answers)


def boards_come_when_all_have_ended(program: str) -> None:
    with Server(program, 2) as server:
        a, c = Station(server, "A"), Station(server, "C")
        a.reports(0)
        a.leaves()
        if server.has_written():
            raise Differs("a board is written while C is connected")
        c.reports(0)
        c.leaves()
        server.ends(boards(1, 0, 1))


def event_is_sent_again_after_a_cut(program: str) -> None:
    """Its reply was read or lost; it counts once."""
    with Server(program, 4) as server:
        for cut in (Station.ends, Station.fails):
            station = Station(server, "A")
            station.reports(0)
            cut(station)
        station = Station(server, "A")
        station.sends(Frame(TEXT, FIRST).bytes())
        station.fails()
        station = Station(server, "A")
        station.reports(0)
        station.leaves()
        server.ends(boards(1, 0, 0))


def silent_connections_hold_no_other(program: str) -> None:
    """A server that serves its connections one after the other never answers B here."""
    with Server(program, 4) as server:
        client, a = Client(server), Station(server, "A")
        first = Frame(TEXT, FIRST).bytes()
        a.sends(first[:100])
        for name in ("B", "C"):
            station = Station(server, name)
            station.reports(0, 1)
            station.leaves()
        a.sends(first[100:])
        a.receives(Frame(TEXT, REPLIES[0], False).bytes())
        a.leaves()
        client.ends()
        server.ends(boards(1, 2, 2))


def stations_at_once(program: str) -> None:
    """Two sessions of each station, as many as it may have, send the same two events at once."""
    names = "AABBCC"
    together = threading.Barrier(len(names))

    def play(server: Server, name: str) -> None:
        station = Station(server, name)
        together.wait(LONGEST_WAIT)
        station.reports(0, 1, 0)
        station.leaves()

    with Server(program, len(names)) as server, ThreadPoolExecutor(len(names)) as threads:
        for played in [threads.submit(play, server, name) for name in names]:
            played.result()
        server.ends(boards(2, 2, 2))


def connections_that_fail_count_as_ended(program: str) -> None:
    with Server(program, 6) as server:
        Client(server).ends()
        Client(server).fails()
        for sent in (b"\x16\x03\x01\r\n\r\n", b"GET /ocpp/A HTTP/1.1\r\nHost: h\r\n\r\n"):
            client = Client(server)
            client.sends(sent)
            client.is_refused()
        station = Station(server, "B")
        station.sends(Frame(TEXT_BEGINS, FIRST).bytes())
        station.ends()
        station = Station(server, "B")
        station.reports(0)
        station.leaves()
        server.ends(boards(0, 1, 0))


def one_live_line_a_site(program: str) -> None:
    """A glance shows each site's name and totals; the last, two seconds later, shows the event that came before it."""
    for glances in (1, 3):
        with Server(program, 1, "--watch", str(glances)) as server:
            station = Station(server, "C")
            station.reports(0)
            station.leaves()
            none, one = (re.escape(PARTS[events].partition("\n")[0]) for events in (0, 1))
            any_glance = f"live north\n{none}\nlive south\n(?:{none}|{one})\n"
            last = f"live north\n{none}\nlive south\n{one}\n"
            server.ends(
                boards(0, 0, 1), any_glance if glances == 1 else any_glance + any_glance + last
            )


def cuts(program: str, places: int) -> Iterator[tuple[Server, list[tuple[int, bool]]]]:
    """Servers for connections that are cut at each of so many places, once ended and once failing."""
    left = [(given, fails) for given in range(places) for fails in (False, True)]
    while left:
        with Server(program, len(left[:MOST_CONNECTIONS])) as server:
            yield server, left[:MOST_CONNECTIONS]
        del left[:MOST_CONNECTIONS]


def session_ends_or_fails_after_each_byte(program: str) -> None:
    """All messages that were whole before are answered, and their events kept, each once."""
    whole = whole_session()
    for server, cut in cuts(program, len(whole.sent)):
        for given, fails in cut:
            station = Station(server, "A")
            station.sends(whole.sent[:given])
            try:
                station.receives(b"".join(whole.answers_to(given)))
                station.fails() if fails else station.ends()
            except Differs as how:
                raise Differs(f"behind byte {given}: {how}") from None
        server.ends(boards(max(len(whole.answers_to(given)) for given, _ in cut), 0, 0))


def request_ends_or_fails_after_each_byte(program: str) -> None:
    """Nothing is answered."""
    whole = request("/ocpp/A", OFFER)
    for server, cut in cuts(program, len(whole)):
        for given, fails in cut:
            client = Client(server)
            client.sends(whole[:given])
            try:
                client.fails() if fails else client.ends()
            except Differs as how:
                raise Differs(f"behind byte {given}: {how}") from None
        server.ends(boards(0, 0, 0))


class Played(NamedTuple):
    """What a station sends, and what it is answered."""

    station: str
    messages: list[bytes]
    replies: list[bytes]


def replayed(program: str, stations: tuple[str, ...], count: int) -> tuple[list[Played], str]:
    """What each station sends, with what a replay answers one station after the other, and its boards."""
    names = [station.partition("/")[2] for station in stations]
    sent = {name: drawn_messages(name, count) for name in names}
    lines = [b"station " + station.replace("/", " ").encode() for station in stations]
    lines += [b"msg " + name.encode() + b" " + message for name in names for message in sent[name]]
    lines += [
        b"board " + site.encode()
        for site in dict.fromkeys(station.partition("/")[0] for station in stations)
    ]
    script = b"\n".join(lines) + b"\n"
    ended = subprocess.run(
        [program, "replay"], input=script, capture_output=True, check=True, timeout=LONGEST_WAIT
    )
    texts = ended.stdout.split(b"\n", count * len(names))
    played = [
        Played(name, sent[name], texts[at * count : (at + 1) * count])
        for at, name in enumerate(names)
    ]
    return played, texts[-1].decode()


def eight_stations_on_two_sites(program: str) -> None:
    """All at once: each answer, and the boards at the end, are those of a replay; a viewer's totals never go back."""
    stations = tuple(f"{site}/{site}{number}" for number in range(4) for site in "ab")
    played, wanted = replayed(program, stations, 1_000)
    if (
        len(
            {
                reply
                for station in played
                for reply in station.replies
                if b"ConflictingEvent" in reply
            }
        )
        < 8
    ):
        raise Differs("the drawn events have too few conflicts")

    def play(server: Server, reported: Played) -> None:
        station = Station(server, reported.station)
        for message, reply in zip(reported.messages, reported.replies):
            station.sends(Frame(TEXT, message).bytes())
            station.receives(Frame(TEXT, reply, False).bytes())
        station.leaves()

    totals = (
        r"total events=[0-9]+ voided=0 transactions=[0-9]+ complete=[0-9]+ missing=[0-9]+ "
        r"up=[0-9]+ down=[0-9]+ export_up=0 export_down=0\n"
    )
    with (
        Server(program, len(stations), "--watch", "2", stations=stations) as server,
        ThreadPoolExecutor(len(stations)) as threads,
    ):
        for ended in [threads.submit(play, server, reported) for reported in played]:
            ended.result()
        lines = server.ends(wanted, f"(?:live a\n{totals}live b\n{totals}){{2}}")
    for site in "ab":
        seen = [int(events) for events in re.findall(rf"live {site}\ntotal events=([0-9]+)", lines)]
        if seen != sorted(seen):
            raise Differs(f"the totals of {site} went back: {seen}")


def simulated_station_fails(program: str) -> None:
    """The connection of one of two simulated stations breaks in its session: `sim` reports it, and no board."""
    compiler = shutil.which("cc")
    if compiler is None:
        print("simulated_station_fails: not tried, there is no cc")
        return
    with tempfile.TemporaryDirectory() as folder:
        breaks = Path(folder, "breaks.so")
        command = [compiler, "-shared", "-fPIC", "-x", "c", "-", "-o", str(breaks), "-ldl"]
        subprocess.run(command, input=BREAKS, text=True, check=True)
        run = subprocess.run(
            [program, "sim", "--stations", "2", "--events", "3"],
            env={**os.environ, "LD_PRELOAD": str(breaks)},
            capture_output=True,
            timeout=LONGEST_WAIT,
            check=False,
        )
    ended = (run.returncode, run.stdout, run.stderr)
    if ended != (1, b"", b"fault ReadFault\n"):
        raise Differs(f"sim ends with {ended}")


SCENES: tuple[Callable[[str], None], ...] = (
    boards_come_when_all_have_ended,
    event_is_sent_again_after_a_cut,
    silent_connections_hold_no_other,
    stations_at_once,
    connections_that_fail_count_as_ended,
    one_live_line_a_site,
    session_ends_or_fails_after_each_byte,
    request_ends_or_fails_after_each_byte,
    eight_stations_on_two_sites,
    simulated_station_fails,
)


if __name__ == "__main__":
    sys.exit(play("serving", __doc__, SCENES))
