"""Plays a server with a journal, kills it and restores it, and compares what it writes, answers and reports.

    tests/one scenes.journalling PROGRAM

PROGRAM serves the stations A and B of site north and C of site south by `serve --live --journal`, or those of a
script by `serve --live --restore`, anew in each scene: what is written before an answer and what is not, each front
of a journal restored, a journal whose reader stalls or that can't be written, cut lines, messages with line feeds,
and kills while stations send. What has to come of it are the bytes of the journal, the answers, the boards, by hand
or by a replay of the journal, and the exit status.

Exit status: 0; 1 when a scene is not as it should be; 2 when the program can't be started.
"""

import calendar
import fcntl
import os
import re
import resource
import subprocess
import sys
import tempfile
import threading
import time
from collections.abc import Callable, Iterator
from concurrent.futures import ThreadPoolExecutor
from contextlib import contextmanager
from pathlib import Path

from tests.scenes.client import (
    FIRST,
    LONGEST_WAIT,
    NOT_JSON,
    SECOND,
    TEXT,
    Differs,
    Frame,
    Station,
    answered,
    event,
)
from tests.scenes.drawn import drawn_messages
from tests.scenes.playing import play
from tests.scenes.servers import NONE, STATIONS, TWO, Live, board, boards, dismissed

# How a run begins in a journal, and what declares the stations, up to the mark that ends a new journal's head.
RUN = b"# a run of ocpp_board begins\n"
LIMITS = b"limits 1024 16384 16384 9223372036854775808\n"
DECLARED = (
    LIMITS + b"station north A\n" + LIMITS + b"station north B\n" + LIMITS + b"station south C\n"
    b"period north 900\nperiod south 900\n#\n"
)
# What goes behind a journal that is restored.
LISTEN = b"#\nlisten\n"
LINES = (b"msg A " + FIRST + b"\n", b"msg A " + SECOND + b"\n")
# How many bytes the pipe of a stalled journal takes, and how long an answer that is held back is waited for.
PIPE, HELD = 4_096, 1.0
# How many events of a station a scene comes to at most: no limit is nearly used then.
MOST_EVENTS = 14_000


class Journalled(Live):
    """A server with a journal, or one that is restored, and its operator; it reports on standard error."""

    def __init__(
        self, program: str, journal: int, *words: str, restored: bytes = b"", reported: str = ""
    ) -> None:
        self.reported = tempfile.TemporaryFile()
        options = ["--journal", *(["--restore"] if restored else STATIONS), *words]
        # A limit of file size is an error of its writes then, and no signal that ends it.
        self.starts(
            [program, "serve", "--live", *options], journal, subprocess.PIPE, restore_signals=False
        )
        assert self.process.stderr
        self.out = self.process.stderr
        if restored:
            self.input.write(restored + LISTEN)
        self.hears(reported)
        self.listens(*words)

    def hears(self, reported: str) -> None:
        """It has to report this."""
        for wanted in reported.splitlines(keepends=True):
            if (read := self.line().decode()) != wanted:
                raise Differs(f"it reports {read!r}, and not {wanted!r}")

    def limit_file(self, limit: int | None = None) -> None:
        """Sets how long a file it may write: without a limit as long as it likes."""
        wanted = resource.RLIM_INFINITY if limit is None else limit
        resource.prlimit(self.process.pid, resource.RLIMIT_FSIZE, (wanted, resource.RLIM_INFINITY))

    def kill(self) -> None:
        self.process.kill()
        self.process.wait(LONGEST_WAIT)


@contextmanager
def folder() -> Iterator[Path]:
    """Where a journal may be."""
    with tempfile.TemporaryDirectory() as name:
        yield Path(name) / "journal"


def begun(program: str, journal: Path, *words: str) -> Journalled:
    """A server that writes a new journal."""
    with open(journal, "ab") as file:
        return Journalled(program, file.fileno(), *words)


def restored(program: str, journal: Path, reported: str, *words: str) -> Journalled:
    """A server that goes on behind a journal, and reports this of it."""
    with open(journal, "ab") as file:
        return Journalled(
            program, file.fileno(), *words, restored=journal.read_bytes(), reported=reported
        )


def one_event(program: str, journal: Path) -> None:
    """A run that takes the first event of one station."""
    with begun(program, journal) as server:
        station = Station(server, "A")
        station.reports(0)
        station.leaves()
        server.ends(boards(1, 0, 0))


def holds(journal: Path, wanted: bytes) -> None:
    """The journal has to hold these bytes."""
    if (held := journal.read_bytes()) != wanted:
        at = next(
            (at for at, pair in enumerate(zip(held, wanted)) if pair[0] != pair[1]),
            min(len(held), len(wanted)),
        )
        raise Differs(
            f"behind byte {at} the journal has {held[at:at + 300]!r}, and not {wanted[at:at + 300]!r}"
        )


def replayed(program: str, script: bytes, *sites: str) -> tuple[list[str], str]:
    """What a replay answers to the lines of a script, and the boards of these sites behind it."""
    asked = b"".join(f"board {site}\n".encode() for site in sites)
    ended = subprocess.run(
        [program, "replay"],
        input=script + asked,
        capture_output=True,
        timeout=LONGEST_WAIT,
        check=True,
    )
    answers, _, shown = ended.stdout.decode().partition("board ")
    return answers.splitlines(), "board " + shown


def is_the_boards(program: str, journal: Path, wanted: str) -> None:
    """The journal is a script that ends in these boards; each of its lines is accepted."""
    answers, found = replayed(program, journal.read_bytes(), "north", "south")
    if left := [answer for answer in answers if not answer.startswith(("[3,", "accepted "))]:
        raise Differs(f"a replay of the journal answers {left[:3]}")
    if found != wanted:
        raise Differs(f"a replay of the journal ends in\n{found}and not in\n{wanted}")


def sends(station: Station, text: bytes, reply: bytes) -> None:
    """Sends a message, which has to be answered so."""
    station.sends(Frame(TEXT, text).bytes())
    station.receives(Frame(TEXT, reply, False).bytes())


def rising(number: int) -> bytes:
    """An event of a transaction; the register rises by one with each."""
    return event(number, "Updated", "2026-03-01T10:00:00Z", number)


def risen(events: int) -> str:
    """A station's part of a board behind so many of these events, two or more."""
    up = 1_000 * (events - 1)
    return (
        f"total events={events} voided=0 transactions=1 complete=0 missing=0 up={up} down=0 export_up=0 export_down=0\n"
        f"evse 0 up={up} down=0 export_up=0 export_down=0\n"
        f"period 2026-03-01T10:00:00Z up={up} down=0 export_up=0 export_down=0\n"
        f"tx t1 evse=0 events={events} first=0 last={events - 1} complete=no missing=0 up={up} down=0 export_up=0 "
        "export_down=0\n"
    )


def reply_before_line(program: str) -> None:
    """When a reply has come, the line of its change is in the journal."""
    with folder() as journal, begun(program, journal) as server:
        wanted = RUN + DECLARED
        holds(journal, wanted)
        station = Station(server, "A")
        for number in range(100):
            sends(station, rising(number), f'[3,"{number + 1}",{{}}]'.encode())
            wanted += b"msg A " + rising(number) + b"\n"
            holds(journal, wanted)
        for at, line in enumerate(
            ("void A T1 7", "restore A T1 7", "void A T1 7", "erase A T1 7"), 101
        ):
            server.answers(line, f"accepted {at}\n")
            wanted += line.encode() + b"\n"
            holds(journal, wanted)
        server.answers("msg B " + FIRST.decode(), '[3,"1",{}]\n')
        holds(journal, wanted + b"msg B " + FIRST + b"\n")
        station.leaves()


# Limits and a station, in front of a journal; each front of it is restored.
SMALL = b"limits 4 8 8 9\nstation north A\n"


def small_journal(program: str, journal: Path, *words: str) -> bytes:
    """A journal of an event and of commands until it is erased. Gives its text."""
    # An event without readings, so that there are few fronts.
    short = re.sub(rb',"meterValue":.*', b"}]", FIRST)
    journal.write_bytes(SMALL)
    with restored(program, journal, "restored 0\n", *words) as server:
        station = Station(server, "A")
        sends(station, short, b'[3,"1",{}]')
        for change, line in enumerate(
            ("void A T1 0", "restore A T1 0", "void A T1 0", "erase A T1 0"), 2
        ):
            server.answers(line, f"accepted {change}\n")
        station.leaves()
        server.ends(board("north", {"A": 0}))
    commands = b"\nvoid A T1 0\nrestore A T1 0\nvoid A T1 0\nerase A T1 0\n"
    if not words:
        holds(journal, SMALL + RUN + b"msg A " + short + commands)
    return journal.read_bytes()


def each_front_is_restored(program: str, written: bytes) -> None:
    """Each front of a small journal, as a kill may leave it, gives the board of its complete lines."""
    none, one = (board("north", {"A": reported}) for reported in range(2))
    voided = none.replace("voided=0", "voided=1")
    # The report when so many lines that are no comments are complete, and how many changes they are.
    behind = ["", "", none, one, voided, one, voided, none]
    changes = [0, 0, 0, 1, 2, 3, 4, 5]

    def is_restored(cut: int) -> None:
        *lines, tail = written[:cut].split(b"\n")
        whole = sum(not line.startswith(b"#") for line in lines)
        fault = (
            '[4,"-1","RpcFrameworkError","NotJson",{}]'
            if tail.startswith(b"msg A ")
            else "fault BadLine"
        )
        left_out = ""
        if tail and not tail.startswith(b"#"):
            left_out = f"left out {len(lines) + 1} {fault}\n"
        ended = subprocess.run(
            [program, "serve", "--live", "--restore"],
            input=written[:cut] + LISTEN,
            capture_output=True,
            timeout=LONGEST_WAIT,
        )
        found = re.sub("listening 127.0.0.1:[0-9]+\n", "listening\n", ended.stdout.decode())
        wanted = f"{left_out}restored {changes[whole]}\nlistening\n{behind[whole]}"
        if ended.returncode or ended.stderr or found != wanted:
            raise Differs(
                f"behind byte {cut}: status {ended.returncode}, {ended.stderr!r}, {found!r} and not {wanted!r}"
            )

    with ThreadPoolExecutor(4) as threads:
        for _ in threads.map(is_restored, range(len(written) + 1)):
            pass


def restored_after_each_byte(program: str) -> None:
    """Each front of a journal gives the board of its complete lines."""
    with folder() as journal:
        each_front_is_restored(program, small_journal(program, journal))


def receipt_times(program: str) -> None:
    """The time of its receipt is in front of each line, and what reads the journal skips it."""
    with folder() as journal:
        bare = small_journal(program, journal)
        began = time.time_ns()
        written = small_journal(program, journal, "--receipt-times")
        ended = time.time_ns()
        lines = written.splitlines(keepends=True)
        noted = [
            at
            for at, line in enumerate(lines)
            if line.startswith((b"msg ", b"void ", b"restore ", b"erase "))
        ]
        times = []
        for at in noted:
            match = re.fullmatch(rb"# ([0-9-]{10}T[0-9:]{8})\.([0-9]{9})Z\n", lines[at - 1])
            if not match:
                raise Differs(f"in front of {lines[at]!r} is {lines[at - 1]!r}")
            second = calendar.timegm(time.strptime(match[1].decode(), "%Y-%m-%dT%H:%M:%S"))
            times.append(second * 1_000_000_000 + int(match[2]))
        if not began <= times[0] or times != sorted(times) or not times[-1] <= ended:
            raise Differs(f"the times are {times}, and the run was from {began} to {ended}")
        if (
            len(noted) != 5
            or b"".join(line for at, line in enumerate(lines) if at + 1 not in noted) != bare
        ):
            raise Differs(f"the journal is {written!r}")
        each_front_is_restored(program, written)
    with folder() as journal:
        with begun(program, journal, "--receipt-times") as server:
            for name in "AB":
                station = Station(server, name)
                station.reports(0, 1)
                station.leaves()
            server.answers("void B T1 1", "accepted 3\n")
            server.answers("restore B T1 1", "accepted 4\n")
            server.ends(boards(2, 2, 0))
        is_the_boards(program, journal, boards(2, 2, 0))
        with restored(program, journal, "restored 6\n", "--receipt-times") as server:
            station = Station(server, "C")
            station.reports(0)
            station.leaves()
            server.ends(boards(2, 2, 1))
        is_the_boards(program, journal, boards(2, 2, 1))
        # A run without the option goes on in the same file, and writes none.
        with restored(program, journal, "restored 7\n") as server:
            before = journal.read_bytes()
            station = Station(server, "C")
            station.reports(0, 1)
            station.leaves()
            server.ends(boards(2, 2, 2))
        holds(journal, before + b"msg C " + SECOND + b"\n")
        is_the_boards(program, journal, boards(2, 2, 2))


def restored_twice(program: str) -> None:
    """Three runs of one journal: the boards go on where they were."""
    with folder() as journal:
        one_event(program, journal)
        with restored(program, journal, "restored 1\n") as server:
            for name in "AB":
                station = Station(server, name)
                station.reports(0, 1)
                station.leaves()
            server.ends(boards(2, 2, 0))
        with restored(program, journal, "restored 4\n") as server:
            server.answers("total A", TWO + "\n")
            server.answers("void A T1 1", "accepted 3\n")
            server.answers("restore A T1 1", "accepted 4\n")
            station = Station(server, "C")
            station.reports(0)
            station.leaves()
            server.ends(boards(2, 2, 1))
        is_the_boards(program, journal, boards(2, 2, 1))


def two_threads_and_a_void(program: str) -> None:
    """Two connections of a station send at once, and the operator voids in between; the journal ends in the boards."""
    drawn = drawn_messages("A", 600)
    together = threading.Barrier(3)
    accepted: list[int] = []

    def send(server: Journalled, messages: list[bytes]) -> None:
        station = Station(server, "A")
        together.wait(LONGEST_WAIT)
        for message in messages:
            station.sends(Frame(TEXT, message).bytes())
            head = station.stream.recv(2, 0x100)  # MSG_WAITALL
            reply = station.stream.recv(head[1], 0x100)
            if not reply.startswith((b"[3,", b"[4,")):
                raise Differs(f"{message!r} is answered {reply!r}")
        station.leaves()

    with folder() as journal, begun(program, journal) as server, ThreadPoolExecutor(2) as threads:
        played = [threads.submit(send, server, drawn[at::2]) for at in range(2)]
        together.wait(LONGEST_WAIT)
        for seq_no in range(32):
            server.says(f"void A T{seq_no % 2} {seq_no}")
            if match := re.fullmatch(rb"accepted ([0-9]+)\n", server.line()):
                accepted.append(int(match[1]))
        for ended in played:
            ended.result()
        for transaction in range(2):
            server.says(f"void A T{transaction} 20")
            server.line()
        server.close()
        shown = server.rest().decode()
        if server.process.wait(LONGEST_WAIT):
            raise Differs(f"status {server.process.returncode}")
        if accepted != sorted(accepted):
            raise Differs(f"the voids are accepted as {accepted}")
        is_the_boards(program, journal, shown)
        lines = journal.read_bytes().splitlines()
        if sum(line.startswith(b"msg A ") for line in lines) < 100 or not any(
            line.startswith(b"void ") for line in lines
        ):
            raise Differs("the journal has too few lines")


def stalled_journal(program: str) -> None:
    """Nobody reads the journal: changes and boards are held back, and viewers and questions about other stations are
    not."""
    read, write = os.pipe()
    fcntl.fcntl(write, fcntl.F_SETPIPE_SZ, PIPE)
    try:
        server = Journalled(program, write, "--board-port", "0", "--watch", "600")
    finally:
        os.close(write)
    taken = bytearray()

    def take() -> None:
        while part := os.read(read, 65_536):
            taken.extend(part)

    def next_of(kind: str) -> str:
        """The next line that is none of the viewers', or the next of theirs."""
        deadline = time.monotonic() + LONGEST_WAIT
        while time.monotonic() < deadline:
            lines = [server.line().decode()]
            if lines[0].startswith("live "):
                lines.append(server.line().decode())
            if (len(lines) == 2) == (kind == "live"):
                return "".join(lines)
        raise Differs("a question is not answered, or no totals come, while the journal stalls")

    def asks(line: str, answer: str) -> None:
        server.says(line)
        if (found := next_of("answer")) != answer:
            raise Differs(f"{line!r} is answered {found!r} while the journal stalls")

    with server:
        station, other = Station(server, "A"), Station(server, "A")
        # A session is let in under its station's lock, after the handshake's answer.
        other.sends(Frame(TEXT, b'[2,"g","StatusNotification",{}]').bytes())
        other.receives(Frame(TEXT, b'[3,"g",{}]', False).bytes())
        number = 0
        try:
            station.stream.settimeout(HELD)
            while number < MOST_EVENTS:
                sends(station, rising(number), f'[3,"{number + 1}",{{}}]'.encode())
                number += 1
        except TimeoutError:
            pass
        station.stream.settimeout(LONGEST_WAIT)
        if not 2 <= number <= PIPE // len(rising(0)):
            raise Differs(f"{number} events are answered before the journal stalls")
        began = time.monotonic()
        other.sends(Frame(TEXT, b'[2,"h","StatusNotification",{}]').bytes())
        other.receives(Frame(TEXT, b'[3,"h",{}]', False).bytes())
        asks("total C", NONE + "\n")
        asks("total B", NONE + "\n")
        found = list[bytes]()

        def browse() -> None:
            found.append(answered(server.board_port, b"GET /board/south HTTP/1.1\r\n\r\n"))

        browser = threading.Thread(target=browse)
        browser.start()
        for _ in range(2):
            next_of("live")
        if found:
            raise Differs(f"a browser is answered {found!r} while the journal stalls")
        if (took := time.monotonic() - began) > 8:
            raise Differs(f"what does not wait took {took:.1f} seconds while the journal stalls")
        reader = threading.Thread(target=take)
        reader.start()
        browser.join(LONGEST_WAIT)
        south = boards(0, 0, 0).partition("board south")
        if not (found and found[0].endswith((south[1] + south[2]).encode())):
            raise Differs(f"a browser is answered {found!r} once the journal goes on")
        station.receives(Frame(TEXT, f'[3,"{number + 1}",{{}}]'.encode(), False).bytes())
        for later in range(number + 1, number + 20):
            sends(station, rising(later), f'[3,"{later + 1}",{{}}]'.encode())
        server.says("close")
        server.close()
        shown = re.sub("live .*\ntotal .*\n", "", server.rest().decode())
        if server.process.wait(LONGEST_WAIT):
            raise Differs(f"status {server.process.returncode}")
        reader.join(LONGEST_WAIT)
        os.close(read)
        if bytes(taken) != RUN + DECLARED + b"".join(
            b"msg A " + rising(at) + b"\n" for at in range(number + 20)
        ):
            raise Differs(
                f"the journal has {len(taken)} bytes, and ends with {bytes(taken[-300:])!r}"
            )
        if "station A\n" + risen(number + 20) not in shown:
            raise Differs(f"these boards are written:\n{shown}")


def line_feeds_between_tokens(program: str) -> None:
    """Messages with line feeds and carriage returns between tokens, and in a string's escapes, and a long name."""
    name = "N" * 48
    first, second = FIRST.decode(), SECOND.decode()
    spread = first.replace(",", ",\n", 1).replace(':"Started"', '\r\n:\r"Started"') + "\r"
    escaped = second.replace('[2,"2"', '[2,"\\n\\r"').replace(
        '"seqNo"', '"customData":{"vendorId":"a\\r\\nb"},\n"seqNo"'
    )
    third = event(2, "Ended", "2026-03-01T10:14:30Z", 1300).decode().replace('[2,"3"', '[2,"\\n"')
    sent = (
        (spread, b'[3,"1",{}]'),
        (escaped, rb'[3,"\u000a\u000d",{}]'),
        (third, rb'[3,"\u000a",{}]'),
    )
    declared = LIMITS + f"station north {name}\n".encode()
    with folder() as journal:
        journal.write_bytes(declared)
        with restored(program, journal, "restored 0\n") as server:
            station = Station(server, name)
            sends(
                station,
                first.replace("Updated", "Upda\nted").replace("Started", "Start\ned").encode(),
                NOT_JSON,
            )
            for text, reply in sent:
                sends(station, text.encode(), reply)
            station.leaves()
            shown = server.board("north")
            server.ends("".join(shown))
        lines = [text.replace("\n", " ").replace("\r", " ") for text, _ in sent]
        if lines[2] != third or r"a\r\nb" not in lines[1]:
            raise Differs("the scene is none")
        holds(journal, declared + RUN + "".join(f"msg {name} {line}\n" for line in lines).encode())
        with restored(program, journal, "restored 3\n") as server:
            server.ends("".join(shown))
        if (
            "total events=3 voided=0 transactions=1 complete=1" not in shown[1]
            or f"station {name}\n" not in shown
        ):
            raise Differs(f"this is the board: {shown}")


def full_disk(program: str) -> None:
    """A line that can't be written to its end: its change is refused, and the server ends itself with its boards."""
    for room in (0, 1, 100):
        with folder() as journal, begun(program, journal) as server:
            station, other = Station(server, "A"), Station(server, "B")
            station.reports(0)
            written = journal.read_bytes()
            most = len(written) + room
            server.limit_file(most)
            sends(station, SECOND, b'[4,"2","InternalError","ChangesExhausted",{}]')
            # There is room again, and what was refused is not written all the same.
            server.limit_file()
            for client in (station, other):
                client.receives(dismissed("ServerCloses"))
                client.ends()
            # Its input is still open.
            server.has_ended(boards(1, 0, 0) + "fault WriteFault\n", status=1)
            holds(journal, written + LINES[1][:room])
            line = written.count(b"\n") + 1
            reported = {
                0: "",
                1: f"left out {line} fault BadLine\n",
                100: f"left out {line} {NOT_JSON.decode()}\n",
            }[room]
            with restored(program, journal, reported + "restored 1\n") as again:
                station = Station(again, "A")
                station.reports(1)
                station.leaves()
                again.ends(boards(2, 0, 0))


def nothing_is_accepted_behind_a_fault(program: str) -> None:
    """While the server ends, an operator's command is refused, too."""
    with folder() as journal, begun(program, journal) as server:
        server.answers("msg A " + FIRST.decode(), '[3,"1",{}]\n')
        written = journal.read_bytes()
        server.limit_file(len(written))
        server.answers("void A T1 0", "refused ChangesExhausted\n")
        server.has_ended(boards(1, 0, 0) + "fault WriteFault\n", status=1)
        holds(journal, written)


def quiet_messages(program: str) -> None:
    """Repeats, refusals, other messages and an operator's questions are not written."""
    with folder() as journal, begun(program, journal) as server:
        station = Station(server, "A")
        station.reports(0, 1)
        wanted = RUN + DECLARED + b"".join(LINES)
        holds(journal, wanted)
        station.reports(0, 1)
        sends(
            station,
            event(1, "Updated", "2026-03-01T10:14:00Z", 1300),
            b'[4,"2","GenericError","ConflictingEvent",{}]',
        )
        sends(station, b"frob", NOT_JSON)
        sends(station, b'[2,"s","StatusNotification",{}]', b'[3,"s",{}]')
        station.sends(Frame(TEXT, b'[3,"x",{}]').bytes())
        station.sends(Frame(TEXT, b'[2,"h","Heartbeat",{}]').bytes())
        station.receives(
            Frame(TEXT, b'[3,"h",{"currentTime":"2026-03-01T10:00:00Z"}]', False).bytes()[:10]
        )
        station.stream.recv(100)
        for line, answer in (
            ("total A", TWO),
            ("energy A", "energy up=200000 down=0"),
            ("export A", "export up=0 down=0"),
            ("restore A T1 1", "refused NotVoided"),
            ("void A T1 5", "refused NoSuchEvent"),
            ("void Z T1 5", "fault UnknownStation"),
            ("frob", "fault BadLine"),
            ("msg A " + FIRST.decode(), '[3,"1",{}]'),
            ("station north D", "fault DeclaredLate"),
        ):
            server.answers(line, answer + "\n")
        server.says("# a comment")
        server.board("north")
        holds(journal, wanted)
        station.leaves()
        server.ends(boards(2, 0, 0))
        holds(journal, wanted)


def restored_lines_are_not_written_again(program: str) -> None:
    """A run that was restored writes the comment of its run, and what is new."""
    with folder() as journal:
        one_event(program, journal)
        with restored(program, journal, "restored 1\n") as server:
            holds(journal, RUN + DECLARED + LINES[0] + RUN)
            station = Station(server, "A")
            station.reports(0, 1)
            station.leaves()
            server.ends(boards(2, 0, 0))
        holds(journal, RUN + DECLARED + LINES[0] + RUN + LINES[1])


def left_out_lines(program: str) -> None:
    """Lines that changed nothing are reported with their numbers; repeats and questions are not."""
    other = event(1, "Updated", "2026-03-01T10:14:00Z", 1300)
    script = b"\n".join(
        (
            b"station north A",
            b"station north A",
            b"frob",
            b"",
            b"# a comment",
            b"msg A " + FIRST,
            b"msg A " + FIRST,
            b"msg A " + SECOND,
            b"msg A " + other,
            b"void A T1 9",
            b"msg Z []",
            b"station north B",
            b"energy A",
            b'msg A [2,"s","StatusNotification",{}]',
            b"msg A frob",
            b"void A T1 1",
            b"restore A T1 1",
            b"x" * 262_401,
            b"",
        )
    )
    reported = (
        "left out 2 fault StationTwice\nleft out 3 fault BadLine\n"
        'left out 9 [4,"2","GenericError","ConflictingEvent",{}]\nleft out 10 refused NoSuchEvent\n'
        "left out 11 fault UnknownStation\nleft out 12 fault DeclaredLate\n"
        'left out 15 [4,"-1","RpcFrameworkError","NotJson",{}]\nleft out 18 fault LineTooLong\nrestored 4\n'
    )
    with folder() as journal:
        journal.write_bytes(script)
        with restored(program, journal, reported, "--allow-left-out") as server:
            server.answers("total A", TWO + "\n")
            server.ends(board("north", {"A": 2}))
        holds(journal, script + RUN)


def lost_lines_end_the_server(program: str) -> None:
    """A script with a line that left nothing, and that no kill cut, is served only where that is allowed."""
    script = b"station north A\nmsg A " + FIRST + b"\nmsg B " + FIRST + b"\n"
    reported = b"left out 3 fault UnknownStation\n"
    ended = subprocess.run(
        [program, "serve", "--live", "--journal", "--restore"],
        input=script + LISTEN,
        capture_output=True,
        timeout=LONGEST_WAIT,
    )
    if (ended.returncode, ended.stdout, ended.stderr) != (1, b"", reported + b"fault LeftOut\n"):
        raise Differs(f"status {ended.returncode}, {ended.stdout!r}, {ended.stderr!r}")
    with folder() as journal:
        journal.write_bytes(script)
        with restored(
            program, journal, f"{reported.decode()}restored 1\n", "--allow-left-out"
        ) as server:
            server.ends(board("north", {"A": 1}))
        # A station is added by its declaration in front of the journal.
        journal.write_bytes(b"station north B\n" + script)
        with restored(program, journal, "restored 2\n") as server:
            server.ends(board("north", {"B": 1, "A": 1}))


def declarations_written_once(program: str) -> None:
    """The stations are declared once in a journal of two runs, and keep their periods and limits."""
    with folder() as journal:
        with begun(program, journal, "--period", "300") as server:
            north = board("north", {"A": 0, "B": 0}).replace("=900", "=300")
            south = board("south", {"C": 0}).replace("=900", "=300")
            server.ends(north + south)
        with restored(program, journal, "restored 0\n") as server:
            server.ends(north + south)
        holds(journal, RUN + DECLARED.replace(b" 900\n", b" 300\n") + RUN)


def orders_written_once(program: str) -> None:
    """A server by moment writes so, and a restored one reads so: the end's first reading is that of the start."""
    rise = "up=200000 down=0 export_up=0 export_down=0\n"
    total = f"total events=3 voided=0 transactions=1 complete=1 missing=0 {rise}"
    period = f"period 2026-03-01T10:00:00Z {rise}"
    reported = f"{total}evse 0 {rise}{period}tx t1 evse=0 events=3 first=0 last=2 complete=yes missing=0 {rise}"
    written = (
        f"board north period=900 order=moment\n{total}{period}station A\n{reported}station B\n{NONE}\nend\n"
        f"board south period=900 order=moment\n{NONE}\nstation C\n{NONE}\nend\n"
    )
    with folder() as journal:
        with begun(program, journal, "--order", "moment") as server:
            station = Station(server, "A")
            end = event(2, "Ended", "2026-03-01T10:00:00Z", 1000)
            for number, text in enumerate((FIRST, SECOND, end), 1):
                sends(station, text, f'[3,"{number}",{{}}]'.encode())
            station.leaves()
            server.answers("total A", total)
            server.ends(written)
        head = journal.read_bytes().split(b"\n#\n")[0].splitlines()
        for site in (b"north", b"south"):
            order, seconds = b"order " + site + b" moment", b"period " + site + b" 900"
            if head.count(order) != 1 or head.index(order) < head.index(seconds):
                raise Differs(f"the journal declares {head}")
        with restored(program, journal, "restored 3\n") as server:
            server.ends(written)
        is_the_boards(program, journal, written)
        if journal.read_bytes().count(b"\norder ") != 2:
            raise Differs("orders that were restored are written again")


def comment_after_a_cut_line(program: str) -> None:
    """An operator's line that a kill cut in two is no other command, by the comment behind it."""
    with folder() as journal:
        with begun(program, journal) as server:
            station = Station(server, "A")
            station.reports(0, 1)
            station.leaves()
            server.ends(boards(2, 0, 0))
        # What was cut from `void A T1 12`.
        cut = journal.read_bytes() + b"void A T1 1"
        journal.write_bytes(cut)
        number = cut.count(b"\n") + 1
        with restored(program, journal, f"left out {number} fault BadLine\nrestored 2\n") as server:
            server.answers("total A", TWO + "\n")
            server.answers("void A T1 0", "accepted 3\n")
            server.answers("erase A T1 0", "accepted 4\n")
            server.answers("msg A " + FIRST.decode(), '[3,"1",{}]\n')
            server.ends(boards(2, 0, 0))
        # In the journal the comment of the next run is behind it.
        holds(journal, cut + RUN + b"void A T1 0\nerase A T1 0\n" + LINES[0])
        with restored(program, journal, f"left out {number} fault BadLine\nrestored 5\n") as server:
            server.ends(boards(2, 0, 0))


def kill_and_restore(program: str) -> None:
    """Stations send while the server is killed, and send again what has no reply: no answered event is missing."""
    rounds, names = 6, "ABC"
    answered_of = dict.fromkeys(names, 0)

    def send(server: Journalled, name: str) -> None:
        """Sends events until the server is gone, and no more than leave room for the turns that come."""
        most = answered_of[name] + MOST_EVENTS // rounds
        try:
            station = Station(server, name)
            while answered_of[name] < most:
                number = answered_of[name]
                sends(station, rising(number), f'[3,"{number + 1}",{{}}]'.encode())
                answered_of[name] += 1
        except (Differs, OSError):
            pass

    with folder() as journal:
        for turn in range(rounds):
            if turn:
                held = dict.fromkeys(names, 0)
                kept = journal.read_bytes().split(b"\n")
                left_out = ""
                for number, line in enumerate(kept, 1):
                    match = re.fullmatch(rb"msg ([A-C]) (.*\]\}\]\}\])", line)
                    if match and number < len(kept):
                        held[match[1].decode()] += 1
                    elif line.startswith(b"m"):
                        # A kill cut this line in two.
                        fault = (
                            NOT_JSON.decode() if re.match(b"msg [A-C] ", line) else "fault BadLine"
                        )
                        left_out += f"left out {number} {fault}\n"
                if any(held[name] - answered_of[name] not in (0, 1) for name in names):
                    raise Differs(f"the journal has {held} events, and {answered_of} are answered")
                server = restored(program, journal, f"{left_out}restored {sum(held.values())}\n")
            else:
                server = begun(program, journal)
            with server:
                for name in names if turn else "":
                    server.answers(f"total {name}", risen(held[name]).partition("\n")[0] + "\n")
                before = dict(answered_of)
                threads = [threading.Thread(target=send, args=(server, name)) for name in names]
                for thread in threads:
                    thread.start()
                deadline = time.monotonic() + LONGEST_WAIT
                while (
                    any(answered_of[name] < before[name] + 2 for name in names)
                    and time.monotonic() < deadline
                ):
                    time.sleep(0.01)
                time.sleep(0.1 * turn)
                server.kill()
                for thread in threads:
                    thread.join(LONGEST_WAIT)
                if any(answered_of[name] < before[name] + 2 for name in names):
                    raise Differs(f"too few events are answered: {answered_of}")
        lines = journal.read_bytes().count(b"\nmsg ")
        with restored(program, journal, f"restored {lines}\n") as server:
            for name in names:
                station = Station(server, name)
                for number in range(answered_of[name] + 2):
                    sends(station, rising(number), f'[3,"{number + 1}",{{}}]'.encode())
                station.leaves()
            server.close()
            shown = server.rest().decode()
            if server.process.wait(LONGEST_WAIT):
                raise Differs(f"status {server.process.returncode}")
        for name in names:
            if f"station {name}\n{risen(answered_of[name] + 2)}" not in shown:
                raise Differs(f"{answered_of} are answered, and these boards are written:\n{shown}")
        is_the_boards(program, journal, shown)


SCENES: tuple[Callable[[str], None], ...] = (
    reply_before_line,
    restored_after_each_byte,
    receipt_times,
    restored_twice,
    two_threads_and_a_void,
    stalled_journal,
    line_feeds_between_tokens,
    full_disk,
    nothing_is_accepted_behind_a_fault,
    quiet_messages,
    restored_lines_are_not_written_again,
    left_out_lines,
    lost_lines_end_the_server,
    declarations_written_once,
    orders_written_once,
    comment_after_a_cut_line,
    kill_and_restore,
)


if __name__ == "__main__":
    sys.exit(play("journalling", __doc__, SCENES))
