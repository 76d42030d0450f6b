"""Servers of the program in scenes, with their reports, and the boards that they have to write."""

import os
import re
import resource
import select
import subprocess
import tempfile
import time
from typing import IO, Self

from tests.scenes.client import LONGEST_WAIT, Differs, Frame

STATIONS = ("north/A", "north/B", "south/C")
# How long a board that comes too early is waited for, in seconds.
EARLY = 0.05
# How long the server may take to end sessions that are silent, in seconds.
END = 2
# A station's part of a board, behind its name, if it sent none, the first or both events of transaction T1.
PARTS = (
    "total events=0 voided=0 transactions=0 complete=0 missing=0 up=0 down=0 export_up=0 export_down=0\n",
    "total events=1 voided=0 transactions=1 complete=0 missing=0 up=0 down=0 export_up=0 export_down=0\n"
    "evse 0 up=0 down=0 export_up=0 export_down=0\n"
    "tx t1 evse=0 events=1 first=0 last=0 complete=no missing=0 up=0 down=0 export_up=0 export_down=0\n",
    "total events=2 voided=0 transactions=1 complete=0 missing=0 up=200000 down=0 export_up=0 export_down=0\n"
    "evse 0 up=200000 down=0 export_up=0 export_down=0\n"
    "period 2026-03-01T10:00:00Z up=200000 down=0 export_up=0 export_down=0\n"
    "tx t1 evse=0 events=2 first=0 last=1 complete=no missing=0 up=200000 down=0 export_up=0 export_down=0\n",
)
NONE, ONE, TWO = (part.partition("\n")[0] for part in PARTS)


class Served:
    """A program that serves and is ended with its scene, and its reports on standard error."""

    process: subprocess.Popen[bytes]
    reported: IO[bytes]

    def __enter__(self) -> Self:
        return self

    def __exit__(self, *_: object) -> None:
        self.process.kill()
        self.process.communicate()
        self.reported.close()


class Server(Served):
    """A server of the three stations that serves so many connections."""

    def __init__(
        self, program: str, connections: int, *options: str, stations: tuple[str, ...] = STATIONS
    ) -> None:
        words = [program, "serve", "--connections", str(connections), *options, *stations]
        self.reported = tempfile.TemporaryFile()
        self.process = subprocess.Popen(
            words, bufsize=0, stdin=subprocess.DEVNULL, stdout=subprocess.PIPE, stderr=self.reported
        )
        assert self.process.stdout
        self.out = self.process.stdout
        self.line = self.out.readline()
        match = re.fullmatch(rb"listening 127\.0\.0\.1:([0-9]+)\n", self.line)
        self.port = int(match[1]) if match else 0

    def has_written(self) -> bool:
        """Whether it writes more within a moment."""
        return bool(select.select([self.out], [], [], EARLY)[0])

    def ends(self, boards: str, lines: str = "") -> str:
        """Waits for its end: it has to write these boards, and report lines that this expression fits; gives these."""
        try:
            written, _ = self.process.communicate(timeout=LONGEST_WAIT)
        except subprocess.TimeoutExpired:
            raise Differs("the server does not end") from None
        self.reported.seek(0)
        reported = self.reported.read().decode()
        if self.process.returncode != 0 or not re.fullmatch(lines, reported):
            raise Differs(f"status {self.process.returncode}, and standard error has:\n{reported}")
        if written.decode() != boards:
            raise Differs(f"these boards are written:\n{written.decode()}and not:\n{boards}")
        return reported


class Live(Served):
    """A server that lives, and its operator."""

    def __init__(self, program: str, *options: str, stations: tuple[str, ...] = STATIONS) -> None:
        self.reported = tempfile.TemporaryFile()
        self.starts(
            [program, "serve", "--live", *options, *stations], subprocess.PIPE, self.reported
        )
        assert self.process.stdout
        self.out = self.process.stdout
        self.listens(*options)

    def starts(
        self,
        words: list[str],
        out: int | IO[bytes],
        err: int | IO[bytes],
        restore_signals: bool = True,
    ) -> None:
        """Starts it with these ends. `restore_signals`: a limit of file size ends it by a signal."""
        self.process = subprocess.Popen(
            words,
            bufsize=0,
            stdin=subprocess.PIPE,
            stdout=out,
            stderr=err,
            restore_signals=restore_signals,
        )
        assert self.process.stdin
        self.input = self.process.stdin

    def listens(self, *options: str) -> None:
        """It has to write its ports."""
        self.port = self.port_of(b"listening")
        self.board_port = self.port_of(b"boards") if "--board-port" in options else 0

    def port_of(self, word: bytes) -> int:
        match = re.fullmatch(word + rb" 127\.0\.0\.1:([0-9]+)\n", self.line())
        if not match:
            raise Differs(f"it does not write the port of {word!r}")
        return int(match[1])

    def line(self) -> bytes:
        """The next line that it writes."""
        line = bytearray()
        while not line.endswith(b"\n"):
            if not select.select([self.out], [], [], LONGEST_WAIT)[0]:
                raise Differs(f"no answer comes behind {bytes(line)!r}")
            if not (part := self.out.read(1)):
                raise Differs(f"its output ends behind {bytes(line)!r}")
            line += part
        return bytes(line)

    def rest(self) -> bytes:
        """All that it still writes."""
        rest = bytearray()
        while select.select([self.out], [], [], LONGEST_WAIT)[0]:
            if not (part := self.out.read(65_536)):
                return bytes(rest)
            rest += part
        raise Differs("its output does not end")

    def says(self, line: str) -> None:
        self.input.write(line.encode() + b"\n")

    def answers(self, line: str, answer: str) -> None:
        """A line of the operator has to be answered so."""
        self.says(line)
        for wanted in answer.splitlines(keepends=True):
            if (read := self.line().decode()) != wanted:
                raise Differs(f"{line!r} is answered {read!r}, and not {wanted!r}")

    def board(self, site: str) -> list[str]:
        """The lines of the board of a site."""
        self.says(f"board {site}")
        lines = [self.line().decode()]
        while lines[-1] != "end\n":
            lines.append(self.line().decode())
        return lines

    def has_reported(self) -> bytes:
        """What it has reported so far."""
        return os.pread(self.reported.fileno(), 1_000_000, 0)

    def limit_data(self, limit: int | None = None) -> None:
        """Sets how many bytes of memory it may have: without a limit as many as it likes."""
        wanted = resource.RLIM_INFINITY if limit is None else limit
        resource.prlimit(self.process.pid, resource.RLIMIT_DATA, (wanted, resource.RLIM_INFINITY))

    def close(self) -> None:
        """The input ends."""
        self.input.close()
        self.process.stdin = None

    def ends(self, written: str, reported: str = "", status: int = 0, within: float = END) -> str:
        """Its input ends, and then it has to end."""
        self.close()
        return self.has_ended(written, reported, status, within)

    def has_ended(
        self, written: str, reported: str = "", status: int = 0, within: float = END
    ) -> str:
        """It has to write this, to report lines that this expression fits, and to end, in this time."""
        began = time.monotonic()
        rest = self.rest().decode()
        try:
            self.process.wait(LONGEST_WAIT)
        except subprocess.TimeoutExpired:
            raise Differs("the server does not end") from None
        took = time.monotonic() - began
        self.reported.seek(0)
        lines = self.reported.read().decode()
        if self.process.returncode != status or not re.fullmatch(reported, lines):
            raise Differs(f"status {self.process.returncode}, and standard error has:\n{lines}")
        if rest != written:
            raise Differs(f"this is written:\n{rest}and not:\n{written}")
        if took > within:
            raise Differs(f"the end took {took:.1f} seconds")
        return lines


def dismissed(reason: str) -> bytes:
    """The close frame of a session that the server ends."""
    return Frame(0x88, (1001).to_bytes(2, "big") + reason.encode(), False).bytes()


def boards(a: int, b: int, c: int) -> str:
    """The boards after the stations sent so many of the two events."""
    return board("north", {"A": a, "B": b}) + board("south", {"C": c})


def board(site: str, reported: dict[str, int]) -> str:
    up = 200_000 * sum(events == 2 for events in reported.values())
    transactions = sum(events > 0 for events in reported.values())
    return (
        f"board {site} period=900\n"
        f"total events={sum(reported.values())} voided=0 transactions={transactions} "
        f"complete=0 missing=0 up={up} down=0 export_up=0 export_down=0\n"
        + (f"period 2026-03-01T10:00:00Z up={up} down=0 export_up=0 export_down=0\n" if up else "")
        + "".join(f"station {name}\n{PARTS[events]}" for name, events in reported.items())
        + "end\n"
    )
