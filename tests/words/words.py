"""Runs a table of words of the command line, and compares how each run ends and what it writes.

    tests/one words.words PROGRAM tests/words/words.txt

Each run of the table begins with a line for bash, in which `ocpp_board` and `ocpp_replay` are PROGRAM, `$TAKEN` a
port that another process listens on, and `$SCRIPT` a file with the lines `station north A`, `frob` and `energy A`:

    $ COMMAND
    status N          its exit status
    out LINE          the next line of standard output
    out~ FRONT        the next line of standard output begins so
    out* TEXT         is somewhere on standard output
    no out            nothing is written there
    no more out       nothing is there after the lines above
    err ..            the same of standard error: err, err~, err*, no err, no more err
    CS-01> TEXT       on the WebSocket connection of station CS-01, which is opened for it, this is sent,
    CS-01< TEXT       and this is received; the port is that of the line `listening 127.0.0.1:<port>`
    CS-01 closes      its connection is closed; those that are left are closed behind the last line

What is said nowhere may be anything. Lines that begin with # and empty lines are left out.

Exit status: 0; 1 when a run is not as the table says; 2 when the table is none or a file can't be read.
"""

import argparse
import os
import re
import signal
import socket
import subprocess
import sys
import tempfile
from collections.abc import Iterator
from pathlib import Path

# Seconds that a run may take, and that a station waits.
LONGEST_RUN = 300
LONGEST_WAIT = 60
SCRIPT = "station north A\nfrob\nenergy A\n"
BASH = 'ocpp_board() { "$PROGRAM" "$@"; }\nocpp_replay() { "$PROGRAM" "$@"; }\n'
SAID = re.compile(r"(status|out|out~|out\*|err|err~|err\*) (.*)|no( more)? (out|err)")
STATION = re.compile(r"([A-Za-z0-9-]+)(>|<) (.*)|([A-Za-z0-9-]+) closes")


class Differs(Exception):
    """How a run is not as the table says."""


class Station:
    """A station's WebSocket connection (RFC 6455), for texts of one frame."""

    def __init__(self, port: int, name: str) -> None:
        self.stream = socket.create_connection(("127.0.0.1", port), LONGEST_WAIT)
        self.read = self.stream.makefile("rb")
        self.stream.sendall(
            f"GET /ocpp/{name} HTTP/1.1\r\nHost: 127.0.0.1:{port}\r\nUpgrade: websocket\r\n"
            "Connection: Upgrade\r\nSec-WebSocket-Version: 13\r\nSec-WebSocket-Protocol: ocpp2.0.1\r\n"
            "Sec-WebSocket-Key: dGhlIHNhbXBsZSBub25jZQ==\r\n\r\n".encode()
        )
        answer = list(iter(self.read.readline, b"\r\n"))
        if not answer or b" 101 " not in answer[0]:
            raise Differs(f"{name} was not let in: {answer[:1]}")

    def frame(self, opcode: int, payload: bytes) -> None:
        """Sends a frame, masked with zeros."""
        size = len(payload)
        length = bytes([0x80 | size]) if size < 126 else bytes([0xFE]) + size.to_bytes(2, "big")
        self.stream.sendall(bytes([0x80 | opcode]) + length + bytes(4) + payload)

    def send(self, text: str) -> None:
        self.frame(1, text.encode())

    def receive(self) -> str:
        head = self.read.read(2)
        if len(head) < 2:
            raise Differs("the connection ended")
        size = head[1] if head[1] < 126 else int.from_bytes(self.read.read(2), "big")
        payload = self.read.read(size)
        if head[0] != 0x81:
            raise Differs(f"a frame {head[0]:#x} with {payload!r} and no text")
        return payload.decode()

    def close(self) -> None:
        self.frame(8, (1000).to_bytes(2, "big"))
        self.read.read()
        self.stream.close()


class Run:
    """One run of the table, and what is said of it."""

    def __init__(self, number: int, command: str) -> None:
        self.number, self.command = number, command
        self.said: list[tuple[str, str]] = []
        self.stations: list[tuple[str, str, str]] = []

    def add(self, line: str) -> bool:
        if match := SAID.fullmatch(line):
            kind, text, more, stream = match.groups()
            self.said.append((kind, text) if kind else (stream + ("!" if more else "0"), ""))
        elif match := STATION.fullmatch(line):
            name, way, text, closing = match.groups()
            self.stations.append((closing, ".", "") if closing else (name, way, text))
        return match is not None

    def play(self, out: Iterator[bytes]) -> bytes:
        """Plays the stations, and gives what was written before the first of them was let in."""
        line = next(out, b"")
        match = re.fullmatch(rb"listening 127\.0\.0\.1:([0-9]+)\n", line)
        if match is None:
            raise Differs(f"nothing listens: {line!r}")
        open_ones: dict[str, Station] = {}
        for name, way, text in self.stations:
            if way == ".":
                open_ones.pop(name).close()
                continue
            station = open_ones.get(name) or open_ones.setdefault(
                name, Station(int(match[1]), name)
            )
            if way == ">":
                station.send(text)
            elif (reply := station.receive()) != text:
                raise Differs(f"{name} received {reply}")
        for station in open_ones.values():
            station.close()
        return line

    def ended(self, given: dict[str, str]) -> tuple[int, str, str]:
        """Runs the command: its status, and what it wrote to its two outputs."""
        with (
            tempfile.TemporaryFile() as reported,
            subprocess.Popen(
                ["bash", "-c", BASH + self.command],
                stdin=subprocess.DEVNULL,
                stdout=subprocess.PIPE,
                stderr=reported,
                env=os.environ | given,
                start_new_session=True,
            ) as process,
        ):
            assert process.stdout
            try:
                front = self.play(iter(process.stdout.readline, b"")) if self.stations else b""
                rest, _ = process.communicate(timeout=LONGEST_RUN)
            except (Differs, OSError, subprocess.TimeoutExpired) as fault:
                os.killpg(process.pid, signal.SIGKILL)
                raise Differs(str(fault)) from None
            reported.seek(0)
            return (
                process.returncode,
                (front + rest).decode("utf-8", "replace"),
                reported.read().decode("utf-8", "replace"),
            )

    def compare(self, given: dict[str, str]) -> None:
        status, out, err = self.ended(given)
        rest = {"out": out.splitlines(), "err": err.splitlines()}
        for kind, text in self.said:
            stream, how = kind[:3], kind[3:]
            if kind == "status":
                fits = int(text) == status
            elif how == "*":
                fits = text in {"out": out, "err": err}[stream]
            elif how == "0":
                fits = not {"out": out, "err": err}[stream]
            elif how == "!":
                fits = not rest[stream]
            else:
                line = rest[stream].pop(0) if rest[stream] else None
                fits = line is not None and (line.startswith(text) if how else line == text)
            if not fits:
                said = {"0": f"no {stream}", "!": f"no more {stream}"}.get(how, f"{kind} {text}")
                raise Differs(
                    f"not `{said}`\nstatus {status}\nstandard output:\n{out[-2000:]}\n"
                    f"standard error:\n{err[-2000:]}"
                )


def runs_of(path: Path) -> list[Run]:
    runs: list[Run] = []
    for number, line in enumerate(path.read_text("utf-8").splitlines(), 1):
        if line.startswith("$ "):
            runs.append(Run(number, line[2:]))
        elif line and not line.startswith("#") and not (runs and runs[-1].add(line)):
            raise ValueError(f"{path}:{number}: not understood: {line}")
    return runs


def main() -> int:
    parser = argparse.ArgumentParser(
        description=__doc__, formatter_class=argparse.RawDescriptionHelpFormatter
    )
    parser.add_argument("program", type=Path, metavar="PROGRAM", help="the built program")
    parser.add_argument("table", type=Path, metavar="TABLE", help="the table, such as words.txt")
    words = parser.parse_args()
    different = 0
    try:
        runs = runs_of(words.table)
        with tempfile.NamedTemporaryFile("w") as script, socket.create_server(
            ("127.0.0.1", 0)
        ) as taken:
            script.write(SCRIPT)
            script.flush()
            given = {
                "PROGRAM": str(words.program.resolve(strict=True)),
                "SCRIPT": script.name,
                "TAKEN": str(taken.getsockname()[1]),
                "LC_ALL": "C",
            }
            for run in runs:
                try:
                    run.compare(given)
                except Differs as how:
                    different += 1
                    print(f"{words.table}:{run.number}: {run.command}: {how}")
    except (OSError, ValueError) as fault:
        print(f"words.py: {fault}", file=sys.stderr)
        return 2
    print(f"{words.table}: {len(runs) - different} runs as stored, {different} not")
    return 1 if different else 0


if __name__ == "__main__":
    sys.exit(main())
