"""The commands of days.md, personal-data.md and web.md, run as they are written on a store that has what they name."""

import os
import re
import signal
import socket
import subprocess
import sys
import time
from collections.abc import Iterator
from datetime import timedelta
from pathlib import Path

import pytest

from ocpp_board.store.database import Database
from ocpp_board.store.plan import write_station
from tests.days.conftest import AUTHOR, SITE, send
from tests.traffic.troubles import FIRST, STEP, Session, event, signed_differs, sound

TOP = Path(__file__).parents[2]
BLOCK = re.compile(r"^```sh\n(.*?)^```$", re.MULTILINE | re.DOTALL)
COMMENT = re.compile(r" +# .*")
STATION = "CS-01"
# Pages with the word of a command that serves until a signal ends it, or that finds something for an alert.
PAGES = ("days.md", "personal-data.md", "web.md")
SERVES, FINDS = "web", "lacking"


def read_commands(page: str) -> Iterator[str]:
    """The commands of a page, each in one line and without its comment."""
    for block in BLOCK.findall((TOP / "docs" / page).read_text()):
        yield from (COMMENT.sub("", line) for line in block.replace("\\\n", " ").splitlines())


def find_port() -> int:
    """A port that nobody listens on."""
    with socket.socket() as listener:
        listener.bind(("127.0.0.1", 0))
        port: int = listener.getsockname()[1]
        return port


def begin_twice() -> Session:
    """A session of EVSE 1 that has no end yet, whose register was set back before its event 3."""
    levels = (4_700_000, 4_705_000, 4_711_000, 1_000)
    kinds = ("Started", "Updated", "Updated", "Updated")
    begin = FIRST + timedelta(days=1, hours=2)
    return [
        event("T-4711", number, kind, begin + number * STEP, level)
        for number, (kind, level) in enumerate(zip(kinds, levels))
    ]


@pytest.fixture(name="folder")
def made_folder(store: Database, tmp_path: Path) -> Path:
    """A folder with what the pages name: a command of the name `ocpp-board`, and files; the store has the sessions."""
    with store.transaction():
        write_station(store, STATION, SITE, AUTHOR)
    send(store, STATION, begin_twice())
    send(store, STATION, sound("T-4712", FIRST + timedelta(days=1, hours=6)))
    send(store, STATION, signed_differs("T-4713", FIRST + timedelta(days=2)))
    made = tmp_path / "made"
    (made / "bin").mkdir(parents=True)
    command = made / "bin" / "ocpp-board"
    command.write_text(f'#!/bin/sh\nexec {sys.executable} -m ocpp_board "$@"\n')
    command.chmod(0o755)
    (made / "points.csv").write_text(f"code,station,evse\nDE-1,,\nDE-2,{STATION},1\n")
    (made / "corrections.csv").write_text(
        f"station,transaction,number,place,kwh\n{STATION},T-4712,1,0,1.2\n"
    )
    return made


def serve(words: list[str], port: int, folder: Path, environment: dict[str, str]) -> int:
    """Starts a command, waits until it listens, ends it by a signal, and gives its status."""
    with subprocess.Popen(words, cwd=folder, env=environment) as server:
        due = time.monotonic() + 60
        with socket.socket() as client:
            while client.connect_ex(("127.0.0.1", port)) and server.poll() is None:
                assert time.monotonic() < due
                time.sleep(0.1)
        server.send_signal(signal.SIGINT)
        return server.wait(60)


@pytest.mark.parametrize("page", PAGES)
def test_commands_of_a_page_run_as_written(page: str, folder: Path, store_name: str) -> None:
    if page == "web.md":
        pytest.importorskip("starlette")
        pytest.importorskip("uvicorn")
    environment = os.environ | {"PATH": f"{folder / 'bin'}:{os.environ['PATH']}"}
    commands = list(read_commands(page))
    assert len(commands) >= 3
    for command in commands:
        port = find_port()
        text = command.replace("ledger.db", store_name).replace("/var/lib/ocpp-board", str(folder))
        text = text.replace("8080", str(port)).replace("> corrections.csv", "> closed.csv")
        word = command.split("ocpp-board ")[-1].split()[0]
        if word == SERVES:
            assert serve(["bash", "-c", f"exec {text}"], port, folder, environment) == 0
            continue
        ended = subprocess.run(
            ["bash", "-c", text],
            cwd=folder,
            env=environment,
            input="a password of the page\n",
            capture_output=True,
            text=True,
            check=False,
        )
        assert ended.returncode == (1 if word == FINDS else 0), f"{command}\n{ended.stderr}"


def test_a_command_that_names_what_is_not_there_is_found(folder: Path, store_name: str) -> None:
    words = (
        "correct",
        "--store",
        store_name,
        STATION,
        "T-9",
        "3",
        "0",
        "--kwh",
        "1",
        "--why",
        "none",
    )
    command = [str(folder / "bin" / "ocpp-board"), *words]
    assert subprocess.run(command, capture_output=True, check=False).returncode != 0
