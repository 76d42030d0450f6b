"""`ocpp-board follow` beside a CSMS's log: rotations, cuts, kills, two at once, an operator, strays, refusals."""

import contextlib
import itertools
import multiprocessing
import os
import random
import shutil
import signal
import sqlite3
import subprocess
import time
from collections.abc import Sequence
from pathlib import Path
from typing import Any

import pytest

from ocpp_board import cli
from ocpp_board.commands import follow
from ocpp_board.ledger import settlers
from ocpp_board.store.database import SqliteDatabase, open_store
from tests.store.beside import HEARTBEAT, LONGEST_WAIT, TOOL, follow_beside, message, row

# What cuts an operator's line from who and why.
VOID = "void A T1 1 # jo: meter exchanged"


def test_a_log_is_followed_over_rotations(tmp_path: Path) -> None:
    with follow_beside(tmp_path) as run:
        run.write(row(message(0, "Started")), row(message(1)))
        run.start()
        run.wait("two events", run.has_events(2))
        run.log.rename(run.folder / "log.1")
        # A line that comes late.
        with open(run.folder / "log.1", "a", encoding="utf-8") as late:
            late.write(row(message(2)))
        run.log.write_text(row(message(3, "Ended")))
        run.wait("four events", run.has_events(4))
        status, reported = run.end()
        assert status == 0, reported
        (session,) = run.table("transactions")
        names = (
            "messages complete",
            "up (milliwatt_hours)",
            "start (UTC)",
            "end (UTC)",
            "findings",
        )
        times = ["2026-03-01T10:00:00Z", "2026-03-01T10:03:00Z"]
        assert [session[name] for name in names] == ["yes", "300000", *times, ""]
        assert (run.folder / "out/index.html").exists()


def test_killed_and_started_again_over_two_rotations(tmp_path: Path) -> None:
    with follow_beside(tmp_path) as run:
        run.write(row(message(0, "Started")), row(message(1)))
        run.start()
        run.wait("two events", run.has_events(2))
        run.end(signal.SIGKILL)
        run.write(row(message(2)))
        run.rotate(2)
        run.write(row(message(3)))
        run.rotate(1)
        run.age(2, 60)
        run.age(1, 30)
        run.write(row(message(4, "Ended")))
        run.start()
        run.wait("five events", run.has_events(5))
        run.end()
        with open_store(run.store) as store:
            lines = store.fetch("select number from line")
            assert len(lines) == 5


def test_lines_behind_a_cut_between_two_looks(tmp_path: Path) -> None:
    """A copy is made and the log is cut (copytruncate), and it outgrows its place before the next look."""
    texts = [
        row(message(n % 60, day=f"2026-03-{1 + n // 60:02}", tx=f"T{n // 60}")) for n in range(300)
    ]
    with follow_beside(tmp_path) as run:
        run.write(*texts[:105])
        run.run_once()
        run.write(*texts[105:150])
        shutil.copy(run.log, run.folder / "log.1")
        run.log.write_text("".join(texts[150:]))
        run.run_once()
        assert sum(run.events().values()) == 300


def test_a_compressed_rotation_is_read(tmp_path: Path) -> None:
    import gzip

    with follow_beside(tmp_path) as run:
        run.write(row(message(0, "Started")), row(message(1)))
        run.run_once()
        run.write(row(message(2)))
        (run.folder / "log-20260301.gz").write_bytes(gzip.compress(run.log.read_bytes()))
        run.log.unlink()
        run.log.write_text(row(message(3, "Ended")))
        run.run_once()
        assert run.events() == {("A", "t1"): 4}


def test_two_followers_of_two_logs_and_one_store(tmp_path: Path, store_name: str) -> None:
    """Events of one transaction come alternately in both logs."""
    count = 40
    with follow_beside(tmp_path, store_name) as one, follow_beside(
        tmp_path, store_name, "other"
    ) as other:
        one.start()
        other.start("--out", str(tmp_path / "other.out"))
        for number in range(count):
            kind = "Started" if number == 0 else "Ended" if number == count - 1 else "Updated"
            (one, other)[number % 2].write(row(message(number, kind)))
        one.wait("all events", lambda: one.events() == {("A", "t1"): count})
        for run in (one, other):
            status, reported = run.end()
            assert status == 0, reported


def test_an_operators_lines_are_kept(tmp_path: Path) -> None:
    with follow_beside(tmp_path) as run:
        run.write(row(message(0, "Started")), row(message(1)))
        run.start()
        run.wait("two events", run.has_events(2))
        assert run.answer(VOID) == "accepted 3\n"
        assert run.answer("void A T1 9") == "refused NoSuchEvent\n"
        assert run.answer("void B T1 1") == "fault UnknownStation\n"
        assert run.answer("nonsense") == "fault BadLine\n"
        # A message that an operator sends is kept, too.
        assert run.answer(f"msg A {message(2)}").startswith("[3,")
        run.end(signal.SIGKILL)
        run.start()
        run.wait("two events", run.has_events(2))
        assert run.answer("total A").startswith("total events=2 voided=1 ")
        run.wait("the table", lambda: len(run.table("operator", "")) == 2)
        (deed, *_) = [one for one in run.table("operator", "") if one["who"]]
        assert [deed[name] for name in ("who", "what", "why", "answer")] == [
            *("jo", "void", "meter exchanged", "accepted 3")
        ]


def test_a_clock_far_from_the_log(tmp_path: Path) -> None:
    """A time far from the log's is a finding, the same after a start again. A line without a time that can be read is
    none."""

    def is_shown() -> bool:
        names = ("station", "transaction", "finding", "times")
        rows = [tuple(one[name] for name in names) for one in run.table("findings", "")]
        return rows == [("A", "t1", "clock far from receipt", "1")]

    with follow_beside(tmp_path) as run:
        run.write(row(message(0, "Started")), row(message(1, day="2026-03-03")))
        run.write(row(message(2, day="2026-03-05"), at="none"))
        for _ in range(2):
            run.start()
            run.wait("the finding", is_shown)
            run.wait("three events", run.has_events(3))
            page = (run.folder / "out/north/findings.html").read_text()
            assert "clock far from receipt" in page
            status, reported = run.end()
            assert status == 0, reported
            shutil.rmtree(run.folder / "out")


def test_a_new_station_is_taken_with_what_it_sent(tmp_path: Path) -> None:
    """A station that the file names later counts from its first message on."""
    with follow_beside(tmp_path) as run:
        run.write(row(message(0, "Started")), row(message(0, "Started"), "B"))
        run.start()
        run.wait("an event", run.has_events(1))
        run.write(row(message(1), "B"))
        (run.folder / "stations").write_text("north A\nnorth B\n")
        run.write(row(message(2, "Ended"), "B"))
        run.wait("all events", lambda: run.events() == {("A", "t1"): 1, ("B", "t1"): 3})
        run.end()
        with open_store(run.store) as store:
            assert not store.fetch("select * from stray")


def test_what_is_refused_is_shown(tmp_path: Path) -> None:
    """Each refused message and each line that can't be taken is listed; the same after a start again. What the ledger
    keeps nothing of is none of these."""
    unset = message(0, "Started", "1970-01-01")
    seen = [("A", "T1", "0", "Moment"), ("A", "T1", "1", "ConflictingEvent")]

    def is_shown() -> bool:
        names = ("station", "transaction", "seqNo", "cause")
        rows = [tuple(one[name] for name in names) for one in run.table("refused", "")]
        return sorted(rows) == seen and (run.folder / "out/refused.csv").exists()

    with follow_beside(tmp_path) as run:
        run.write(row(unset), row(HEARTBEAT, "B"), "no JSON\n", row(message(1)))
        run.write(row(message(1, "Ended")), row('[2,"a","Authorize",{}]'), row('[3,"c",{}]'))
        for _ in range(2):
            run.start()
            run.wait("what was refused", is_shown)
            status, reported = run.end()
            assert status == 0, reported
            shutil.rmtree(run.folder / "out")
            assert "refused: 4 messages in all: ConflictingEvent 1, Moment 1, Unk" in reported
            assert "Untaken 1" in reported


def test_any_number_of_stations_and_a_second_run(tmp_path: Path) -> None:
    """--once reads the rotated file and the log behind it, and a further one goes on."""
    with follow_beside(tmp_path) as run:
        names = [f"B{number}" for number in range(100)]
        (run.folder / "stations").write_text("".join(f"north {name}\n" for name in names))
        texts = [row(message(0, "Started", tx=f"T{n}"), names[n % 100]) for n in range(302)]
        run.write(*texts[:200])
        run.rotate()
        run.age(1, 60)
        run.write(*texts[200:300])
        for count in (300, 302):
            run.run_once()
            assert len(run.events()) == count
            assert len(run.table("transactions")) == count and not run.table("refused", "")
            run.write(*texts[count:])


def test_a_kill_at_drawn_moments_loses_nothing(tmp_path: Path) -> None:
    """Killed again and again while the log grows, it has each message once."""
    drawn, count = random.Random(7), 60
    with follow_beside(tmp_path) as run:
        for number in range(count):
            kind = "Started" if number == 0 else "Ended" if number == count - 1 else "Updated"
            run.write(row(message(number, kind)))
            if number % 6 == 0:
                run.start()
                time.sleep(drawn.uniform(0.3, 1.5))
                run.end(signal.SIGKILL)
            if number % 25 == 20:
                run.rotate(number)
                run.age(number, 100 - number)
        run.run_once()
        assert run.events() == {("A", "t1"): count}
        with open_store(run.store) as store:
            assert len(store.fetch("select number from line")) == count


def run_until(words: Sequence[str], last: int) -> None:
    """Runs a command in this process, which is killed at its statement of this number."""
    numbers = itertools.count(1)

    def watch(name: str) -> None:
        own = getattr(SqliteDatabase, name)

        def run(store: SqliteDatabase, *more: Any, **values: Any) -> Any:
            if next(numbers) == last:
                os.kill(os.getpid(), signal.SIGKILL)
            return own(store, *more, **values)

        setattr(SqliteDatabase, name, run)

    for name in ("execute", "execute_each", "execute_rows", "fetch"):
        watch(name)
    # With one processor it starts no others.
    os.sched_setaffinity(0, {min(os.sched_getaffinity(0))})
    os._exit(cli.main(words))


def test_a_kill_at_each_of_100_statements_takes_no_line_twice(tmp_path: Path) -> None:
    """Each run finds two lines more, and is killed at a later statement: while it opens the store, settles, or writes
    its pages. The next one goes on where it was."""
    fork, of_each = multiprocessing.get_context("fork"), 25
    with follow_beside(tmp_path) as run:
        run.write(row(message(0, "Started", tx="T0")))
        run.run_once()
        words, killed = run.words("--once")[len(TOOL) :], 0
        for number in range(1, 101):
            for place in (2 * number - 1, 2 * number):
                kind = "Updated" if place % of_each else "Started"
                run.write(row(message(place % of_each, kind, tx=f"T{place // of_each}")))
            process = fork.Process(target=run_until, args=(words, number))
            process.start()
            process.join(LONGEST_WAIT)
            killed += process.exitcode == -signal.SIGKILL
            assert process.exitcode in (0, -signal.SIGKILL)
        assert killed >= 90
        with open_store(run.store) as store:
            had = sum(one.events for one in store.fetch("select events from session"))
            assert had == len(store.fetch("select 1 as one from line"))
            assert had > 100
        run.run_once()
        assert sum(run.events().values()) == 201
        assert len(run.table("transactions")) == len(run.events()) == 9


def end_before_place(words: Sequence[str]) -> None:
    """Runs `follow` with processes that settle, and kills this one where it would note how far a log was read."""
    os.setsid()
    follow.MANY = 10
    settlers.START = (
        "fork"  # This process has the tests' own server of forks, whose parent it is not.
    )
    follow.write_place = lambda *_words: os.kill(os.getpid(), signal.SIGKILL)
    os.sched_getaffinity = lambda _pid: {0, 1}
    os._exit(cli.main(words))


def list_sessions() -> set[int]:
    """The sessions that processes of this machine are in."""
    found = set[int]()
    for path in Path("/proc").glob("[0-9]*/stat"):
        with contextlib.suppress(OSError):
            found.add(int(path.read_text().rpartition(")")[2].split()[3]))
    return found


def test_lines_that_are_read_again_change_nothing(tmp_path: Path) -> None:
    """Where there is much, processes settle it, and how far the log was read is noted behind it: killed between, the
    follower reads the lines again. Its processes end with it."""
    with follow_beside(tmp_path) as run:
        for tx in range(20):
            kinds = ["Started", *["Updated"] * 4]
            run.write(*(row(message(n, kind, tx=f"T{tx}")) for n, kind in enumerate(kinds)))
        run.write(row(message(0, "Started", tx="bad").replace('"seqNo":0', '"seqNo":-1')))
        words = run.words("--once")[len(TOOL) :]
        process = multiprocessing.get_context("fork").Process(
            target=end_before_place, args=(words,)
        )
        process.start()
        process.join(LONGEST_WAIT)
        assert process.exitcode == -signal.SIGKILL and process.pid
        run.wait("the end of its processes", lambda: process.pid not in list_sessions())
        asked = "select (select count(*) from line), (select sum(times) from refusal)"
        for count in (0, 1):
            with open_store(run.store) as store:
                assert len(store.fetch("select origin from source")) == count
                assert [tuple(row) for row in store.fetch(asked)] == [(100, count or None)]
            run.run_once()


@pytest.mark.skipif(os.getuid() != 0, reason="only root mounts a file system")
def test_a_full_disk_is_waited_for(tmp_path: Path) -> None:
    """While the store has no room, the follower tries again, and takes nothing in part."""
    disk = tmp_path / "disk"
    disk.mkdir()
    mount = ["mount", "-t", "tmpfs", "-o", "size=8m", "tmpfs", str(disk)]
    if subprocess.run(mount, check=False, capture_output=True).returncode:
        pytest.skip("no file system can be mounted here")
    try:
        with follow_beside(tmp_path, str(disk / "store.db")) as run:
            run.write(row(message(0, "Started")))
            run.start()
            run.wait("the first event", run.has_events(1))
            with open(disk / "ballast", "wb") as file, contextlib.suppress(OSError):
                file.write(b"\0" * shutil.disk_usage(disk).free)
            sent = [(n, f"N{tx}") for tx in range(60) for n in range(40)]
            run.write(*(row(message(n, "Updated" if n else "Started", tx=tx)) for n, tx in sent))
            time.sleep(3)
            with sqlite3.connect(f"file:{run.store}?mode=ro", uri=True) as store:
                assert store.execute("select count(*) from line").fetchone() == (1,)
            (disk / "ballast").unlink()
            run.wait("all events", lambda: sum(run.events().values()) == 1 + len(sent))
            status, said = run.end()
            assert status == 0 and "disk is full; tried again" in said, said
    finally:
        subprocess.run(["umount", "-l", str(disk)], check=False)


def test_only_what_changed_is_written(tmp_path: Path) -> None:
    def list_written() -> dict[Path, int]:
        return {path: path.stat().st_mtime_ns for path in out.rglob("*") if path.is_file()}

    with follow_beside(tmp_path) as run:
        (run.folder / "stations").write_text("north A\nsouth B\n")
        for station in "AB":
            run.write(row(message(0, "Started"), station), row(message(1, "Ended"), station))
        out = run.folder / "out"
        run.start()
        run.wait("both sessions", lambda: len(run.events()) == 2 and (out / ".renewed").exists())
        before = list_written()
        run.write(row(message(0, "Started", tx="T2")))
        run.wait("the third one", lambda: len(run.table("transactions")) == 2)
        run.end()
        written = {path for path, at in list_written().items() if before.get(path) != at}
        assert out / "index.html" in written and [
            path for path in written if path.name == "session-t2.html"
        ]
        assert not [path for path in written if path.is_relative_to(out / "south")]
        # The page of the other transaction of the same station and day stays.
        assert [path for path in before if path.name == "session-t1.html"]
        assert not [path for path in written if path.name == "session-t1.html"]


def test_a_signal_writes_the_pages_once_more(tmp_path: Path) -> None:
    with follow_beside(tmp_path) as run:
        run.start("--every", "600")
        run.wait("the first pages", (run.folder / "out/index.html").exists)
        run.write(row(message(0, "Started")))
        run.wait("the event", lambda: run.events() == {("A", "t1"): 1})
        status, reported = run.end(signal.SIGINT)
        assert status == 0, reported
        assert run.has_events(1)()


def test_what_another_process_changed_is_on_the_pages(tmp_path: Path) -> None:
    """A follower without pages writes, and one with pages shows it."""
    with follow_beside(tmp_path) as run, follow_beside(tmp_path, run.store, "other") as other:
        run.start()
        run.wait("the first pages", (run.folder / "out/index.html").exists)
        other.write(row(message(0, "Started")))
        other.run_once("--out", str(tmp_path / "other.out"))
        run.wait("the event", run.has_events(1))
        run.end()


def test_mended_messages_are_listed(tmp_path: Path) -> None:
    sent = message(0, "Started").replace("1000}", '"1000"}')
    with follow_beside(tmp_path) as run:
        run.write(row(sent), row(message(1, "Ended")))
        run.run_once("--mend", "north=text-value")
        (mended,) = run.table("mended", "")
        assert (mended["mended"], mended["as it came"]) == ("text-value", sent)
        assert run.events() == {("A", "t1"): 2}


def test_rules_of_sites_are_those_of_the_words(tmp_path: Path) -> None:
    with follow_beside(tmp_path) as run:
        run.write(row(message(0, "Started")), row(message(1, "Ended")))
        words = ["--period", "north=300", "--settle", "later", "--tz", "Europe/Berlin"]
        run.run_once(*words, "--order", "sequence")
        periods = [one for one in run.table("periods") if one["level"] == "site"]
        assert [one["seconds"] for one in periods] == ["300"]
        assert periods[0]["period start (Europe/Berlin)"] == "2026-03-01T11:00:00+01:00"
        assert periods[0]["settle"] == "later"
        # Without the words they stay.
        run.write(row(message(2)))
        run.run_once()
        assert run.table("periods")[0]["seconds"] == "300"
        with open_store(run.store) as store:
            (site,) = store.fetch("select reading_order, settle from site")
            assert tuple(site) == ("sequence", "later")


def test_tokens_are_shown_as_the_words_say(tmp_path: Path) -> None:
    token = '"idToken":{"idToken":"AA11BB22","type":"ISO14443"},"transactionInfo"'
    for how in ("none", "hash", "plain"):
        folder = tmp_path / how
        folder.mkdir()
        with follow_beside(folder) as run:
            run.write(row(message(0, "Started").replace('"transactionInfo"', token)))
            run.run_once("--tokens", how)
            files = [path for path in (folder / "out").rglob("*") if path.is_file()]
            has_token = any("AA11BB22" in path.read_text("utf-8") for path in files)
            assert has_token == (how == "plain")


def test_pages_say_that_their_data_is_too_old(tmp_path: Path) -> None:
    with follow_beside(tmp_path) as run:
        run.write(row(message(0, "Started")))
        for words, is_old in ((("--oldest", "3600"), True), ((), False)):
            shutil.rmtree(tmp_path / "out", ignore_errors=True)
            run.run_once(*words)
            page = (tmp_path / "out/north/index.html").read_text("utf-8")
            assert ("older than it should be" in page) == is_old


@pytest.mark.parametrize(
    ("words", "status", "said"),
    [
        (("--stations", "nowhere"), 2, "No such file or directory"),
        (("--mend", "south=text-value", "--form", "maeve"), 1, "is of the form maeve"),
        (("--form", "citrineos-csv"), 2, "names no column"),
        (("--every", "0"), 2, "seconds from 0.2 to 86400"),
    ],
)
def test_what_is_wrong_is_said(
    tmp_path: Path, words: tuple[str, ...], status: int, said: str
) -> None:
    from tests.store.beside import Beside

    run = Beside(tmp_path)
    run.write(row(message(0, "Started")))
    done = subprocess.run(
        run.words("--once", *words),
        stdin=subprocess.DEVNULL,
        capture_output=True,
        text=True,
        check=False,
        timeout=LONGEST_WAIT,
    )
    assert (done.returncode, said in done.stderr) == (status, True), done.stderr
