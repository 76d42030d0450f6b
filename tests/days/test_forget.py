"""Forgetting: tokens leave lines and rows whose figures stay, and old years become files."""

import csv
import io
import zipfile
from datetime import datetime, timedelta, timezone
from pathlib import Path
from typing import Any

import pytest

from ocpp_board.errors import UsageError
from ocpp_board.ledger import forgetting, old_sessions
from ocpp_board.ledger.answers import AnswerReader
from ocpp_board.ledger.engine import settle
from ocpp_board.ledger.forgetting import Wanted, forget_tokens
from ocpp_board.ledger.old_sessions import move_old
from ocpp_board.ledger.program import find_program
from ocpp_board.ledger.verify import verify
from ocpp_board.messages.tokens import empty_line, empty_tokens
from ocpp_board.records import Message
from ocpp_board.store.closing import close_day
from ocpp_board.store.database import Database
from ocpp_board.store.lines import Warm
from tests.days.conftest import SITE, operate, read_noon, run, send, write_message
from tests.traffic.troubles import FIRST, Session, signed_differs, sound

FIGURES = (
    "select station, transaction_id, lines, up, down, complete, missing, first_at, last_at from session "
    "order by station, transaction_id"
)
PARTS = "select * from part order by station, transaction_id, starts"
DAY = timedelta(days=1)


def give_token(session: Session, token: str, places: tuple[int, ...] = (0,)) -> Session:
    """The session with a token in some of its events."""
    for place in places:
        session[place].payload["idToken"] = {
            "idToken": token,
            "type": "ISO14443",
            "additionalInfo": [{"additionalIdToken": "4711", "type": "card"}],
        }
    return session


def read_figures(store: Database) -> list[object]:
    """The figures of a store."""
    return [store.fetch(FIGURES), store.fetch(PARTS), store.fetch("select * from finding")]


def find_texts(store: Database, word: str) -> int:
    """How many texts of the store have a word."""
    asked = (
        "select line as text from line union all select text from refusal union all select text from stray "
        "union all select token || signed as text from session union all select came as text from mended"
    )
    return sum(word.lower() in row.text.lower() for row in store.fetch(asked))


def test_all_tokens_leave_and_all_figures_stay(store: Database) -> None:
    send(store, "A", give_token(signed_differs("t1", FIRST), "Ab12", (0, 3)))
    send(store, "B", give_token(sound("t2", FIRST + DAY), "Cd34", (1,)))
    refused = give_token(sound("t3", FIRST), "Ef56")
    refused[0].payload["seqNo"] = -1
    send(store, "A", refused[:1])
    stray = give_token(sound("t4", FIRST), "Gh78")
    settle(store, [Message("unknown", write_message(stray[0]), stray[0].received, "a log")])
    operate(store, "void", "A", "t1", 0, FIRST)
    came = write_message(give_token(sound("t5", FIRST), "Ij90")[0])
    mended = Message("A", came.replace("Ij90", ""), FIRST, "a log", mends="unit", came=came)
    settle(store, [mended])
    before = read_figures(store)
    assert all(find_texts(store, one) for one in ("Ij90", "Ab12", "Cd34", "Ef56", "Gh78", "4711"))

    found = forget_tokens(store, find_program(), Wanted())
    assert (found.lines, found.sessions, found.texts, found.kept) == (4, 3, 3, [])
    assert not any(
        find_texts(store, one) for one in ("Ij90", "Ab12", "Cd34", "Ef56", "Gh78", "4711")
    )
    assert read_figures(store) == before
    assert verify(store).difference == ""
    # An emptied event is a repeat of the one that had the token, and an operator's line still finds it.
    (answer,) = send(store, "A", give_token(signed_differs("t1", FIRST), "Ab12", (0, 3))[:1])
    assert (answer.outcome, answer.reply) == (
        "repeat",
        '[3,"m",{"idTokenInfo":{"status":"Accepted"}}]',
    )
    assert operate(store, "restore", "A", "t1", 0, FIRST).outcome == "accepted"
    assert verify(store).difference == ""
    again = forget_tokens(store, find_program(), Wanted())
    assert (again.lines, again.texts) == (0, 0)


def test_old_tokens_leave_and_new_ones_stay(store: Database) -> None:
    send(
        store,
        "A",
        give_token(sound("t1", FIRST), "Ab12"),
        give_token(sound("t2", FIRST + DAY), "Ab12"),
    )
    found = forget_tokens(store, find_program(), Wanted(before=FIRST + DAY))
    assert (found.lines, found.sessions) == (1, 1)
    rows = store.fetch("select token from session order by transaction_id")
    assert [row.token for row in rows] == ["", "Ab12"]


def test_one_token_leaves_whatever_its_letters(store: Database) -> None:
    send(
        store,
        "A",
        give_token(sound("t1", FIRST), "AB12"),
        give_token(sound("t2", FIRST + DAY), "other"),
    )
    text = write_message(give_token(sound("t3", FIRST + 2 * DAY), "ab12")[0])
    escaped = text.replace('"idToken":{', '"\\u0069dToken":{')
    assert escaped != text
    settle(store, [Message("A", escaped, FIRST, "a log")])
    found = forget_tokens(store, find_program(), Wanted("ab12"))
    assert (found.lines, find_texts(store, "ab12"), find_texts(store, "other")) == (2, 0, 2)
    assert verify(store).difference == ""


def test_a_token_does_not_come_back_with_what_a_process_keeps(store: Database) -> None:
    warm, session = Warm(), give_token(sound("t1", FIRST), "Ab12")
    messages = [Message("A", write_message(one), one.received, "a log") for one in session]
    settle(store, messages[:2], warm=warm)
    assert forget_tokens(store, find_program(), Wanted("Ab12")).lines == 1
    settle(store, messages[2:], warm=warm)
    assert find_texts(store, "Ab12") == 0
    assert verify(store).difference == ""


def test_no_file_of_sqlite_has_the_token(store: Database, store_name: str) -> None:
    if store.kind != "sqlite":
        pytest.skip("PostgreSQL's files are its own")
    session = give_token(sound("t1", FIRST), "Token-4711")
    send(store, "A", session)
    files = list(Path(store_name).parent.glob("ledger.db*"))
    assert any(b"Token-4711" in path.read_bytes() for path in files)
    forget_tokens(store, find_program(), Wanted())
    assert not any(b"Token-4711" in path.read_bytes() for path in files if path.exists())


def test_signed_values_leave_where_it_is_asked(store: Database) -> None:
    send(store, "A", signed_differs("t1", FIRST))
    assert forget_tokens(store, find_program(), Wanted()).lines == 0
    before = store.fetch(FIGURES)
    assert forget_tokens(store, find_program(), Wanted(is_signed=True)).lines == 4
    assert find_texts(store, "signedMeterData") == find_texts(store, "ocmf") == 0
    assert store.fetch(FIGURES) == before
    assert verify(store).difference == ""


@pytest.mark.parametrize(
    ("text", "token", "emptied"),
    [
        ('{"idToken":{"idToken":"a"},"b":1.50}', None, '{"idToken":{},"b":1.50}'),
        ('{ "idToken" : {"idToken":"a"} }', "A", '{ "idToken" : {} }'),
        ('{"idToken":{"idToken":"a"}}', "b", '{"idToken":{"idToken":"a"}}'),
        ('{"x":[{"idToken":"a"}]}', None, '{"x":[{"idToken":""}]}'),
        ('{"idTag":"a"}', None, '{"idTag":""}'),
        ('{"idToken":"a"', None, "?"),
        ('{"idToken":"a"', "b", '{"idToken":"a"'),
        ('{"say":"idToken"}', None, '{"say":"idToken"}'),
    ],
)
def test_texts_keep_all_but_the_token(text: str, token: str | None, emptied: str) -> None:
    assert empty_tokens(text, token) == emptied


def close_and_move(store: Database, folder: Path) -> Path:
    """Closes a day, and moves what was before the next year into a file."""
    close_day(store, SITE, None, "jo", read_noon("2026-12-01"))
    (moved,) = move_old(store, datetime(2026, 3, 2, tzinfo=timezone.utc), folder)
    assert (moved.site, moved.sessions, moved.stayed) == (SITE, 1, 0)
    assert moved.file is not None
    return moved.file


def test_old_sessions_become_files_that_replay(store: Database, tmp_path: Path) -> None:
    send(store, "A", give_token(sound("old", FIRST), "Ab12"), sound("new", FIRST + DAY))
    send(store, "B", sound("open", FIRST)[:3])
    operate(store, "void", "A", "old", 2, FIRST)
    operate(store, "restore", "A", "old", 2, FIRST)
    (old,) = store.fetch("select up, down, events from session where transaction_id = 'old'")
    with zipfile.ZipFile(close_and_move(store, tmp_path)) as packed:
        names = set(packed.namelist())
        script = packed.read("1.script")
        sessions = list(csv.DictReader(io.TextIOWrapper(packed.open("session.csv"))))
        parts = list(csv.DictReader(io.TextIOWrapper(packed.open("closed_part.csv"))))
    assert {
        "1.script",
        "session.csv",
        "part.csv",
        "line.csv",
        "deed.csv",
        "closed_session.csv",
    } <= names
    assert [row["transaction_id"] for row in sessions] == ["old"]
    assert sum(int(row["up"]) for row in parts) == old.up
    reader = AnswerReader(find_program().answer(script))
    assert all(one.startswith("accepted ") for one in reader.read_some(6))
    total = reader.read_board().own.total
    assert (total.events, total.flow.up, total.flow.down) == (old.events, old.up, old.down)
    # Nothing of it is in the store but where it went, and the rest has its figures.
    for table in ("session", "line", "part", "closed_part", "closed_session", "deed"):
        assert not store.fetch(f"select 1 as one from {table} where transaction_id = 'old'")
    assert [row.file for row in store.fetch("select file from exported_session")] == [
        f"{SITE}.before-2026-03-02.zip"
    ]
    assert verify(store).difference == ""
    assert close_day(store, SITE, None, "jo", read_noon("2026-12-01")).number is None
    assert store.fetch("select 1 as one from correction") == []
    # What comes for it later is held.
    send(store, "A", [sound("old", FIRST)[1]])
    (row,) = store.fetch("select kind, detail from hold where transaction_id = 'old'")
    assert tuple(row) == ("earlier lines are in a file", f"{SITE}.before-2026-03-02.zip")


def test_what_is_not_settled_stays(store: Database, tmp_path: Path) -> None:
    send(store, "A", sound("t1", FIRST))
    before = datetime(2026, 4, 1, tzinfo=timezone.utc)
    assert [one.file for one in move_old(store, before, tmp_path)] == [None]
    close_day(store, SITE, None, "jo", read_noon("2026-12-01"))
    operate(store, "void", "A", "t1", 2, FIRST)
    assert [one.file for one in move_old(store, before, tmp_path)] == [None]
    assert list(tmp_path.glob("*.zip*")) == []
    with pytest.raises(UsageError, match="is no folder"):
        list(move_old(store, before, tmp_path / "none"))


def test_the_command(store: Database, store_name: str) -> None:
    send(store, "A", give_token(sound("t1", FIRST), "Ab12"))
    made = run("forget", "--store", store_name, "--after", "1")
    assert (made.returncode, made.stderr) == (0, "")
    assert "tokens left 1 lines of 1 sessions" in made.stdout
    assert find_texts(store, "Ab12") == 0


@pytest.mark.parametrize(
    ("words", "said"),
    [
        ([], "one of the arguments --after --token --years is required"),
        (["--after", "0"], "no count from 1"),
        (["--token", ""], "a token has 1 to 255 characters"),
        (["--after", "1", "--token", "a"], "not allowed with"),
        (["--years", "1"], "--years needs --out FOLDER"),
        (["--years", "1", "--out", "/nowhere"], "/nowhere is no folder"),
    ],
)
def test_wrong_words_have_a_named_error(tmp_path: Path, words: list[str], said: str) -> None:
    made = run("forget", "--store", str(tmp_path / "a.db"), *words)
    assert (made.returncode, made.stdout) == (2, "")
    assert said in made.stderr


def test_a_session_whose_figures_would_change_keeps_its_lines(
    store: Database, monkeypatch: pytest.MonkeyPatch
) -> None:
    send(store, "A", give_token(sound("t1", FIRST), "Ab12"), give_token(sound("t2", FIRST), "Ab12"))

    def spoil(line: str, *words: Any) -> str:
        return empty_line(line, *words).replace('"t1"},"evse":{"id":1}', '"t1"},"evse":{"id":2}')

    monkeypatch.setattr(forgetting, "empty_line", spoil)
    before = store.fetch("select line from line where transaction_id = 't1' order by number")
    found = forget_tokens(store, find_program(), Wanted())
    assert (found.sessions, len(found.kept)) == (1, 1)
    assert found.kept[0].startswith("t1 of A: its figures would change")
    after = store.fetch("select line from line where transaction_id = 't1' order by number")
    assert before == after
    assert [row.token for row in store.fetch("select token from session order by 1")] == [
        "",
        "Ab12",
    ]


def test_a_move_that_ended_midway_is_done_by_the_next_one(
    store: Database, tmp_path: Path, monkeypatch: pytest.MonkeyPatch
) -> None:
    send(store, "A", sound("t1", FIRST), sound("t2", FIRST + timedelta(hours=3)))
    close_day(store, SITE, None, "jo", read_noon("2026-12-01"))
    before, remove, calls = datetime(2026, 3, 2, tzinfo=timezone.utc), old_sessions.remove, [0]

    def fail(*words: Any) -> bool:
        calls[0] += 1
        if calls[0] == 2:
            raise OSError("the disk is full")
        return remove(*words)

    monkeypatch.setattr(old_sessions, "AT_ONCE", 1)
    monkeypatch.setattr(old_sessions, "remove", fail)
    with pytest.raises(OSError):
        list(move_old(store, before, tmp_path))
    assert [row.transaction_id for row in store.fetch("select * from session")] == ["t2"]
    assert verify(store).difference == ""
    (moved,) = move_old(store, before, tmp_path)
    assert (moved.sessions, moved.stayed) == (1, 0)
    assert store.fetch("select * from session") == []
    names = ["north.before-2026-03-02.zip", "north.before-2026-03-02.2.zip"]
    rows = store.fetch("select file from exported_session order by transaction_id")
    assert [row.file for row in rows] == names
    for name, sessions in zip(names, (2, 1)):
        with zipfile.ZipFile(tmp_path / name) as packed:
            assert len(packed.read("session.csv").splitlines()) == sessions + 1
