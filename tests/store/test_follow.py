"""Logs that grow and are rotated."""

import gzip
import os
import shutil
import time
from pathlib import Path

import pytest

from ocpp_board.limits import LONGEST_LOG_LINE
from ocpp_board.reporting import set_up
from ocpp_board.sources.follow import GONE, Follower, Place, find_known, hash_front, is_replaced


def age(path: Path, seconds: float) -> None:
    """Has a file be written so long ago."""
    moment = time.time() - seconds
    os.utime(path, (moment, moment))


def taken(followed: Follower) -> list[bytes | None]:
    """All lines that come, over as many files as there are."""
    lines = []
    for _ in range(10 * GONE):
        lines += followed.read()
    return lines


def test_a_line_is_given_once_it_ends(tmp_path: Path) -> None:
    log = tmp_path / "log"
    log.write_bytes(b"a\nb")
    followed = Follower(log, None)
    assert taken(followed) == [b"a\n"]
    assert followed.place == Place(2, hash_front(open(log, "rb"), 2))
    with open(log, "ab") as file:
        file.write(b"c\n" + b"x" * (LONGEST_LOG_LINE + 1) + b"\nd\n")
    assert taken(followed) == [b"bc\n", None, b"d\n"]
    assert followed.place.place == log.stat().st_size


def test_a_rotated_file_is_read_to_its_end_and_then_the_next(tmp_path: Path) -> None:
    log = tmp_path / "log"
    log.write_bytes(b"a\n")
    followed = Follower(log, None)
    assert taken(followed) == [b"a\n"]
    log.rename(tmp_path / "log.1")
    with open(tmp_path / "log.1", "ab") as file:
        file.write(b"b\nlast")
    log.write_bytes(b"c\n")
    age(tmp_path / "log.1", 60)
    assert taken(followed) == [b"b\n", b"last", b"c\n"]


def test_a_rotated_file_waits_for_late_lines(tmp_path: Path) -> None:
    log = tmp_path / "log"
    log.write_bytes(b"a\n")
    followed = Follower(log, None)
    assert followed.read() == [b"a\n"]
    log.rename(tmp_path / "log.1")
    log.write_bytes(b"c\n")
    assert followed.read() == []
    with open(tmp_path / "log.1", "ab") as file:
        file.write(b"b\n")
    assert taken(followed) == [b"b\n", b"c\n"]


def test_several_rotations_while_nobody_read(tmp_path: Path) -> None:
    log = tmp_path / "log"
    log.write_bytes(b"a\nb\n")
    place = Follower(log, None)
    first = place.read()
    assert first == [b"a\n", b"b\n"]
    after_a = Place(2, hash_front(open(log, "rb"), 2))
    log.rename(tmp_path / "log.2")
    (tmp_path / "log.1").write_bytes(b"c\n")
    log.write_bytes(b"d\n")
    age(tmp_path / "log.2", 300)
    age(tmp_path / "log.1", 200)
    assert taken(Follower(log, after_a)) == [b"b\n", b"c\n", b"d\n"]
    # The same where a rotation compressed them.
    for number in (1, 2):
        path = tmp_path / f"log.{number}"
        with open(path, "rb") as plain, gzip.open(f"{path}.gz", "wb") as packed:
            shutil.copyfileobj(plain, packed)
        shutil.copystat(path, f"{path}.gz")
        path.unlink()
    assert taken(Follower(log, after_a)) == [b"b\n", b"c\n", b"d\n"]


def test_a_first_start_reads_the_rotated_files_first(
    tmp_path: Path, capsys: pytest.CaptureFixture[str]
) -> None:
    set_up("live")
    log = tmp_path / "csms.log"
    log.write_bytes(b"f\n")
    rotated = [
        "csms-2026-03-01.log",
        "csms.log.3.gz",
        "csms.log.2",
        "csms.log.1",
        "csms.log-20260304",
    ]
    for number, name in enumerate(rotated):
        data = b"abcde"[number : number + 1] + b"\n"
        (tmp_path / name).write_bytes(gzip.compress(data) if name.endswith(".gz") else data)
        # Two of one moment are put in order by their numbers.
        age(tmp_path / name, 900 - 100 * (number - (number == 3)))
    moment = time.time() - 700
    for name in rotated[2:4]:
        os.utime(tmp_path / name, (moment, moment))
    for name in ("csms.log.lock", "csms.log.5.xz", "other.log.1", "csms.log.1.swp"):
        (tmp_path / name).write_bytes(b"x\n")
        age(tmp_path / name, 2_000)
    assert b"".join(filter(None, taken(Follower(log, None)))) == b"a\nb\nc\nd\ne\nf\n"
    said = capsys.readouterr().err
    assert f"read first, the oldest first: {', '.join(rotated)}\n" in said
    assert "not read, since only gzip is: csms.log.5.xz" in said
    # Where the file that was read is gone, nothing beside it is passed over.
    assert taken(Follower(log, Place(2, "gone")))[0] == b"a\n"


def test_a_file_that_is_copied_and_cut_short(tmp_path: Path) -> None:
    log = tmp_path / "log"
    log.write_bytes(b"a\n")
    followed = Follower(log, None)
    assert taken(followed) == [b"a\n"]
    with open(log, "ab") as file:
        file.write(b"b\n")
    shutil.copy(log, tmp_path / "log.1")
    age(tmp_path / "log.1", 60)
    os.truncate(log, 0)
    age(log, 30)
    assert taken(followed) == [b"b\n"]
    log.write_bytes(b"d\n")
    assert taken(followed) == [b"d\n"]


def numbered(first: int, count: int) -> bytes:
    return b"".join(b"line %d\n" % number for number in range(first, first + count))


@pytest.mark.parametrize("is_copied", [True, False])
def test_a_log_that_is_cut_and_outgrows_its_place_loses_nothing(
    is_copied: bool, tmp_path: Path
) -> None:
    log, reported = tmp_path / "log", list[str]()
    log.write_bytes(numbered(0, 100))
    followed = Follower(log, None, reported.append)
    lines = taken(followed)
    assert len(lines) == 100 and not reported
    if is_copied:
        with open(log, "ab") as file:
            file.write(numbered(100, 50) + b"line")
        shutil.copy(log, tmp_path / "log.1")
        with open(tmp_path / "log.1", "ab") as file:
            file.write(b" 150\n")
        age(tmp_path / "log.1", 60)
    # As `copytruncate` of logrotate leaves it, and the writer goes on: it has more than was read before.
    with open(log, "rb+") as file:
        file.truncate(0)
        file.write(numbered(1_000, 400))
    assert os.stat(log).st_size > followed.place.place
    lines += taken(followed)
    old = numbered(0, 151 if is_copied else 100)
    assert b"".join(filter(None, lines)) == old + numbered(1_000, 400)
    (text,) = reported
    assert text.startswith(f"{log} was cut") and ("from the copy" in text) == is_copied
    assert followed.place.place == log.stat().st_size and followed.is_current()


def test_what_was_read_before_a_cut_is_given(
    tmp_path: Path, monkeypatch: pytest.MonkeyPatch
) -> None:
    log, reported = tmp_path / "log", list[str]()
    log.write_bytes(numbered(0, 20) + b"half")
    followed = Follower(log, None, reported.append)
    read = followed.read_part

    def part() -> bytes:
        if found := read():
            return found
        monkeypatch.setattr(followed, "read_part", read)
        log.write_bytes(b"x\n")  # While it is looked at.
        return b""

    monkeypatch.setattr(followed, "read_part", part)
    lines = followed.read()
    assert b"".join(filter(None, lines)) == numbered(0, 20) + b"half" and len(reported) == 1
    assert taken(followed) == [b"x\n"]


def test_a_log_that_is_compressed_itself(tmp_path: Path) -> None:
    log = tmp_path / "log.gz"
    with gzip.open(log, "wb") as file:
        file.write(b"a\n" * 9_999)
    followed = Follower(log, None)
    assert len(taken(followed)) == 9_999 and followed.is_current()
    again = Follower(log, followed.place)
    assert taken(again) == [] and again.is_current()
    # Cut short, as by a copy that did not end, it gives what can be read.
    os.truncate(log, log.stat().st_size - 4)
    assert len(taken(Follower(log, None))) == 9_999


def test_where_no_file_is_known_again_the_one_of_the_name_is_read(tmp_path: Path) -> None:
    log = tmp_path / "log"
    log.write_bytes(b"x\n")
    assert taken(Follower(log, Place(2, "another"))) == [b"x\n"]
    with pytest.raises(FileNotFoundError):
        Follower(tmp_path / "none", None)


def test_a_file_is_known_by_all_its_places(tmp_path: Path) -> None:
    log = tmp_path / "log"
    log.write_bytes(b"abc")
    with open(log, "rb") as file:
        fronts = {place: hash_front(file, place) for place in (1, 2)}
        assert not is_replaced(log, file, 3)
        assert is_replaced(log, file, 4)
        log.unlink()
        assert not is_replaced(log, file, 3)
        log.write_bytes(b"abc")
        assert is_replaced(log, file, 3)
    both = find_known(log, list(fronts.items()))
    assert both and both.tell() == 2
    assert find_known(log, [(1, fronts[1]), (2, fronts[1])]) is None
    assert find_known(log, [(4, fronts[1])]) is None
    assert find_known(log, [(0, "")]) is not None
