"""A log that grows and is rotated: which file it is, how far it was read, and what comes."""

import gzip
import hashlib
import logging
import os
import re
import time
import zlib
from collections.abc import Callable, Iterable
from pathlib import Path
from typing import IO, NamedTuple

from ocpp_board.limits import LONGEST_LOG_LINE
from ocpp_board.sources.files import unpack

log = logging.getLogger(__name__)

# Bytes at the beginning of a file by which it is known again, and of a compressed one that surely have these.
FRONT, PACKED_FRONT = 4_096, 65_536
# Looks after which a file that has another name by now is taken to be at its end, and seconds without a change of it
# after which one look will do.
GONE, STILL = 4, 5
# Lines and bytes that are given at once, at most.
MOST_LINES, MOST_BYTES = 10_000, 4_000_000
# The names' ends of files that can't be read.
PACKED = (".bz2", ".xz", ".zst")


def hash_front(file: IO[bytes], place: int) -> str:
    """How a file is recognised after so many of its bytes were taken."""
    count = min(FRONT, place)
    if isinstance(file, gzip.GzipFile):
        packed = os.pread(file.fileno(), PACKED_FRONT, 0)
        data = zlib.decompressobj(wbits=31).decompress(packed, count) if count else b""
    else:
        data = os.pread(file.fileno(), count, 0)
    return hashlib.sha256(data).hexdigest()


def is_replaced(path: str | Path, file: IO[bytes], place: int) -> bool:
    """Whether there is another file of this name, or this one was cut short."""
    try:
        is_same = os.path.samestat(os.stat(path), os.fstat(file.fileno()))
        return not is_same or is_cut_short(file, place)
    except FileNotFoundError:
        return False


def is_cut_short(file: IO[bytes], place: int) -> bool:
    """Whether a file has less than what was read of it. A compressed one doesn't show that."""
    is_packed = isinstance(file, gzip.GzipFile)
    return not is_packed and os.fstat(file.fileno()).st_size < place


def list_beside(path: Path) -> list[Path]:
    """The files that a rotation leaves: names that begin as this one's and go on, or that have a date in them."""
    found = {
        *path.parent.glob(f"{path.name}?*"),
        *filter(match_rotations(path), path.parent.iterdir()),
    }
    return [one for one in sorted(found) if one.is_file() and one.suffix not in PACKED]


def match_rotations(path: Path) -> Callable[[Path], bool]:
    """Whether a name is one that a rotation of this file gives: with a number or a date behind it, or with a date in
    front of its ending."""
    end = rf"(?:\.gz|{'|'.join(map(re.escape, PACKED))})?"
    names = (rf"{re.escape(path.name)}[.\-_][0-9][0-9T:._\-]*", *match_dates(path))
    pattern = re.compile(rf"(?:{'|'.join(names)}){end}")
    return lambda one: pattern.fullmatch(one.name) is not None


def match_dates(path: Path) -> list[str]:
    """The expression of this file's name with a date in front of its ending, where it has one."""
    date = r"[.\-_][0-9]{4}-?[0-9]{2}-?[0-9]{2}(?:[T._\-][0-9:._\-]*)?"
    return [re.escape(path.stem) + date + re.escape(path.suffix)] if path.suffix else []


def rank_age(path: Path) -> tuple[int, int]:
    """By what files of a rotation are put in order, the oldest first: when they were written last, and of one moment by
    their numbers."""
    number = re.search(r"\.([0-9]{1,9})(?:\.gz)?$", path.name)
    return path.stat().st_mtime_ns, -int(number[1]) if number else 0


def list_older(path: Path) -> list[Path]:
    """The files of a log that rotations left, the oldest first. Those that can't be read are reported."""
    is_rotated = match_rotations(path)
    unread = [
        one.name
        for one in sorted(path.parent.iterdir())
        if is_rotated(one) and one.suffix in PACKED
    ]
    if unread:
        log.warning("not read, since only gzip is: %s", ", ".join(unread))
    return sorted(filter(is_rotated, list_beside(path)), key=rank_age)


def seek_to(file: IO[bytes], place: int) -> bool:
    """Whether a file has so many bytes. It is at this place then."""
    return file.seek(place) == place and not is_cut_short(file, place)


def find_known(path: Path, taken: Iterable[tuple[int, str]]) -> IO[bytes] | None:
    """The file that so many bytes were taken from, each time with its front: the one of this name, or one beside it.

    Where nothing was taken it is the one of this name. None where it is none of them. Raises OSError.
    """
    places = [(place, front) for place, front in taken if place]
    for one in [path, *(list_beside(path) if places else [])]:
        file = unpack(open(one, "rb"))
        try:
            if all(
                hash_front(file, place) == front and seek_to(file, place) for place, front in places
            ):
                return file
        except (EOFError, zlib.error, gzip.BadGzipFile):
            pass
        file.close()
    return None


class Place(NamedTuple):
    """How far a file was read, and by what it is known again."""

    place: int
    front: str


class Follower:
    """The lines of a log that grows. A file that was rotated is read to its end, and then those that came after it."""

    def __init__(
        self, path: Path, place: Place | None, cut: Callable[[str], None] = log.warning
    ) -> None:
        """`place`: how far it was read before. `cut` gets what is reported where the log was cut short. Raises OSError
        where there is no file of this name."""
        self.path, self.cut = path, cut
        # A compressed file ended in its middle.
        self.is_damaged = False
        self.begin(place or Place(0, ""))

    def begin(self, place: Place) -> None:
        """Goes on at a place; where nothing was read, or no file is the one that was, with the oldest one."""
        file = find_known(self.path, [place]) if place.place else None
        if file:
            self.open_at(file, place.place)
            return
        os.stat(self.path)
        files = list_older(self.path)
        if place.place:
            self.cut("no file is the one that was read before, and all are read from their starts")
        if files:
            names = ", ".join(one.name for one in files)
            log.info("read first, the oldest first: %s", names)
        self.open_at(unpack(open([*files, self.path][0], "rb")), 0)

    def open_at(self, file: IO[bytes], at: int) -> None:
        """Reads this file from here on."""
        self.file, self.at, self.gone = file, at, 0
        file.seek(at)
        # What was read of a line that has not ended, and how many bytes that are.
        self.rest, self.pending = b"", 0
        # How far the lines go that were given.
        self.place = Place(at, hash_front(file, at))

    def is_current(self) -> bool:
        """Whether the file that is read is the one of the name."""
        return not is_replaced(self.path, self.file, self.at)

    def read_first(self) -> bytes:
        """The first line of the file that is read."""
        self.file.seek(0)
        line = self.file.readline(LONGEST_LOG_LINE + 1)
        self.file.seek(self.at + self.pending)
        return line

    def read(self) -> list[bytes | None]:
        """The lines that came, so many at most; None for one that is too long. There are none where nothing came."""
        lines: list[bytes | None] = []
        before = self.at
        if self.is_cut():
            return self.recover_cut(lines)
        while len(lines) < MOST_LINES and self.at < before + MOST_BYTES:
            part = self.read_part()
            if not part:
                break
            self.pending += len(part)
            self.rest = (self.rest + part)[: LONGEST_LOG_LINE + 1]
            if part.endswith(b"\n"):
                lines.append(self.end_line())
        if self.is_cut():
            # While it was read.
            return self.recover_cut(lines)
        if not lines:
            return self.end_file()
        self.place = Place(self.at, hash_front(self.file, self.at))
        return lines

    def is_cut(self) -> bool:
        """Whether the file lacks what was read of it: it was cut short, and may have grown past that since. A
        compressed one doesn't show that."""
        if isinstance(self.file, gzip.GzipFile):
            return False
        place = self.place
        return is_cut_short(self.file, self.at) or hash_front(self.file, place.place) != place.front

    def recover_cut(self, lines: list[bytes | None]) -> list[bytes | None]:
        """Goes on in a copy that was made before the cut, which has these lines, too; else at the start, with what was
        read before it."""
        copy = find_known(self.path, [self.place]) if self.place.place else None
        if copy:
            self.cut(f"{self.path} was cut; what it had is read from the copy beside it")
            self.open_at(copy, self.place.place)
            return []
        lines += [self.end_line()] if self.pending else []
        self.cut(f"{self.path} was cut, and no copy is beside it; it is read from its start")
        # Another file object: this one's buffer has what was there before.
        self.open_at(unpack(open(os.dup(self.file.fileno()), "rb")), 0)
        return lines

    def read_part(self) -> bytes:
        """What is read next, up to the end of a line; empty at the end of the file."""
        try:
            return b"" if self.is_damaged else self.file.readline(LONGEST_LOG_LINE + 1)
        except (EOFError, zlib.error, gzip.BadGzipFile) as fault:
            name = getattr(self.file, "name", self.path)
            log.error("%s: %s; what follows in that file is left out", name, fault)
            self.is_damaged = True
            return b""

    def end_line(self) -> bytes | None:
        """The line that was read; None where it is too long."""
        line = self.rest if self.pending <= LONGEST_LOG_LINE + 1 else None
        self.at += self.pending
        self.rest, self.pending = b"", 0
        return line

    def end_file(self) -> list[bytes | None]:
        """What is left of a file that is at its end for good; the next one is read then."""
        if self.is_current():
            self.gone = 0
            return []
        self.gone += 1
        now = os.fstat(self.file.fileno())
        if self.gone < GONE and time.time() < now.st_mtime + STILL and not self.is_damaged:
            return []
        lines = [self.end_line()] if self.pending else []
        try:
            self.open_next(now)
        except FileNotFoundError:
            return lines  # A rotation is under way; it is tried again.
        return lines or self.read()

    def open_next(self, now: os.stat_result) -> None:
        """Reads the next file. Raises FileNotFoundError where it is not there yet."""
        old = self.file
        self.open_at(unpack(open(self.find_next(now), "rb")), 0)
        self.is_damaged = False
        old.close()

    def find_next(self, now: os.stat_result) -> Path:
        """The file that was written next after this one: one beside it, or the one of the name."""
        files = list_beside(self.path)
        same = [rank_age(one) for one in files if os.path.samestat(one.stat(), now)]
        age = same[0] if same else (now.st_mtime_ns, 0)
        later = [(rank_age(one), one) for one in files if rank_age(one) > age]
        return min(later)[1] if later else self.path
