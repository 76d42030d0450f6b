"""One class for SQLite and PostgreSQL 15: named parameters (`:name`), transactions, rows by the names of columns.

SQLite keeps a moment as text, `YYYY-MM-DD HH:MM:SS.ffffff+00:00`, which sorts by time; Python sees aware moments in
both.
"""

import re
import sqlite3
from collections import namedtuple
from collections.abc import Callable, Iterable, Iterator, Mapping, Sequence
from contextlib import contextmanager
from datetime import date, datetime, timedelta, timezone
from functools import lru_cache, wraps
from pathlib import Path
from typing import Any, ParamSpec, TypeVar

from ocpp_board.errors import StoreAway, StoreError, UsageError

try:
    import psycopg
    from psycopg.rows import namedtuple_row

    FAULTS: tuple[type[Exception], ...] = (sqlite3.Error, psycopg.Error)
    # Those that pass: the database is away, busy or full, or two writers can't both have their way.
    PASSING: tuple[type[Exception], ...] = (
        sqlite3.OperationalError,
        psycopg.OperationalError,
        psycopg.InterfaceError,
    )
except ModuleNotFoundError:
    FAULTS, PASSING = (sqlite3.Error,), (sqlite3.OperationalError,)

HERE = Path(__file__).parent
VERSION = 3
# The files of the schema, in the order in which they are run.
SOURCES = (
    "schema.sql days.sql gateway.sql web.sql views.sql finding_views.sql days_views.sql".split()
)
# How many partitions PostgreSQL's tables by station have: each one costs every statement that names keys some time.
PARTITIONS = 8
# How full PostgreSQL makes the pages of tables whose rows are written again: a row that stays on its page needs no
# new entries in indexes.
ROOM = {"session": 70, "part": 90, "finding": 90}
# Seconds that a writer waits for another one.
PATIENCE = 60
# When a network that is cut counts as such, for this side, where the store's name says nothing of it, and for the
# server, which holds locks for a connection as long as it knows no better.
NETWORK = {
    "connect_timeout": 10,
    "keepalives_idle": 5,
    "keepalives_interval": 3,
    "keepalives_count": 3,
    "tcp_user_timeout": 10_000,
}
ONCE = """
set plan_cache_mode = force_generic_plan; set enable_hashjoin = off; set enable_mergejoin = off;
set enable_seqscan = off
"""
# To compile a plan over all partitions takes far longer than to run it.
SETTINGS = """
set time zone 'UTC'; set jit = off; set tcp_keepalives_idle = 10; set tcp_keepalives_interval = 5;
set tcp_keepalives_count = 3; set tcp_user_timeout = 30000
"""
MARK = re.compile(r"/\*(sqlite|postgresql) (.*?)\*/", re.DOTALL)
# A text in quotes, in which nothing is a comment, or a comment.
COMMENT = re.compile(r"('(?:[^'])*')|--[^\n]*")
PARAMETER = re.compile(r"('[^']*')|(?<![:\w]):([a-z_][a-z0-9_]*)")
PARTITIONED = re.compile(r"create table (\w+) \([^;]*partition by hash", re.DOTALL)
# Columns whose values are moments, days or yes and no, by their names.
MOMENTS = {"at", "starts", "since", "until", "received", "began", "ended"}
DAYS = {"day", "first_settled_day"}
FLAGS = {"complete", "measured", "numbers_missing", "on_board", "whole"}

EPOCH, HOUR = datetime(1970, 1, 1, tzinfo=timezone.utc), timedelta(hours=1)

Row = Any  # A named tuple of a statement's columns.
P = ParamSpec("P")
T = TypeVar("T")
Values = Mapping[str, Any]


def is_moment(column: str) -> bool:
    """Whether a column has moments."""
    return column in MOMENTS or column.endswith(("_at", "_until"))


def count_days(at: datetime) -> int:
    """The day of a moment (UTC), in days since 1970, as `last_day` has it."""
    return (at - EPOCH).days


def count_hours(at: datetime) -> int:
    """The hour of a moment, in hours since 1970, as `changed_hour` has it."""
    return (at - EPOCH) // HOUR


@lru_cache(65_536)
def write_moment(at: datetime) -> str:
    """A moment as SQLite keeps it."""
    return at.astimezone(timezone.utc).isoformat(" ", "microseconds")


@lru_cache(65_536)
def read_moment(text: str) -> datetime:
    """A moment that SQLite keeps."""
    return datetime.fromisoformat(text)


def choose(text: str, kind: str) -> str:
    """SQL with the marks of one database only."""
    return MARK.sub(lambda found: found[2] if found[1] == kind else "", text)


@lru_cache(1_024)
def write_postgresql(statement: str) -> str:
    """A statement with its parameters as psycopg has them."""
    return PARAMETER.sub(lambda found: found[1] or f"%({found[2]})s", statement.replace("%", "%%"))


class Database:
    """An open store. One thread uses it at a time."""

    kind = ""

    def execute(self, statement: str, **values: Any) -> int:
        """Runs a statement, and gives how many rows it changed."""
        raise NotImplementedError

    def execute_each(self, statement: str, values: Iterable[Values]) -> None:
        """Runs a statement for each of these values."""
        raise NotImplementedError

    def fetch(self, statement: str, **values: Any) -> list[Row]:
        """The rows of a statement."""
        raise NotImplementedError

    def fetch_each(self, statement: str, values: Iterable[Values]) -> Iterator[list[Row]]:
        """The rows of a statement for each of these values."""
        raise NotImplementedError

    def stream(self, statement: str, **values: Any) -> Iterator[Row]:
        """The rows of a statement one by one; none is held."""
        raise NotImplementedError

    def transaction(self) -> Any:
        """A database transaction, as a `with`: committed at its end, and undone where it fails."""
        raise NotImplementedError

    def snapshot(self) -> Any:
        """One moment of the store for reading, as a `with`."""
        raise NotImplementedError

    def close(self) -> None:
        """Closes the store."""
        raise NotImplementedError

    def plan_once(self) -> None:
        """Has statements that name keys planned once: they look each key up in an index, however many there are."""

    def fetch_one(self, statement: str, **values: Any) -> Row | None:
        """The first row of a statement; None where it has none."""
        rows = self.fetch(statement, **values)
        return rows[0] if rows else None

    def has_table(self, table: str) -> bool:
        """Whether there is a table of this name."""
        if self.kind == "sqlite":
            asked = "select 1 as one from sqlite_master where name = :name"
        else:
            asked = "select 1 as one from pg_class where oid = to_regclass(cast(:name as text))"
        return self.fetch_one(asked, name=table) is not None

    def insert_each(self, table: str, rows: Sequence[Values]) -> None:
        """Inserts rows, which all have the same columns."""
        if rows:
            names = list(rows[0])
            marks = ", ".join(f":{name}" for name in names)
            self.execute_each(f"insert into {table} ({', '.join(names)}) values ({marks})", rows)

    def __enter__(self) -> "Database":
        return self

    def __exit__(self, *_fault: object) -> None:
        self.close()


def name_fault(fault: Exception) -> StoreError:
    """What a failure of the database is raised as."""
    text = " ".join(str(fault).split())
    if isinstance(fault, PASSING):
        return StoreAway(f"the store does not answer: {text}")
    return StoreError(f"the store failed: {text}")


def report_faults(method: Callable[P, T]) -> Callable[P, T]:
    """Has a method raise StoreError where the database fails."""

    @wraps(method)
    def run(*words: P.args, **values: P.kwargs) -> T:
        try:
            return method(*words, **values)
        except FAULTS as fault:
            raise name_fault(fault) from fault

    return run


class SqliteDatabase(Database):
    """A store in a SQLite file, in WAL mode: readers wait for nobody, and a second writer waits for the first."""

    kind = "sqlite"

    def __init__(self, path: str, is_durable: bool = True) -> None:
        """`is_durable`: what is committed is on disk. Raises StoreError."""
        try:
            self.connection = sqlite3.connect(
                path, timeout=PATIENCE, isolation_level=None, check_same_thread=False
            )
            self.connection.execute("pragma journal_mode = wal")
            self.connection.execute(f"pragma synchronous = {'full' if is_durable else 'off'}")
            self.connection.execute("pragma cache_size = -65536")
            self.connection.execute("pragma temp_store = memory")
        except sqlite3.Error as fault:
            raise StoreError(f"{path} can't be opened as a store: {fault}") from None
        self.path = path

    @report_faults
    def execute(self, statement: str, **values: Any) -> int:
        """Runs a statement, and gives how many rows it changed."""
        return self.connection.execute(statement, values).rowcount

    @report_faults
    def execute_each(self, statement: str, values: Iterable[Values]) -> None:
        """Runs a statement for each of these values."""
        self.connection.executemany(statement, values)

    @report_faults
    def execute_rows(self, statement: str, rows: Iterable[tuple[Any, ...]]) -> None:
        """Runs a statement for each of these rows, by the places of its marks `?`."""
        self.connection.executemany(statement, rows)

    @report_faults
    def fetch(self, statement: str, **values: Any) -> list[Row]:
        """The rows of a statement."""
        return list(read_rows(self.connection.execute(statement, values)))

    def fetch_each(self, statement: str, values: Iterable[Values]) -> Iterator[list[Row]]:
        """The rows of a statement for each of these values."""
        for one in values:
            yield list(read_rows(self.connection.execute(statement, one)))

    def stream(self, statement: str, **values: Any) -> Iterator[Row]:
        """The rows of a statement one by one."""
        yield from read_rows(self.connection.execute(statement, values))

    @contextmanager
    def transaction(self) -> Iterator[None]:
        """A database transaction that holds the one lock of writers."""
        self.execute("begin immediate")
        try:
            yield
            self.execute("commit")
        except BaseException:
            if self.connection.in_transaction:
                self.execute("rollback")
            raise

    @contextmanager
    def snapshot(self) -> Iterator[None]:
        """One moment of the store, for reading."""
        self.execute("begin")
        try:
            yield
        finally:
            self.execute("rollback")

    def close(self) -> None:
        """Closes the store."""
        self.connection.close()


def adapt_values() -> None:
    """Has SQLite keep moments as texts."""
    sqlite3.register_adapter(datetime, write_moment)
    sqlite3.register_adapter(date, date.isoformat)


adapt_values()


@lru_cache(1_024)
def find_maker(columns: tuple[str, ...]) -> Callable[[tuple[Any, ...]], Row]:
    """What makes a statement's rows of SQLite's values: moments, days and flags as Python has them."""
    readers: list[tuple[int, Callable[[Any], Any]]] = []
    for place, name in enumerate(columns):
        if is_moment(name):
            readers.append((place, read_moment))
        elif name in DAYS:
            readers.append((place, date.fromisoformat))
        elif name in FLAGS:
            readers.append((place, bool))
    name_columns: Any = namedtuple
    make: Callable[[Iterable[Any]], Row] = name_columns("Row", columns, rename=True)._make
    if not readers:
        return make

    def read(values: tuple[Any, ...]) -> Row:
        found = list(values)
        for place, read_value in readers:
            value = found[place]
            if value is not None:
                found[place] = read_value(value)
        return make(found)

    return read


def read_rows(cursor: sqlite3.Cursor) -> Iterable[Row]:
    """The rows of a statement that was run."""
    if cursor.description is None:
        return ()
    return map(find_maker(tuple([one[0] for one in cursor.description])), cursor)


class PostgresDatabase(Database):
    """A store in PostgreSQL, by psycopg 3."""

    kind = "postgresql"

    def __init__(self, url: str) -> None:
        """Raises StoreError."""
        if len(FAULTS) == 1:
            raise StoreError(
                "a store in PostgreSQL needs psycopg 3 (Debian: apt-get install python3-psycopg)"
            )
        try:
            more: dict[str, Any] = {
                name: value for name, value in NETWORK.items() if f"{name}=" not in url
            }
            self.connection = psycopg.connect(
                url, autocommit=True, row_factory=namedtuple_row, prepare_threshold=2, **more
            )
            self.connection.execute(SETTINGS)
        except psycopg.Error as fault:
            raise StoreAway(f"the store can't be reached: {' '.join(str(fault).split())}") from None
        self.url = url

    @report_faults
    def execute(self, statement: str, **values: Any) -> int:
        """Runs a statement, and gives how many rows it changed."""
        return int(self.connection.execute(write_postgresql(statement), values).rowcount)

    @report_faults
    def execute_each(self, statement: str, values: Iterable[Values]) -> None:
        """Runs a statement for each of these values, without waiting between them."""
        with self.connection.cursor() as cursor:
            cursor.executemany(write_postgresql(statement), values)

    @report_faults
    def fetch(self, statement: str, **values: Any) -> list[Row]:
        """The rows of a statement."""
        return list(self.connection.execute(write_postgresql(statement), values).fetchall())

    def fetch_each(self, statement: str, values: Iterable[Values]) -> Iterator[list[Row]]:
        """The rows of a statement for each of these values, which are asked without waiting between them."""
        values = list(values)
        if not values:
            return
        with self.connection.cursor() as cursor:
            cursor.executemany(write_postgresql(statement), values, returning=True)
            while True:
                yield list(cursor.fetchall())
                if not cursor.nextset():
                    return

    def stream(self, statement: str, **values: Any) -> Iterator[Row]:
        """The rows of a statement one by one."""
        with self.connection.transaction(), self.connection.cursor("streamed") as cursor:
            cursor.itersize = 5_000
            cursor.execute(write_postgresql(statement), values)
            yield from cursor

    @report_faults
    def plan_once(self) -> None:
        """To plan a statement over all partitions takes longer than to run it for some keys."""
        self.connection.execute(ONCE)

    @contextmanager
    def transaction(self) -> Iterator[None]:
        """A database transaction."""
        try:
            with self.connection.transaction():
                yield
        except FAULTS as fault:
            raise name_fault(fault) from fault

    @contextmanager
    def snapshot(self) -> Iterator[None]:
        """One moment of the store, for reading."""
        with self.transaction():
            self.execute("set transaction isolation level repeatable read, read only")
            yield

    def close(self) -> None:
        """Closes the store."""
        self.connection.close()


def is_postgresql(name: str) -> bool:
    """Whether a store's name is one of PostgreSQL."""
    return name.startswith(("postgresql://", "postgres://"))


def open_store(name: str, is_durable: bool = True) -> Database:
    """Opens a store, and makes its tables where it has none. `name`: a file, or `postgresql://..`; `is_durable`: what
    is committed is on disk. Raises StoreError and UsageError."""
    if not name:
        raise UsageError("no store is named; name one by --store FILE or --store postgresql://..")
    database: SqliteDatabase | PostgresDatabase
    database = PostgresDatabase(name) if is_postgresql(name) else SqliteDatabase(name, is_durable)
    try:
        make_tables(database)
    except BaseException:
        database.close()
        raise
    return database


def open_again(store: Database) -> Database:
    """Another connection to the same store, for another thread or process. Raises StoreError."""
    if isinstance(store, SqliteDatabase):
        return SqliteDatabase(store.path)
    assert isinstance(store, PostgresDatabase)
    return PostgresDatabase(store.url)


def make_tables(database: SqliteDatabase | PostgresDatabase) -> None:
    """Makes the tables and views of a store that has none. Raises StoreError where it has those of another version."""
    if not has_table(database):
        make_schema(database)
    row = database.fetch_one("select version from store")
    if row is None or row.version != VERSION:
        raise StoreError(
            f"the store has the tables of version {row.version if row else '?'}, and this is version {VERSION}"
        )


def has_table(database: Database) -> bool:
    """Whether the store has tables."""
    return database.has_table("store")


def list_sources() -> list[Path]:
    """The files of the schema: tables, then views."""
    return [path for path in map(HERE.joinpath, SOURCES) if path.exists()]


def make_schema(database: SqliteDatabase | PostgresDatabase) -> None:
    """Makes tables and views; of two that do so at once the second finds them made."""
    text = "\n".join(path.read_text("utf-8") for path in list_sources())
    with database.transaction():
        if database.kind == "postgresql":
            database.execute("select pg_advisory_xact_lock(7201401)")
        if has_table(database):
            return
        for statement in part_statements(choose(text, database.kind)):
            database.execute(statement)
        if database.kind == "postgresql":
            for table in PARTITIONED.findall(choose(text, "postgresql")):
                for number in range(PARTITIONS):
                    database.execute(
                        f"create table {table}_{number} partition of {table} for values with "
                        f"(modulus {PARTITIONS}, remainder {number}) with (fillfactor = {ROOM.get(table, 100)})"
                    )
        database.execute(
            "insert into store (version, made_at) values (:version, :now)",
            version=VERSION,
            now=datetime.now(timezone.utc),
        )


def part_statements(text: str) -> list[str]:
    """The statements of a file, each of which ends at the end of a line, without comments."""
    bare = COMMENT.sub(lambda found: found[1] or "", text)
    return [one.strip() for one in re.split(r";[ \t]*(?:\n|$)", bare) if one.strip()]
