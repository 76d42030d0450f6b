"""The statements by which the engine reads and writes lines and rows. Each names its station by equality."""

import json
from collections import OrderedDict
from collections.abc import Iterable, Iterator, Sequence
from dataclasses import dataclass, field
from datetime import datetime, timedelta, timezone
from typing import Any, NamedTuple

from ocpp_board.errors import StoreError
from ocpp_board.records import LeftOut, Line
from ocpp_board.store.database import (
    EPOCH,
    Database,
    Row,
    SqliteDatabase,
    choose,
    count_days,
    count_hours,
    write_moment,
)

SESSION = """lines evse events voided first_number last_number complete missing gaps up down export_up export_down state
began ended first_at last_at first_register last_register first_export_register last_export_register stopped_reason
sent_id token token_type remote_start_id signed holes reading_moments boundary_moments first_boundary_at
received_until energy_measured first_reading_at last_reading_at peak_w""".split()
# The columns of a line, in the order of `records.Line`.
LINE = "station transaction_id number line received who why origin".split()
# The places of those columns of a transaction that have what its station sent.
SENT = [
    SESSION.index(name)
    for name in ("stopped_reason", "sent_id", "token", "token_type", "remote_start_id", "signed")
]
LAST_AT = SESSION.index("last_at")
PART = "starts up down export_up export_down on_board measured shared by_values numbers_missing".split()
FINDING = "kind times first_at detail".split()
OF_SESSION = "station = :station and transaction_id = :transaction"
# Texts of a station that sends too much which are kept each; further ones are one row.
MOST_TEXTS = 1_000
# The digest of that row, and what it says.
MANY, ONE_OF_MANY = "many", "one of many"
# Characters of the places of a text that are kept.
LONGEST_ORIGINS = 4_000


KEYS = ("station", "transaction_id")
MICROSECOND = timedelta(microseconds=1)
# When a row of `session` was changed, as a whole number where the database has one, which costs little to read.
CHANGED = (
    "/*sqlite changed_at*/ /*postgresql cast(extract(epoch from changed_at) * 1000000 as bigint)*/"
)
# Transactions whose rows are written at once.
WRITTEN_AT_ONCE = 1_000
# A text that came again is counted, but for one of a place that was read before.
COUNT_AGAIN = """
on conflict (station, {key}) do update set
    times = {table}.times + 1,
    first_at = /*sqlite min*/ /*postgresql least*/ (coalesce({table}.first_at, excluded.first_at),
        coalesce(excluded.first_at, {table}.first_at)),
    last_at = /*sqlite max*/ /*postgresql greatest*/ (coalesce({table}.last_at, excluded.last_at),
        coalesce(excluded.last_at, {table}.last_at)),
    origins = case when length({table}.origins) < {most} then {table}.origins || excluded.origins
        else {table}.origins end
where excluded.origins = '' or /*sqlite instr*/ /*postgresql strpos*/ ({table}.origins, excluded.origins) = 0
"""
ADD_REFUSAL = """
insert into refusal (station, cause, digest, site, transaction_id, number, sent_id, sent_number, what, advice, text,
    origins, first_at, last_at)
values (:station, :cause, :digest, :site, :transaction, :number, :sent_id, :sent_number, :what, :advice, :text,
    :origins, :at, :at)
""" + COUNT_AGAIN.format(
    table="refusal", key="cause, digest", most=LONGEST_ORIGINS
)
# What becomes of a refused text that waits.
DECIDE = """
update refusal set decision = :decision, decided_at = :at, decided_by = :who, decided_why = :why
where station = :station and digest = :digest and decision = ''
"""
ADD_STRAY = """
insert into stray (station, digest, site, transaction_id, number, sent_id, text, received, origin, origins, first_at,
    last_at)
values (:station, :digest, :site, :transaction, :number, :sent_id, :text, :at, :origin, :origins, :at, :at)
""" + COUNT_AGAIN.format(
    table="stray", key="digest", most=LONGEST_ORIGINS
)
ADD_MENDED = """
insert into mended (station, digest, transaction_id, number, at, mends, came, origin)
values (:station, :digest, :transaction, :number, :at, :mends, :came, :origin)
on conflict (station, digest) do nothing
"""
ADD_LEFT_OUT = """
insert into left_out (station, version, site, first_at, last_at) values (:station, :version, :site, :first_at, :last_at)
on conflict (station, version) do update set
    first_at = /*sqlite min*/ /*postgresql least*/ (coalesce(left_out.first_at, excluded.first_at),
        coalesce(excluded.first_at, left_out.first_at)),
    last_at = /*sqlite max*/ /*postgresql greatest*/ (coalesce(left_out.last_at, excluded.last_at),
        coalesce(excluded.last_at, left_out.last_at))
"""
ADD_DEED = """
insert into deed (station, transaction_id, number, word, at, origin, who, why, outcome, name, count)
values (:station, :transaction, :number, :word, :at, :origin, :who, :why, :outcome, :name, :count)
on conflict (station, transaction_id, number, word, at, origin) do nothing
"""

Key = tuple[str, str]  # A station and the id of one of its transactions.


class Held(NamedTuple):
    """A transaction that is held: its site, its lines, and the texts that it conflicted with or lacks."""

    site: str
    lines: list[Line]
    refusals: list[Row]
    # What else is stored of it, where that is known.
    kept: "Kept | None" = None
    # The order of its readings, where that is not the site's.
    own_order: str = ""


def name_keys(keys: Iterable[Key]) -> list[dict[str, str]]:
    """Keys as the values of statements."""
    return [{"station": station, "transaction": transaction} for station, transaction in keys]


def find_stations(store: Database, stations: Sequence[str]) -> dict[str, Row]:
    """Those of these stations that are planned: the site and the power of each."""
    asked = "select station, site, most_kw from station where station"
    if not stations:
        return {}
    if store.kind == "postgresql":
        rows = store.fetch(f"{asked} = any(:stations)", stations=list(stations))
    else:
        some = store.fetch_each(f"{asked} = :station", [{"station": one} for one in stations])
        rows = [row for one in some for row in one]
    return {row.station: row for row in rows}


def find_sites(store: Database, stations: Sequence[str]) -> dict[str, str]:
    """The sites of those of these stations that are planned."""
    return {station: row.site for station, row in find_stations(store, stations).items()}


def fetch_keyed(
    store: Database, columns: str, table: str, keys: Sequence[Key], more: str = ""
) -> list[list[Row]]:
    """The rows of a table that belong to these transactions, which are sorted: a list for each of them. `more`: what
    follows the condition."""
    if not keys:
        return []
    if store.kind == "sqlite" or len(keys) == 1:
        asked = f"select {columns} from {table} where {OF_SESSION} {more}"
        return [store.fetch(asked, **one) for one in name_keys(keys)]
    found: list[list[Row]] = [[] for _ in keys]
    for row in store.fetch(
        f"""select k.place, t.* from json_to_recordset(:keys) as k (place int, s text, t text) cross join lateral (
            select {columns} from {table}
            where station = k.s and transaction_id = k.t and station = any(:stations) {more}) t""",
        keys=write_keys(keys),
        stations=list_stations(keys),
    ):
        found[row.place].append(row)
    return found


def write_keys(keys: Sequence[Key]) -> str:
    """Keys as the JSON of a table with their places."""
    return json.dumps([{"place": n, "s": key[0], "t": key[1]} for n, key in enumerate(keys)])


def list_stations(keys: Iterable[Key]) -> list[str]:
    """The stations of keys: by these PostgreSQL knows which partitions a statement needs."""
    return sorted({key[0] for key in keys})


def find_session_sites(
    store: Database, keys: Sequence[Key], warm: "Warm | None" = None
) -> set[str]:
    """The sites of those of these transactions that are stored. `warm`: what this process stored last."""
    kept: dict[Key, Kept] = {} if warm is None else warm.kept
    found = fetch_keyed(store, "site", "session", [key for key in keys if key not in kept])
    known = {kept[key].site for key in keys if key in kept}
    return known | {row.site for one in found for row in one}


def hold_sessions(
    store: Database, sites: dict[Key, str], warm: "Warm | None" = None
) -> dict[Key, Held]:
    """Holds transactions up to the end of the database transaction, in the order of their keys, and gives what is
    stored of them. `sites`: those of the ones that are not stored; `warm`: what this process stored last.
    """
    keys = sorted(sites)
    had = lock_rows(store, sites, warm)
    kept = {
        key: one
        for key, rows in zip(keys, had)
        if rows and warm and (one := warm.take(key, rows[0].lines, rows[0].changed))
    }
    stored = [key for key, rows in zip(keys, had) if rows and rows[0].lines and key not in kept]
    lines = dict(zip(stored, read_lines(store, stored)))
    refusals = read_some_refusals(store, keys)
    found = dict[Key, Held]()
    for key, rows in zip(keys, had):
        site, order = (rows[0].site, rows[0].own_order) if rows else (sites[key], "")
        refused = refusals.get(key, [])
        if key in kept:
            found[key] = Held(site, kept[key].lines, refused, kept[key], order)
            continue
        own = lines.get(key, [])
        # A transaction without lines has no other rows.
        found[key] = Held(site, own, refused, None if own else Kept(), order)
        if rows and len(own) != rows[0].lines:
            raise StoreError(
                f"transaction {key[1]} of {key[0]} has not the lines that its row counts"
            )
    return found


def lock_rows(store: Database, sites: dict[Key, str], warm: "Warm | None") -> list[list[Row]]:
    """The rows of these transactions, in the order of their keys: in PostgreSQL they are there then, and held."""
    keys, columns = (
        sorted(sites),
        f"site, lines, {choose(CHANGED, store.kind)} as changed, own_order",
    )
    if store.kind != "postgresql":
        return fetch_keyed(store, columns, "session", keys)
    new = [key for key in keys if warm is None or key not in warm.kept]
    while True:
        if new:
            store.execute(
                """insert into session (station, transaction_id, site) select s, t, site
                from json_to_recordset(:keys) as k (s text, t text, site text)
                on conflict (station, transaction_id) do nothing""",
                keys=json.dumps([{"s": key[0], "t": key[1], "site": sites[key]} for key in new]),
            )
        had = fetch_keyed(store, columns, "session", keys, "for update")
        new = [key for key, rows in zip(keys, had) if not rows]
        if not new:
            return had


def read_lines(store: Database, keys: Sequence[Key]) -> Iterable[list[Line]]:
    """The lines of each of these transactions."""
    columns = "number, line, received, who, why, origin"
    for rows in fetch_keyed(store, columns, "line", keys, "order by number"):
        yield [
            Line(row.number, row.line, row.received, row.who, row.why, row.origin) for row in rows
        ]


def read_refusals(store: Database, keys: Sequence[Key]) -> Iterable[list[Row]]:
    """What was refused of each of these transactions and waits for a decision: conflicts matter to its rows."""
    columns = "cause, digest, number, case when cause = 'ConflictingEvent' then text end as text"
    return fetch_keyed(store, columns, "refusal", keys, "and decision = ''")


def read_some_refusals(store: Database, keys: Sequence[Key]) -> dict[Key, list[Row]]:
    """The same of those of these transactions whose stations have some."""
    if store.kind == "postgresql" and len(keys) > 1:
        rows = store.fetch(
            "select distinct station from refusal where station = any(:stations) and decision = ''",
            stations=list_stations(keys),
        )
        stations = {row.station for row in rows}
        keys = [key for key in keys if key[0] in stations]
    return dict(zip(keys, read_refusals(store, keys)))


# What a process stored last ------------------------------------------------------------------------------------------

Values = tuple[Any, ...]  # Those of a row, in the order of its columns.


@dataclass(slots=True)
class Kept:
    """The lines of a transaction, the rows of its periods and findings by the first of their columns, its site, when
    its row was changed, as CHANGED has it, and what the ledger knows of its lines."""

    lines: list[Line] = field(default_factory=list)
    parts: dict[Any, Values] = field(default_factory=dict)
    findings: dict[Any, Values] = field(default_factory=dict)
    site: str = ""
    changed: int | str | None = None
    course: Any = None
    # About how many bytes all of it takes.
    size: int = 0


class Warm:
    """What a process stored last of transactions, so that it needn't read it again. It counts while the transaction's
    row has the count of lines and the moment of change that this process wrote."""

    def __init__(self, most: int = 256 * 1_048_576) -> None:
        """`most`: about how many bytes are kept."""
        self.most, self.size = most, 0
        self.kept = OrderedDict[Key, Kept]()
        # What is mended in messages, by site, and until when that is kept.
        self.mends: dict[str, Any] = {}
        self.mends_until = 0.0

    def take(self, key: Key, lines: int, changed: int | str | None) -> Kept | None:
        """Takes out what is kept of a transaction; none where something else is stored."""
        if key not in self.kept:
            return None
        kept = self.kept.pop(key)
        self.size -= kept.size
        is_stored = changed is not None and (len(kept.lines), kept.changed) == (lines, changed)
        return kept if is_stored else None

    def keep(self, key: Key, kept: Kept) -> None:
        """Keeps what was committed of a transaction; others go where there is no room."""
        self.kept[key] = kept
        self.size += kept.size
        while self.size > self.most:
            _, one = self.kept.popitem(last=False)
            self.size -= one.size


# Writing -------------------------------------------------------------------------------------------------------------


def write_changed(store: Database, at: datetime) -> int | str:
    """A moment of change as CHANGED has it."""
    return (at - EPOCH) // MICROSECOND if store.kind == "postgresql" else write_moment(at)


class Written(NamedTuple):
    """What a transaction has in the store from now on. `accepted`: its new lines; `course`: what the ledger knows of
    all of them, and `size`: about how many bytes that takes."""

    held: Held
    accepted: Sequence[Line]
    session: Values
    parts: Sequence[Values]
    findings: Sequence[Values]
    course: Any
    size: int


class Writer:
    """Collects what changed of transactions, and writes it, in PostgreSQL by one statement."""

    def __init__(self, store: Database) -> None:
        self.store, self.at = store, datetime.now(timezone.utc)
        self.rows: dict[Key, Written] = {}
        self.empty: list[Key] = []

    def add(self, key: Key, one: Written) -> Kept:
        """Collects what a transaction has, and gives what is to be kept of it once it is committed."""
        self.rows[key] = one
        if len(self.rows) >= WRITTEN_AT_ONCE:
            self.write()
        return Kept(
            [*one.held.lines, *one.accepted],
            {row[0]: row for row in one.parts},
            {row[0]: row for row in one.findings},
            one.held.site,
            write_changed(self.store, self.at),
            one.course,
            one.size,
        )

    def drop_empty(self, key: Key) -> None:
        """Collects a transaction that was held and has no lines: its row goes again."""
        if self.store.kind == "postgresql":
            self.empty.append(key)

    def write(self) -> None:
        """Writes what was collected."""
        lines = [(*key, *line) for key, one in self.rows.items() for line in one.accepted]
        inserts = [Insert("line", LINE, lines)]
        hour = count_hours(self.at)
        sessions = [
            (*key, one.held.site, self.at, hour, find_day(one.session), *clean_session(one.session))
            for key, one in self.rows.items()
        ]
        columns = [*KEYS, "site", "changed_at", "changed_hour", "last_day", *SESSION]
        inserts.append(make_insert("session", columns, KEYS, sessions, compared=SESSION))
        unknown = sorted(key for key, one in self.rows.items() if one.held.kept is None)
        parts = {key: one.parts for key, one in self.rows.items()}
        findings = {key: one.findings for key, one in self.rows.items()}
        for table, columns, rows in (("part", PART, parts), ("finding", FINDING, findings)):
            before = dict(zip(unknown, read_by_first(self.store, table, columns, unknown)))
            for key, one in self.rows.items():
                if kept := one.held.kept:
                    before[key] = kept.parts if table == "part" else kept.findings
            inserts.append(remove_gone(self.store, table, columns, before, rows))
        insert_all(self.store, [one for one in inserts if one.rows])
        if self.empty:
            delete_each(self.store, "session", self.empty)
        self.rows, self.empty = {}, []


def read_by_first(
    store: Database, table: str, columns: Sequence[str], keys: Sequence[Key]
) -> Iterator[dict[Any, Values]]:
    """The rows of each of these transactions by the first of these columns."""
    for rows in fetch_keyed(store, ", ".join(columns), table, keys):
        values = [tuple(getattr(row, name) for name in columns) for row in rows]
        yield {one[0]: one for one in values}


def find_day(session: Values) -> int | None:
    """The last day of a transaction."""
    last = session[LAST_AT]
    return None if last is None else count_days(last)


def clean_session(session: Values) -> Values:
    """The row of a transaction, its texts as both databases keep them."""
    if all(session[place].isascii() and "\0" not in session[place] for place in SENT):
        return session
    return tuple(clean_text(one) if n in SENT else one for n, one in enumerate(session))


def clean_text(text: str) -> str:
    """A text as both databases keep it: without the character 0, and without half a surrogate pair."""
    return text.replace("\0", "\ufffd").encode("utf-8", "replace").decode()


def write_json(columns: Sequence[str], rows: Iterable[Values]) -> str:
    """Rows as the JSON of a table."""
    return json.dumps([dict(zip(columns, row)) for row in rows], default=datetime.isoformat)


class Insert(NamedTuple):
    """Rows of a table with the values of these columns. Without `more` one that is there fails."""

    table: str
    columns: Sequence[str]
    rows: Sequence[Values]
    more: str = ""


def make_insert(
    table: str,
    columns: Sequence[str],
    keys: Sequence[str],
    rows: Sequence[Values],
    compared: Sequence[str] = (),
) -> Insert:
    """Rows that are inserted, or whose columns beside the keys are written where they are there. `compared`: one
    of these columns has to differ for that."""
    changes = ", ".join(f"{name} = excluded.{name}" for name in columns if name not in keys)
    more = f"on conflict ({', '.join(keys)}) do update set {changes}"
    if compared:
        had, has = (", ".join(f"{of}.{name}" for name in compared) for of in (table, "excluded"))
        more += f" where ({had}) is distinct from ({has})"
    return Insert(table, columns, rows, more)


def insert_all(store: Database, inserts: Sequence[Insert]) -> None:
    """Writes rows of tables, each table once: in PostgreSQL by one statement, since each one costs more than
    its rows."""
    if isinstance(store, SqliteDatabase):
        for one in inserts:
            names, marks = ", ".join(one.columns), ", ".join("?" * len(one.columns))
            statement = f"insert into {one.table} ({names}) values ({marks}) {one.more}"
            store.execute_rows(statement, one.rows)
        return
    if inserts:
        *first, last = map(write_insert, inserts)
        before = ", ".join(f"w{n} as ({one})" for n, one in enumerate(first))
        values = {f"{one.table}_rows": write_json(one.columns, one.rows) for one in inserts}
        store.execute(f"with {before} {last}" if before else last, **values)


def write_insert(one: Insert) -> str:
    """The statement that inserts rows in PostgreSQL."""
    names = ", ".join(one.columns)
    made = f"json_populate_recordset(null::{one.table}, :{one.table}_rows)"
    if one.table == "line":
        # PostgreSQL has a type `line` of its own, so the table's can't be named here.
        made = """json_to_recordset(:line_rows) as r (station text, transaction_id text, number int,
            received timestamptz, line text, who text, origin text, why text)"""
    return f"insert into {one.table} ({names}) select {names} from {made} {one.more}"


def remove_gone(
    store: Database,
    table: str,
    columns: Sequence[str],
    before: dict[Key, dict[Any, Values]],
    own: dict[Key, Sequence[Values]],
) -> Insert:
    """Removes rows of transactions in `part` or `finding` that are there no more, and gives those that are not there or
    differ."""
    keys = [*KEYS, columns[0]]
    more, gone = list[Values](), list[Values]()
    for key, rows in own.items():
        had = before[key]
        more += [(*key, *one) for one in rows if had.get(one[0]) != one]
        gone += [(*key, first) for first in had.keys() - {one[0] for one in rows}]
    if gone:
        delete_rows(store, table, keys, gone)
    return make_insert(table, [*KEYS, *columns], keys, more)


def delete_rows(store: Database, table: str, keys: Sequence[str], rows: Sequence[Values]) -> None:
    """Deletes the rows with these keys."""
    if isinstance(store, SqliteDatabase):
        where = " and ".join(f"{name} = ?" for name in keys)
        store.execute_rows(f"delete from {table} where {where}", rows)
        return
    where = " and ".join(f"t.{name} = g.{name}" for name in keys)
    store.execute(
        f"""delete from {table} t using json_populate_recordset(null::{table}, :rows) g
        where {where} and t.station = any(:stations)""",
        rows=write_json(keys, rows),
        stations=list_stations((row[0], row[1]) for row in rows),
    )


def delete_each(store: Database, table: str, keys: Sequence[Key]) -> None:
    """Deletes the rows of transactions that have no lines."""
    store.execute(
        f"""delete from {table} t using json_to_recordset(:keys) as k (s text, t text)
        where t.station = k.s and t.transaction_id = k.t and t.lines = 0 and t.station = any(:stations)""",
        keys=write_keys(keys),
        stations=list_stations(keys),
    )


@dataclass
class Counted:
    """Texts that changed nothing, as rows: each is added, or counted where it came before. `decided`: those that waited
    and were taken."""

    refusals: list[dict[str, Any]] = field(default_factory=list)
    decided: list[dict[str, Any]] = field(default_factory=list)
    strays: list[dict[str, Any]] = field(default_factory=list)

    def add(self, other: "Counted") -> None:
        """Adds others behind these."""
        self.refusals += other.refusals
        self.decided += other.decided
        self.strays += other.strays

    def write(self, store: Database) -> None:
        """Writes all, within a database transaction."""
        if self.refusals:
            store.execute_each(choose(ADD_REFUSAL, store.kind), self.refusals)
        if self.decided:
            store.execute_each(DECIDE, self.decided)
        if self.strays:
            store.execute_each(choose(ADD_STRAY, store.kind), self.strays)


def find_digests(store: Database, station: str, cause: str) -> set[str]:
    """The digests of the texts of a station and a cause that are kept."""
    asked = "select digest from refusal where station = :station and cause = :cause"
    return {row.digest for row in store.fetch(asked, station=station, cause=cause)}


def note_left_out(store: Database, found: Iterable[LeftOut]) -> None:
    """Adds stations whose messages are left out for their version, within a database transaction."""
    if rows := [one._asdict() for one in found]:
        store.execute_each(choose(ADD_LEFT_OUT, store.kind), rows)


def find_deeds(store: Database, keys: Sequence[dict[str, Any]]) -> list[Row | None]:
    """The answers to operators' lines that are stored, by their keys."""
    asked = f"""select outcome, name, count from deed where {OF_SESSION} and number = :number and word = :word
    and at = :at and origin = :origin"""
    return [rows[0] if rows else None for rows in store.fetch_each(asked, keys)]


def merge_level(
    store: Database, station: str, evse: int, levels: Sequence[tuple[datetime, int]]
) -> None:
    """Adds readings of an import register outside transactions; of more than two of one level in a row the first and
    the last are kept."""
    asked = """select at, up_register from meter_value where station = :station and evse = :evse
    order by at desc, up_register desc limit 2"""
    key = {"station": station, "evse": evse}
    had = [(row.at, row.up_register) for row in reversed(store.fetch(asked, **key))]
    more, gone = list[tuple[datetime, int]](), list[tuple[datetime, int]]()
    for at, register in levels:
        if len(had) > 1 and had[-1][1] == had[-2][1] == register and at > had[-1][0]:
            last = had.pop()
            if last in more:
                more.remove(last)
            else:
                gone.append(last)
        had.append((at, register))
        more.append((at, register))
    if gone:
        store.execute_each(
            """delete from meter_value where station = :station and evse = :evse and at = :at
            and up_register = :register""",
            [key | {"at": at, "register": register} for at, register in gone],
        )
    store.execute_each(
        """insert into meter_value (station, evse, at, up_register) values (:station, :evse, :at, :register)
        on conflict (station, evse, at, up_register) do nothing""",
        [key | {"at": at, "register": register} for at, register in more],
    )
