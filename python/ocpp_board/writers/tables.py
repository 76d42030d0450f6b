"""The CSV tables of a store: a folder for each site, and the messages of stations that no site has.

    SITE/periods.csv        the energy of each settlement period of the site, its stations and their EVSEs
    SITE/transactions.csv   each transaction: its numbers, energies, times, registers, findings, and what a bill needs
    SITE/findings.csv       what is doubtful, the gravest first
    SITE/refused.csv        what was refused, with cause and advice
    SITE/operator.csv       the operators' lines with who, when, why, and the answer
    SITE/mended.csv         the messages that were mended
    SITE/site_meter.csv     the main meter (EVSE 0 of MeterValues) against the sum of the EVSEs, by period
    SITE/signed/            the first and the last signed value of each transaction that has some
    refused.csv             messages of stations that no site has, and lines that name no station

A table of a day (`SITE/2026-03-01.periods.csv`) has the rows of that day of the site's zone. A file is there whole or
not at all.
"""

import csv
import io
import json
import os
from collections import OrderedDict
from collections.abc import Callable, Collection, Iterable, Iterator, Sequence
from dataclasses import dataclass
from datetime import date, datetime, timedelta, timezone
from functools import lru_cache
from itertools import chain
from operator import attrgetter
from pathlib import Path
from typing import Any, NamedTuple

from ocpp_board.energies import MWH_OF_A_KWH
from ocpp_board.escapes import csv_cell
from ocpp_board.ledger.findings import Effect, Kind
from ocpp_board.messages.bills import (
    HEADS as BILL_HEADS,
    Details,
    Signed,
    as_base64,
    token_cell,
    write_signed,
)
from ocpp_board.store.database import Database, Row, count_days
from ocpp_board.store.values import Compared, compare_main, find_main_span
from ocpp_board.writers.bills import describe_measured
from ocpp_board.writers.calendar import MOMENT, Calendar, find_calendar
from ocpp_board.writers.files import name_file

# The rows of more days in a row without energy are left out: a clock that was set wrong may be years away.
LONGEST_PAUSE = 62
# How many moments and periods have their cells kept.
KEPT = 131_072
# Days of sites whose rows of periods are kept where tables are written again.
MOST_DAYS = 8
# The time of an operator's line whose source has none.
NO_TIME = datetime(2000, 1, 1, tzinfo=timezone.utc)
FLOWS = [
    "up (milliwatt_hours)",
    "down (milliwatt_hours)",
    "up (kWh)",
    "down (kWh)",
    "export up (milliwatt_hours)",
    "export down (milliwatt_hours)",
    "export up (kWh)",
    "export down (kWh)",
]
REFUSED = [
    "first (UTC)",
    "last (UTC)",
    "times",
    "site",
    "station",
    "transaction",
    "seqNo",
    "cause",
    "what",
    "advice",
    "decision",
]
OPERATOR = ["time (UTC)", "who", "what", "site", "station", "transaction", "seqNo", "why", "answer"]
MENDED = ["time (UTC)", "site", "station", "transaction", "seqNo", "mended", "as it came"]
METER = ["start (UTC)", "site meter (kWh)", "EVSEs (kWh)", "losses (kWh)"]
REFUSED_ORDER = "order by first_at, station, sent_id, number, cause, what"
SESSION_ORDER = "order by coalesce(t.place, 0), s.station, s.transaction_id"
# How the figure of a period was come by, where no register says it.
ESTIMATED, BY_VALUES = "estimated", "estimated by meter values"
KINDS = {kind.label: kind for kind in Kind}
# The places of the kinds of findings: by what they do to figures, the gravest first, and by the kind.
EFFECTS = [*Effect]
ORDER = {kind.label: place for place, kind in enumerate(Kind)}

Cell = str | int


@dataclass(frozen=True)
class TableOptions:
    """What tables have. `tokens`: how drivers' tokens are written; `raw`: texts from outside are there as they are;
    `all_periods`: periods without energy are there, too; `first`, `last`: the days whose periods are there.
    """

    tokens: str = "none"
    raw: bool = False
    all_periods: bool = False
    first: date = date.min
    last: date = date.max


class Site(NamedTuple):
    """A site with the rules that its tables show."""

    site: str
    zone: str
    period: int
    reading_order: str
    settle: str


def write_csv(
    path: Path, heads: Sequence[str], rows: Iterable[Iterable[Cell]], texts: Iterable[str] = ()
) -> None:
    """Writes a CSV file, which is there whole or not at all. `texts`: further rows as text. Raises OSError."""
    made = path.with_name(f".{path.name}.made")
    with open(made, "w", encoding="utf-8", newline="") as file:
        table = csv.writer(file, lineterminator="\n")
        table.writerow(heads)
        table.writerows(rows)
        file.writelines(texts)
    os.replace(made, path)


def write_text(rows: Iterable[Iterable[Cell]]) -> str:
    """Rows of a CSV file as text."""
    text = io.StringIO(newline="")
    csv.writer(text, lineterminator="\n").writerows(rows)
    return text.getvalue()


@lru_cache(KEPT)
def write_kwh(mwh: int) -> str:
    """An energy in kWh with six decimals, which may be negative."""
    whole, part = divmod(abs(mwh), MWH_OF_A_KWH)
    return f"{'-' if mwh < 0 else ''}{whole}.{part:06}"


def write_flow(up: int, down: int, export_up: int, export_down: int) -> list[Cell]:
    """The cells of an energy."""
    imported: list[Cell] = [up, down, write_kwh(up), write_kwh(down)]
    return imported + [export_up, export_down, write_kwh(export_up), write_kwh(export_down)]


def find_net(row: Row) -> int:
    """What was imported less what was exported, in mWh."""
    return int(row.up - row.down - row.export_up + row.export_down)


def write_register(mwh: int | None) -> str:
    """The cell of a register; empty where it was not read."""
    return "" if mwh is None else write_kwh(mwh)


def list_sites(store: Database) -> list[Site]:
    """The sites of a store with their rules."""
    rows = store.fetch(
        "select site, zone, period, reading_order, settle from site order by place, site"
    )
    return [Site(*row) for row in rows]


class TableWriter:
    """Writes the tables of a store."""

    def __init__(self, store: Database, out: Path, options: TableOptions = TableOptions()) -> None:
        self.store, self.out, self.options = store, out, options

    def write_all(self) -> int:
        """Writes all tables, and gives how many. Raises OSError."""
        self.out.mkdir(parents=True, exist_ok=True)
        count = sum(self.write_site(site) for site in list_sites(self.store))
        return count + self.write_strays()

    def write_site(self, site: Site) -> int:
        """Writes the tables of a site, and gives how many. Raises OSError."""
        one = SiteTables(self.store, self.out, site, self.options)
        one.folder.mkdir(parents=True, exist_ok=True)
        one.write_periods()
        one.write_transactions()
        one.write_findings()
        one.write_signed()
        others = one.write_refused() + one.write_operator() + one.write_mended()
        return 3 + others + one.write_meter()

    def write_strays(self) -> int:
        """Writes what was refused of no site, where there is some, and gives whether there is."""
        rows = self.store.fetch(
            f"select * from refused where site not in (select site from site) {REFUSED_ORDER}"
        )
        cells = (write_refusal(row, self.options.raw) for row in rows)
        return write_some(self.out / "refused.csv", REFUSED, cells)


def write_utc(at: datetime | None) -> str:
    """The cell of a moment in UTC; empty where it is not known."""
    return at.strftime(MOMENT) if at else ""


def write_comparison(one: Compared) -> list[Cell]:
    """The cells of a period of a main meter."""
    return [write_utc(one.starts), *map(write_kwh, (one.main, one.taken, one.losses))]


def write_some(path: Path, heads: Sequence[str], rows: Iterable[Iterable[Cell]]) -> int:
    """Writes a table that has rows, and gives 1; one without rows is no file, and 0. Raises OSError."""
    some = list(rows)
    if some:
        write_csv(path, heads, some)
    else:
        path.unlink(missing_ok=True)
    return 1 if some else 0


class SiteTables:
    """Writes the tables of a site, or those of one of its days."""

    def __init__(
        self,
        store: Database,
        out: Path,
        site: Site,
        options: TableOptions,
        day: date | None = None,
        book: "Book | None" = None,
    ) -> None:
        """`day`: tables have only what began on this day of the site's zone; `book`: findings that were read before."""
        self.store, self.site, self.options, self.day = store, site, options, day
        self.out = out
        self.book = book or Book(store)
        self.calendar = find_calendar(site.zone)
        self.folder = out / name_file(site.site)
        self.order = "by moment" if site.reading_order == "moment" else "by sequence"

    def path(self, name: str) -> Path:
        """The path of a table."""
        return self.folder / (f"{self.day}.{name}.csv" if self.day else f"{name}.csv")

    def cell(self, text: str) -> str:
        """A text from outside: a name, an id or a reason."""
        return text if self.options.raw else csv_cell(text)

    def moments(self, at: datetime | None) -> list[str]:
        """The cells of a moment, which are empty where it is not known."""
        return self.calendar.cells(at) if at else [""] * (1 if self.calendar.is_utc else 2)

    def moment_heads(self, name: str) -> list[str]:
        """The heads of the columns of a moment."""
        return [f"{name} (UTC)", *([] if self.calendar.is_utc else [f"{name} ({self.site.zone})"])]

    def fetch_sessions(
        self, columns: str, order: str, station: str | None = None, last: date | None = None
    ) -> list[Row]:
        """These columns of the transactions of the site, or of one of its stations: of those that began on the tables'
        day, or on a day from it to the last one."""
        text, values = "", dict[str, Any]()
        if station is not None:
            text, values = " and s.station = :station", {"station": station}
        if self.day is not None:
            since, until = self.calendar.begin(self.day), self.calendar.end(last or self.day)
            # By the first two an index finds them.
            text += (
                " and s.last_day >= :day and s.first_at < :until"
                " and coalesce(s.began, s.first_at) >= :since and coalesce(s.began, s.first_at) < :until"
            )
            values |= {"since": since, "until": until, "day": count_days(since)}
        return self.store.fetch(
            f"select {columns} from session s left join station t on t.station = s.station "
            f"where s.site = :site and s.events > 0{text} {order}",
            site=self.site.site,
            **values,
        )

    # Periods ----------------------------------------------------------------------------------------------------------

    def write_periods(self, stations: Iterable[str] | None = None) -> None:
        """Writes the table of periods. `stations`: those of which something changed, where the book has the others.
        Raises OSError."""
        if stations is None:
            self.put_periods(self.list_periods())
        else:
            self.put_day(self.book.read_periods(self, stations))

    def put_day(self, day: "DayPeriods") -> None:
        """Writes the table of periods of a day that was read. Raises OSError."""
        site = self.write_rows("site", "", "", day.list_sums(), None)
        self.put_periods(chain(site, day.texts.values()))

    def put_periods(self, rows: Iterable[str]) -> None:
        """Writes the table of periods of these rows. Raises OSError."""
        zones = ["UTC"] if self.calendar.is_utc else ["UTC", self.site.zone]
        times = [f"period {end} ({zone})" for end in ("start", "end") for zone in zones]
        heads = ["level", "site", "station", "EVSE", "seconds", *times, "period", *FLOWS]
        heads += ["net (kWh)", "figure", "shared by time (kWh)", "numbers missing"]
        write_csv(self.path("periods"), [*heads, "readings", "settle"], (), rows)

    def list_periods(self) -> Iterator[str]:
        """The rows of the table of periods: those of the site, then each station's and its EVSEs'."""
        site = self.fetch_site_periods()
        starts = self.list_starts(site) if self.options.all_periods else None
        yield from self.write_rows("site", "", "", site, starts)
        for station in self.list_stations():
            yield from self.write_station(station, self.fetch_evse_periods(station), starts)

    def write_station(
        self, station: str, rows: Sequence[Row], starts: Sequence[datetime] | None = None
    ) -> Iterator[str]:
        """The rows of a station and of its EVSEs. `rows`: what was read of these; `starts`: as in `write_rows`."""
        yield from self.write_rows("station", station, "", sum_starts(rows), starts)
        for evse, some in group_rows(rows, attrgetter("evse")).items():
            yield from self.write_rows("EVSE", station, evse, some, starts)

    def fetch_site_periods(self) -> list[Row]:
        """The energy of the periods of the site."""
        text, values = self.span_of_rows()
        return self.store.fetch(
            "select starts, cast(sum(up) as bigint) as up, cast(sum(down) as bigint) as down, "
            "cast(sum(export_up) as bigint) as export_up, "
            "cast(sum(export_down) as bigint) as export_down, cast(sum(estimated) as bigint) as estimated, "
            "cast(sum(by_values) as bigint) as by_values, cast(sum(shared) as bigint) as shared, "
            "max(lacks_numbers) as lacks_numbers "
            f"from evse_period where site = :site {text} group by starts order by starts",
            site=self.site.site,
            **values,
        )

    def fetch_evse_periods(self, station: str, last: date | None = None) -> list[Row]:
        """The energy of the periods of a station's EVSEs: of the tables' day, or of the days from it to the last one.
        Those of days are found by the index by station and time, and not by that of the site, which has all years.
        """
        text, values = self.span_of_rows(last)
        site = "site" if self.day is None else "site || ''"
        return self.store.fetch(
            "select evse, starts, up, down, export_up, export_down, estimated, by_values, shared, lacks_numbers "
            f"from evse_period where {site} = :site and station = :station {text} order by evse, starts",
            site=self.site.site,
            station=station,
            **values,
        )

    def span_of_rows(self, until: date | None = None) -> tuple[str, dict[str, Any]]:
        """What keeps periods to the days that are shown, and its values. `until`: the last one, if it is another."""
        first, last = self.options.first, self.options.last
        if self.day:
            first, last = self.day, until or self.day
        texts, values = list[str](), dict[str, Any]()
        if first != date.min:
            texts.append("and starts >= :since")
            values["since"] = self.calendar.begin(first)
        if last != date.max:
            texts.append("and starts < :until")
            values["until"] = self.calendar.end(last)
        return " ".join(texts), values

    def list_stations(self) -> list[str]:
        """The stations of the site, those of which a transaction is there included."""
        rows = self.store.fetch(
            "select k.station, min(k.place) as place from ("
            "select station, place from station where site = :site "
            "union select s.station, coalesce(t.place, 0) from session s "
            "left join station t on t.station = s.station where s.site = :site) k "
            "group by k.station order by 2, 1",
            site=self.site.site,
        )
        return [row.station for row in rows]

    def list_starts(self, rows: Sequence[Row]) -> list[datetime]:
        """The beginnings of all periods of the days from the first with energy to the last, without those of a pause of
        more than LONGEST_PAUSE days."""
        days = list[date]()
        for day in sorted({self.calendar.day(row.starts) for row in rows}):
            if days and (day - days[-1]).days <= LONGEST_PAUSE:
                days += [days[-1] + timedelta(days=n + 1) for n in range((day - days[-1]).days)]
            else:
                days.append(day)
        return [start for day in days for start in self.list_day(day)]

    def list_day(self, day: date) -> list[datetime]:
        """The beginnings of a day's periods: 96 of a quarter of an hour, or 92, or 100."""
        seconds, begin = self.site.period, self.calendar.begin(day)
        first = begin.timestamp() // seconds * seconds
        count = -(-int(begin.timestamp() + self.calendar.seconds(day) - first) // seconds)
        starts = (datetime.fromtimestamp(first + n * seconds, timezone.utc) for n in range(count))
        return [start for start in starts if self.calendar.day(start) == day]

    def write_rows(
        self,
        level: str,
        station: str,
        evse: Cell,
        rows: Iterable[Row],
        starts: Sequence[datetime] | None,
    ) -> Iterator[str]:
        """The rows of a site, a station or an EVSE as text. `starts`: the beginnings of all periods, where those
        without energy are there, too."""
        site, seconds = self.cell(self.site.site), self.site.period
        front = write_text([[level, site, self.cell(station), evse, seconds]]).rstrip("\n")
        end = f"{self.order},{self.site.settle}\n"
        if starts is not None:
            found = {row.starts: row for row in rows}
            rows = [found.get(start) or NO_PERIOD._replace(starts=start) for start in starts]
        for row in rows:
            if starts is None and is_still(row):
                continue
            times = write_period(self.calendar, row.starts, seconds)
            figures = write_figures(row.up, row.down, row.export_up, row.export_down)
            figure = name_figure(row.estimated, row.by_values)
            lacks = "yes" if row.lacks_numbers else "no"
            yield (f"{front},{times},{figures},{figure},{write_kwh(row.shared)},{lacks},{end}")

    # Transactions -----------------------------------------------------------------------------------------------------

    def write_transactions(self, stations: Iterable[str] | None = None) -> None:
        """Writes the table of transactions. `stations`: as in `write_periods`. Raises OSError."""
        if stations is None:
            self.put_transactions(self.list_transactions())
        else:
            self.put_transactions((), self.book.read_transactions(self, stations))

    def put_transactions(self, rows: Iterable[list[Cell]], texts: Iterable[str] = ()) -> None:
        """Writes the table of transactions of these rows, and of those that are text. Raises OSError."""
        ends = [head for name in ("start", "end") for head in self.moment_heads(name)]
        heads = ["site", "station", "transaction", "EVSE (0: not named)", "events", "first seqNo"]
        heads += ["last seqNo", "messages complete", "missing", "gaps (from..to)", *FLOWS, "state"]
        heads += ["net (kWh)", *ends, "duration (s)", "first register (kWh)", "last register (kWh)"]
        heads += ["first export register (kWh)", "last export register (kWh)", "stopped reason"]
        heads += ["findings", *BILL_HEADS, "readings", "energy measured"]
        write_csv(self.path("transactions"), heads, rows, texts)

    def list_transactions(self, station: str | None = None) -> Iterator[list[Cell]]:
        """The rows of the table of transactions, or those of a station."""
        return self.write_sessions(self.fetch_sessions("s.*", SESSION_ORDER, station), station)

    def write_sessions(
        self, rows: Iterable[Row], station: str | None = None
    ) -> Iterator[list[Cell]]:
        """The rows of transactions. `station`: the one that all are of."""
        findings = self.book.read(self.site.site, station)
        found = group_rows(findings, lambda row: (row.station, row.transaction_id))
        for row in rows:
            yield self.write_transaction(row, found.get((row.station, row.transaction_id), []))

    def write_transaction(self, row: Row, found: Sequence[Row]) -> list[Cell]:
        """The cells of a transaction."""
        seconds: Cell = ""
        if row.began and row.ended:
            seconds = round((row.ended - row.began).total_seconds())
        registers = (
            row.first_register,
            row.last_register,
            row.first_export_register,
            row.last_export_register,
        )
        kinds = sorted({one.kind for one in found}, key=lambda kind: ORDER[kind])
        return [
            self.cell(self.site.site),
            self.cell(row.station),
            self.cell(row.transaction_id),
            *(row.evse, row.events, row.first_number, row.last_number),
            *("yes" if row.complete else "no", row.missing, row.gaps),
            *write_flow(row.up, row.down, row.export_up, row.export_down),
            *(row.state, write_kwh(find_net(row))),
            *self.moments(row.began),
            *self.moments(row.ended),
            seconds,
            *map(write_register, registers),
            self.cell(row.stopped_reason),
            "; ".join(kinds),
            *map(self.cell, self.write_bill(row)),
            f"by {row.own_order}" if row.own_order else self.order,
            describe_measured(row),
        ]

    def write_bill(self, row: Row) -> list[str]:
        """What a bill needs of a transaction beside its energy."""
        tokens = self.options.tokens
        ends = read_signed(row.signed) or [Signed(""), Signed("")]
        values = [cell for one in (ends[0], ends[-1]) for cell in (as_base64(one.data), one.key)]
        kind = row.token_type if tokens != "none" else ""
        return [row.sent_id, token_cell(row.token, tokens), kind, row.remote_start_id, *values]

    def write_signed(self, station: str | None = None) -> int:
        """Writes the file of signed values of each transaction that has some, of the site or of a station, and gives
        how many. Raises OSError."""
        order = "and s.signed <> '' order by s.station, s.transaction_id"
        rows = self.fetch_sessions("s.station, s.sent_id, s.signed", order, station)
        return self.put_signed(rows)

    def put_signed(self, rows: Sequence[Row]) -> int:
        """Writes the files of signed values of these transactions, and gives how many. Raises OSError."""
        for row in rows:
            details = [Details(signed=tuple(read_signed(row.signed)))]
            write_signed(self.folder / "signed", row.station, row.sent_id, details)
        return len(rows)

    # Days -------------------------------------------------------------------------------------------------------------

    def write_days(self, days: Sequence[date]) -> int:
        """Writes the tables of some days, which are read at once, and gives how many. These tables have the first of
        them. Raises OSError."""
        calendar, last, order = self.calendar, days[-1], SESSION_ORDER
        own = {day: self.take_day(day) for day in days}
        periods = {day: DayPeriods() for day in days}
        for station in self.list_stations():
            rows = self.fetch_evse_periods(station, last)
            for day, some in group_rows(rows, lambda row: calendar.day(row.starts)).items():
                if day in own:
                    text = "".join(own[day].write_station(station, some))
                    periods[day].put(station, sum_starts(some), text)
        sessions = self.fetch_sessions("s.*", order, last=last)
        begun = group_rows(sessions, lambda row: calendar.day(row.began or row.first_at))
        for day, tables in own.items():
            tables.put_day(periods[day])
            tables.put_transactions(tables.write_sessions(begun.get(day, [])))
        self.put_signed([row for row in sessions if row.signed])
        return 2 * len(days)

    def take_day(self, day: date) -> "SiteTables":
        """The tables of a day."""
        return SiteTables(self.store, self.out, self.site, self.options, day, self.book)

    # Findings and what changed nothing --------------------------------------------------------------------------------

    def write_findings(self) -> None:
        """Writes the table of findings: those that make a number wrong, those that lack energy, and the rest. Raises
        OSError."""
        heads = ["site", "station", "transaction", "finding", "times", *self.moment_heads("first")]
        rows = sorted(self.book.read(self.site.site), key=rank_finding)
        cells = map(self.write_finding, rows)
        write_csv(self.path("findings"), [*heads, "detail", "meaning", "effect"], cells)

    def write_finding(self, row: Row) -> list[Cell]:
        """The cells of a finding."""
        kind = KINDS[row.kind]
        names = map(self.cell, (self.site.site, row.station, row.transaction_id))
        front: list[Cell] = [*names, row.kind, row.times, *self.moments(row.first_at)]
        return [*front, self.cell(row.detail), kind.meaning, kind.effect.value]

    def write_refused(self) -> int:
        """Writes the table of what was refused, where there is some, and gives whether there is. Raises OSError."""
        rows = self.store.fetch(
            f"select * from refused where site = :site {REFUSED_ORDER}", site=self.site.site
        )
        cells = (write_refusal(row, self.options.raw) for row in rows)
        return write_some(self.path("refused"), REFUSED, cells)

    def write_operator(self) -> int:
        """Writes the table of operators' lines, where there are some, and gives whether there are. Raises OSError."""
        rows = self.store.fetch(
            "select d.* from deed d left join session s on s.station = d.station "
            "and s.transaction_id = d.transaction_id left join station t on t.station = d.station "
            "where coalesce(s.site, t.site, '') = :site "
            "order by d.at, d.station, d.transaction_id, d.number, d.word",
            site=self.site.site,
        )
        return write_some(self.path("operator"), OPERATOR, map(self.write_deed, rows))

    def write_deed(self, row: Row) -> list[Cell]:
        """The cells of an operator's line."""
        time = ""
        if row.at != NO_TIME:
            precision = "milliseconds" if row.at.microsecond else "seconds"
            time = row.at.isoformat(timespec=precision).replace("+00:00", "Z")
        answer = f"{row.outcome} {row.count if row.outcome == 'accepted' else row.name}".strip()
        names = row.who, row.word, self.site.site, row.station, row.transaction_id, str(row.number)
        return [time, *map(self.cell, (*names, row.why, answer))]

    def write_mended(self) -> int:
        """Writes the table of mended messages, where there are some, and gives whether there are. Raises OSError."""
        rows = self.store.fetch(
            "select m.* from mended m join station t on t.station = m.station where t.site = :site "
            "order by m.at, m.station, m.transaction_id, m.number",
            site=self.site.site,
        )
        return write_some(self.path("mended"), MENDED, map(self.write_mend, rows))

    def write_meter(self) -> int:
        """Writes the table of the main meter, where it was read, and gives whether it was. Raises OSError."""
        seconds = self.site.period
        span = find_main_span(self.store, self.site.site)
        if span is None:
            return write_some(self.path("site_meter"), METER, ())
        begin = span[0] - timedelta(seconds=span[0].timestamp() % seconds)
        rows = compare_main(self.store, self.site.site, seconds, begin, span[1])
        return write_some(self.path("site_meter"), METER, map(write_comparison, rows))

    def write_mend(self, row: Row) -> list[Cell]:
        """The cells of a mended message."""
        number = "" if row.number is None else str(row.number)
        names = self.site.site, row.station, row.transaction_id, number, row.mends, row.came
        return [write_utc(row.at), *map(self.cell, names)]


class PeriodSum(NamedTuple):
    """The sum of rows of periods of one beginning: how many rows these are, their energies and shares, how many figures
    in them are estimated, how many of these by meter values, and how many rows lack numbers."""

    starts: datetime
    rows: int = 0
    up: int = 0
    down: int = 0
    export_up: int = 0
    export_down: int = 0
    estimated: int = 0
    by_values: int = 0
    shared: int = 0
    lacks_numbers: int = 0


NO_PERIOD = PeriodSum(NO_TIME)


def add_row(had: Row, row: Row, times: int = 1) -> PeriodSum:
    """The sum of rows of periods with another row, or without it."""
    return PeriodSum(
        row.starts,
        had.rows + times,
        had.up + times * row.up,
        had.down + times * row.down,
        had.export_up + times * row.export_up,
        had.export_down + times * row.export_down,
        had.estimated + times * row.estimated,
        had.by_values + times * row.by_values,
        had.shared + times * row.shared,
        had.lacks_numbers + times * row.lacks_numbers,
    )


def sum_starts(rows: Sequence[Row]) -> Sequence[Row]:
    """The sums of the rows of EVSEs by their beginnings."""
    if not rows or rows[0].evse == rows[-1].evse:
        # By EVSE, those of one only.
        return rows
    sums = dict[datetime, PeriodSum]()
    for row in rows:
        sums[row.starts] = add_row(sums.get(row.starts, NO_PERIOD), row)
    return [sums[start] for start in sorted(sums)]


class DayPeriods:
    """The periods of a day: the rows of each station as text, and their sums, in which a station's rows are put in
    place of those that it had."""

    def __init__(self) -> None:
        self.texts: dict[str, str] = {}
        self.rows: dict[str, Sequence[Row]] = {}
        self.sums: dict[datetime, PeriodSum] = {}

    def put(self, station: str, rows: Sequence[Row], text: str) -> None:
        """Has these rows of a station."""
        for row in self.rows.get(station, []):
            self.add(row, -1)
        for row in rows:
            self.add(row, 1)
        self.rows[station], self.texts[station] = rows, text

    def add(self, row: Row, times: int) -> None:
        """Adds a row to the sums, or takes it from them."""
        self.sums[row.starts] = add_row(self.sums.get(row.starts, NO_PERIOD), row, times)

    def list_sums(self) -> list[PeriodSum]:
        """The sums over all stations, by their beginnings."""
        return [self.sums[at] for at in sorted(self.sums) if self.sums[at].rows]


class Book:
    """What tables that are written again have: findings of sites, and rows of the periods of days. It is read once, and
    again of stations of which something changed."""

    STATEMENT = (
        "select f.site, f.station, f.transaction_id, f.kind, f.times, f.first_at, f.detail, "
        "coalesce(t.place, 0) as place from all_finding f "
        "left join station t on t.station = f.station where f.site = :site"
    )

    def __init__(self, store: Database) -> None:
        self.store = store
        # Findings by site and station.
        self.sites: dict[str, dict[str, list[Row]]] = {}
        # Rows of periods by site and day, and by station; the days that were written last are kept.
        self.days = OrderedDict[tuple[str, date | None], DayPeriods]()
        # Rows of transactions as text, likewise, by station.
        self.sessions = OrderedDict[tuple[str, date | None], dict[str, str]]()

    def read_periods(self, tables: "SiteTables", stations: Iterable[str]) -> "DayPeriods":
        """The periods of a site's day, those of these stations as they are by now."""
        key = tables.site.site, tables.day
        names = stations if key in self.days else tables.list_stations()
        day = self.days.setdefault(key, DayPeriods())
        for station in names:
            rows = tables.fetch_evse_periods(station)
            text = "".join(tables.write_station(station, rows))
            day.put(station, sum_starts(rows), text)
        self.days.move_to_end(key)
        if len(self.days) > MOST_DAYS:
            self.days.popitem(last=False)
        return day

    def read_transactions(self, tables: "SiteTables", stations: Iterable[str]) -> Iterable[str]:
        """The rows of the transactions of a site's day, those of these stations as they are by now."""
        key = tables.site.site, tables.day
        names = stations if key in self.sessions else tables.list_stations()
        known = self.sessions.setdefault(key, {})
        for station in names:
            known[station] = write_text(tables.list_transactions(station))
        self.sessions.move_to_end(key)
        if len(self.sessions) > MOST_DAYS:
            self.sessions.popitem(last=False)
        return known.values()

    def read(self, site: str, station: str | None = None) -> list[Row]:
        """What is doubtful at a site, or at one of its stations."""
        known = self.sites.get(site)
        if known is None:
            rows = self.store.fetch(self.STATEMENT, site=site)
            known = self.sites[site] = group_rows(rows, lambda row: row.station)
        if station is not None:
            return known.get(station, [])
        return [row for some in known.values() for row in some]

    def renew(self, site: str, stations: Iterable[str]) -> bool:
        """Reads again what is doubtful at these stations of a site, and gives whether it is otherwise than before."""
        known = self.sites.get(site)
        if known is None:
            self.read(site)
            return True
        is_other = False
        for station in stations:
            rows = self.store.fetch(
                f"{self.STATEMENT} and f.station = :station", site=site, station=station
            )
            if sorted(map(str, rows)) != sorted(map(str, known.get(station, []))):
                known[station], is_other = rows, True
        return is_other


def rank_finding(row: Row) -> tuple[int, int, str, bool, str, int]:
    """The place of a finding in its table."""
    effect = EFFECTS.index(KINDS[row.kind].effect)
    is_stations = not row.transaction_id
    return effect, row.place, row.station, is_stations, row.transaction_id, ORDER[row.kind]


def write_refusal(row: Row, raw: bool) -> list[Cell]:
    """The cells of what was refused."""
    texts = (row.site, row.station, row.sent_id, row.sent_number or "")
    front: list[Cell] = [write_utc(row.first_at), write_utc(row.last_at), row.times]
    words = (*texts, row.cause, row.what, row.advice, describe_decision(row))
    return front + [text if raw else csv_cell(text) for text in words]


def describe_decision(row: Row) -> str:
    """What somebody decided about what was refused; empty while it waits."""
    why = f": {row.decided_why}" if row.decided_why else ""
    return f"{row.decision} by {row.decided_by}{why}" if row.decided_by else str(row.decision)


def read_signed(text: str) -> list[Signed]:
    """The first and the last signed value of a transaction; only one where it has no more."""
    found = [Signed(*one) for one in json.loads(text)] if text else []
    return found[:1] if len(found) == 2 and found[0] == found[1] else found


def group_rows(rows: Iterable[Row], key: Callable[[Row], Any]) -> dict[Any, list[Row]]:
    """Rows by what they have in common."""
    found: dict[Any, list[Row]] = {}
    for row in rows:
        found.setdefault(key(row), []).append(row)
    return found


@lru_cache(KEPT)
def write_period(calendar: Calendar, start: datetime, seconds: int) -> str:
    """When a period begins and ends, and its label."""
    end = start + timedelta(seconds=seconds)
    return ",".join([*calendar.cells(start), *calendar.cells(end), calendar.label(start)])


def write_figures(up: int, down: int, export_up: int, export_down: int) -> str:
    """The energies of a period, and the net one."""
    imported = f"{up},{down},{write_kwh(up)},{write_kwh(down)}"
    exported = f"{export_up},{export_down},{write_kwh(export_up)},{write_kwh(export_down)}"
    return f"{imported},{exported},{write_kwh(up - down - export_up + export_down)}"


def name_figure(estimated: int, by_values: int) -> str:
    """How a figure was come by: so many of its parts are estimated, and so many of these by meter values."""
    if not estimated:
        return "measured"
    return BY_VALUES if by_values == estimated else ESTIMATED


def is_still(row: Row) -> bool:
    """Whether a period has no energy, and lacks nothing."""
    has_flow = row.up or row.down or row.export_up or row.export_down
    return not (has_flow or row.shared or row.lacks_numbers)


def write_tables(
    store: Database,
    out: Path,
    options: TableOptions = TableOptions(),
    sites: Collection[str] | None = None,
) -> int:
    """Writes the tables of a store, or of these sites of it, and gives how many. Raises OSError."""
    writer = TableWriter(store, out, options)
    if sites is None:
        return writer.write_all()
    return sum(writer.write_site(one) for one in list_sites(store) if one.site in sites)
