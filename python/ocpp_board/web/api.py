"""The read API: what the views have, as JSON, for programs that have a token.

Energies are whole milliwatt-hours under the views' names and kWh under these with `_kwh`. Times have the offset of the
site's zone. A list that goes on has `next`, which is the word `cursor` of the next page: pages follow a key that rows
keep, so that each row comes once, whatever comes in between.
"""

import base64
import binascii
import functools
import io
import json
from collections.abc import Callable, Mapping, Sequence
from contextlib import nullcontext
from datetime import date, datetime, time, timedelta, timezone
from http import HTTPStatus
from pathlib import Path
from typing import Any, NamedTuple

import yaml
from starlette.concurrency import run_in_threadpool
from starlette.requests import Request as HttpRequest
from starlette.responses import JSONResponse, Response
from starlette.routing import BaseRoute, Route

from ocpp_board.energies import FLOW, MWH_OF_A_KWH, Flow
from ocpp_board.errors import UsageError
from ocpp_board.limits import TRANSACTION
from ocpp_board.store.database import Database
from ocpp_board.web.desk import Desk, Endpoint, Request, View, Wrong, check_text, find_desk
from ocpp_board.web.signing import Operator
from ocpp_board.writers.bills import (
    BillOptions,
    describe_measured,
    list_bills,
    read_month,
    write_csv,
)
from ocpp_board.writers.calendar import find_calendar
from ocpp_board.writers.pages.reader import read_gaps
from ocpp_board.writers.tables import ESTIMATED, name_figure
from ocpp_board.writers.tokens import TOKENS, hide_tokens

# Rows of a page, unless asked for and at most; stations that one id is looked for at, and lines of a transaction.
ROWS, MOST_ROWS, MOST_STATIONS, MOST_LINES = 200, 1000, 10, 20_000
FIRST, LAST = (datetime(year, 1, 1, tzinfo=timezone.utc) for year in (2000, 2100))
# For how long periods are asked for, where only the end is given, and at most.
DAY, SPAN, LONGEST = timedelta(days=1), timedelta(days=31), timedelta(days=366)
OPENAPI = "application/vnd.oai.openapi+json"
COUNTS = ("events", "voided", "transactions", "complete", "missing")
FIGURES = """
b.events, b.voided, b.transactions, b.complete_transactions, b.missing, b.up, b.down, b.export_up, b.export_down
"""
SITES = f"""
select i.site, i.zone, i.period, i.reading_order, i.settle, {FIGURES},
    (select count(*) from station t where t.site = i.site) as stations,
    (select max(c.day) from closing c where c.site = i.site) as day,
    (select s.last_at from session s where s.site = i.site and s.last_day is not null
        order by s.last_day desc, s.last_at desc limit 1) as last_at
from site i join board_site b on b.site = i.site
"""
SESSION = """
select s.station, s.transaction_id, s.site, s.sent_id, s.evse, s.events, s.first_number, s.last_number, s.complete,
    s.missing, s.gaps, s.up, s.down, s.export_up, s.export_down, s.state as lacks, s.began, s.ended, s.first_register,
    s.last_register, s.first_export_register, s.last_export_register, s.stopped_reason, s.changed_at, t.state,
    t.closing, s.energy_measured, s.first_reading_at, s.last_reading_at, a.import_sum, a.export_sum, a.adjustments
from session s join session_state t on t.station = s.station and t.transaction_id = s.transaction_id
join adjusted_session a on a.station = s.station and a.transaction_id = s.transaction_id
"""
FOUND = "select transaction_id, kind from session_finding where station = :station"
HELD = "select transaction_id, kind from hold where station = :station and released_at is null"

Json = dict[str, Any]


def open_api(has_snapshot: bool = True) -> Callable[[View], Endpoint]:
    """Makes a view an endpoint for programs with a token. `has_snapshot`: all that it reads is of one moment."""

    def make(view: View) -> Endpoint:
        @functools.wraps(view)
        async def endpoint(http: HttpRequest) -> Response:
            return await run_in_threadpool(answer, http)

        def answer(http: HttpRequest) -> Response:
            desk = find_desk(http)
            with desk.stores.take() as store:
                holder = find_holder(desk, store, http)
                if holder is None:
                    body = {"status": 401, "fault": "a token is asked for that is good"}
                    head = {"www-authenticate": 'Bearer realm="ocpp_board"'}
                    return JSONResponse(body, 401, head)
                asked = Request(http, desk, store, holder, "", {})
                with store.snapshot() if has_snapshot else nullcontext():
                    return view(asked)

        return endpoint

    return make


def find_holder(desk: Desk, store: Database, http: HttpRequest) -> Operator | None:
    """Whose token a request has; None where it has none that is good."""
    kind, _, secret = http.headers.get("authorization", "").partition(" ")
    if kind.lower() != "bearer":
        return None
    return desk.sign_ins.find_holder(store, secret.strip())


# Pages of a list ------------------------------------------------------------------------------------------------------


class Paging(NamedTuple):
    """Which page of a list is asked for: how many rows, and behind which key."""

    rows: int
    key: list[str]

    def make_page(
        self, name: str, rows: Sequence[Json], find_key: Callable[[Json], Sequence[str]]
    ) -> Json:
        """The page of these rows; one row more than asked for shows that there are others."""
        some = rows[: self.rows]
        more = write_cursor(find_key(some[-1])) if len(rows) > self.rows else None
        return {name: some, "next": more}


def read_paging(asked: Request, first: Sequence[str]) -> Paging:
    """The page that the words `limit` and `cursor` ask for. `first`: the key before all rows. Raises Wrong."""
    text = asked.word("limit") or str(ROWS)
    if not text.isdecimal() or not 1 <= int(text) <= MOST_ROWS:
        raise Wrong(HTTPStatus.BAD_REQUEST, f"limit is 1 to {MOST_ROWS}")
    cursor = asked.word("cursor")
    return Paging(int(text), read_cursor(cursor, len(first)) if cursor else list(first))


def write_cursor(key: Sequence[str]) -> str:
    """A key as a word."""
    return base64.urlsafe_b64encode(json.dumps(list(key)).encode()).decode().rstrip("=")


def read_cursor(cursor: str, length: int) -> list[str]:
    """The key that a word has. Raises Wrong."""
    try:
        key = json.loads(base64.urlsafe_b64decode(cursor + "=" * (-len(cursor) % 4)))
    except (ValueError, binascii.Error, RecursionError):
        key = None
    if not isinstance(key, list) or len(key) != length or not all(isinstance(k, str) for k in key):
        raise Wrong(HTTPStatus.BAD_REQUEST, "no cursor of this list")
    return [check_text(one) for one in key]


def read_moment_key(text: str) -> datetime:
    """A moment of a cursor. Raises Wrong."""
    try:
        at = datetime.fromisoformat(text)
    except ValueError:
        at = datetime.min
    if at.tzinfo is None:
        raise Wrong(HTTPStatus.BAD_REQUEST, "no cursor of this list")
    return at


# Rows as JSON ---------------------------------------------------------------------------------------------------------


def write_flow(flow: Flow, front: str = "") -> Json:
    """Energies in mWh, and in kWh."""
    pairs = [*zip(FLOW, flow), ("net", flow.net)]
    return {f"{front}{name}": mwh for name, mwh in pairs} | {
        f"{front}{name}_kwh": mwh / MWH_OF_A_KWH for name, mwh in pairs
    }


def read_flow(row: Any) -> Flow:
    """The energies of a row."""
    return Flow(row.up, row.down, row.export_up, row.export_down)


def write_time(at: datetime | None, zone: str) -> str | None:
    """A moment with the offset of a zone."""
    return find_calendar(zone).local(at).isoformat() if at else None


def write_figures(row: Any) -> Json:
    """The figures of a board."""
    names = ("events", "voided", "transactions", "complete_transactions", "missing")
    counts = {count: getattr(row, name) for count, name in zip(COUNTS, names)}
    return {**counts, **write_flow(read_flow(row))}


def write_site(row: Any) -> Json:
    """A site's row."""
    keys = ("site", "zone", "period", "reading_order", "settle", "stations")
    return {
        **{key: getattr(row, key) for key in keys},
        **write_figures(row),
        "settled_to": row.day and row.day.isoformat(),
        "at": write_time(row.last_at, row.zone),
    }


def find_site(asked: Request) -> Any:
    """The row of the site that the path names. Raises Wrong where there is none that the token sees."""
    name = asked.path("site")
    row = None
    if asked.operator.sees(name):
        row = asked.store.fetch_one(f"{SITES} where i.site = :site", site=name)
    if row is None:
        raise Wrong(HTTPStatus.NOT_FOUND, f"no site {name!r}, or not for this token")
    return row


# Endpoints ------------------------------------------------------------------------------------------------------------


@open_api()
def list_sites(asked: Request) -> Response:
    """The sites that the token sees."""
    paging = read_paging(asked, [""])
    rows = asked.store.fetch(f"{SITES} where i.site > :site order by i.site", site=paging.key[0])
    found = [write_site(row) for row in rows if asked.operator.sees(row.site)]
    return JSONResponse(paging.make_page("sites", found, lambda row: [row["site"]]))


@open_api()
def show_board(asked: Request) -> Response:
    """A site's board."""
    site, paging = find_site(asked), read_paging(asked, [""])
    rows = asked.store.fetch(
        f"select b.station, t.until, {FIGURES} from board_station b left join station t on t.station = b.station "
        "where b.site = :site and b.station > :station order by b.station limit :count",
        site=site.site,
        station=paging.key[0],
        count=paging.rows + 1,
    )
    stations = [
        {"station": row.station, "retired": write_time(row.until, site.zone), **write_figures(row)}
        for row in rows
    ]
    page = paging.make_page("stations", stations, lambda row: [row["station"]])
    return JSONResponse({**write_site(site), **page, "stations_planned": site.stations})


@open_api()
def list_periods(asked: Request) -> Response:
    """The periods of a site's stations."""
    site, paging = find_site(asked), read_paging(asked, [FIRST.isoformat(), ""])
    begin, end = read_span(asked, site.zone)
    behind = read_moment_key(paging.key[0]), paging.key[1]
    found, begin = list[Json](), max(begin, behind[0])
    # A day at a time, so that a page costs no more where there are many days.
    while len(found) <= paging.rows and begin < end:
        until = min(begin + DAY, end)
        rows = read_periods(asked, site, begin, until)
        found += [row for row in rows if (row["key"], row["station"]) > behind]
        begin = until
    page = paging.make_page("periods", found, lambda row: [row["key"].isoformat(), row["station"]])
    for row in page["periods"]:
        del row["key"]
    return JSONResponse({"site": site.site, "zone": site.zone, **page})


def read_periods(asked: Request, site: Any, begin: datetime, end: datetime) -> list[Json]:
    """The periods of a site's stations from one moment to another, in their order."""
    values = {"site": site.site, "begin": begin, "until": end}
    settled = {
        (row.station, row.starts): row
        for row in asked.store.fetch(
            "select * from settled_period where site = :site and starts >= :begin and starts < :until",
            **values,
        )
    }
    rows = asked.store.fetch(
        "select station, starts, up, down, export_up, export_down, estimated, by_values, shared, lacks_numbers "
        "from board_period "
        "where site = :site and starts >= :begin and starts < :until order by starts, station",
        **values,
    )
    calendar, found = find_calendar(site.zone), list[Json]()
    for row in rows:
        state = write_state(read_flow(row), settled.get((row.station, row.starts)))
        found.append(
            {
                "key": row.starts,
                "site": site.site,
                "station": row.station,
                "starts": write_time(row.starts, site.zone),
                "seconds": site.period,
                "day": calendar.day(row.starts).isoformat(),
                **write_flow(read_flow(row)),
                "figure": name_figure(row.estimated, row.by_values),
                "estimate": int(row.shared) if row.estimated else None,
                "lacks_numbers": bool(row.lacks_numbers),
                **state,
            }
        )
    return found


def write_state(flow: Flow, settled: Any) -> Json:
    """The state of a period: whether closings settled what it has."""
    if settled is None:
        return {"state": "provisional", "corrections": 0}
    is_same = read_flow(settled) == flow
    state = "corrected" if settled.corrections else "settled"
    return {
        "state": state if is_same else "provisional",
        "corrections": settled.corrections,
        "settled_figure": "measured" if settled.measured else ESTIMATED,
        **write_flow(read_flow(settled), "settled_"),
    }


def read_span(asked: Request, zone: str) -> tuple[datetime, datetime]:
    """From when to when periods are asked for. Raises Wrong."""
    now = datetime.now(timezone.utc)
    end = read_moment(asked.word("to"), "to", zone, now, 1)
    begin = read_moment(asked.word("from"), "from", zone, max(end - SPAN, FIRST), 0)
    if end - begin > LONGEST:
        raise Wrong(HTTPStatus.BAD_REQUEST, f"from and to are {LONGEST.days} days apart at most")
    return begin, end


def read_moment(text: str, name: str, zone: str, default: datetime, days: int) -> datetime:
    """The moment of a word of the query: a time with its offset, or a day of a zone (the day `days` later counts).
    Raises Wrong."""
    if not text:
        return default
    try:
        if len(text) == 10:
            day = date.fromisoformat(text) + timedelta(days=days)
            at = datetime.combine(day, time(), find_calendar(zone).zone)
        else:
            # A + of the offset is a blank where it was not escaped.
            at = datetime.fromisoformat(text.replace(" ", "+"))
    except (ValueError, OverflowError):
        at = datetime.min
    if at.tzinfo is None or not FIRST <= at <= LAST:
        raise Wrong(
            HTTPStatus.BAD_REQUEST,
            f"{name} is a day such as 2026-03-01 or a time such as 2026-03-01T10:00:00Z, and not {text!r}",
        )
    return at.astimezone(timezone.utc)


@open_api()
def list_refusals(asked: Request) -> Response:
    """What was refused at a site."""
    keys = ("station", "cause", "transaction", "number", "what")
    site, paging = find_site(asked), read_paging(asked, [""] * len(keys))
    rows = asked.store.fetch(
        "select * from (select station, cause, transaction_id, coalesce(sent_number, '') as number, what, advice, "
        "times, first_at, last_at from refused where site = :site) as r "
        "where (station, cause, transaction_id, number, what) > (:station, :cause, :tx, :number, :what) "
        "order by station, cause, transaction_id, number, what limit :count",
        **{"site": site.site, "count": paging.rows + 1},
        **dict(zip(("station", "cause", "tx", "number", "what"), paging.key)),
    )
    found = [
        {
            **{key: getattr(row, key) for key in ("station", "cause", "what", "advice", "times")},
            "transaction": row.transaction_id,
            "number": str(row.number),
            "first": write_time(row.first_at, site.zone),
            "last": write_time(row.last_at, site.zone),
        }
        for row in rows
    ]
    page = paging.make_page("refusals", found, lambda row: [row[key] for key in keys])
    return JSONResponse({"site": site.site, "zone": site.zone, **page})


@open_api()
def list_findings(asked: Request) -> Response:
    """What is doubtful at a site."""
    keys = ("station", "transaction", "kind")
    site, paging = find_site(asked), read_paging(asked, [""] * len(keys))
    rows = asked.store.fetch(
        "select station, transaction_id, kind, times, first_at, detail from all_finding where site = :site "
        "and (station, transaction_id, kind) > (:station, :tx, :kind) "
        "order by station, transaction_id, kind limit :count",
        **{"site": site.site, "count": paging.rows + 1},
        **dict(zip(("station", "tx", "kind"), paging.key)),
    )
    found = [
        {
            "station": row.station,
            "transaction": row.transaction_id,
            "kind": row.kind,
            "times": row.times,
            "first": write_time(row.first_at, site.zone),
            "detail": row.detail,
        }
        for row in rows
    ]
    page = paging.make_page("findings", found, lambda row: [row[key] for key in keys])
    return JSONResponse({"site": site.site, "zone": site.zone, **page})


@open_api(has_snapshot=False)
def write_month(asked: Request) -> Response:
    """A site's month for billing."""
    site, tokens = find_site(asked), asked.word("tokens", TOKENS[0])
    if tokens not in TOKENS:
        raise Wrong(HTTPStatus.BAD_REQUEST, f"tokens is one of {', '.join(TOKENS)}")
    if TOKENS.index(tokens) > TOKENS.index(asked.desk.tokens):
        raise Wrong(
            HTTPStatus.FORBIDDEN,
            f"this server writes tokens as {asked.desk.tokens!r}; its option --tokens says so",
        )
    try:
        month = read_month(asked.word("month"))
    except UsageError as fault:
        raise Wrong(HTTPStatus.BAD_REQUEST, str(fault)) from None
    file = io.StringIO()
    write_csv(list_bills(asked.store, site.site, *month, BillOptions(tokens=tokens)), file)
    return Response(file.getvalue(), media_type="text/csv")


@open_api()
def list_transactions(asked: Request) -> Response:
    """The transactions of a station."""
    name, paging = asked.path("station"), read_paging(asked, [""])
    rows = asked.store.fetch(
        f"{SESSION} where s.station = :station and s.transaction_id > :tx order by s.transaction_id limit :count",
        station=name,
        tx=paging.key[0],
        count=paging.rows + 1,
    )
    zones = read_zones(asked)
    doubts = read_doubts(asked.store, name) if rows else Doubts({}, {})
    found = [write_transaction(row, zones, doubts) for row in rows if row.site in zones]
    planned = asked.store.fetch_one("select site from station where station = :name", name=name)
    site = planned.site if planned else next((row.site for row in rows), "")
    if site not in zones and not found:
        raise Wrong(HTTPStatus.NOT_FOUND, f"no station {name!r}, or not for this token")
    page = paging.make_page("transactions", found, lambda one: [one["transaction"]])
    return JSONResponse({"station": name, "site": site, "zone": zones.get(site, "UTC"), **page})


def read_zones(asked: Request) -> dict[str, str]:
    """The zones of the sites that the token sees."""
    rows = asked.store.fetch("select site, zone from site")
    return {row.site: row.zone for row in rows if asked.operator.sees(row.site)}


class Doubts(NamedTuple):
    """The findings of transactions, and what their bills are held for, by their ids."""

    found: Mapping[str, Sequence[str]]
    held: Mapping[str, Sequence[str]]


def read_doubts(store: Database, station: str, transaction: str | None = None) -> Doubts:
    """What is doubtful in the transactions of a station, or in one of them."""
    kinds = []
    for asked in (FOUND, HELD):
        values = {"station": station}
        if transaction is not None:
            asked, values = f"{asked} and transaction_id = :tx", values | {"tx": transaction}
        found = dict[str, list[str]]()
        for row in store.fetch(f"{asked} order by kind", **values):
            found.setdefault(row.transaction_id, []).append(row.kind)
        kinds.append(found)
    return Doubts(*kinds)


def write_transaction(row: Any, zones: Mapping[str, str], doubts: Doubts) -> Json:
    """A transaction's row."""
    zone = zones[row.site]
    adjusted = {"adjusted_import": row.import_sum, "adjusted_export": row.export_sum}
    return {
        "transaction": row.transaction_id,
        "id_as_sent": row.sent_id,
        "evse": row.evse,
        "events": row.events,
        "first": row.first_number,
        "last": row.last_number,
        "messages_complete": row.complete,
        "missing": row.missing,
        "lacks": row.lacks,
        "energy_measured": describe_measured(row, lambda at: str(write_time(at, zone))),
        **write_flow(read_flow(row)),
        "adjustments": row.adjustments,
        **adjusted,
        **{f"{name}_kwh": mwh / MWH_OF_A_KWH for name, mwh in adjusted.items()},
        "findings": doubts.found.get(row.transaction_id, []),
        "held": doubts.held.get(row.transaction_id, []),
        "state": row.state,
        "closing": row.closing,
        "started": write_time(row.began, zone),
        "ended": write_time(row.ended, zone),
        "at": write_time(row.changed_at, zone),
    }


@open_api()
def show_transaction(asked: Request) -> Response:
    """A transaction with its lines."""
    name, station = asked.path("transaction"), asked.word("station")
    if not TRANSACTION.fullmatch(name):
        raise Wrong(HTTPStatus.NOT_FOUND, f"no transaction {name!r}")
    zones = read_zones(asked)
    # Each statement names its station by equality, so that it reads one partition.
    sql = f"{SESSION} where s.transaction_id = :tx" + (
        " and s.station = :station" if station else ""
    )
    values = {"tx": name.lower()} | ({"station": station} if station else {})
    rows = [
        row
        for row in asked.store.fetch(f"{sql} order by s.station limit 1000", **values)
        if row.site in zones
    ]
    if not rows:
        raise Wrong(HTTPStatus.NOT_FOUND, f"no transaction {name!r}, or not for this token")
    if len(rows) > MOST_STATIONS:
        some = ", ".join(row.station for row in rows[:MOST_STATIONS])
        raise Wrong(
            HTTPStatus.BAD_REQUEST,
            f"more than {MOST_STATIONS} stations have it: {some}; name a station",
        )
    return JSONResponse({"transactions": [write_history(asked, row, zones) for row in rows]})


def write_history(asked: Request, row: Any, zones: Mapping[str, str]) -> Json:
    """A transaction with its lines and what operators did."""
    zone, key = zones[row.site], {"station": row.station, "tx": row.transaction_id}
    where = "where station = :station and transaction_id = :tx"
    lines = asked.store.fetch(
        f"select number, received, line, who, why from line {where} order by number limit {MOST_LINES}",
        **key,
    )
    deeds = asked.store.fetch(
        f"select at, word, number, who, why, outcome, name from deed {where} order by at, number",
        **key,
    )
    return {
        "station": row.station,
        "site": row.site,
        "zone": zone,
        **write_transaction(row, zones, read_doubts(asked.store, row.station, row.transaction_id)),
        "gaps": [{"first": first, "last": last} for first, last in read_gaps(row.gaps)],
        "register": write_registers(row.first_register, row.last_register),
        "export_register": write_registers(row.first_export_register, row.last_export_register),
        "stopped_reason": row.stopped_reason or None,
        "lines": [
            {
                "number": one.number,
                "received": write_time(one.received, zone),
                "line": hide_tokens(one.line, asked.desk.tokens),
                "by": {"operator": one.who, "reason": one.why} if one.who else None,
            }
            for one in lines
        ],
        "deeds": [
            {
                "at": write_time(one.at, zone),
                "command": one.word,
                "number": one.number,
                "operator": one.who,
                "reason": one.why,
                "answer": f"{one.outcome} {one.name}".strip(),
            }
            for one in deeds
        ],
    }


def write_registers(first: int | None, last: int | None) -> Json | None:
    """What a register read first and last, in mWh and in kWh."""
    if first is None or last is None:
        return None
    kwhs = {"first_kwh": first / MWH_OF_A_KWH, "last_kwh": last / MWH_OF_A_KWH}
    return {"first": first, "last": last, **kwhs}


async def show_description(_http: HttpRequest) -> Response:
    """This description."""
    return JSONResponse(read_description(), media_type=OPENAPI)


@functools.cache
def read_description() -> Json:
    """The API's description (OpenAPI)."""
    read = yaml.safe_load(Path(__file__).with_name("openapi.yaml").read_text("utf-8"))
    return {name: part for name, part in read.items() if name != "x-parts"}


async def find_nothing(http: HttpRequest) -> Response:
    """There is nothing else."""
    raise Wrong(HTTPStatus.NOT_FOUND, f"the API has no {http.url.path!r}")


FRONT = "/api/v1"
ROUTES: list[BaseRoute] = [
    Route(f"{FRONT}/sites", list_sites),
    Route(f"{FRONT}/sites/{{site}}/board", show_board),
    Route(f"{FRONT}/sites/{{site}}/periods", list_periods),
    Route(f"{FRONT}/sites/{{site}}/refusals", list_refusals),
    Route(f"{FRONT}/sites/{{site}}/findings", list_findings),
    Route(f"{FRONT}/sites/{{site}}/sessions.csv", write_month),
    Route(f"{FRONT}/stations/{{station}}/transactions", list_transactions),
    Route(f"{FRONT}/transactions/{{transaction:path}}", show_transaction),
    Route(f"{FRONT}/openapi.json", show_description),
    Route("/api/{path:path}", find_nothing),
]
