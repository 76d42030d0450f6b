"""The pages of a store, made of its views when they are asked for. None is kept."""

from datetime import date
from http import HTTPStatus

from markupsafe import Markup
from starlette.responses import HTMLResponse, RedirectResponse, Response

from ocpp_board.web.desk import (
    Request,
    Wrong,
    find_desk,
    find_local_path,
    make_plain_page,
    open_view,
    read_fields,
)
from ocpp_board.web.signing import OPERATOR, READER, SignInFault
from ocpp_board.writers.pages.closing_pages import make_closing_page
from ocpp_board.writers.pages.context import Context
from ocpp_board.writers.pages.day_book import DayBook
from ocpp_board.writers.pages.day_pages import make_day_page, make_station_day_page
from ocpp_board.writers.pages.facts import Site, StationSummary
from ocpp_board.writers.pages.links import WebLinks
from ocpp_board.writers.pages.list_pages import LISTS, make_list_page
from ocpp_board.writers.pages.month_pages import make_month_page
from ocpp_board.writers.pages.reader import Reader
from ocpp_board.writers.pages.session_pages import make_session_page
from ocpp_board.writers.pages.site_pages import make_index, make_site_page, read_sites
from ocpp_board.writers.pages.station_pages import make_station_page
from ocpp_board.writers.pages.summaries import read_summaries
from starlette.concurrency import run_in_threadpool
from starlette.requests import Request as HttpRequest

LINKS = WebLinks()
# What is linked from each page, with the role that it needs.
BAR = (("/", "All sites", READER), ("/operate", "Correct or void", OPERATOR))


def make_context(asked: Request) -> Context:
    """What a page of an operator has."""
    reader = Reader(asked.store)
    return Context(
        reader,
        LINKS,
        asked.desk.pages,
        DayBook(reader),
        bar=[(href, text) for href, text, role in BAR if asked.operator.may(role)],
        operator=asked.operator.name,
        out_token=asked.make_token("logout"),
    )


def find_site(asked: Request, context: Context) -> Site:
    """The site that the path names. Raises Wrong where there is none that the operator sees."""
    name = asked.path("site")
    if asked.operator.sees(name) and (site := context.reader.find_rules(name)):
        return site
    raise Wrong(
        HTTPStatus.NOT_FOUND, f"there is no site {name!r}, or not for {asked.operator.name}"
    )


def find_station(asked: Request, context: Context, site: Site) -> StationSummary:
    """The station of a site that the path names. Raises Wrong where there is none."""
    name = asked.path("station")
    found = read_summaries(context.reader, site.name, name).get(name)
    if found and (found.totals.transactions or name in context.reader.site_stations(site.name)):
        return found
    raise Wrong(HTTPStatus.NOT_FOUND, f"site {site.name} has no station {name!r}")


def read_day(asked: Request, length: int) -> date:
    """The day or the month that the path names. Raises Wrong."""
    text = asked.path("day")
    try:
        day = date.fromisoformat(text if length == 10 else f"{text}-01")
    except ValueError:
        raise Wrong(HTTPStatus.NOT_FOUND, f"{text!r} is no day or month") from None
    if len(text) != length or not 2000 <= day.year < 2100:
        raise Wrong(HTTPStatus.NOT_FOUND, f"{text!r} is no day or month from 2000 to 2099")
    return day


def read_page(asked: Request) -> int:
    """Which page of a list is asked for. Raises Wrong."""
    text = asked.word("page", "1")
    if not text.isdecimal() or not 1 <= int(text) <= 100_000:
        raise Wrong(HTTPStatus.BAD_REQUEST, f"page is a number from 1 on, and not {text!r}")
    return int(text)


def show(page: Markup | None) -> Response:
    """Answers with a page. Raises Wrong where there is none."""
    if page is None:
        raise Wrong(HTTPStatus.NOT_FOUND, "nothing is known of that time")
    return HTMLResponse(page)


@open_view(READER)
def show_index(asked: Request) -> Response:
    """All sites that the operator sees."""
    with asked.store.snapshot():
        context = make_context(asked)
        sites = [site for site in context.reader.sites() if asked.operator.sees(site.name)]
        facts = read_sites(context, sites)
        sees_all = asked.operator.sites is None
        strays = context.reader.count_strays() if sees_all else 0
        return show(make_index(context, facts, strays, sees_all))


@open_view(READER)
def show_site(asked: Request) -> Response:
    """A site."""
    with asked.store.snapshot():
        context = make_context(asked)
        site = find_site(asked, context)
        stations = read_summaries(context.reader, site.name)
        refused = context.reader.count_refused(site.name)
        return show(make_site_page(context, site, stations, refused))


@open_view(READER)
def show_list(asked: Request) -> Response:
    """A list of a site."""
    with asked.store.snapshot():
        context = make_context(asked)
        site, name = find_site(asked, context), asked.path("name")
        if name not in LISTS:
            raise Wrong(HTTPStatus.NOT_FOUND, f"there is no list {name!r}")
        stations = read_summaries(context.reader, site.name) if name == "stations" else {}
        return show(make_list_page(context, site, name, stations, read_page(asked))[0])


@open_view(READER)
def show_closing(asked: Request) -> Response:
    """A closing of a site."""
    with asked.store.snapshot():
        context = make_context(asked)
        site, number = find_site(asked, context), asked.path("number")
        known = number.isdecimal() and len(number) <= 9
        closing = context.reader.closing(site.name, int(number)) if known else None
        if closing is None:
            raise Wrong(HTTPStatus.NOT_FOUND, f"site {site.name} has no closing {number!r}")
        return show(make_closing_page(context, site, closing))


@open_view(READER)
def show_month(asked: Request) -> Response:
    """A month of a site, or of one of its stations."""
    with asked.store.snapshot():
        context = make_context(asked)
        site, month = find_site(asked, context), read_day(asked, 7)
        station = asked.http.path_params.get("station")
        return show(make_month_page(context, site, station, month))


@open_view(READER)
def show_day(asked: Request) -> Response:
    """A day of a site."""
    with asked.store.snapshot():
        context = make_context(asked)
        site, day = find_site(asked, context), read_day(asked, 10)
        return show(make_day_page(context, site, day, read_page(asked))[0])


@open_view(READER)
def show_station(asked: Request) -> Response:
    """A station."""
    with asked.store.snapshot():
        context = make_context(asked)
        site = find_site(asked, context)
        return show(make_station_page(context, site, find_station(asked, context, site)))


@open_view(READER)
def show_station_day(asked: Request) -> Response:
    """A day of a station."""
    with asked.store.snapshot():
        context = make_context(asked)
        site, day = find_site(asked, context), read_day(asked, 10)
        station = find_station(asked, context, site)
        return show(make_station_day_page(context, site, station.name, day, station.found))


@open_view(READER)
def show_session(asked: Request) -> Response:
    """A transaction."""
    with asked.store.snapshot():
        context = make_context(asked)
        site, station = find_site(asked, context), asked.path("station")
        session = context.reader.session(station, asked.path("transaction").lower())
        if session is None or session.site != site.name:
            raise Wrong(HTTPStatus.NOT_FOUND, f"{station} has no such transaction")
        findings = context.reader.session_findings(session)
        return show(make_session_page(context, site, session, findings))


# Signing in and out ---------------------------------------------------------------------------------------------------


def make_login(to: str, fault: str = "", status: int = 200) -> Response:
    """The form that asks for name and password."""
    return make_plain_page("login.html", "Sign in", status, next=to, fault=fault)


async def show_login(http: HttpRequest) -> Response:
    """Shows the form that signs in."""
    return make_login(find_local_path(http.query_params.get("next", "/")))


async def sign_in(http: HttpRequest) -> Response:
    """Signs in."""
    return await run_in_threadpool(let_in, http, await read_fields(http))


def let_in(http: HttpRequest, fields: dict[str, str]) -> Response:
    """Signs in who sent a form."""
    desk, to = find_desk(http), find_local_path(fields.get("next", "/"))
    name, password = fields.get("name", "").strip().lower(), fields.get("password", "")
    try:
        with desk.stores.take() as store:
            secret = desk.sign_ins.begin(store, name, password, desk.find_address(http))
    except SignInFault as fault:
        status = HTTPStatus.TOO_MANY_REQUESTS if fault.seconds else HTTPStatus.FORBIDDEN
        response = make_login(to, str(fault), status)
        if fault.seconds:
            response.headers["retry-after"] = str(int(fault.seconds) + 1)
        return response
    response = RedirectResponse(to, HTTPStatus.SEE_OTHER)
    set_cookie(response, http, secret)
    return response


def set_cookie(response: Response, http: HttpRequest, secret: str, age: int | None = None) -> None:
    """Gives the browser the secret of who is signed in."""
    desk = find_desk(http)
    response.set_cookie(
        desk.cookie,
        secret,
        max_age=age,
        path="/",
        secure=not desk.is_plain,
        httponly=True,
        samesite="lax",
    )


@open_view(READER)
def sign_out(asked: Request) -> Response:
    """Signs out."""
    asked.check_token("logout")
    asked.desk.sign_ins.end(asked.store, asked.secret)
    response = RedirectResponse("/login", HTTPStatus.SEE_OTHER)
    set_cookie(response, asked.http, "", 0)
    return response
