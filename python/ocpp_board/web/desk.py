"""What requests share: the store, who asks, what a form says, how a fault is answered, and the headers of all.

A view is a function of what was asked for, `Request`, which has a store and the operator; `open_view` makes it an
endpoint that asks who it is first, and runs it in a thread.
"""

import functools
import ipaddress
import logging
import queue
import secrets
from collections.abc import Awaitable, Callable, Iterator, Mapping, Sequence
from contextlib import contextmanager
from dataclasses import dataclass, field
from http import HTTPStatus
from typing import Any
from urllib.parse import parse_qs, quote, urlsplit

from starlette.concurrency import run_in_threadpool
from starlette.exceptions import HTTPException
from starlette.requests import Request as HttpRequest
from starlette.responses import HTMLResponse, JSONResponse, RedirectResponse, Response
from starlette.types import ASGIApp, Message, Receive, Scope, Send

from ocpp_board.errors import OcppBoardError, StoreError
from ocpp_board.store.database import Database, open_again
from ocpp_board.web.signing import (
    FormFault,
    Operator,
    SignIns,
    check_form,
    find_operator,
    make_form_token,
    make_operator,
)
from ocpp_board.writers.pages.context import PageOptions
from ocpp_board.writers.pages.render import render

log = logging.getLogger(__name__)

# Bytes and fields of a form, and connections to the store.
MOST_BYTES, MOST_FIELDS, MOST_STORES = 8_192, 16, 8
HEADERS = {
    "cache-control": "no-store",
    "content-security-policy": "default-src 'none'; style-src 'unsafe-inline'; form-action 'self'; base-uri 'none'; "
    "frame-ancestors 'none'",
    "referrer-policy": "same-origin",
    "x-content-type-options": "nosniff",
    "x-frame-options": "DENY",
}
View = Callable[["Request"], Response]
Endpoint = Callable[[HttpRequest], Awaitable[Response]]


class Wrong(Exception):
    """What can't be done, as an answer says it."""

    def __init__(self, status: HTTPStatus, text: str) -> None:
        super().__init__(text)
        self.status = status


class Stores:
    """Connections to one store, each of which serves one request at a time."""

    def __init__(self, first: Database, most: int = MOST_STORES) -> None:
        self.first = first
        self.free = queue.LifoQueue[Database | None]()
        for _ in range(most):
            self.free.put(None)

    @contextmanager
    def take(self) -> Iterator[Database]:
        """A connection for a request. One that failed is opened anew for the next. Raises StoreError."""
        store = self.free.get()
        try:
            store = store or open_again(self.first)
            yield store
        except StoreError:
            if store is not None:
                store.close()
            store = None
            raise
        finally:
            self.free.put(store)

    def close(self) -> None:
        """Closes all that are free."""
        while not self.free.empty():
            store = self.free.get()
            if store is not None:
                store.close()


@dataclass
class Desk:
    """What all requests share. `header`: the header by which a proxy of these networks names who signed in there;
    `is_plain`: cookies go over plain HTTP, too."""

    stores: Stores
    pages: PageOptions = PageOptions()
    header: str = ""
    proxies: Sequence[ipaddress.IPv4Network | ipaddress.IPv6Network] = ()
    is_plain: bool = False
    sign_ins: SignIns = field(default_factory=SignIns)
    # What signs forms of operators whom a proxy signs in.
    key: str = field(default_factory=secrets.token_urlsafe)

    @property
    def tokens(self) -> str:
        """How drivers' tokens are shown."""
        return self.pages.tokens

    @property
    def cookie(self) -> str:
        """The name of the cookie of who is signed in."""
        return "session" if self.is_plain else "__Host-session"

    def is_proxy(self, peer: str) -> bool:
        """Whether an address is one of a proxy of ours."""
        try:
            address = ipaddress.ip_address(peer)
        except ValueError:
            return False
        return any(address in network for network in self.proxies)

    def find_address(self, http: HttpRequest) -> str:
        """Where a request comes from: what a proxy of ours names last."""
        peer = http.client.host if http.client else "unknown"
        named = http.headers.getlist("x-forwarded-for")
        return named[-1].rpartition(",")[2].strip() if named and self.is_proxy(peer) else peer

    def find_named(self, http: HttpRequest) -> str:
        """Whom a proxy of ours names as signed in; empty where none does."""
        peer = http.client.host if http.client else ""
        if not self.header or not self.is_proxy(peer):
            return ""
        return http.headers.get(self.header, "").strip().lower()


@dataclass
class Request:
    """What was asked for: by a browser, whose forms the secret signs, or by a program."""

    http: HttpRequest
    desk: Desk
    store: Database
    operator: Operator
    secret: str
    fields: Mapping[str, str]

    def word(self, name: str, default: str = "") -> str:
        """A word of the query."""
        return check_text(self.http.query_params.get(name, default).strip())

    def path(self, name: str) -> str:
        """A part of the path."""
        return check_text(str(self.http.path_params[name]))

    def make_token(self, *words: str) -> str:
        """The token of a form for these words."""
        return make_form_token(self.secret, words)

    def check_token(self, *words: str) -> str:
        """The number of the form that was sent, which has to be for these words. Raises FormFault."""
        return check_form(self.secret, self.fields.get("token", ""), words)


def check_text(text: str) -> str:
    """A text of a request, where the store can look for it. Raises Wrong where it has a NUL, half a surrogate pair, or
    bytes that are no UTF-8, which come as U+FFFD."""
    if any(letter in "\0\ufffd" or "\ud800" <= letter <= "\udfff" for letter in text):
        raise Wrong(
            HTTPStatus.BAD_REQUEST,
            "a text of the request has a NUL, half a surrogate pair or bytes that are no UTF-8",
        )
    return text


def find_desk(http: HttpRequest) -> Desk:
    """What requests share."""
    desk: Desk = http.app.state.desk
    return desk


# Views ----------------------------------------------------------------------------------------------------------------


def open_view(role: str) -> Callable[[View], Endpoint]:
    """Makes a view for operators of a role an endpoint."""

    def make(view: View) -> Endpoint:
        @functools.wraps(view)
        async def endpoint(http: HttpRequest) -> Response:
            fields = await read_fields(http) if http.method == "POST" else {}
            return await run_in_threadpool(answer, http, fields)

        def answer(http: HttpRequest, fields: Mapping[str, str]) -> Response:
            desk = find_desk(http)
            with desk.stores.take() as store:
                operator, secret = find_who(desk, store, http)
                if operator is None:
                    return ask_to_sign_in(http)
                if not operator.may(role):
                    raise Wrong(HTTPStatus.FORBIDDEN, f"{operator.name} has no role {role!r}")
                return view(Request(http, desk, store, operator, secret, fields))

        return endpoint

    return make


def find_who(desk: Desk, store: Database, http: HttpRequest) -> tuple[Operator | None, str]:
    """Who asks, and the secret that signs the forms of it."""
    if named := desk.find_named(http):
        row = find_operator(store, named)
        return (make_operator(row) if row else None), f"{desk.key} {named}"
    secret = http.cookies.get(desk.cookie, "")
    return (desk.sign_ins.find(store, secret) if secret else None), secret


def ask_to_sign_in(http: HttpRequest) -> Response:
    """Asks to sign in, and to go on to the page that was asked for."""
    here = http.url.path if http.method in ("GET", "HEAD") else "/"
    query = f"?{http.url.query}" if http.url.query and here != "/" else ""
    to = "" if here == "/" else f"?next={quote(here + query, safe='')}"
    return RedirectResponse(f"/login{to}", HTTPStatus.SEE_OTHER)


def find_local_path(text: str) -> str:
    """A path of these pages; `/` where a text is none."""
    parts = urlsplit(text)
    is_local = text.startswith("/") and not text.startswith(("//", "/\\")) and text.isprintable()
    return text if is_local and not parts.scheme and not parts.netloc else "/"


# Forms ----------------------------------------------------------------------------------------------------------------


async def read_fields(http: HttpRequest) -> dict[str, str]:
    """The fields of a form that these pages gave. Raises Wrong where it is too long or of another page."""
    origin = http.headers.get("origin")
    if origin is not None and urlsplit(origin).netloc != http.headers.get("host"):
        raise Wrong(HTTPStatus.FORBIDDEN, "this form is of another page; nothing was done")
    if http.headers.get("sec-fetch-site", "same-origin") not in ("same-origin", "none"):
        raise Wrong(HTTPStatus.FORBIDDEN, "this form is of another page; nothing was done")
    kind = http.headers.get("content-type", "").partition(";")[0].strip().lower()
    if kind != "application/x-www-form-urlencoded":
        raise Wrong(
            HTTPStatus.UNSUPPORTED_MEDIA_TYPE, "a form is application/x-www-form-urlencoded"
        )
    try:
        text = (await read_body(http)).decode()
        fields = parse_qs(text, keep_blank_values=True, max_num_fields=MOST_FIELDS, errors="strict")
    except ValueError:
        raise Wrong(HTTPStatus.BAD_REQUEST, "a form with too many fields, or not UTF-8") from None
    return {name: check_text(values[-1]) for name, values in fields.items()}


async def read_body(http: HttpRequest) -> bytes:
    """A form's bytes. Raises Wrong where they are too many."""
    data = b""
    async for part in http.stream():
        data += part
        if len(data) > MOST_BYTES:
            raise Wrong(
                HTTPStatus.REQUEST_ENTITY_TOO_LARGE, f"a form has at most {MOST_BYTES:,} bytes"
            )
    return data


# Faults ---------------------------------------------------------------------------------------------------------------


def is_for_api(http: HttpRequest) -> bool:
    """Whether a program asks."""
    return http.url.path.startswith("/api/")


def make_plain_page(name: str, title: str, status: int = 200, **values: Any) -> HTMLResponse:
    """Makes a page of nobody: one to sign in, or of a fault."""
    front: dict[str, Any] = {
        "title": title,
        "whole": "",
        "refresh": None,
        "operator": "",
        "out_token": "",
    }
    front |= {"bar": (), "trail": (), "stamp": None}
    return HTMLResponse(render(name, **front, **values), status)


async def answer_fault(http: HttpRequest, fault: Exception) -> Response:
    """The answer to what can't be done."""
    status, text = HTTPStatus.INTERNAL_SERVER_ERROR, "Something is wrong with the page itself."
    if isinstance(fault, Wrong):
        status, text = fault.status, str(fault)
    elif isinstance(fault, FormFault):
        status, text = HTTPStatus.FORBIDDEN, str(fault)
    elif isinstance(fault, HTTPException):
        status = HTTPStatus(fault.status_code)
        text = f"There is no page {http.url.path!r}." if status == 404 else status.phrase
    elif isinstance(fault, StoreError):
        status, text = HTTPStatus.SERVICE_UNAVAILABLE, f"The store does not do it: {fault}"
    elif isinstance(fault, OcppBoardError):
        text = str(fault)
    else:
        log.error("%s: %s", http.url.path, fault, exc_info=fault)
    if is_for_api(http):
        return JSONResponse({"status": int(status), "fault": text}, int(status))
    return make_plain_page("wrong.html", status.phrase, int(status), text=text)


class Headed:
    """Puts the headers of all answers there."""

    def __init__(self, app: ASGIApp) -> None:
        self.app = app

    async def __call__(self, scope: Scope, receive: Receive, send: Send) -> None:
        """Hands a request on."""

        async def send_headed(message: Message) -> None:
            if message["type"] == "http.response.start":
                had = {name for name, _ in message["headers"]}
                message["headers"] += [
                    (name.encode(), value.encode())
                    for name, value in HEADERS.items()
                    if name.encode() not in had
                ]
            await send(message)

        await self.app(scope, receive, send_headed)
