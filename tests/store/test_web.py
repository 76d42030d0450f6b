"""`web` over HTTP: pages, operators, deeds, tokens, and the read API as its description has it."""

import http.client
import json
import re
import socket
import threading
import time
from collections.abc import Iterator, Mapping
from dataclasses import dataclass, field
from datetime import date
from pathlib import Path
from typing import Any
from urllib.parse import quote, urlencode

import pytest
import uvicorn

from ocpp_board.energies import kwh
from ocpp_board.errors import InputError
from ocpp_board.ledger.engine import settle
from ocpp_board.store.closing import close_day
from ocpp_board.store.database import Database, open_store
from ocpp_board.web.api import read_description
from ocpp_board.web.app import make_app
from ocpp_board.web.deeds import Words, preview
from ocpp_board.web.desk import Desk, Stores
from ocpp_board.web.signing import (
    Tries,
    add_token,
    end_operator,
    end_token,
    set_password,
    write_operator,
)
from ocpp_board.writers.pages.context import PageOptions
from tests.page_check import Check
from tests.store.scene import AUTHOR, check, message, plan, write_event
from tests.store.scripts import SITE_DAY, load_script

PASSWORD = "correct horse battery"
TOKEN = "04A2F7C9D1"
SESSION = "6f1c2b7e-93d4-4a52-8e0b-5d2a7c41f9e3"
STATION = "/site/riverside/station/RV-FAST-01"
PAGES = {
    "/": "All sites",
    "/site/riverside": "Site riverside",
    "/site/riverside/stations": "Stations, site riverside",
    "/site/riverside/findings": "Findings, site riverside",
    "/site/riverside/lacking": "Sessions that lack messages, site riverside",
    "/site/riverside/silent": "Silent sessions, site riverside",
    "/site/riverside/site-meter": "Main meter beside the EVSEs, site riverside",
    "/site/riverside/refused": "Refused messages, site riverside",
    "/site/riverside/deeds": "What operators did, site riverside",
    "/site/riverside/closings": "Closings, site riverside",
    "/site/riverside/closing/1": "Closing 1 of site riverside",
    "/site/riverside/month/2026-03": "Site riverside, March 2026",
    "/site/riverside/day/2026-03-02": "Site riverside, Mon 2026-03-02",
    STATION: "Station RV-FAST-01",
    f"{STATION}/month/2026-03": "Station RV-FAST-01, March 2026",
    f"{STATION}/day/2026-03-02": "Station RV-FAST-01, Mon 2026-03-02",
    f"{STATION}/session/{SESSION}": f"Session {SESSION}",
    "/operate": "Correct, void, restore or erase an event",
}


@dataclass
class Browser:
    """Asks a server, and keeps its cookies."""

    port: int
    cookies: dict[str, str] = field(default_factory=dict)
    headers: dict[str, str] = field(default_factory=dict)

    def ask(
        self, path: str, form: Mapping[str, str] | None = None, **headers: str
    ) -> tuple[int, str]:
        """The status and the text of an answer."""
        connection = http.client.HTTPConnection("127.0.0.1", self.port, timeout=60)
        more = {name.replace("_", "-"): value for name, value in headers.items()} | self.headers
        if self.cookies:
            more["cookie"] = "; ".join(f"{name}={value}" for name, value in self.cookies.items())
        body = None
        if form is not None:
            body = urlencode(form)
            more.setdefault("content-type", "application/x-www-form-urlencoded")
        connection.request("GET" if form is None else "POST", path, body, more)
        answer = connection.getresponse()
        text = answer.read().decode()
        for line in answer.headers.get_all("set-cookie") or ():
            name, _, value = line.partition(";")[0].partition("=")
            self.cookies[name] = value.strip('"')
        self.location = answer.headers.get("location", "")
        connection.close()
        return answer.status, text

    def sign_in(self, name: str, password: str = PASSWORD) -> tuple[int, str]:
        """Signs in."""
        return self.ask("/login", {"name": name, "password": password, "next": "/"})

    def read_json(self, path: str) -> Any:
        """What the API answers."""
        status, text = self.ask(f"/api/v1/{path}")
        assert status == 200, text
        return json.loads(text)


@dataclass
class Web:
    """A server of a store."""

    port: int
    desk: Desk
    store: Database

    def open_browser(self, **headers: str) -> Browser:
        """A browser that nobody signed in with."""
        return Browser(self.port, {}, headers)

    def sign_in(self, name: str = "jo") -> Browser:
        """A browser of an operator."""
        browser = self.open_browser()
        assert browser.sign_in(name)[0] == 303
        return browser


@pytest.fixture(name="web")
def running_web(store: Database) -> Iterator[Web]:
    """A server of a store with two operators: jo may void, ann reads."""
    load_script(store, SITE_DAY)
    plan(store)
    # Two sessions of which the beginning is not there, which are findings.
    late = (write_event(f"T{one}", 3, "Updated", 0, [(0, 1_000)]) for one in (1, 2))
    settle(store, [message("CS-01", text, 0, "late") for text in late])
    close_day(store, "riverside", date(2026, 3, 2), "jo")
    write_operator(store, "jo", "operator", [], AUTHOR)
    write_operator(store, "ann", "reader", ["north"], AUTHOR)
    for name in ("jo", "ann"):
        set_password(store, name, PASSWORD, AUTHOR)
    desk = Desk(Stores(store), is_plain=True)
    with socket.socket() as listener:
        listener.bind(("127.0.0.1", 0))
        config = uvicorn.Config(make_app(desk), log_config=None, lifespan="off")
        server = uvicorn.Server(config)
        server.install_signal_handlers = lambda: None
        thread = threading.Thread(target=server.run, args=([listener],))
        thread.start()
        while not server.started:
            time.sleep(0.01)
        yield Web(listener.getsockname()[1], desk, store)
        server.should_exit = True
        thread.join()
    desk.stores.close()


def find_title(page: str) -> str:
    """The title of a page."""
    found = re.search(r"<title>(.*?)</title>", page)
    assert found
    return found[1]


def test_pages(web: Web, tmp_path: Path) -> None:
    """Each page is there, can be read, and its links lead to pages."""
    browser, links = web.sign_in(), set[str]()
    for path, title in PAGES.items():
        status, page = browser.ask(path)
        assert (status, find_title(page)) == (200, title)
        file = tmp_path / "page.html"
        file.write_text(page)
        assert not list(Check(file).found()), path
        links.update(re.findall(r'href="(/[^"]*)"', page.replace("&amp;", "&")))
    for link in links:
        assert browser.ask(link)[0] == 200, link
    assert "77.150 kWh" in browser.ask("/site/riverside")[1]


def test_who_is_let_in(web: Web) -> None:
    """Nobody sees a page without signing in; a reader sees its sites, and voids nothing."""
    browser = web.open_browser()
    for path in PAGES:
        assert browser.ask(path)[0] == 303
    assert browser.ask("/operate/do", {"word": "void"})[0] == 303
    assert browser.sign_in("jo", "another password")[0] == 403
    assert browser.sign_in("nobody")[0] == 403
    ann = web.sign_in("ann")
    assert ann.ask("/site/north")[0] == 200
    index = ann.ask("/")[1]
    assert "north" in index and "riverside" not in index
    for path in ("/site/riverside", "/site/riverside/findings", f"{STATION}/session/{SESSION}"):
        assert ann.ask(path)[0] == 404
    assert ann.ask("/operate")[0] == 403
    assert ann.ask("/operate/do", {"word": "void"})[0] == 403


def test_sign_out_and_ends(web: Web) -> None:
    """Who signs out, gets another password or is ended is not signed in any longer."""
    browser = web.sign_in()
    other = web.sign_in()
    found = re.search(r'name="token" value="([^"]*)"', browser.ask("/")[1])
    assert found
    assert other.ask("/logout", {"token": found[1]})[0] == 403
    assert browser.ask("/logout", {"token": found[1]})[0] == 303
    assert browser.ask("/")[0] == 303
    assert other.ask("/")[0] == 200
    set_password(web.store, "jo", "another good password", AUTHOR)
    assert other.ask("/")[0] == 303
    ann = web.sign_in("ann")
    end_operator(web.store, "ann", AUTHOR)
    assert ann.ask("/")[0] == 303
    assert web.open_browser().sign_in("ann")[0] == 403


def test_wrong_passwords_wait(web: Web) -> None:
    """After some wrong passwords from an address the next try waits."""
    browser = web.open_browser()
    statuses = [browser.sign_in("jo", f"wrong password {number}")[0] for number in range(7)]
    assert statuses[:5] == [403] * 5 and 429 in statuses
    tries = Tries()
    for _ in range(6):
        tries.fail(["a"])
    tries.check(["b"])


def test_header_of_a_proxy(web: Web) -> None:
    """A proxy of ours names who signed in there; others are not believed."""
    import ipaddress

    browser = web.open_browser(x_remote_user="jo")
    browser.headers = {"x-remote-user": "jo"}
    assert browser.ask("/")[0] == 303
    web.desk.header = "X-Remote-User"
    assert browser.ask("/")[0] == 303
    web.desk.proxies = [ipaddress.ip_network("10.0.0.0/8")]
    assert browser.ask("/")[0] == 303
    web.desk.proxies = [ipaddress.ip_network("127.0.0.0/8")]
    assert browser.ask("/site/riverside")[0] == 200
    browser.headers = {"x-remote-user": "nobody"}
    assert browser.ask("/")[0] == 303


def ask_deed(browser: Browser, word: str, number: int, why: str = "a test") -> dict[str, str]:
    """The fields of the form that asks again."""
    form = {"word": word, "station": "RV-FAST-01", "transaction": SESSION, "number": str(number)}
    status, page = browser.ask("/operate", form | {"why": why})
    assert status == 200, page
    return dict(
        re.findall(r'type="hidden" name="(\w+)" value="([^"]*)"', page.partition("<h1>")[2])
    )


def test_a_deed(web: Web) -> None:
    """A void asks why, shows what will change, is done once, and the store still has the program's figures."""
    browser = web.sign_in()
    net = web.store.fetch("select up from session where transaction_id = :tx", tx=SESSION)[0].up
    form = {"word": "void", "station": "RV-FAST-01", "transaction": SESSION, "number": "4"}
    status, page = browser.ask("/operate", form | {"why": "a test"})
    assert status == 200
    cells = re.findall(r"<th scope=\"row\">([^<]*)</th><td>([^<]*)</td><td>([^<]*)</td>", page)
    changes = {name: (before, after) for name, before, after in cells}
    assert changes["Events that count"] == ("5", "4")
    before, after = changes["Net, kWh"]
    assert before == kwh(net)
    fields = ask_deed(browser, "void", 4)
    status, page = browser.ask("/operate/do", fields)
    assert status == 200 and ">accepted<" in page
    row = web.store.fetch("select up, events from session where transaction_id = :tx", tx=SESSION)[
        0
    ]
    assert (kwh(row.up), row.events) == (after, 4)
    # The same form again is the same line, which changed nothing more.
    browser.ask("/operate/do", fields)
    rows = web.store.fetch(
        "select who, why, outcome from deed where transaction_id = :tx", tx=SESSION
    )
    assert [(row.who, row.why, row.outcome) for row in rows][0] == ("jo", "a test", "accepted")
    assert sum(row.outcome == "accepted" for row in rows) == 1
    page = browser.ask(f"{STATION}/session/{SESSION}")[1]
    assert "voided by jo: a test" in page
    for word in ("restore", "void", "erase"):
        assert browser.ask("/operate/do", ask_deed(browser, word, 4))[0] == 200
    assert check(web.store)


def test_a_deed_beside_a_conflict(web: Web) -> None:
    """What a void will change of a session with a refused message is what it changes."""
    transaction = "a94e0d13-2c6b-4f78-b1d5-07e9c3865f20"
    found = preview(web.store, Words("void", "RV-FAST-01", transaction, "4", "a test"))
    assert found and found.outcome == "accepted"
    changes = {row.cells[0]: row.cells[1:] for row in found.changes}
    assert changes["Events that count"] == ("4", "3") and changes["Missing numbers"][1] == "2 to 4"
    assert preview(web.store, Words("void", "RV-FAST-01", "none", "4", "a test")) is None


def test_a_correction(web: Web) -> None:
    """A correction asks why, shows what will change, is done once, and stays with who and why; the session stays
    complete. Who has not the role, or not the site, corrects nothing."""
    browser = web.sign_in()
    asked = "select up, complete, lines from session where transaction_id = :tx"
    (before,) = web.store.fetch(asked, tx=SESSION)
    form = {"word": "correct", "station": "RV-FAST-01", "transaction": SESSION, "number": "3"}
    form |= {"why": "read at the meter", "register": "import", "place": "0", "kwh": "1000"}
    status, page = browser.ask("/operate", form)
    assert status == 200 and "reading 0 of the import register to 1000 kWh" in page
    fields = re.findall(r'type="hidden" name="(\w+)" value="([^"]*)"', page.partition("<h1>")[2])
    cells = re.findall(r"<th scope=\"row\">([^<]*)</th><td>([^<]*)</td><td>([^<]*)</td>", page)
    changes = {name: (had, has) for name, had, has in cells}
    assert web.store.fetch(asked, tx=SESSION) == [before]
    write_operator(web.store, "mia", "operator", ["north"], AUTHOR)
    set_password(web.store, "mia", PASSWORD, AUTHOR)
    reader, other = web.sign_in("ann"), web.sign_in("mia")
    assert reader.ask("/operate", form)[0] == 403
    # Nothing says to the other one whether there is such an event.
    assert [other.ask("/operate", form | {"number": one})[0] for one in ("3", "99")] == [404, 404]
    assert browser.ask("/operate/do", dict(fields) | {"kwh": "1001"})[0] == 403
    assert web.store.fetch(asked, tx=SESSION) == [before]
    status, page = browser.ask("/operate/do", dict(fields))
    assert status == 200 and ">accepted<" in page
    (after,) = web.store.fetch(asked, tx=SESSION)
    assert changes["Up, kWh"] == (kwh(before.up), kwh(after.up))
    assert (after.complete, after.lines) == (True, before.lines + 3)
    # The same form again changes nothing more.
    assert browser.ask("/operate/do", dict(fields))[0] == 409
    assert web.store.fetch(asked, tx=SESSION) == [after]
    rows = web.store.fetch("select word, who, why from deed where transaction_id = :tx", tx=SESSION)
    wanted = {("void", "jo", "read at the meter"), ("erase", "jo", "read at the meter")}
    assert wanted <= {tuple(row) for row in rows}
    assert check(web.store)


@pytest.mark.parametrize(
    "change, status",
    [
        ({"word": "correct", "kwh": "x"}, 400),
        ({"word": "correct", "kwh": "1", "place": "7"}, 409),
        ({"word": "correct", "kwh": "1", "number": "99"}, 409),
        ({"word": "correct", "kwh": "1", "register": "export"}, 409),
        ({"number": "99"}, 409),
        ({"word": "destroy"}, 400),
        ({"why": ""}, 400),
        ({"station": "no such"}, 400),
        ({"station": "CS-77"}, 404),
        ({"transaction": "none"}, 404),
        ({"number": "-1"}, 400),
    ],
)
def test_wrong_deeds(web: Web, change: dict[str, str], status: int) -> None:
    """What can't be done is said on the form, and changes nothing."""
    browser, lines = web.sign_in(), count_lines(web)
    form = {"word": "void", "station": "RV-FAST-01", "transaction": SESSION, "number": "4"}
    found, page = browser.ask("/operate", form | {"why": "a test"} | change)
    assert found == status
    assert 'role="status"' in page
    assert count_lines(web) == lines


def count_lines(web: Web) -> tuple[int, int]:
    """How many lines and deeds the store has."""
    counts = (web.store.fetch(f"select count(*) as times from {name}") for name in ("line", "deed"))
    lines, deeds = (rows[0].times for rows in counts)
    return lines, deeds


def test_forms_of_others(web: Web) -> None:
    """A form that these pages did not make for this operator and these words does nothing."""
    browser, other = web.sign_in(), web.sign_in()
    lines = count_lines(web)
    fields = ask_deed(browser, "void", 4)
    for form in (
        fields | {"number": "3"},
        fields | {"why": "another reason"},
        fields | {"token": "x"},
        {name: value for name, value in fields.items() if name != "token"},
    ):
        assert browser.ask("/operate/do", form)[0] == 403
    assert other.ask("/operate/do", fields)[0] == 403
    assert browser.ask("/operate/do", fields, origin="http://elsewhere.example")[0] == 403
    assert browser.ask("/operate/do", fields, sec_fetch_site="cross-site")[0] == 403
    assert browser.ask("/operate/do", fields, content_type="text/plain")[0] == 415
    assert browser.ask("/operate/do", fields | {"why": "x" * 9_000})[0] == 413
    assert count_lines(web) == lines


def test_texts_that_are_none(web: Web) -> None:
    """A path or a word that the store can't look for is a fault of who asks."""
    browser = web.sign_in()
    for path in (
        "/site/%00",
        "/site/%ff",
        "/site/riverside/day/2026-13-01",
        "/site/riverside/day/26-1-1",
        "/site/riverside/month/2026",
        "/site/riverside/findings?page=0",
        "/site/riverside/nothing",
        "/site/riverside/station/none",
        "/none",
    ):
        assert browser.ask(path)[0] in (400, 404), path
    assert browser.ask("/site/riverside/month/2031-01")[0] == 404
    assert browser.ask("/site/riverside/day/2031-01-01")[0] == 200


def test_tokens_of_drivers(web: Web) -> None:
    """Pages and the API hide drivers' tokens unless the server was asked to show them."""
    token = {"idToken": {"idToken": TOKEN, "type": "ISO14443"}}
    text = write_event("T9", 0, "Started", 0, [(0, 1_000)], **token)
    settle(web.store, [message("CS-01", text, 0, "a")])
    browser, api = web.sign_in(), open_api(web)
    paths = ("/site/north/station/CS-01/session/t9", "/site/north/station/CS-01", "/site/north")
    assert not any(TOKEN in browser.ask(path)[1] for path in paths)
    assert TOKEN not in json.dumps(api.read_json("transactions/t9"))
    assert api.ask("/api/v1/sites/north/sessions.csv?month=2026-03&tokens=plain")[0] == 403
    web.desk.pages = PageOptions(tokens="plain")
    assert TOKEN in browser.ask(paths[0])[1]
    assert TOKEN in json.dumps(api.read_json("transactions/t9"))


# The read API ---------------------------------------------------------------------------------------------------------


def open_api(web: Web, sites: tuple[str, ...] = ()) -> Browser:
    """A program with a token."""
    token = add_token(web.store, "jo", "a program", "reader", sites, AUTHOR)
    return web.open_browser(authorization=f"Bearer {token}")


def resolve(schema: dict[str, Any]) -> dict[str, Any]:
    """A schema, or the one that it refers to."""
    if "$ref" in schema:
        name = schema["$ref"].rpartition("/")[2]
        found: dict[str, Any] = read_description()["components"]["schemas"][name]
        return found
    return schema


def compare(value: Any, schema: dict[str, Any], where: str) -> list[str]:
    """How a value is another one than the description has it."""
    schema = resolve(schema)
    if value is None:
        return [] if schema.get("nullable") else [f"{where} is null"]
    kinds: dict[str, tuple[type, ...]] = {
        "string": (str,),
        "integer": (int,),
        "number": (int, float),
        "boolean": (bool,),
    }
    kind = schema["type"]
    if kind == "array":
        return [text for one in value for text in compare(one, schema["items"], f"{where}[]")]
    if kind == "object":
        known = schema["properties"]
        faults = [f"{where} has {name}" for name in value if name not in known]
        for name, inner in known.items():
            if name in value:
                faults += compare(value[name], inner, f"{where}.{name}")
            elif not name.startswith("settled_"):
                faults.append(f"{where} lacks {name}")
        return faults
    if not isinstance(value, kinds[kind]) or isinstance(value, bool) != (kind == "boolean"):
        return [f"{where} is no {kind}: {value!r}"]
    return [] if value in schema.get("enum", [value]) else [f"{where} is {value!r}"]


def list_answers(web: Web) -> dict[str, str]:
    """The paths of the description, each with a path that asks for it."""
    return {
        "/api/v1/sites": "sites",
        "/api/v1/sites/{site}/board": "sites/riverside/board",
        "/api/v1/sites/{site}/periods": "sites/riverside/periods?from=2026-03-01&to=2026-03-03",
        "/api/v1/sites/{site}/refusals": "sites/riverside/refusals",
        "/api/v1/sites/{site}/findings": "sites/north/findings",
        "/api/v1/stations/{station}/transactions": "stations/RV-FAST-01/transactions",
        "/api/v1/transactions/{transaction}": f"transactions/{SESSION.upper()}",
    }


def test_api_is_as_described(web: Web) -> None:
    """Each answer has what the description says, and nothing else."""
    api, paths = open_api(web), read_description()["paths"]
    answers = list_answers(web)
    assert {*answers, "/api/v1/sites/{site}/sessions.csv"} == {*paths}
    for path, asked in answers.items():
        content = paths[path]["get"]["responses"]["200"]["content"]
        value = api.read_json(asked)
        assert compare(value, content["application/json"]["schema"], path) == []
        assert any(isinstance(one, list) and one for one in value.values()), path
    assert api.read_json("openapi.json") == json.loads(json.dumps(read_description()))


def test_api_has_the_views_figures(web: Web) -> None:
    """Boards, periods and transactions of the API are those of the views."""
    api = open_api(web)
    board = api.read_json("sites/riverside/board")
    assert (board["up"], board["transactions"], board["complete"]) == (77_150_000, 4, 3)
    assert {one["station"]: one["up"] for one in board["stations"]} == {
        row.station: row.up
        for row in web.store.fetch("select station, up from board_station where site = 'riverside'")
    }
    periods = api.read_json("sites/riverside/periods?from=2026-03-02&to=2026-03-02")["periods"]
    assert [(one["station"], one["up"]) for one in periods] == [
        (row.station, row.up)
        for row in web.store.fetch("select station, up from board_period order by starts, station")
    ]
    (one,) = api.read_json(f"transactions/{SESSION}?station=RV-FAST-01")["transactions"]
    assert one["net_kwh"] == 26.75 and len(one["lines"]) == 5
    status, text = api.ask("/api/v1/sites/riverside/sessions.csv?month=2026-03")
    assert status == 200 and text.count("\n") == 5


def test_api_pages(web: Web) -> None:
    """A list that goes on gives each row once."""
    api = open_api(web)
    for path, name in (
        ("sites", "sites"),
        ("sites/riverside/board", "stations"),
        ("sites/riverside/periods?from=2026-03-01&to=2026-03-03", "periods"),
        ("sites/north/findings", "findings"),
        ("stations/RV-FAST-01/transactions", "transactions"),
    ):
        whole, found, more = api.read_json(path)[name], list[Any](), ""
        mark = "&" if "?" in path else "?"
        while more is not None:
            cursor = f"&cursor={quote(more)}" if more else ""
            page = api.read_json(f"{path}{mark}limit=1{cursor}")
            found, more = found + page[name], page["next"]
        assert found == whole and len(whole) > 1, path


def test_tokens_of_programs(web: Web) -> None:
    """Without a good token there is nothing; one of some sites sees these; one that was ended is none."""
    assert web.open_browser().ask("/api/v1/sites")[0] == 401
    assert web.open_browser(authorization="Bearer " + "x" * 43).ask("/api/v1/sites")[0] == 401
    api = open_api(web, ("north",))
    assert [one["site"] for one in api.read_json("sites")["sites"]] == ["north"]
    for path in (
        "sites/riverside/board",
        "stations/RV-FAST-01/transactions",
        f"transactions/{SESSION}",
    ):
        assert api.ask(f"/api/v1/{path}")[0] == 404
    assert api.ask("/api/v1/sites?limit=0")[0] == 400
    assert api.ask("/api/v1/sites?cursor=x")[0] == 400
    assert api.ask("/api/v1/none")[0] == 404
    assert web.sign_in().ask("/api/v1/sites")[0] == 401
    end_token(web.store, "jo", "a program", AUTHOR)
    assert api.ask("/api/v1/sites")[0] == 401


def test_operators_are_checked(store: Database) -> None:
    """Names, roles, sites and passwords that can't be are refused, and each change is kept."""
    plan(store)
    for name, role, site in (
        ("Jo", "reader", "north"),
        ("jo", "king", "north"),
        ("jo", "reader", "x"),
    ):
        with pytest.raises(InputError):
            write_operator(store, name, role, [site], AUTHOR)
    with pytest.raises(InputError):
        set_password(store, "jo", PASSWORD, AUTHOR)
    write_operator(store, "jo", "reader", ["north"], AUTHOR)
    with pytest.raises(InputError):
        set_password(store, "jo", "short", AUTHOR)
    with pytest.raises(InputError):
        end_token(store, "jo", "none", AUTHOR)
    rows = store.fetch("select what, name, who, why from change where what = 'operator'")
    assert [(row.name, row.who, row.why) for row in rows] == [("jo", AUTHOR.who, AUTHOR.why)]
    assert PASSWORD not in str(store.fetch("select * from operator"))


def test_two_servers_of_one_store(web: Web, store_name: str) -> None:
    """Who signed in at one server is signed in at another one of the same store."""
    browser = web.sign_in()
    with open_store(store_name) as other:
        secret = browser.cookies["session"]
        found = Desk(Stores(other)).sign_ins.find(other, secret)
        assert found and found.name == "jo"
