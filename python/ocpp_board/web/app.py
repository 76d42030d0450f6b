"""The routes of `web`."""

from typing import Any

from starlette.applications import Starlette
from starlette.exceptions import HTTPException
from starlette.requests import ClientDisconnect, Request
from starlette.responses import Response
from starlette.routing import BaseRoute, Route
from starlette.types import ASGIApp

from ocpp_board.errors import OcppBoardError
from ocpp_board.web import api, deeds, views
from ocpp_board.web.desk import Desk, Headed, Wrong, answer_fault
from ocpp_board.web.signing import FormFault

SITE, STATION = "/site/{site}", "/site/{site}/station/{station}"
ROUTES: list[BaseRoute] = [
    Route("/", views.show_index),
    Route("/login", views.show_login),
    Route("/login", views.sign_in, methods=["POST"]),
    Route("/logout", views.sign_out, methods=["POST"]),
    Route("/operate", deeds.ask_words),
    Route("/operate", deeds.ask_again, methods=["POST"]),
    Route("/operate/do", deeds.do_deed, methods=["POST"]),
    Route(SITE, views.show_site),
    Route(f"{SITE}/month/{{day}}", views.show_month),
    Route(f"{SITE}/day/{{day}}", views.show_day),
    Route(STATION, views.show_station),
    Route(f"{STATION}/month/{{day}}", views.show_month),
    Route(f"{STATION}/day/{{day}}", views.show_station_day),
    Route(f"{STATION}/session/{{transaction:path}}", views.show_session),
    Route(f"{SITE}/closing/{{number}}", views.show_closing),
    Route(f"{SITE}/{{name}}", views.show_list),
    *api.ROUTES,
]


async def leave(_request: Request, _fault: Exception) -> Response:
    """The browser left before its form was whole."""
    return Response(status_code=400)


FAULTS: dict[Any, Any] = {
    **dict.fromkeys((Wrong, FormFault, HTTPException, OcppBoardError, Exception), answer_fault),
    ClientDisconnect: leave,
}


def make_app(desk: Desk) -> ASGIApp:
    """Makes the ASGI application."""
    app = Starlette(routes=ROUTES, exception_handlers=FAULTS)
    app.router.redirect_slashes = False
    app.state.desk = desk
    return Headed(app)
