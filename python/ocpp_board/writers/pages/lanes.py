"""The sessions of a day as bars along it: a lane for each EVSE, with the times in which numbers are missing."""

from collections.abc import Iterable, Iterator, Sequence
from datetime import date, datetime
from typing import NamedTuple

from markupsafe import Markup, escape

from ocpp_board.energies import kwh
from ocpp_board.writers.calendar import Calendar
from ocpp_board.writers.pages.facts import SessionFacts
from ocpp_board.writers.pages.links import Links
from ocpp_board.writers.pages.pictures import (
    UNIT,
    Text,
    draw_paths,
    draw_picture,
    list_hours,
    shorten,
    write_hours,
)

# The height of a lane, and of the name above its bars.
LANE, NAME = 16, 14
# Lanes of a picture.
MOST_LANES = 80
MOVED = Markup('<g transform="translate(0,%d)">')


class Lane(NamedTuple):
    """An EVSE of a station with its sessions of a day."""

    station: str
    evse: int
    sessions: list[SessionFacts]

    @property
    def name(self) -> str:
        """What a reader calls it."""
        return f"{self.station}, {f'EVSE {self.evse}' if self.evse else 'EVSE not named'}"


def group_lanes(sessions: Iterable[SessionFacts]) -> list[Lane]:
    """Groups the sessions of a day by station and EVSE."""
    found: dict[tuple[str, int], list[SessionFacts]] = {}
    for session in sessions:
        found.setdefault((session.station, session.evse), []).append(session)
    return [Lane(*key, some) for key, some in sorted(found.items())]


def describe_session(session: SessionFacts, calendar: Calendar) -> str:
    """Describes a session in one line."""
    assert session.first_at and session.last_at
    first, last = calendar.local(session.first_at), calendar.local(session.last_at)
    to = f"{last:%H:%M}" if last.date() == first.date() else f"{last:%Y-%m-%d %H:%M}"
    energy = f"{kwh(session.flow.net)} kWh"
    return f"{session.sent_id}: {first:%Y-%m-%d %H:%M} to {to}, {energy}, {session.state}"


def draw_lanes(
    label: str,
    lanes: Sequence[Lane],
    day: date,
    calendar: Calendar,
    links: Links,
    drawn: dict[tuple[str, int], Markup],
) -> Markup:
    """Draws the lanes of a day, each under its name. `drawn`: lanes that are drawn already, by station and EVSE."""
    some = lanes[:MOST_LANES]
    width = round(calendar.seconds(day) / UNIT)
    step, hours = LANE + NAME, list_hours(calendar, day)
    height = step * len(some) + 20
    ticks = "".join(f"M{round(x * width / 100)} 0V{height - 15}" for x, _ in hours)
    shapes = [draw_paths([("grid", ticks)])]
    for number, lane in enumerate(some):
        key = lane.station, lane.evse
        if key not in drawn:
            drawn[key] = draw_lane(lane, day, calendar, links)
        shapes.append(MOVED % (number * step + NAME) + drawn[key] + Markup("</g>"))
    names = [Text("0", number * step + NAME - 3, lane.name) for number, lane in enumerate(some)]
    texts = [*names, *write_hours(calendar, day, height)]
    return draw_picture(label, width, height, Markup("").join(shapes), texts)


def draw_lane(lane: Lane, day: date, calendar: Calendar, links: Links) -> Markup:
    """Draws the sessions of a lane, each with a link to its page."""
    begin, width = calendar.begin(day), round(calendar.seconds(day) / UNIT)

    def place(at: datetime) -> float:
        return min(max((at - begin).total_seconds() / UNIT, 0), width)

    def draw(session: SessionFacts) -> Iterator[str]:
        assert session.first_at and session.last_at
        left, right = place(session.first_at), place(session.last_at)
        href = escape(links.session(session.site, session.station, session.transaction_id))
        said = escape(describe_session(session, calendar))
        yield f'<a href="{href}"><title>{said}</title>'
        kind = "there" if session.complete else "lacks"
        yield draw_rect(kind, left, max(right - left, 4))
        for hole in session.holes:
            start, end = (min(max(place(at), left), right) for at in hole)
            if end > start:
                yield draw_rect("gap", start, end - start)
        yield "</a>"

    return Markup("".join(text for session in lane.sessions for text in draw(session)))


def draw_rect(kind: str, x: float, wide: float) -> str:
    """Draws a bar of a lane."""
    return f'<rect class="{kind}" x="{shorten(x)}" width="{shorten(wide)}" height="12"/>'
