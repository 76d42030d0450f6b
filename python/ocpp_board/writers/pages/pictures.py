"""Pictures of settlement periods as bars, and of the numbers of a session as a strip."""

from collections.abc import Iterable, Iterator, Sequence
from datetime import date, timedelta
from decimal import Decimal
from functools import lru_cache
from typing import NamedTuple

from markupsafe import Markup, escape

from ocpp_board.energies import MINUS, MWH_OF_A_KWH, Flow, kwh
from ocpp_board.writers.calendar import Calendar
from ocpp_board.writers.pages.cells import write_kw
from ocpp_board.writers.pages.facts import Period
from ocpp_board.writers.pages.render import make_piece

# Seconds of one unit of a picture's width: every period has a whole number of tenths of its width.
UNIT = 30
# Lines above each other that a picture has at most, the one at zero left out.
MOST_LINES = 5


class Scale:
    """Where an energy is in a picture: rises above the zero line, falls below it, and a line beyond each.

    The unit of its axis is the first of its units in which the numbers are not too long for a phone.
    """

    TOP, HEIGHT = 20, 160
    UNITS = (
        ("kWh", MWH_OF_A_KWH),
        ("MWh", 1_000 * MWH_OF_A_KWH),
        ("GWh", 1_000_000 * MWH_OF_A_KWH),
    )
    LONG = 10_000

    def __init__(self, flows: Iterable[Flow]) -> None:
        ends = [(flow.above, flow.below) for flow in flows]
        up, down = (max((end[side] for end in ends), default=0) for side in (0, 1))
        up = up if up or down else MWH_OF_A_KWH
        self.step = find_step(up, down)
        self.up, self.down = find_line(up, self.step), find_line(down, self.step)
        self.zero = self.at(0)
        found = (one for one in self.UNITS if max(self.up, self.down) < self.LONG * one[1])
        self.unit, self.mwh = next(found, self.UNITS[-1])
        self.ground = shorten(self.zero)
        self.heights = dict[int, str]()

    def find_height(self, mwh: int) -> str:
        """Finds how high the bar of an energy is, in pixels."""
        if mwh not in self.heights:
            self.heights[mwh] = shorten(max(abs(self.at(mwh) - self.zero), 1.5))
        return self.heights[mwh]

    def at(self, mwh: int) -> float:
        """Finds the height of an energy, in pixels from the top."""
        return self.TOP + self.HEIGHT * (self.up - mwh) / (self.up + self.down)

    def marks(self) -> range:
        """The energies of the lines, in mWh."""
        return range(-self.down, self.up + 1, self.step)

    def label(self, mwh: int) -> str:
        """The text of a line, in the axis' unit and with as many decimals as the distance of the lines has."""
        step = Decimal(self.step) / self.mwh
        decimals = max(0, -int(step.normalize().as_tuple().exponent))
        number = f"{Decimal(abs(mwh)) / self.mwh:,.{decimals}f}"
        return MINUS + number if mwh < 0 else number

    def say(self) -> str:
        """How far it goes, for a reader."""
        return f"{self.label(self.up)} {self.unit}"


# The height of a picture above its texts, and with them.
BOTTOM = Scale.TOP + Scale.HEIGHT
PICTURE = BOTTOM + 20


def find_line(mwh: int, step: int) -> int:
    """The first line that is not below an energy."""
    return -(-mwh // step) * step


def find_step(up: int, down: int) -> int:
    """The distance of the lines: 1, 2 or 5 times a power of ten, so that there are few lines."""
    power = 1
    while True:
        for step in (power, 2 * power, 5 * power):
            if (find_line(up, step) + find_line(down, step)) // step <= MOST_LINES:
                return step
        power *= 10


def shorten(number: float) -> str:
    """A number with at most one digit behind the point."""
    return f"{number:.1f}".removesuffix(".0")


def draw_period(left: int, wide: int, p: Period, scale: Scale) -> list[tuple[str, str]]:
    """The parts of a period's bars, each with its kind; where it begins and how wide it is are in units."""
    flow, x = p.flow, left + wide // 10
    across = wide - 2 * (wide // 10)
    if not any(flow):
        return [("still", f"M{x} {scale.ground}h{across}")]
    found = list[tuple[str, str]]()
    for side, parts in (
        (-1, (("up", flow.up), ("back", flow.export_down))),
        (1, (("down", flow.down), ("out", flow.export_up))),
    ):
        end = scale.zero
        for kind, mwh in parts:
            if mwh:
                height, at = scale.find_height(mwh), shorten(end)
                sign = "-" if side < 0 else ""
                found.append((kind, f"M{x} {at}v{sign}{height}h{across}V{at}z"))
                end += side * float(height)
    return found


@lru_cache(2)
def list_hours(calendar: Calendar, day: date) -> list[tuple[float, str]]:
    """Where the third hours of a day are, in parts of the picture's width, with their texts."""
    begin, length = calendar.begin(day), calendar.seconds(day)
    texts = (
        (hour * 3600 / length * 100, calendar.time(begin + timedelta(hours=hour)))
        for hour in range(round(length / 3600))
    )
    return [(x, text) for x, text in texts if text.endswith(":00") and int(text[:2]) % 3 == 0] + [
        (100.0, "24:00")
    ]


class Text(NamedTuple):
    """A text of a picture, and where it is. `anchor`: which end of it is there, if not the first."""

    x: str
    y: float | str
    text: str
    anchor: str = ""


def write_hours(calendar: Calendar, day: date, height: int) -> Iterator[Text]:
    """Every sixth hour below the picture of a day."""
    for x, text in list_hours(calendar, day):
        if int(text[:2]) % 6 == 0:
            anchor = "start" if x == 0 else "end" if x == 100 else "middle"
            yield Text(f"{shorten(x)}%", height - 3, text, anchor)


class Bar(NamedTuple):
    """A period of a picture: where it begins and how wide it is, in units, and what it shows to a pointer."""

    left: int
    wide: int
    said: str
    period: Period


def draw_bars(
    label: str,
    width: int,
    scale: Scale,
    grid: Iterable[str],
    some: Sequence[Bar],
    below: Iterable[Text],
) -> Markup:
    """Draws periods as bars, each with its value where the pointer is. They are as wide as the page lets them be, and
    letters keep their size. `width`: in units; `grid`: paths of lines; `below`: the texts below."""
    kinds: dict[str, list[str]] = {}
    for one in some:
        for kind, path in draw_period(one.left, one.wide, one.period, scale):
            kinds.setdefault(kind, []).append(path)
    still = {"still": kinds.pop("still")} if "still" in kinds else {}
    kinds = kinds | {"zero": [f"M0 {scale.ground}h{width}"]} | still
    marks = [Text("-5", shorten(scale.at(m) + 4), scale.label(m), "end") for m in scale.marks()]
    paths = [*(("grid", path) for path in grid), *((k, "".join(p)) for k, p in kinds.items())]
    texts = [Text("-5", "9", scale.unit, "end"), *marks, *below]
    return draw_picture(label, width, PICTURE, draw_paths(paths) + draw_hits(some), texts)


def draw_picture(
    label: str,
    width: int,
    height: int,
    shapes: Markup,
    texts: Iterable[Text],
    drawn: int = 0,
    top: int = 0,
) -> Markup:
    """Draws a picture as wide as the page lets it be, with texts that keep their size. `drawn`: how high the shapes
    are, if not as the picture; `top`: where they begin."""
    at, high = f' y="{top}"' if top else "", drawn or height
    room = f'width="100%" height="{high}" viewBox="0 0 {width} {high}" preserveAspectRatio="none"'
    return Markup(
        f'<svg role="img" aria-label="{escape(label)}" width="100%" height="{height}">\n'
        f"<svg{at} {room}>{shapes}</svg>\n"
        f'{"".join(map(write_text, texts))}\n</svg>\n'
    )


def write_text(one: Text) -> str:
    """Writes a text of a picture."""
    anchor = f' text-anchor="{one.anchor}"' if one.anchor else ""
    return f'<text x="{one.x}" y="{one.y}"{anchor}>{escape(one.text)}</text>'


def draw_paths(paths: Iterable[tuple[str, str]]) -> Markup:
    """Draws paths, each with its kind. They are made of numbers only."""
    return Markup("".join(f'<path class="{kind}" d="{path}"/>' for kind, path in paths))


def draw_hits(some: Iterable[Bar]) -> Markup:
    """Draws what shows the values of bars to a pointer. They are made of numbers, names of days and units only."""
    return Markup(
        "".join(
            f'<rect class="hit" x="{left}" width="{wide}" height="{BOTTOM}"><title>{said}</title></rect>'
            for left, wide, said, _ in some
        )
    )


def draw_lines(scale: Scale, width: int) -> str:
    """The path of a scale's lines."""
    return "".join(f"M0 {shorten(scale.at(mwh))}h{width}" for mwh in scale.marks() if mwh)


def draw_day(
    label: str, day: date, periods: Sequence[Period], scale: Scale, calendar: Calendar
) -> Markup:
    """Draws the periods of one day as bars."""
    begin, width = calendar.begin(day), round(calendar.seconds(day) / UNIT)

    def make_bar(p: Period) -> Bar:
        said = f"{calendar.times(p.start, p.seconds)}: {kwh(p.flow.net)} kWh, {write_kw(p.flow.net, p.seconds)} kW"
        left = round((p.start - begin).total_seconds() / UNIT)
        return Bar(left, p.seconds // UNIT, said, p)

    ticks = (f"M{round(x * width / 100)} {BOTTOM}v5" for x, _ in list_hours(calendar, day))
    grid = [draw_lines(scale, width), "".join(ticks)]
    below = write_hours(calendar, day, PICTURE)
    return draw_bars(label, width, scale, grid, list(map(make_bar, periods)), below)


def draw_strip(first: int, last: int, gaps: Iterable[tuple[int, int]]) -> Markup:
    """Draws the numbers of a session from left to right, with a hole for each gap."""
    span, cells = last - first + 1, 400
    holes: list[list[int]] = []
    for a, b in gaps:
        start = (a - first) * cells // span
        end = -(-(b + 1 - first) * cells // span)
        if holes and start <= holes[-1][1]:
            holes[-1][1] = end
        else:
            holes.append([start, end])
    return make_piece("strip", [(start / 4, (end - start) / 4) for start, end in holes])
