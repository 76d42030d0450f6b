"""A month as a heat map of its days by hours with a bar for each day, and a week as the bars of its hours."""

from collections.abc import Iterable, Sequence
from datetime import date, datetime, timedelta
from itertools import groupby

from markupsafe import Markup

from ocpp_board.energies import Flow, kwh, sum_of
from ocpp_board.writers.calendar import Calendar
from ocpp_board.writers.pages.cells import HOUR, write_kw
from ocpp_board.writers.pages.facts import Period
from ocpp_board.writers.pages.pictures import (
    BOTTOM,
    PICTURE,
    Bar,
    Scale,
    Text,
    draw_bars,
    draw_lines,
    draw_picture,
    shorten,
)

# Shades of a heat map, and seconds of a unit of a week's picture.
SHADES, UNIT = 5, 300
# The height of a day in a heat map; hours, and units of its width that are between them and the bars, and of the bars.
ROW, HOURS, SPACE, BARS = 15, 24, 1, 7


def group_weeks(days: Iterable[date]) -> list[tuple[date, list[date]]]:
    """Groups days by weeks, each week by its Monday."""
    weeks = groupby(days, lambda day: day - timedelta(days=day.weekday()))
    return [(week, list(some)) for week, some in weeks]


def join_hours(periods: Iterable[Period], calendar: Calendar) -> list[Period]:
    """Joins periods to the hours of the zone in which they begin."""
    found: dict[datetime, list[Flow]] = {}
    for p in periods:
        found.setdefault(calendar.hour(p.start), []).append(p.flow)
    return [Period(start, HOUR, sum_of(flows)) for start, flows in sorted(found.items())]


def choose_shade(mwh: int, most: int) -> str:
    """Chooses the class of a cell: the darker, the more; what was fed back has shades of its own."""
    place = min(SHADES, 1 + abs(mwh) * SHADES // max(most, 1))
    return f"heat {'fed' if mwh < 0 else 'heat'}{place}"


def draw_cell(kind: str, x: int, y: int, width: int | str, height: int, said: str) -> str:
    """Draws a cell or a bar of a heat map, which shows its value to a pointer."""
    place = f'x="{x}" y="{y}" width="{width}" height="{height}"'
    return f'<rect class="{kind}" {place}><title>{said}</title></rect>'


class HeatRow:
    """A day of a heat map: its net energy by hours of the day; an hour that comes twice is one."""

    def __init__(self, day: date, hours: Iterable[Period], calendar: Calendar) -> None:
        nets = dict[int, int]()
        for p in hours:
            hour = calendar.local(p.start).hour
            nets[hour] = nets.get(hour, 0) + p.flow.net
        self.day, self.said = day, f"{day:%a} {day}"
        self.hours = sorted((hour, net) for hour, net in nets.items() if net)
        self.net, self.most = sum(nets.values()), max(
            (abs(net) for net in nets.values()), default=0
        )
        # Its hours as they were drawn, and with what.
        self.drawn, self.drawn_with = "", (-1, -1)

    def draw_hours(self, y: int, most: int) -> str:
        """Draws its hours. `most`: the energy of the full shade."""
        if self.drawn_with != (y, most):
            self.drawn_with = y, most
            self.drawn = "".join(
                draw_cell(
                    *(choose_shade(net, most), hour, y, 1, ROW - 1),
                    f"{self.said} {hour:02}:00: {kwh(net)} kWh",
                )
                for hour, net in self.hours
            )
        return self.drawn

    def draw_bar(self, y: int, longest: int) -> str:
        """Draws its energy as a bar. `longest`: the energy of the longest one."""
        if not self.net:
            return ""
        width, kind = shorten(BARS * abs(self.net) / longest), "out" if self.net < 0 else "there"
        said = f"{self.said}: {kwh(self.net)} kWh"
        return draw_cell(kind, HOURS + SPACE, y + 2, width, ROW - 4, said)


def draw_month(label: str, rows: Sequence[HeatRow]) -> Markup:
    """Draws days by hours, the stronger the more energy, with a bar for each day. Each has its value."""
    most = max((row.most for row in rows), default=0)
    longest = max((abs(row.net) for row in rows), default=0)
    height, wide = ROW * len(rows), HOURS + SPACE + BARS
    shapes = Markup(
        "".join(
            row.draw_hours(y, most) + row.draw_bar(y, longest)
            for y, row in zip(range(0, height, ROW), rows)
        )
    )
    texts = [Text(f"{shorten(100 * hour / wide)}%", 12, f"{hour:02}:00") for hour in (0, 6, 12, 18)]
    texts.append(Text("100%", 12, "Day", "end"))
    for place, row in enumerate(rows):
        texts.append(Text("-5", 18 + place * ROW + 11, f"{row.day:%a} {row.day.day}", "end"))
    texts.append(Text("0", height + 32, f"Full shade: {kwh(most)} kWh an hour"))
    texts.append(Text("100%", height + 32, f"Longest: {kwh(longest)} kWh", "end"))
    return draw_picture(label, wide, height + 36, shapes, texts, height, 18)


def draw_week(
    label: str, monday: date, periods: Sequence[Period], scale: Scale, calendar: Calendar
) -> Markup:
    """Draws the hours of a week as bars."""
    begin = calendar.begin(monday)

    def place(at: datetime) -> float:
        return (at - begin).total_seconds() / UNIT

    ends = [place(calendar.begin(monday + timedelta(days=n))) for n in range(8)]
    width = round(ends[-1])

    def make_bar(p: Period) -> Bar:
        when = f"{calendar.day(p.start):%a} {calendar.label(p.start)}"
        said = f"{when}: {kwh(p.flow.net)} kWh, {write_kw(p.flow.net, HOUR)} kW"
        return Bar(round(place(p.start)), p.seconds // UNIT, said, p)

    days = "".join(f"M{round(end)} {Scale.TOP}V{BOTTOM + 5}" for end in ends)
    below = list[Text]()
    for number, end in enumerate(ends[:-1]):
        day = monday + timedelta(days=number)
        below.append(
            Text(f"{shorten(100 * (end + 36) / width)}%", PICTURE - 3, f"{day:%a} {day.day}")
        )
    grid = [draw_lines(scale, width) + days]
    return draw_bars(label, width, scale, grid, list(map(make_bar, periods)), below)
