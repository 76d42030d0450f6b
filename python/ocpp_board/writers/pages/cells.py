"""What tables of pages are made of: columns, rows, links, moments, energies and powers."""

from collections.abc import Iterable, Sequence
from functools import lru_cache
from typing import NamedTuple

from markupsafe import Markup, escape

from ocpp_board.energies import MINUS, MWH_OF_A_KWH, Flow, kwh

# The class of a row in which something is wrong.
MARK = "mark"
UNKNOWN = "\N{EN DASH}"
HOUR = 3_600
ROLES = ("table", "rowgroup", "row", "columnheader", "rowheader", "cell")
# Ranges of missing numbers in a cell.
MOST_RANGES = 20
# Tables whose heads and patterns of rows are kept.
KEPT_PATTERNS = 256


class Column(NamedTuple):
    """A column: its head, and the class of its cells. `is_unseen`: the head is read out, and not seen."""

    text: str
    kind: str = ""
    is_unseen: bool = False


class TableRow(NamedTuple):
    """A row: its cells, and its class where it is marked or a sum."""

    cells: Sequence[str]
    kind: str = ""


# A figure's name, its value, and whether it is marked.
Figure = tuple[str, str, bool]


def make_columns(*heads: str | Column) -> list[Column]:
    """Makes columns of heads; that of a text which begins with a blank is set to the left."""
    return [
        head
        if isinstance(head, Column)
        else Column(head.strip(), "left" if head.startswith(" ") else "")
        for head in heads
    ]


def wrap_time(text: str) -> Markup:
    """Wraps a day or a time, so that it is not broken."""
    return Markup(f"<time>{escape(text)}</time>")


def link(href: str, text: str) -> Markup:
    """Links a text to a page."""
    return Markup(f'<a href="{escape(href)}">{escape(text)}</a>')


def flag(text: str) -> Markup:
    """Marks a text as something that is wrong."""
    return Markup(f'<span class="flag">{escape(text)}</span>')


def stack(*texts: str) -> Markup:
    """Puts texts below each other in a cell."""
    return Markup("<br>".join([escape(text) for text in texts if text]))


def join(texts: Iterable[str], between: str) -> Markup:
    """Joins texts, each escaped where it is no HTML."""
    return Markup(between.join([escape(text) for text in texts]))


def name_flows(has_export: bool) -> list[str]:
    """Names the columns of an energy: the net one first, and exports where there are some."""
    return ["Net", "Up", "Down", *(["Export up", "Export down"] if has_export else [])]


def write_flow(flow: Flow, has_export: bool) -> list[str]:
    """Writes a row's cells of an energy, in kWh."""
    cells = [kwh(flow.net), kwh(flow.up), kwh(flow.down)]
    return cells + ([kwh(flow.export_up), kwh(flow.export_down)] if has_export else [])


def write_ranges(gaps: Sequence[tuple[int, int]]) -> str:
    """Writes ranges of numbers, both ends included, for a reader."""
    some = ", ".join(str(a) if a == b else f"{a} to {b}" for a, b in gaps[:MOST_RANGES])
    more = len(gaps) - MOST_RANGES
    return some + (f" and {more:,} ranges more" if more > 0 else "")


def write_kw(mwh: int, seconds: float) -> str:
    """Writes the average power of an energy in so many seconds."""
    power = abs(mwh) * HOUR / MWH_OF_A_KWH / seconds
    return f"{MINUS if mwh < 0 else ''}{power:,.2f}"


def write_duration(seconds: float | None) -> str:
    """Writes a length of time in hours, minutes and seconds; nothing where it is not known."""
    if seconds is None:
        return ""
    minutes, rest = divmod(abs(round(seconds)), 60)
    sign = MINUS if seconds < 0 else ""
    return f"{sign}{minutes // 60}:{minutes % 60:02}:{rest:02}"


def count(number: int, name: str, names: str = "") -> str:
    """Writes how many there are: `1 session`, `2 sessions`."""
    return f"1 {name}" if number == 1 else f"{number:,} {names or name + 's'}"


def draw_bar(mwh: int, most: int) -> Markup:
    """Draws an energy as a bar; its number is in the same row. `most`: the energy of the longest bar."""
    less = ' class="less"' if mwh < 0 else ""
    width = f"{100 * abs(mwh) / most if most else 0:.1f}"
    return Markup(f'<span{less} aria-hidden="true" style="width:{width}%"></span>')


def write_table(
    caption: str,
    columns: Sequence[Column],
    rows: Sequence[TableRow] | Markup,
    kind: str = "cards",
) -> Markup:
    """Writes a table. On a phone the style makes a card of each row of a table of cards, and the roles keep it a
    table. `rows`: rows, or what `write_rows` made of them."""
    head = write_heads(tuple(columns), kind)
    body = rows if isinstance(rows, Markup) else write_rows(columns, rows, kind)
    role = ' role="table"' if kind == "cards" else ""
    return Markup(
        f'<table{role} class="{kind}">\n<caption>{escape(caption)}</caption>\n{head}{body}</tbody>\n</table>\n'
    )


def write_rows(columns: Sequence[Column], rows: Iterable[TableRow], kind: str = "cards") -> Markup:
    """Writes the rows of a table."""
    pattern = make_pattern(tuple(columns), kind)
    return Markup(
        "".join([pattern % (name_class(row.kind), *map(escape, row.cells)) for row in rows])
    )


@lru_cache(KEPT_PATTERNS)
def write_heads(columns: tuple[Column, ...], kind: str) -> str:
    """Writes what is above the rows of a table."""
    roles = {name: f' role="{name}"' if kind == "cards" else "" for name in ROLES}
    heads = (
        f'<th{roles["columnheader"]} scope="col"{name_class(column.kind)}>{write_head(column)}</th>'
        for column in columns
    )
    return (
        f'<thead{roles["rowgroup"]}><tr{roles["row"]}>{"".join(heads)}</tr></thead>\n'
        f'<tbody{roles["rowgroup"]}>\n'
    )


@lru_cache(KEPT_PATTERNS)
def make_pattern(columns: tuple[Column, ...], kind: str = "cards") -> str:
    """Makes the pattern of a row: `%` puts its class there, as `name_class` has it, and its cells, which are HTML."""
    cards = kind == "cards"
    row, head, cell = (f' role="{name}"' if cards else "" for name in ("row", "rowheader", "cell"))
    cells = (
        f"<td{cell}{name_class(column.kind)}"
        + (f' data-head="{escape(column.text)}"' if cards else "")
        for column in columns[1:]
    )
    rest = "".join(f"{one.replace('%', '%%')}>%s</td>" for one in cells)
    return f'<tr{row}%s><th{head} scope="row">%s</th>{rest}</tr>\n'


def name_class(kind: str) -> str:
    """Names the class of a cell or a row that has one."""
    return f' class="{kind}"' if kind else ""


def write_head(column: Column) -> Markup:
    """Writes the head of a column."""
    if column.is_unseen:
        return Markup('<span class="unseen">%s</span>') % column.text
    return escape(column.text)
