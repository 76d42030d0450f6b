"""The templates of all pages, written to files or served. All that is put into one is escaped, except HTML."""

from functools import cache
from pathlib import Path
from typing import Any

from jinja2 import Environment, FileSystemLoader, StrictUndefined
from markupsafe import Markup

from ocpp_board.writers.pages.cells import write_table

TEMPLATES = Path(__file__).resolve().parent / "templates"


@cache
def load_environment() -> Environment:
    """The one that all pages are made in. A tag that has a line to itself leaves none."""
    made = Environment(
        loader=FileSystemLoader(TEMPLATES),
        autoescape=True,
        undefined=StrictUndefined,
        trim_blocks=True,
        lstrip_blocks=True,
        keep_trailing_newline=True,
        auto_reload=False,
    )
    made.filters["number"] = "{:,}".format
    made.globals["table"] = write_table
    # The style never changes, so that each page takes its text as it is.
    made.globals["style"] = Markup((TEMPLATES / "style.css").read_text("utf-8").strip())
    return made


def render(name: str, /, **values: Any) -> Markup:
    """Renders a template with these values."""
    return Markup(load_environment().get_template(name).render(values))


def make_piece(name: str, /, *values: Any) -> Markup:
    """Makes what a macro of `pieces.html` gives of these values."""
    made: Markup = getattr(load_pieces(), name)(*values)
    return made


@cache
def load_pieces() -> Any:
    """The macros of `pieces.html`."""
    return load_environment().get_template("pieces.html").module
