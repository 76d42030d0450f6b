"""Looks for what keeps a reader from a page: labels that are missing, poor contrast, dead links, scripts.

    tests/one page_check PAGE..

Each page is one file. Its links have to lead to files beside it, and to labels that are there. Letters have a contrast
of 4.5 to 1 and shapes of 3 to 1, in light and in dark (WCAG 2.1, 1.4.3 and 1.4.11). A picture has a label, and a table
in the same section. The status is 1 if something was found.
"""

import re
import sys
from collections.abc import Iterator
from functools import lru_cache
from pathlib import Path
from urllib.parse import unquote

from tests.page_tree import Element, Rule, Tree, fits, rules_of

LETTERS, SHAPES = 4.5, 3.0
# Shapes that only help the eye, shades of a heat map, what shows a value to a pointer, and shapes that are drawn.
HELPERS = {"grid", "heat", "hit"}
DRAWN = {"path", "rect", "circle", "line"}
LABELLED = ("section", "nav", "form")
FIELDS = ("input", "select", "textarea")
COLOR = re.compile(r"#([0-9a-f]{6}|[0-9a-f]{3})(?![0-9a-f])")
VARIABLE = re.compile(r"var\((--[a-z-]+)\)")
Color = tuple[int, ...]


def color_of(text: str) -> Color | None:
    """The colour that a text names by its number, as parts of 255."""
    found = COLOR.search(text)
    if not found:
        return None
    digits = found[1] if len(found[1]) == 6 else "".join(digit * 2 for digit in found[1])
    return tuple(int(digits[at : at + 2], 16) for at in (0, 2, 4))


def luminance(color: Color) -> float:
    """How bright a colour is (WCAG 2.1)."""
    parts = [part / 255 for part in color]
    linear: list[float] = [
        part / 12.92 if part <= 0.03928 else ((part + 0.055) / 1.055) ** 2.4 for part in parts
    ]
    return sum(share * part for share, part in zip((0.2126, 0.7152, 0.0722), linear))


@lru_cache(1_024)
def contrast(one: Color, other: Color) -> float:
    """The contrast of two colours, from 1 to 21 (WCAG 2.1)."""
    low, high = sorted((luminance(one), luminance(other)))
    return (high + 0.05) / (low + 0.05)


class Colors:
    """The colours of a page's elements, in light or in dark."""

    def __init__(self, rules: list[Rule], root: Element, is_dark: bool) -> None:
        self.rules = [rule for rule in rules if is_dark or not rule.is_dark]
        self.known: dict[tuple[int, str, str], str] = {}
        self.variables: dict[str, str] = {}
        for rule in self.rules:
            if rule.selector == ":root":
                self.variables |= rule.sets
        self.matched: dict[int, list[Rule]] = {}
        self.root = root

    def of(self, element: Element) -> list[Rule]:
        """The rules of an element, the strongest last."""
        if id(element) not in self.matched:
            found = [rule for rule in self.rules if fits(element, rule.selector)]
            self.matched[id(element)] = sorted(found, key=lambda rule: rule.weight)
        return self.matched[id(element)]

    def value(self, element: Element, name: str, pseudo: str = "") -> str:
        """What a property is set to at an element itself, with its variables; empty where it is not set."""
        found = ""
        for rule in self.of(element):
            if rule.pseudo == pseudo:
                found = rule.sets.get(name, rule.sets.get(f"{name}-color", found))
        own = [one.partition(":") for one in element.get("style").split(";")]
        if not pseudo:
            found = dict((key.strip(), value.strip()) for key, _, value in own).get(name, found)
        return VARIABLE.sub(lambda one: self.variables.get(one[1], ""), found)

    def inherited(self, element: Element, name: str) -> Color | None:
        """The colour of a property at an element or at the nearest one around it that sets it."""
        for one in (element, *element.ancestors()):
            if color := color_of(self.value(one, name)):
                return color
        return None

    def background(self, element: Element) -> Color:
        """The colour behind an element."""
        return self.inherited(element, "background") or (255, 255, 255)

    def letters(self, element: Element) -> Color:
        """The colour of an element's letters."""
        is_drawn = any(one.tag == "svg" for one in element.ancestors())
        return self.inherited(element, "fill" if is_drawn else "color") or (0, 0, 0)


def said(element: Element) -> str:
    """An element for a reader of what was found."""
    names = "".join(f".{name}" for name in sorted(element.classes))
    text = element.get("id") or element.whole_text()[:30]
    return f"<{element.tag}{names}> {ascii(text)}"


class Check:
    """The checks of a page."""

    def __init__(self, path: Path) -> None:
        self.path = path
        self.root = Tree(path.read_text("utf-8")).root
        self.elements = list(self.root.all())
        self.ids = [one.get("id") for one in self.elements if one.get("id")]
        style = "".join(one.text for one in self.elements if one.tag == "style")
        self.rules = list(rules_of(re.sub(r"/\*.*?\*/", "", style, flags=re.DOTALL)))

    def found(self) -> Iterator[str]:
        """All that was found."""
        yield from self.frame()
        yield from self.headings()
        for element in self.elements:
            yield from self.label(element)
            yield from self.foreign(element)
            if element.tag == "table":
                yield from self.table(element)
        for is_dark in (False, True):
            yield from self.contrasts(is_dark)

    def named(self, tag: str) -> list[Element]:
        """The elements of a tag."""
        return [one for one in self.elements if one.tag == tag]

    def frame(self) -> Iterator[str]:
        """What each page has once."""
        html = self.named("html")
        if not html or not html[0].get("lang"):
            yield "the page names no language"
        if not any(one.whole_text() for one in self.named("title")):
            yield "the page has no title"
        if not any(one.get("name") == "viewport" for one in self.named("meta")):
            yield "the page has no viewport for phones"
        for name in sorted({one for one in self.ids if self.ids.count(one) > 1}):
            yield f"the id {name!r} is there twice"

    def headings(self) -> Iterator[str]:
        """One heading of the first level, and no level left out."""
        found = [one for one in self.elements if re.fullmatch("h[1-6]", one.tag)]
        if sum(one.tag == "h1" for one in found) != 1:
            yield "the page has not one h1"
        for before, one in zip(found, found[1:]):
            if int(one.tag[1]) > int(before.tag[1]) + 1:
                yield f"{said(one)} leaves out a level"
        yield from (f"{said(one)} is empty" for one in found if not one.whole_text())

    def is_labelled(self, element: Element) -> bool:
        """Whether an element has a label that is there."""
        by = element.get("aria-labelledby")
        return bool(element.get("aria-label")) or bool(by) and set(by.split()) <= set(self.ids)

    def label(self, element: Element) -> Iterator[str]:
        """Labels of pictures, of parts, of what can be focused, and of fields."""
        is_inner = any(one.tag == "svg" for one in element.ancestors())
        if element.tag == "svg" and not is_inner and element.get("aria-hidden") != "true":
            if element.get("role") != "img" or not element.get("aria-label"):
                yield f"{said(element)} is a picture without a label"
            section = next((one for one in element.ancestors() if one.tag == "section"), None)
            if section is None or not any(one.tag == "table" for one in section.all()):
                yield f"{said(element)} is a picture without a table in its section"
        if element.tag == "img" and not element.get("alt"):
            yield f"{said(element)} is a picture without a label"
        if (element.tag in LABELLED or element.get("tabindex")) and not self.is_labelled(element):
            yield f"{said(element)} has no label"
        if element.tag in FIELDS and element.get("type") != "hidden":
            named = {one.get("for") for one in self.named("label")}
            if element.get("id") not in named and not self.is_labelled(element):
                yield f"{said(element)} is a field without a label"
        if element.tag in ("a", "button", "summary", "dt", "dd") and not element.whole_text():
            yield f"{said(element)} has no text"

    def foreign(self, element: Element) -> Iterator[str]:
        """Scripts, what is loaded, and dead links."""
        if element.tag == "script" or any(name.startswith("on") for name in element.attributes):
            yield f"{said(element)} is a script"
        if element.get("src") or element.tag == "link":
            yield f"{said(element)} loads something"
        href = element.get("href")
        if not href or re.match(r"https?:|/", href):
            return
        name, _, label = unquote(href).partition("#")
        path = self.path.parent / name if name else self.path
        if not path.exists():
            yield f"{said(element)} leads to {name!r}, which is not there"
        elif label and label not in ids_of(path):
            yield f"{said(element)} leads to {href!r}, where that label is not"

    def table(self, table: Element) -> Iterator[str]:
        """A table's caption and heads, and as many cells in each row."""
        caption = [one for one in table.all() if one.tag == "caption"]
        if not caption or not caption[0].whole_text():
            yield f"{said(table)} has no caption"
        rows = [one for one in table.all() if one.tag == "tr"]
        for head in (one for one in table.all() if one.tag == "th"):
            if not head.get("scope") or not head.whole_text():
                yield f"{said(head)} of {said(caption[0]) if caption else said(table)} has no scope or no text"
        counts = {len(row.children) for row in rows}
        if len(counts) > 1:
            yield f"{said(table)} has rows of {sorted(counts)} cells"
        if rows and any(not any(cell.tag == "th" for cell in row.children) for row in rows):
            yield f"{said(table)} has a row without a head"

    def contrasts(self, is_dark: bool) -> Iterator[str]:
        """Letters and shapes that don't differ from what is behind them."""
        colors, found = Colors(self.rules, self.root, is_dark), set[str]()
        where = "in dark" if is_dark else "in light"
        for element in self.elements:
            # A title of a shape is shown by the browser, in colours of its own.
            if any(one.tag in ("head", "defs", "title") for one in (element, *element.ancestors())):
                continue
            for what, color, least in self.seen(element, colors):
                behind = colors.background(
                    element if least == LETTERS else element.parent or element
                )
                if (ratio := contrast(color, behind)) < least:
                    found.add(f"{what} {where} has a contrast of {ratio:.1f} to 1, and not {least}")
        yield from sorted(found)

    @staticmethod
    def seen(element: Element, colors: Colors) -> Iterator[tuple[str, Color, float]]:
        """What is seen of an element: its letters, what its style puts before them, its shape."""
        name = f"<{element.tag}{''.join(f'.{one}' for one in sorted(element.classes))}>"
        if element.text.strip():
            yield name, colors.letters(element), LETTERS
        for pseudo in ("before", "after"):
            if colors.value(element, "content", pseudo):
                color = color_of(colors.value(element, "color", pseudo))
                yield f"{name}::{pseudo}", color or colors.letters(element), LETTERS
        if element.tag in DRAWN and not element.classes & HELPERS:
            parts = [color_of(colors.value(element, part)) for part in ("fill", "stroke")]
            found = [part for part in parts if part]
            behind = colors.background(element)
            if found:
                yield name, max(found, key=lambda part: contrast(part, behind)), SHAPES
        shape = color_of(colors.value(element, "background"))
        if shape and not element.whole_text() and element.tag not in ("body", "html"):
            yield name, shape, SHAPES


@lru_cache(64)
def ids_of(path: Path) -> set[str]:
    """The labels of a page."""
    return {one.get("id") for one in Tree(path.read_text("utf-8")).root.all()}


def main() -> int:
    """Reports what was found of the pages that the words name, and gives the exit status."""
    count, paths = 0, [Path(name) for name in sys.argv[1:]]
    for path in paths:
        for what in Check(path).found():
            count += 1
            print(f"{path.name}: {what}")
    print(f"pages: {len(paths)}, found: {count}")
    return 1 if count or not paths else 0


if __name__ == "__main__":
    sys.exit(main())
