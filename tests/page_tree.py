"""Pages as trees of elements, and which rules of their style hold for an element: as much of CSS as the pages use."""

import re
from collections.abc import Iterator
from html.parser import HTMLParser
from typing import NamedTuple

# Elements without an end tag, and which open elements an element ends that HTML lets be without one.
VOID = {"area", "base", "br", "col", "hr", "img", "input", "link", "meta", "source", "wbr"}
ENDS = {
    "td": {"td", "th"},
    "th": {"td", "th"},
    "tr": {"td", "th", "tr"},
    "tbody": {"td", "th", "tr", "thead"},
    "li": {"li"},
    "dt": {"dt", "dd"},
    "dd": {"dt", "dd"},
    "p": {"p"},
}
PSEUDO = re.compile(r"::?(before|after)$")
STATE = re.compile(r":(?!first-child|root)[a-z-]+")


class Element:
    """An element with its attributes, its text without that of elements in it, and these."""

    def __init__(self, tag: str, attributes: dict[str, str], parent: "Element | None") -> None:
        self.tag, self.attributes, self.parent = tag, attributes, parent
        self.text = ""
        self.children: list[Element] = []
        self.classes = set(attributes.get("class", "").split())
        if parent:
            parent.children.append(self)

    def get(self, name: str) -> str:
        """An attribute without the blanks around it; an empty text where it is not there."""
        return self.attributes.get(name, "").strip()

    def all(self) -> "Iterator[Element]":
        """The elements in it, in their order."""
        for child in self.children:
            yield child
            yield from child.all()

    def whole_text(self) -> str:
        """Its text with that of the elements in it."""
        return (self.text + "".join(child.whole_text() for child in self.children)).strip()

    def ancestors(self) -> "Iterator[Element]":
        """The elements around it, the nearest first."""
        if self.parent:
            yield self.parent
            yield from self.parent.ancestors()


class Tree(HTMLParser):
    """Reads a page into a tree."""

    def __init__(self, text: str) -> None:
        super().__init__()
        self.root = self.open = Element("", {}, None)
        self.feed(text)
        self.close()

    def handle_starttag(self, tag: str, attrs: list[tuple[str, str | None]]) -> None:
        """Opens an element."""
        while self.open.tag in ENDS.get(tag, ()) and self.open.parent:
            self.open = self.open.parent
        made = Element(tag, {name: value or "" for name, value in attrs}, self.open)
        if tag not in VOID:
            self.open = made

    def handle_startendtag(self, tag: str, attrs: list[tuple[str, str | None]]) -> None:
        """Takes an element that has nothing in it."""
        Element(tag, {name: value or "" for name, value in attrs}, self.open)

    def handle_endtag(self, tag: str) -> None:
        """Closes an element, and those in it that were left open."""
        found = next((one for one in (self.open, *self.open.ancestors()) if one.tag == tag), None)
        if found and found.parent:
            self.open = found.parent

    def handle_data(self, data: str) -> None:
        """Adds a text to the element that is open."""
        self.open.text += data


class Rule(NamedTuple):
    """What a selector sets. `pseudo`: before or after, where it is of what is before or after an element."""

    selector: str
    pseudo: str
    weight: tuple[int, int]
    sets: dict[str, str]
    is_dark: bool


def blocks_of(style: str) -> Iterator[tuple[str, str]]:
    """The heads of a style and what is in their braces."""
    depth, start, head = 0, 0, ""
    for at, character in enumerate(style):
        if character == "{":
            if depth == 0:
                head, start = style[start:at].strip(), at + 1
            depth += 1
        elif character == "}":
            depth -= 1
            if depth == 0:
                yield head, style[start:at]
                start = at + 1


def rules_of(style: str, is_dark: bool = False) -> Iterator[Rule]:
    """The rules of a style, those in @media of a screen's width among them."""
    for head, body in blocks_of(style):
        if head.startswith("@media"):
            yield from rules_of(
                body, is_dark or "prefers-color-scheme:dark" in head.replace(" ", "")
            )
            continue
        sets = dict(
            (name.strip(), value.strip())
            for name, colon, value in (one.partition(":") for one in body.split(";"))
            if colon
        )
        for selector in head.split(","):
            # What is only so while it is pointed at or has the focus is not looked at.
            if STATE.search(PSEUDO.sub("", selector)):
                continue
            pseudo = PSEUDO.search(selector)
            bare = PSEUDO.sub("", selector.strip())
            weight = len(re.findall(r"[.#:\[]", bare)), len(re.findall(r"(?:^|[ >])[a-z]", bare))
            yield Rule(bare, pseudo[1] if pseudo else "", weight, sets, is_dark)


def is_simple(element: Element, selector: str) -> bool:
    """Whether a selector without combinators is of an element."""
    parts = re.findall(r"[.#:]?[A-Za-z0-9_-]+|\*", selector)
    for part in parts:
        if part.startswith("."):
            fits = part[1:] in element.classes
        elif part.startswith("#"):
            fits = element.get("id") == part[1:]
        elif part == ":root":
            fits = element.tag == "html"
        elif part == ":first-child":
            fits = element.parent is not None and element.parent.children[0] is element
        else:
            fits = part in ("*", element.tag)
        if not fits:
            return False
    return True


def fits(element: Element, selector: str) -> bool:
    """Whether a selector is of an element."""
    *front, last = re.split(r"\s*(>)\s*|\s+", selector.strip())
    if not is_simple(element, last):
        return False
    if not front:
        return True
    # A blank is None, and a > by itself.
    before, combinator = "".join(one or " " for one in front[:-1]), front[-1]
    around = list(element.ancestors())[: 1 if combinator == ">" else None]
    return any(fits(one, before) for one in around if one.tag)
