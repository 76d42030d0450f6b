"""The check of pages: it finds what is missing, and nothing on a page that has all."""

from pathlib import Path

import pytest
from markupsafe import Markup

from ocpp_board.writers.pages.render import load_environment
from tests.page_check import Check, color_of, contrast
from tests.page_tree import Tree, fits, rules_of

# A page in the frame of all pages.
TEMPLATE = """{% extends "base.html" %}
{% block about %}{{ about }}{% endblock %}
{% block main %}{{ body }}{% endblock %}
"""
FRAME = ("whole", "refresh", "operator", "bar", "trail", "stamp")
PICTURE = '<svg role="img" aria-label="Bars"><path class="up" d="M0 0h1v1z"/></svg>'
SECTION = '<section aria-labelledby="a"><h2 id="a">Day</h2>'
PERIODS = '<table><caption>c</caption><tr><th scope="col">a<th scope="col">b<tr><th scope="row">x<td>1</table>'
BODY = f'{SECTION}{PICTURE}{PERIODS}<a href="#a">up</a></section>\n'


def page(body: str = BODY, style: str = "") -> str:
    values: dict[str, object] = {"title": "Title", "body": Markup(body)}
    values |= dict.fromkeys(FRAME)
    values["about"] = Markup('<p class="warning">old</p>')
    text: str = load_environment().from_string(TEMPLATE).render(values)
    return text.replace("</style>", style + "</style>", 1)


def found(text: str, folder: Path) -> list[str]:
    path = folder / "page.html"
    path.write_text(text)
    return list(Check(path).found())


def test_a_page_that_has_all_is_fine(tmp_path: Path) -> None:
    assert found(page(), tmp_path) == []


@pytest.mark.parametrize(
    ("old", "new", "reported"),
    [
        (' lang="en"', "", "names no language"),
        ("<title>Title</title>", "<title></title>", "no title"),
        ('name="viewport"', 'name="x"', "no viewport"),
        ("<h1>Title</h1>", "", "not one h1"),
        ('<h2 id="a">Day</h2>', '<h3 id="a">Day</h3>', "leaves out a level"),
        ('<h2 id="a">Day</h2>', '<h2 id="a"> </h2>', "is empty"),
        ('aria-labelledby="a"', "", "has no label"),
        ('aria-labelledby="a"', 'aria-labelledby="b"', "has no label"),
        (' aria-label="Bars"', "", "picture without a label"),
        (' aria-label="Bars"', ' aria-label=" "', "picture without a label"),
        (PERIODS, "", "without a table"),
        ("<caption>c</caption>", "", "no caption"),
        ('<th scope="col">a', "<th>a", "no scope"),
        ('<th scope="col">a', '<th scope="col">', "no text"),
        ("<td>1", "<td>1<td>2", "rows of [2, 3] cells"),
        ('<th scope="row">x', "<td>x", "row without a head"),
        ('href="#a"', 'href="#b"', "that label is not"),
        ('href="#a"', 'href="other.html"', "is not there"),
        ("<table>", '<input id="i"><table>', "field without a label"),
        ("<table>", '<div tabindex="0">x</div><table>', "has no label"),
        ("<table>", "<img><table>", "picture without a label"),
        ("<table>", "<script>1</script><table>", "is a script"),
        ("<table>", '<p onclick="x">x</p><table>', "is a script"),
        ("<table>", '<p id="a">x</p><table>', "is there twice"),
        ("<table>", '<iframe src="x"></iframe><table>', "loads something"),
        ("up</a>", "</a>", "has no text"),
    ],
)
def test_what_a_page_lacks_is_found(old: str, new: str, reported: str, tmp_path: Path) -> None:
    assert old in page()
    assert any(reported in what for what in found(page().replace(old, new), tmp_path))


@pytest.mark.parametrize(
    ("style", "reported"),
    [
        ("p{color:#777777}", "<p.warning> in light"),
        ("p{color:#999}", "<p.warning> in light has a contrast of 2.6 to 1, and not 4.5"),
        ("main td{background:#333}", "<td> in light has a contrast of"),
        ("section>table td{color:#aaa}", "<td> in light has a contrast of 2.3"),
        ("@media(prefers-color-scheme:dark){:root{--ink:#333}}", "<td> in dark"),
        ("@media(max-width:48rem){td{color:#ccc}}", "<td> in light"),
        ("th::before{content:'x';color:#bbb}", "<th>::before in light"),
        ("path.up{fill:#ddd}", "<path.up> in light"),
        (":root{--bad:#f99}.warning::before{content:'x';color:var(--bad)}", "::before in light"),
    ],
)
def test_poor_contrast_is_found(style: str, reported: str, tmp_path: Path) -> None:
    assert any(
        what.startswith(reported) or reported in what for what in found(page(style=style), tmp_path)
    )


@pytest.mark.parametrize(
    "style",
    [
        "a:focus{color:#fff}",
        "li>td{color:#fff}",
        "td.other{color:#fff}",
        "nav td{color:#fff}",
        ".grid{stroke:#eee}",
    ],
)
def test_rules_that_are_of_nothing_that_is_seen_do_no_harm(style: str, tmp_path: Path) -> None:
    assert found(page(style=style), tmp_path) == []


def test_contrast_is_that_of_the_standard() -> None:
    black, white, grey = color_of("#000"), color_of("#ffffff"), color_of("#767676")
    assert black and white and grey and color_of("red") is None
    assert contrast(black, white) == contrast(white, black) == pytest.approx(21)
    assert contrast(grey, white) == pytest.approx(4.54, abs=0.01)


def test_elements_that_are_left_open_are_closed_by_the_next() -> None:
    root = Tree("<table><tr><th>a<td>b\n<tr><th>c<td>d<br></table><p>e").root
    assert [[cell.tag for cell in row.children] for row in root.all() if row.tag == "tr"] == [
        ["th", "td"],
        ["th", "td"],
    ]
    assert root.children[-1].tag == "p" and root.children[-1].whole_text() == "e"


def test_selectors() -> None:
    cell = next(
        one
        for one in Tree('<table class="a b"><tr class="c"><td id="i">').root.all()
        if one.tag == "td"
    )
    for selector in ("td", ".a td", ".a.b tr>td", "table .c>*", "#i", "td:first-child"):
        assert fits(cell, selector), selector
    for selector in ("th", ".a>td", ".b.c td", "tr td.c", "div td"):
        assert not fits(cell, selector), selector
    (rule,) = rules_of("tr.c>td::before{content:'x';color:#fff}")
    assert (rule.selector, rule.pseudo, rule.sets["color"]) == ("tr.c>td", "before", "#fff")
