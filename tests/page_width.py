"""Draws pages in Chromium as wide as a phone and two screens are, with scrollbars that take room, and reports what is
wider than the screen, tables that are cut, and numbers and dates that break.

    tests/one page_width PAGE..

A table is cut where it scrolls from side to side by itself; on a phone only those of an index are looked at. Where
there is no Chromium (Debian: apt-get install chromium) nothing is drawn, and the status is 77; it is 1 if something
was found.
"""

import html
import json
import re
import shutil
import subprocess
import sys
import tempfile
from collections.abc import Iterator
from pathlib import Path
from typing import NamedTuple

PHONE = 390
WIDTHS = (PHONE, 1_400, 1_920)
NOT_TRIED = 77
# The name of a day's page.
DAY = re.compile(r"\d{4}-\d\d-\d\d")
# Seconds that a page may take.
PATIENCE = 120
# A window is never as narrow as a phone: the page is in a frame, and the window gets what is found.
WINDOW = """<!DOCTYPE html><title></title><script>const all = [];
onmessage = one => {{ all.push(JSON.parse(one.data)); document.title = JSON.stringify(all) }}</script>
{frames}"""
FRAME = '<iframe src="page.html" style="border:0" width="{width}" height="2000"></iframe>'
# Put at the end of a page, it reports what it finds.
FINDER = r"""<style>::-webkit-scrollbar{width:15px;height:15px}</style><script>
const inner = e => e.closest('.scroll, .across, .unseen, .one .site, thead');
const said = e => `<${e.tagName.toLowerCase()} ${e.className}> ${e.textContent.trim().slice(0, 30)}`;
const wide = [...document.querySelectorAll('body *')]
  .filter(e => !inner(e) && e.getBoundingClientRect().right > innerWidth + 1).map(said);
const broken = [];
const walk = document.createTreeWalker(document.body, NodeFilter.SHOW_TEXT);
for (let node; node = walk.nextNode();)
  for (const found of node.data.matchAll(/\d{4}-\d\d-\d\d|\d\d:\d\d(:\d\d)?|[\d,]*\d\.\d{3}/g)) {
    const range = document.createRange();
    range.setStart(node, found.index);
    range.setEnd(node, found.index + found[0].length);
    if (new Set([...range.getClientRects()].map(one => Math.round(one.top))).size > 1) broken.push(found[0]);
  }
const cut = [...document.querySelectorAll('.scroll, .across')]
  .filter(e => e.tagName != 'PRE' && e.scrollWidth > e.clientWidth + 1)
  .map(e => `${e.getAttribute('aria-label')}, by ${e.scrollWidth - e.clientWidth}`);
const root = document.documentElement;
const reported = JSON.stringify([innerWidth, root.scrollWidth, wide.slice(0, 5), broken.slice(0, 5), cut.slice(0, 5)]);
parent.postMessage(reported, '*');
</script></body>"""


class Drawn(NamedTuple):
    """How wide the screen and the page are, what is wider than the screen, what breaks, and which tables are cut."""

    screen: int
    width: int
    wide: list[str]
    broken: list[str]
    cut: list[str]


def drawn(chromium: str, page: Path, folder: Path) -> list[Drawn]:
    """How a page is drawn at each width. Raises OSError or SubprocessError."""
    (folder / "page.html").write_text(page.read_text("utf-8").replace("</body>", FINDER), "utf-8")
    window = folder / "window.html"
    frames = "".join(FRAME.format(width=width) for width in WIDTHS)
    window.write_text(WINDOW.format(frames=frames), "utf-8")
    words = ["--headless", "--no-sandbox", "--disable-gpu", f"--user-data-dir={folder}/profile"]
    words += ["--virtual-time-budget=5000", "--dump-dom", window.as_uri()]
    made = subprocess.run([chromium, *words], capture_output=True, timeout=PATIENCE, check=True)
    title = re.search(r"<title>(.+?)</title>", made.stdout.decode("utf-8"))
    return [Drawn(*one) for one in json.loads(html.unescape(title[1]))] if title else []


def found(chromium: str, page: Path, folder: Path) -> Iterator[str]:
    """What is wrong with a page."""
    drawings = drawn(chromium, page, folder)
    if sorted(one.screen for one in drawings) != list(WIDTHS):
        yield f"drawn {[one.screen for one in drawings]} pixels wide, and not {WIDTHS}"
    for reported in drawings:
        if reported.width > reported.screen:
            yield f"{reported.width} pixels wide on a screen of {reported.screen}"
        wide = f"wider than the screen of {reported.screen}"
        yield from (f"{wide}: {ascii(one)}" for one in reported.wide)
        yield from (f"broken: {one}" for one in reported.broken)
        if reported.screen != PHONE or not DAY.search(page.name):
            yield from (
                f"cut on a screen of {reported.screen}: {ascii(one)}" for one in reported.cut
            )


def main() -> int:
    """Reports what was found of the pages that the words name, and gives the exit status."""
    chromium, count = shutil.which("chromium"), 0
    if chromium is None:
        print("not tried, since there is no chromium")
        return NOT_TRIED
    pages = [Path(name) for name in sys.argv[1:]]
    with tempfile.TemporaryDirectory() as folder:
        for page in pages:
            for what in found(chromium, page, Path(folder)):
                count += 1
                print(f"{page.name}: {what}")
    print(f"pages drawn: {len(pages)}, found: {count}")
    return 1 if count or not pages else 0


if __name__ == "__main__":
    sys.exit(main())
