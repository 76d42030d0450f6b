"""Looks for dead links in the repository's pages: files that are not there, and headings that a page has not.

    tests/one links

The pages are README.md, CONTRIBUTING.md, CHANGELOG.md and all others of docs/, python/, packaging/, tests/ and
examples/ that end with .md. A link to another host is not looked at. The status is 1 if one is dead.
"""

import re
import sys
from collections.abc import Iterator
from pathlib import Path
from urllib.parse import unquote

TOP = Path(__file__).resolve().parent.parent
FOLDERS = ("docs", "python", "packaging", "tests", "examples")
FENCE = re.compile(r"^(```|~~~).*?^\1[ \t]*$", re.MULTILINE | re.DOTALL)
CODE = re.compile(r"`[^`\n]*`")
LINK = re.compile(
    r"\[[^\]\[]*(?:\[[^\]]*\][^\]\[]*)*\]\(([^()\s]+(?:\([^()\s]*\)[^()\s]*)*)(?: \"[^\"]*\")?\)"
)
REFERENCE = re.compile(r"^\[[^\]]+\]:[ \t]+(\S+)", re.MULTILINE)
HEADING = re.compile(r"^#{1,6}[ \t]+(.+?)[ \t]*#*$", re.MULTILINE)
ANCHOR = re.compile(r"<a (?:name|id)=\"([^\"]+)\"")
MARKED = re.compile(r"\[([^\]]*)\]\([^)]*\)")


def pages() -> list[Path]:
    """The pages that are looked at."""
    found = [path for folder in FOLDERS for path in sorted((TOP / folder).rglob("*.md"))]
    return sorted(TOP.glob("*.md")) + found


def anchors(text: str) -> set[str]:
    """The anchors of a page, as its headings get them: small letters, blanks as hyphens, and no other marks."""
    found: set[str] = set(ANCHOR.findall(text))
    counts: dict[str, int] = {}
    for heading in HEADING.findall(FENCE.sub("", text)):
        bare = MARKED.sub(r"\1", heading).replace("`", "").replace("*", "").lower()
        name = re.sub(r"[^\w\- ]", "", bare).replace(" ", "-")
        number = counts.get(name, 0)
        counts[name] = number + 1
        found.add(f"{name}-{number}" if number else name)
    return found


def targets(text: str) -> Iterator[str]:
    """What a page links to, but for what is in code."""
    bare = FENCE.sub("", text)
    yield from LINK.findall(CODE.sub("``", bare))
    yield from REFERENCE.findall(bare)


def dead(page: Path) -> Iterator[str]:
    """The links of a page that lead nowhere, with the reason."""
    text = page.read_text("utf-8")
    for target in targets(text):
        if re.match(r"[a-z][a-z0-9+.-]*:", target):
            continue
        name, _, anchor = unquote(target).partition("#")
        path = (page.parent / name).resolve() if name else page
        if not path.exists():
            yield f"{target}: there is no such file"
        elif not path.is_relative_to(TOP):
            yield f"{target}: outside of the repository"
        elif anchor and path.suffix == ".md" and anchor not in anchors(path.read_text("utf-8")):
            yield f"{target}: there is no such heading"


def main() -> int:
    """Reports dead links, and gives the exit status."""
    count = 0
    for page in pages():
        for why in dead(page):
            count += 1
            print(f"{page.relative_to(TOP)}: {why}")
    print(f"pages: {len(pages())}, dead links: {count}")
    return 1 if count else 0


if __name__ == "__main__":
    sys.exit(main())
