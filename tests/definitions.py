"""Prints the definitions of each crate's specs, each with the sentence above it.

    tests/one definitions             all of them, crate by crate
    tests/one definitions --check     reports names of docs/theorem.md that crates/ lacks

A definition's sentence is the comment above it in its file of specs/. Files that only the proofs of one crate need
are left out; INNER names them. The status of --check is 1 if a name of the page is none of the code's.
"""

import argparse
import re
import sys
from collections.abc import Iterator
from pathlib import Path

TOP = Path(__file__).resolve().parent.parent
PAGE = TOP / "docs" / "theorem.md"

# Files of specs/ with words that no clause of a public call has, and no other definition of such a clause.
INNER = {
    "script_lines": {"Reading", "ScriptLines"},
    "script_ledgers": {"Answering", "Writing", "Received"},
    "board_report": {"Lines"},
    "kept_desk": {"Writing"},
    "journal_script": {"Reading"},
}

DEFINITION = re.compile(
    r"^\s*(?:unfoldable |abbrev )?(?:abbrev )?pub (?!use )(?:record |data )?([^\s:({]+)"
)
MODULE = re.compile(r"pub mod (\w+)")
# A name in a page's code: of a definition or a type (`IsNewRun`), or of a call or a crate (`serve_journalled`).
CODE = re.compile(r"`([^`\n]+)`")
NAME = re.compile(r"[A-Z][a-z0-9]+(?:[A-Z][A-Za-z0-9]*)+|[a-z0-9]+(?:_[a-z0-9]+)+")


def crates() -> Iterator[str]:
    """The crates, lowest first."""
    for line in (TOP / "crates.txt").read_text().splitlines():
        if name := line.split("#")[0].split(":")[0].split():
            yield name[0]


def files_of(crate: str) -> Iterator[tuple[str, str]]:
    """The name and the text of each file of a crate's definitions."""
    specs = TOP / "crates" / crate / "specs"
    if not (specs / "Lib.antt").exists():
        return
    for line in (specs / "Lib.antt").read_text().splitlines():
        match = MODULE.match(line)
        if match and match[1] not in INNER.get(crate, set()):
            yield match[1], (specs / f"{match[1]}.antt").read_text()


def definitions_of(text: str) -> Iterator[tuple[str, str]]:
    """Each definition of a file with its sentence, in order."""
    comment: list[str] = []
    for line in text.splitlines():
        bare = line.strip()
        if bare.startswith("--"):
            comment.append(bare.lstrip("- ").strip())
            continue
        match = DEFINITION.match(line)
        is_field = line.startswith("  ")
        if match and not is_field and comment:
            yield match[1], " ".join(comment)
        comment = []


def table() -> Iterator[str]:
    """The lines of the list."""
    for crate in crates():
        lines = []
        for name, text in files_of(crate):
            for definition, sentence in definitions_of(text):
                lines.append(f"  {definition} ({name}): {sentence[0].upper()}{sentence[1:]}")
        if lines:
            yield from (crate, *lines, "")


def words_of_code() -> set[str]:
    """All words of the crates' code, definitions and proofs, and the names of their files and folders."""
    words: set[str] = set()
    for path in (TOP / "crates").rglob("*"):
        if "out" in path.relative_to(TOP).parts:
            continue
        words.update(path.stem.split("."))
        if path.suffix in (".rt", ".antt", ".edit"):
            words.update(re.findall(r"\w+", path.read_text()))
    return words


def stale() -> list[str]:
    """The names in the code of the page that neither the crates nor the tests have."""
    known = words_of_code()
    for path in (TOP / "tests").rglob("*.py"):
        known.update(re.findall(r"\w+", path.read_text()))
    found = (name for code in CODE.findall(PAGE.read_text()) for name in NAME.findall(code))
    return [name for name in dict.fromkeys(found) if name not in known]


def main() -> int:
    """Prints the list, or checks the page; gives the exit status."""
    parser = argparse.ArgumentParser(
        description=__doc__, formatter_class=argparse.RawDescriptionHelpFormatter
    )
    parser.add_argument(
        "--check", action="store_true", help="report names of docs/theorem.md that are none"
    )
    words = parser.parse_args()
    if not words.check:
        sys.stdout.writelines(f"{line}\n" for line in table())
        return 0
    names = stale()
    for name in names:
        print(f"docs/theorem.md names {name}, which crates/ lacks")
    print(f"names of docs/theorem.md that are nowhere: {len(names)}")
    return 1 if names else 0


if __name__ == "__main__":
    sys.exit(main())
