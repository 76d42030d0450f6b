"""The documents: paths and tools that there are. `tests/one links` looks at links."""

import re
from collections.abc import Iterator
from pathlib import Path

from ocpp_board.cli import COMMANDS
from ocpp_board.ledger.kinds import Kind

TOP = Path(__file__).resolve().parents[2]
# A path from the top of the repository. Patterns and what a build makes are left out.
PATH = re.compile(
    r"(?<![\w/.-])((?:crates|docs|examples|packaging|python|tests)/[\w./-]+)(?![\w*{<])"
)
BUILT = re.compile(r"/out(/|$)")
# A program of a build, and the line of `start` that names the one that it builds.
PROGRAM = re.compile(r"crates/(\w+)/out/(\w+)")
BUILD = re.compile(r"^program=crates/(\w+)/out/", re.MULTILINE)
TOOL = re.compile(r"ocpp-board ([a-z][a-z-]+)")
CODE = re.compile(r"`([^`\n]+)`")
# A command of the tests, and its options.
TEST = re.compile(r"tests/one ([a-z_]+(?:\.[a-z_]+)*)([^`]*)")
OPTION = re.compile(r"(?<= )--[a-z-]+")
# Words of a paragraph, which is one line, and of a sentence; words of all pages, without their blocks of code; lines of
# README.
MOST_WORDS, MOST_OF_SENTENCE, MOST_OF_ALL, MOST_LINES = 120, 40, 20_000, 120
ITEM = re.compile(r"^(?:[-*]|\d+\.) ")
LINK = re.compile(r"!?\[([^\]]*)\]\([^)]*\)")
END = re.compile(r"(?<=[.!?])[)*\"]*\s+")


def pages() -> list[Path]:
    """All documents of the repository."""
    return [
        path for pattern in ("*.md", "docs/*.md", "examples/*/*.md") for path in TOP.glob(pattern)
    ]


def code(text: str) -> Iterator[str]:
    """The code of a page: what is between backquotes, and its blocks."""
    is_code = False
    for line in text.splitlines():
        if line.lstrip().startswith("```"):
            is_code = not is_code
        elif is_code:
            yield line
        else:
            yield from CODE.findall(line)


def code_and_indented(text: str) -> Iterator[str]:
    """The code of a page, with the lines that are set in by four blanks."""
    yield from code(text)
    yield from (line for line in text.splitlines() if line.startswith("    "))


def found(pattern: re.Pattern[str]) -> set[tuple[str, str]]:
    """What the pattern finds in the code of all pages, each with its page."""
    return {
        (page.name, text)
        for page in pages()
        for line in code(page.read_text("utf-8"))
        for text in pattern.findall(line)
    }


def count_words(text: str) -> int:
    """The words of a text: what has a letter or a digit between blanks."""
    return sum(re.search(r"\w", word) is not None for word in text.split())


def read_lines(text: str) -> Iterator[str]:
    """The lines of a page; a block of code is one empty line."""
    is_code = False
    for line in text.splitlines():
        if line.lstrip().startswith("```"):
            is_code = not is_code
            yield ""
        elif not is_code:
            yield "" if line.startswith("    ") else line.strip()


def read_pieces(text: str) -> Iterator[str]:
    """The paragraphs, headings and list items of a page, and the cells of its tables, each as one line."""
    piece = ""
    for line in read_lines(text):
        if not line or line[0] in "|#" or ITEM.match(line):
            yield piece
            piece = ITEM.sub("", line)
        else:
            piece = f"{piece} {line}"
        if line.startswith(("|", "#")):
            yield from re.split(r"[|;]", line)
            piece = ""
    yield piece


def read_sentences(text: str) -> Iterator[str]:
    """The sentences of a page. Code within a line is one word, and a link is its text."""
    for piece in read_pieces(text):
        yield from END.split(LINK.sub(r"\1", CODE.sub("x", piece)))


def test_paths_are_there() -> None:
    paths = {(page, path) for page, path in found(PATH) if not BUILT.search(path)}
    assert not {(page, path) for page, path in paths if not (TOP / path.rstrip("./")).exists()}


def test_commands_of_readme_and_examples_take_the_program_that_start_builds() -> None:
    pages = (TOP / "README.md", *TOP.glob("examples/*/*.md"))
    texts = [page.read_text("utf-8") for page in pages]
    built = BUILD.findall((TOP / "start").read_text("utf-8"))
    taken = {
        match
        for text in texts
        for line in code_and_indented(text)
        for match in PROGRAM.findall(line)
    }
    assert len(built) == 1 and taken == {(built[0], built[0])}
    assert "./start" in texts[0]


def test_paragraphs_are_short() -> None:
    paragraphs = [(page.name, line) for page in pages() for line in page.read_text().splitlines()]
    assert not {(name, line[:60]) for name, line in paragraphs if len(line.split()) > MOST_WORDS}
    assert len((TOP / "README.md").read_text().splitlines()) <= MOST_LINES


def test_sentences_are_short() -> None:
    sentences = [(page.name, one) for page in pages() for one in read_sentences(page.read_text())]
    assert len(sentences) > 1_000
    assert not [one for one in sentences if count_words(one[1]) > MOST_OF_SENTENCE]


def test_sentences_are_those_of_paragraphs_items_and_cells() -> None:
    text = """# Head
One two `a b`. [Three](x.md#y) four
five.
- Six: `seven`
1. Eight.
|nine|ten. No|
```
A b
```
"""
    found = [one for one in map(str.strip, read_sentences(text)) if one]
    paragraph, rest = ["One two x.", "Three four five."], ["Six: x", "Eight.", "nine", "ten.", "No"]
    assert found == ["# Head", *paragraph, *rest]


def test_pages_have_few_words() -> None:
    words = {str(page): sum(map(count_words, read_lines(page.read_text()))) for page in pages()}
    assert 10_000 < sum(words.values()) <= MOST_OF_ALL, words


def test_tools_are_those_of_the_command() -> None:
    assert not {(page, tool) for page, tool in found(TOOL) if tool not in COMMANDS}


def unknown_options(module: str, words: str) -> set[str]:
    """Options of a command of the tests that its program does not have; its module, where that is not there."""
    path = TOP / "tests" / module.replace(".", "/")
    is_package = (path / "__main__.py").exists()
    paths = [*path.glob("*.py")] if is_package else [path.with_name(f"{path.name}.py")]
    if not paths[0].exists():
        return {module}
    text = "".join(one.read_text() for one in paths)
    return {word for word in OPTION.findall(words) if f'"{word}"' not in text}


def test_commands_of_tests_are_there() -> None:
    commands = {(page, *match) for page, match in found(TEST)}
    unknown = {(page, module, *unknown_options(module, words)) for page, module, words in commands}
    assert commands and not {one for one in unknown if len(one) > 2}


def test_findings_are_those_of_the_ledger() -> None:
    """tables.md lists each kind in the row of its effect, in order; those that hold a bill come first."""
    lines = (TOP / "docs/tables.md").read_text().splitlines()
    rows = [line.split("|") for line in lines if line.startswith("|") and "; " in line]
    labels = {kind.label for kind in Kind}
    listed = [(label, row[1]) for row in rows for label in row[2].strip().split("; ")]
    found = [(label, effect) for label, effect in listed if label in labels]
    assert [label for label, _ in found] == [kind.label for kind in Kind]
    for kind, (_, effect) in zip(Kind, found):
        assert kind.effect.value in effect and kind.holds == ("held" in effect)
