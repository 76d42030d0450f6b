"""Reports files of the crates that import from one library in several lines.

    tests/one imports                 each file with such lines; the status is 1 if there is one
    tests/one imports --write         merges them

The clauses of `.rt` files (`ghost use`) and the files of specs/ and proofs/ name a library once, with all that they
take from it: `use Rattle.energy_flow.{specs.Flow.{Energy, plus}, specs.Work.counted}`. A line with `pub`, or for a
module (`use .. as goal`), is for itself. In a `.rt` file lines are one block up to the next line of another kind.
"""

import argparse
import re
import sys
from collections.abc import Iterator
from itertools import groupby
from pathlib import Path

CRATES = Path(__file__).resolve().parents[1] / "crates"
# The indent, the words in front, the library, a path below it, the names, and the end of an import.
IMPORT = re.compile(r"( *)((?:ghost )?use) Rattle\.(\w+)\.([^{};]*?)\.?\{(.*)\}(;?)")

# The names that are taken of a library, by module.
Modules = dict[str, list[str]]


def parted(names: str) -> Iterator[str]:
    """The parts between the commas that are in no braces."""
    depth, part = 0, ""
    for character in names:
        depth += {"{": 1, "}": -1}.get(character, 0)
        if character == "," and not depth:
            yield part.strip()
            part = ""
        else:
            part += character
    if part.strip():
        yield part.strip()


def leaves(path: str, names: str) -> Iterator[tuple[str, str]]:
    """The module and the name of each thing that is taken."""
    for part in parted(names):
        if part.endswith("}"):
            inner, _, rest = part[:-1].partition("{")
            yield from leaves(f"{path}.{inner.rstrip('.')}".strip("."), rest)
        else:
            taken, _, alias = part.partition(" as ")
            module, _, name = taken.rpartition(".")
            whole = f"{path}.{module}".strip(".")
            yield whole, f"{name} as {alias}" if alias else name


def written(modules: Modules) -> str:
    """What is taken of a library, behind its name."""
    if len(modules) == 1:
        [(module, names)] = modules.items()
        return f"{module}.{{{', '.join(names)}}}"
    parts = [
        f"{module}.{names[0] if len(names) == 1 else '{' + ', '.join(names) + '}'}"
        for module, names in modules.items()
    ]
    return f"{{{', '.join(parts)}}}"


def merged_block(lines: list[str]) -> list[str]:
    """The lines with one import for each library, in the place of its first."""
    places: dict[tuple[str, ...], int] = {}
    taken: dict[int, Modules] = {}
    result: list[str] = []
    for line in lines:
        match = IMPORT.fullmatch(line)
        if not match:
            result.append(line)
            continue
        indent, word, library, path, names, end = match.groups()
        place = places.setdefault((indent, word, library, end), len(result))
        if place == len(result):
            result.append(f"{indent}{word} Rattle.{library}.@{end}")
        modules = taken.setdefault(place, {})
        for module, name in leaves(path, names):
            if name not in modules.setdefault(module, []):
                modules[module].append(name)
    for place, modules in taken.items():
        result[place] = result[place].replace("@", written(modules))
    return result


def merged(text: str, is_code: bool) -> str:
    """The text with merged imports; of code only runs of `ghost use`."""
    lines = text.split("\n")
    if not is_code:
        return "\n".join(merged_block(lines))
    runs = groupby(lines, lambda line: line.lstrip().startswith("ghost use "))
    return "\n".join(
        line for is_run, run in runs for line in (merged_block(list(run)) if is_run else run)
    )


def unmerged() -> Iterator[tuple[Path, str]]:
    """The files whose imports are not merged, with the text that they should have."""
    kinds = ("src/**/*.rt", "specs/**/*.antt", "proofs/**/*.antt")
    for path in sorted(path for kind in kinds for path in CRATES.glob(f"*/{kind}")):
        text = path.read_text(encoding="utf-8")
        should = merged(text, path.suffix == ".rt")
        if should != text:
            yield path, should


def main() -> int:
    parser = argparse.ArgumentParser(prog="tests/one imports", description=__doc__.splitlines()[0])
    parser.add_argument("--write", action="store_true", help="merge them")
    is_writing = parser.parse_args().write
    found = 0
    for path, text in unmerged():
        found += 1
        print(path.relative_to(CRATES))
        if is_writing:
            path.write_text(text, encoding="utf-8")
    return 1 if found and not is_writing else 0


if __name__ == "__main__":
    sys.exit(main())
