"""What several unit tests take."""

import stat
import sys
from pathlib import Path

import pytest

# A replay that answers by whole lists (tests/reference.py), for events that are sound.
REFERENCE = """#!{python}
import sys
sys.path[:0] = {path}
from tests import reference
for text in reference.answers(sys.stdin):
    print(text, end="", flush=True)
"""


@pytest.fixture(name="reference")
def made_reference(tmp_path: Path) -> str:
    """The path of a replay in plain Python."""
    path = tmp_path / "reference"
    path.write_text(REFERENCE.format(python=sys.executable, path=sys.path))
    path.chmod(stat.S_IRWXU)
    return str(path)
